"""What was measured, as it is printed: a line for each measurement, of its name, its value and its unit with tabs between them."""

import argparse
import os
import statistics
import threading
import time


def command_line(text):
    """A parser of a script's words, whose --help prints this text as it is."""
    return argparse.ArgumentParser(description=text, formatter_class=argparse.RawDescriptionHelpFormatter)


def runs_wanted(text, usual):
    """How many runs the first word of the command line asks for; the text is that of --help."""
    parser = command_line(text)
    parser.add_argument("runs", metavar="RUNS", nargs="?", type=int, default=usual)
    return parser.parse_args().runs


def print_figure(name, value, unit):
    """Prints a measurement. A number has no more than three decimals; any other value is printed as it is."""
    text = f"{value:.3f}".rstrip("0").rstrip(".") if isinstance(value, (int, float)) else value
    print(name, text, unit, sep="\t", flush=True)


def print_spread(name, values, unit):
    """Prints the median of what several runs measured, and where they differ the least and the greatest too."""
    print_figure(name, statistics.median(values), unit)
    if min(values) < max(values):
        print_figure(f"{name}, least", min(values), unit)
        print_figure(f"{name}, greatest", max(values), unit)


def print_load(when):
    """Prints how many processes have wanted a processor in the last minute."""
    print_figure(f"load of the machine at the {when}", os.getloadavg()[0], "processes")


def figures_of(text):
    """The measurements that were printed: name, value and unit."""
    for line in text.splitlines():
        name, value, unit = line.split("\t")
        yield name, float(value), unit


def gathered(runs):
    """The values of each name and unit in all runs."""
    values = {}
    for figures in runs:
        for name, value, unit in figures:
            values.setdefault((name, unit), []).append(value)
    return values


class Probe:
    """A client that asks for a small item again and again, and notes how long each reply took. It gives up after 30 seconds."""

    def __init__(self, client, key=b"small"):
        self.client, self.key = client, key
        self.client.socket.settimeout(30)
        self.times, self.wrong = [], []
        self.is_stopped = False
        self.thread = threading.Thread(target=self._run)
        self.thread.start()

    def _run(self):
        while not self.is_stopped:
            start = time.monotonic()
            try:
                reply = self.client.ask(b"get " + self.key + b"\r\n", b"END\r\n")
            except OSError as error:
                reply = (str(error) or type(error).__name__).encode()
            self.times.append(time.monotonic() - start)
            if not reply.startswith(b"VALUE " + self.key):
                self.wrong.append(reply[:60])
                break
            time.sleep(0.002)

    def stop(self):
        """The median and the longest time to a reply in milliseconds, and what came in place of one."""
        self.is_stopped = True
        self.thread.join()
        return 1000 * statistics.median_high(self.times), 1000 * max(self.times), self.wrong[:1]
