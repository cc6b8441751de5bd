#!/usr/bin/env python3
"""Measures what a tenant notices of another: tenant `quiet` has one connection, with one request at a time, while tenant `noisy` does what
each case says; with 1 and 2 workers, and next to memcached, where both are clients of one instance with as many threads.

Prints a line `SERVER: CASE: WHAT<TAB>VALUE<TAB>UNIT` for each measurement: the median, the 99th and the 99.9th percentile and the longest of
the quiet tenant's times to a reply, how many requests or rounds the noisy one did in a second, and the server's resident memory. `nobody` is
the quiet tenant alone, which is measured in any case. A flush isn't measured at memcached, where it takes the quiet client's item too.

Usage: bench/neighbours.py [BINARY [CASE...]] [--seconds N] [--runs N] [--calm MICROSECONDS] [--workers W] [--no-memcached] [--option WORD]
[--preload LIBRARY]; the binary is crates/wfmc/out/wfmc and all cases are measured where none is named, for N (5) seconds each. With several
runs, by turns, the last lines are of each case the median, the least and the greatest of its 99th percentiles in the calm runs alone, those in
which nobody's was at most as many microseconds (40): where the machine itself keeps a client waiting, the server's part can't be told. The logs
follow one another, each of 1,048,576 places or 256 MiB. wfmc takes its memory by the allocator of the defaults file, with --preload by that of
another library, and with --preload none by the C library's. Of three or more processors the quiet client has one, the noisy ones have one, and the
server has the others. Takes some minutes and up to 4 GB of memory; needs gcc, that library, and memcached unless told otherwise.
"""

import contextlib
import os
import pathlib
import subprocess
import sys
import tempfile
import threading
import time

sys.path.insert(0, str(pathlib.Path(__file__).parents[1] / "tests"))
from harness import repository
from harness.bounds import MEBIBYTE, held, number
from harness.client import Client
from harness.measures import command_line, figures_of, print_figure, print_load, print_spread
from harness.servers import LARGE, Memcached, Server, preloading
from wfmc import build_load

PLACES = 1_048_576
LOG_BYTES = 256 * MEBIBYTE
ENDLESS = ("--places", str(PLACES), "--generations", "0", "--log-bytes", str(LOG_BYTES))
# More than a case has at a time; one of them asks for as many names as a line has.
CONNECTIONS = 410
MOST_REQUESTS = 100_000_000
QUIET_REQUESTS = 2_000_000
FLUSHED = 400_000
EMPTY_APPENDS = 200_000
PROCESSORS = sorted(os.sched_getaffinity(0))
# As many names of one letter as a line of 65,536 bytes has.
NAMES = 32_766
SHORT_LINES = 16_384


class Loaded:
    """Requests of some connections by bench/load.c, for longer than the quiet tenant is measured."""

    def __init__(self, *words):
        self.words = words

    def start(self, load, port, seconds):
        words = [load, "-p", "noisy", "-s", str(seconds + 2), *self.words[:-2], str(port), *self.words[-2:], str(MOST_REQUESTS)]
        self.process = subprocess.Popen(words, stdout=subprocess.PIPE, text=True)

    def stop(self):
        """Its requests a second."""
        printed, _ = self.process.communicate()
        return next(value for name, value, _ in figures_of(printed) if name == "requests")


class Rounds:
    """The same requests again and again, by threads with a connection each, until they are stopped."""

    def __init__(self, do, clients=1, before=None):
        self.do, self.clients, self.before = do, clients, before

    def start(self, _, port, __):
        if self.before:
            with Client(port) as client:
                self.before(client)
        self.is_stopped, self.done, self.began = False, 0, time.monotonic()
        self.threads = [threading.Thread(target=self._run, args=(port,)) for _ in range(self.clients)]
        for thread in self.threads:
            thread.start()

    def _run(self, port):
        with contextlib.suppress(OSError):
            while not self.is_stopped:
                with Client(port) as client:
                    while not self.is_stopped and self.do(client):
                        self.done += 1
                self.done += 1

    def stop(self):
        """Its rounds a second."""
        self.is_stopped = True
        for thread in self.threads:
            thread.join()
        return self.done / (time.monotonic() - self.began)


def data(size):
    return b"v" * size


def a_set(key, size):
    return b"set %b 0 0 %d\r\n%b\r\n" % (key, size, data(size))


def gets_many_names(client):
    client.ask(b"get" + b" n" * NAMES + b"\r\n", b"END\r\n")
    return True


def short_lines(client):
    """As many lines of a byte as one read takes, behind a line so long that it takes as much."""
    client.ask(b"x" * 2048 + b"\n" * SHORT_LINES + b"get n\r\n", b"END\r\n")
    return True


def appends(client):
    """A byte more, of an item that is made anew once it is full."""
    if client.line(b"append long 0 0 1\r\nx\r\n") != "STORED":
        client.line(a_set(b"long", MEBIBYTE - 1000))
    return True


def fills(client):
    """Sets many items."""
    for first in range(0, FLUSHED, 1000):
        text = b"".join(b"set f%06d 0 0 1 noreply\r\nx\r\n" % at for at in range(first, first + 1000))
        client.ask(text + b"version\r\n", b"\r\n")


def fills_and_flushes(client):
    """Sets many items, and flushes them."""
    fills(client)
    client.line(b"flush_all\r\n")
    return True


def flushes(client):
    """Flushes what is empty, as often as a turn takes requests."""
    client.ask(b"flush_all noreply\r\n" * 63 + b"flush_all\r\n", b"\r\n")
    return True


def appends_nothing(client):
    """An item of a byte, to which no bytes are appended many times."""
    client.line(a_set(b"n", 1))
    for _ in range(0, EMPTY_APPENDS, 1000):
        client.ask(b"append n 0 0 0 noreply\r\n\r\n" * 1000 + b"version\r\n", b"\r\n")


def increments(client):
    """Increments of what isn't a number, as often as a turn takes requests."""
    client.ask(b"incr n 1 noreply\r\n" * 63 + b"incr n 1\r\n", b"\r\n")
    return True


def closes(client):
    """One reply of a connection that is closed then."""
    client.line(b"version\r\n")
    return False


NOBODY = "nobody"
FLUSHES = f"{FLUSHED:,} items are set and flushed"
FLUSHES_AGAIN = f"flushes, after {FLUSHED:,} items were set"
CASES = {
    NOBODY: None,
    "8 connections of depth 16": Loaded("8", "16"),
    "400 connections of depth 16": Loaded("400", "16"),
    "8 connections with items of 1 MB, half of them sets": Loaded("-d", "1000000", "-g", "50", "-k", "20", "8", "1"),
    f"a get of {NAMES:,} names": Rounds(gets_many_names, before=lambda client: client.line(a_set(b"n", 100))),
    f"a get of {NAMES:,} names, each of 256 bytes": Rounds(gets_many_names, before=lambda client: client.line(a_set(b"n", 256))),
    f"{SHORT_LINES:,} lines of a byte at once": Rounds(short_lines),
    "appends to an item of 1 MiB": Rounds(appends, before=lambda client: client.line(a_set(b"long", MEBIBYTE - 1000))),
    FLUSHES: Rounds(fills_and_flushes),
    FLUSHES_AGAIN: Rounds(flushes, before=fills),
    f"incr of an item after {EMPTY_APPENDS:,} empty appends": Rounds(increments, before=appends_nothing),
    "connections that are made and closed": Rounds(closes, clients=4),
}


def keep_to(processors, pid=0):
    """Keeps the threads of a process, this one or another, and what they start, to these processors, where there are enough to keep the server,
    the noisy tenant's clients and the quiet one's apart. Otherwise one client may wait for another's processor, which isn't the server's doing."""
    if len(PROCESSORS) > 2:
        for task in os.listdir(f"/proc/{pid or os.getpid()}/task"):
            with contextlib.suppress(ProcessLookupError):
                os.sched_setaffinity(int(task), processors)


def wfmc(program, workers, options, library):
    """A server with the tenants' quotas, within the memory that docs/OPERATING.md says that it takes, and the ports of the quiet and of the noisy one."""
    most = number(workers, PLACES, [LARGE, LARGE], CONNECTIONS * held(names=1) + held(), LOG_BYTES)
    server = Server(program, ("--workers", str(workers), *ENDLESS, *options), {"quiet": LARGE, "noisy": LARGE}, None, preloading(library), most)
    with server.ended_on_failure():
        server.await_workers("quiet")
    return server, server.ports["quiet"], server.ports["noisy"]


def memcached(threads):
    server = Memcached("-t", str(threads), "-m", "2048", "-c", "2048", "-I", "2m")
    return server, server.port, server.port


def measure(load, seconds, started, noise):
    """The quiet tenant's times while the noisy one does this: name, value and unit."""
    server, quiet, noisy = started
    with server:
        keep_to(PROCESSORS[:-2], server.pid)
        keep_to(PROCESSORS[-2:-1])
        if noise:
            noise.start(load, noisy, seconds)
            time.sleep(1)
        words = [load, "-k", "1", "-l", "1", "-s", str(seconds), str(quiet), "1", "1", str(QUIET_REQUESTS)]
        with subprocess.Popen(words, stdout=subprocess.PIPE, text=True) as client:
            keep_to(PROCESSORS[-1:], client.pid)
            printed, _ = client.communicate()
        if client.returncode:
            raise subprocess.CalledProcessError(client.returncode, words)
        done = [("the noisy one's requests or rounds", noise.stop(), "1/s")] if noise else []
        memory = ("the server's memory at its greatest", server.peak() / MEBIBYTE, "MiB")
    return [*((name, value, unit) for name, value, unit in figures_of(printed) if "times to a reply" in name), *done, memory]


def servers_of(words, program):
    """By name, a function for each server that starts it."""
    for workers in words.workers or (1, 2):
        yield f"wfmc, {workers} workers", lambda workers=workers: wfmc(program, workers, words.option, words.preload)
        if not words.no_memcached:
            yield f"memcached, {workers} threads", lambda workers=workers: memcached(workers)


def run(load, words, name, start):
    """Prints what one run measured at a server; returns its 99th percentiles by case."""
    found = {}
    for case in words.cases:
        if case in (FLUSHES, FLUSHES_AGAIN) and name.startswith("memcached"):
            continue
        for what, value, unit in measure(load, words.seconds, start(), CASES[case]):
            print_figure(f"{name}: {case}: {what}", value, unit)
            if what.startswith("99th percentile"):
                found[case] = value
    return found


def print_calm(name, runs, most):
    """Prints the 99th percentiles in the runs in which nobody's was at most this many microseconds."""
    calm = [found for found in runs if found[NOBODY] <= most]
    print_figure(f"{name}: calm runs, of {len(runs)}", len(calm), "count")
    for case in calm[0] if calm else ():
        print_spread(f"{name}: {case}: 99th percentile in calm runs", [found[case] for found in calm], "us")


def main():
    parser = command_line(__doc__)
    parser.add_argument("program", metavar="BINARY", nargs="?", default=None)
    parser.add_argument("cases", metavar="CASE", nargs="*")
    parser.add_argument("--seconds", type=int, default=5)
    parser.add_argument("--runs", type=int, default=1)
    parser.add_argument("--calm", type=float, default=40)
    parser.add_argument("--workers", type=int, action="append")
    parser.add_argument("--no-memcached", action="store_true")
    parser.add_argument("--option", action="append", default=[], help="a word more for wfmc")
    parser.add_argument("--preload")
    words = parser.parse_args()
    program = words.program or repository.program("wfmc")
    repository.enter(program)
    repository.require("gcc", *([] if words.no_memcached else ["memcached"]))
    if unknown := [case for case in words.cases if case not in CASES]:
        parser.error(f"{unknown[0]} is no case; the cases are: {', '.join(CASES)}")
    words.cases = [NOBODY, *(case for case in words.cases or CASES if case != NOBODY)]
    print_load("start")
    with tempfile.TemporaryDirectory() as folder:
        load = build_load(folder)
        servers = dict(servers_of(words, program))
        runs = {name: [] for name in servers}
        for _ in range(words.runs):
            for name, start in servers.items():
                runs[name].append(run(load, words, name, start))
    if words.runs > 1:
        for name, found in runs.items():
            print_calm(name, found, words.calm)
    print_load("end")


main()
