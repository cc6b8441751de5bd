#!/usr/bin/env python3
"""Measures wfmc where logs follow one another, as built: how long a client waits while a full log is closed and the next one opened (a turn
over), which share of its time that is, and where the time goes; whether memory and descriptors grow with the logs; what logs keep that are
closed by their bytes; and the requests of each second of a minute, next to memcached's.

Prints a line `GROUP: CASE: WHAT<TAB>VALUE<TAB>UNIT` for each measurement. GROUP is one of
- waits: one client, 1 or 32 requests at a time, over tables of 1,000 to 1,000,000 items, with 1, 2 and 4 workers. The longest waits are taken
  for those at turn overs, as many as there were, so where they are no longer than others these figures are upper bounds;
- turns: the same client, and what can be seen of a turn over from outside, by the number of the process's threads and by the processor time of
  its first one, which accepts connections: how long it takes until the workers' threads have ended (joining), then until there is a second
  thread again (closing: catching up, meeting and copying, and with one worker also opening), until the last worker's thread has begun (opening,
  side by side in threads of their own, and starting), and the processor time of the first thread from then on, while the others serve (dropping);
- memory: a client sets 1,000 items again and again, over logs of 64 places;
- bytes: a client sets 1,000 items of 10,000 bytes again and again, 2 GB in total, over logs that are closed by their bytes;
- time: processor time of a request, with the kernel's and with what turn overs take, next to memcached's, by turns: 50 connections with one
  request at a time, over 5 logs, and 8 with 32, over 20; 100,000 items, with 1 and 2 workers or threads, 5 runs of each. It depends little on
  other work on the machine;
- seconds: 50 connections with one request at a time, and 8 with 32, over 100,000 items, with 1 and 2 workers or threads.

Usage: bench/generations.py [BINARY [GROUP...]] [--logs N] [--seconds N] [--places N] [--generations G]. Without words it measures all groups of
crates/wfmc/out/wfmc, in some 30 minutes, with up to 4 GB of memory. With --generations 1 the option isn't given to wfmc, and it is one log of
1,048,576 places: the same without turn overs, as far as that log goes. Needs gcc, and memcached for the last two groups.
"""

import os
import pathlib
import statistics
import subprocess
import sys
import tempfile
import threading
import time

sys.path.insert(0, str(pathlib.Path(__file__).parents[1] / "tests"))
from harness import repository
from harness.measures import command_line, figures_of, gathered, print_figure, print_load, print_spread
from harness.servers import LARGE, Memcached, Server
from wfmc import build_load

MEBIBYTE = 1 << 20
MOST_PLACES = 1_048_576
ITEMS = (1_000, 10_000, 100_000, 1_000_000)
TURNS = 5  # that a run of a client has
DEPTHS = (1, 32)
SHAPES = ((50, 1), (8, 32))  # connections, requests that each sends at once
HELD = 100_000
TIMED = {1: 5, 32: 20}  # logs that are filled at these depths
RUNS = 5
MOST_A_SECOND = {1: 500_000, 32: 4_000_000}  # requests, more than a server answers at these depths
SET_AGAIN = 1_000
# Of the group bytes: how many bytes a log keeps, in MiB, how many an item has, and how many items are set.
KEPT = (4, 16, 64, 256, 1_024)
LONG = 10_000
LONG_SETS = 200_000
RESTING = 0.00005  # seconds between two looks at a process


class Phases:
    """Looks at a process again and again while it serves: when the number of its threads changes, and how long its first thread has run then."""

    def __init__(self, pid):
        self.changes = []  # when it was last as before, when it was seen to have changed, threads, nanoseconds of the first thread
        self.is_stopped = False
        self.threads = open(f"/proc/{pid}/stat", "rb", buffering=0)
        self.first = open(f"/proc/{pid}/task/{pid}/schedstat", "rb", buffering=0)
        self.watcher = threading.Thread(target=self._watch)

    def _look(self):
        threads = int(os.pread(self.threads.fileno(), 1024, 0).rpartition(b")")[2].split()[17])
        return threads, int(os.pread(self.first.fileno(), 128, 0).split()[0])

    def _watch(self):
        known, before = None, 0.0
        while not self.is_stopped:
            threads, ran = self._look()
            now = time.monotonic()
            if threads != known:
                self.changes.append((before, now, threads, ran))
                known = threads
            before = now
            time.sleep(RESTING)
        self.changes.append((before, before, 0, self._look()[1]))

    def __enter__(self):
        self.watcher.start()
        return self

    def __exit__(self, *_):
        self.is_stopped = True
        self.watcher.join()
        self.threads.close()
        self.first.close()

    def turns(self, workers):
        """The milliseconds of joining, closing, starting and dropping of each turn over that was seen."""
        found, ending, alone, beginning = [], None, None, None
        for (last, now, threads, ran), (_, _, _, later) in zip(self.changes, self.changes[1:]):
            if alone is not None and beginning is None and threads > 1:
                beginning = now
            if threads == workers + 1:
                if beginning is not None:
                    found.append([1000 * span for span in (alone - ending, beginning - alone, now - beginning, (later - ran) / 1e9)])
                ending, alone, beginning = None, None, None
            elif ending is None:
                ending = last
            # Once the workers are opened, the first thread is alone for a moment again.
            if threads == 1 and beginning is None:
                alone = now
        return found


class Bench:
    """What is measured: a built wfmc, by the words of the command line, loaded by a built bench/load.c."""

    def __init__(self, asked, loader):
        self.asked, self.loader = asked, loader

    def options(self, workers, places, *more):
        """The options of wfmc; one log has as many places as may be."""
        words = ["--workers", str(workers), "--places"]
        if self.asked.generations == 1:
            return [*words, str(MOST_PLACES)]
        return [*words, str(places), "--generations", str(self.asked.generations), *more]

    def serve(self, workers, places, *more):
        return Server(self.asked.program, self.options(workers, places, *more), {"a": LARGE})

    def load(self, port, connections, depth, requests, *options):
        """What a run of the loader printed: the values of each name, in their order."""
        words = [self.loader, *map(str, options), str(port), str(connections), str(depth), str(requests)]
        ended = subprocess.run(words, capture_output=True, text=True, check=False)
        if ended.returncode:
            sys.exit(f"the load failed: {ended.stderr.strip()}")
        return {name: values for (name, _), values in gathered([figures_of(ended.stdout)]).items()}

    def has_room(self, commands):
        """Whether one log has places for as many commands, where there is one."""
        return self.asked.generations != 1 or commands <= MOST_PLACES

    def show_waits(self):
        places = self.asked.places
        requests = TURNS * places
        for workers in (1, 2, 4):
            for items in ITEMS:
                if not self.has_room(items + len(DEPTHS) * requests):
                    continue
                with self.serve(workers, places) as server:
                    for depth in DEPTHS:
                        keys = ["-k", items, "-l", TURNS] + (["-o"] if depth != DEPTHS[0] else [])
                        found = self.load(server.ports["a"], 1, depth, requests, *keys)
                        show_wait(f"waits: {workers} workers, {items:,} items, depth {depth}", found)

    def show_turns(self):
        if self.asked.generations == 1:
            sys.exit("one log has no turn over, for the group turns")
        places = self.asked.places
        for workers in (1, 2, 4):
            for items in ITEMS:
                with self.serve(workers, places) as server:
                    self.load(server.ports["a"], 1, 1, 1, "-k", items)
                    time.sleep(0.5)  # for what is freed of logs before
                    with Phases(server.pid) as phases:
                        self.load(server.ports["a"], 1, 32, 2 * TURNS * places, "-k", items, "-o")
                    show_turns_of(f"turns: {workers} workers, {items:,} items", phases.turns(workers))

    def show_bytes(self):
        if self.asked.generations == 1:
            sys.exit("one log isn't closed by its bytes, for the group bytes")
        for workers in (1, 2, 4):
            for kept in KEPT:
                with self.serve(workers, self.asked.places, "--log-bytes", str(kept * MEBIBYTE)) as server, server.client() as client:
                    waits = [time_of(client, piece) for piece in sets(0, LONG_SETS, size=LONG)]
                    case = f"bytes: {workers} workers, logs that keep {kept:,} MiB"
                    print_figure(f"{case}: resident at most", server.peak() / MEBIBYTE, "MiB")
                    print_figure(f"{case}: address space at the end", server.address_space() / MEBIBYTE, "MiB")
                    print_figure(f"{case}: longest wait for 100 replies", 1000 * max(waits), "ms")
                    print_figure(f"{case}: median wait for 100 replies", 1000 * statistics.median(waits), "ms")
                    print_figure(f"{case}: requests", LONG_SETS / sum(waits), "requests/s")

    def show_memory(self):
        places = 64
        for workers in (1, 2, 4):
            with self.serve(workers, places) as server, server.client(worker=0) as client:
                done = 0
                for logs in [count for count in (10, 100, 1_000, 10_000) if count < self.asked.logs] + [self.asked.logs]:
                    client.stream(sets(done, logs * places), 1)
                    done = logs * places
                    server.catch_up()
                    case = f"memory: {workers} workers, {logs:,} logs of {places} places"
                    print_figure(f"{case}: resident", server.resident() / MEBIBYTE, "MiB")
                    print_figure(f"{case}: address space", server.address_space() / MEBIBYTE, "MiB")
                    print_figure(f"{case}: descriptors", server.descriptors(), "count")
                    print_figure(f"{case}: threads", server.threads(), "count")

    def show_time(self):
        repository.require("memcached")
        for connections, depth in SHAPES:
            requests = TIMED[depth] * self.asked.places
            if not self.has_room(HELD + requests):
                continue
            for threads in (1, 2):
                found = {"wfmc": [], "memcached": []}
                for _ in range(RUNS):
                    for which, times in found.items():
                        times.append(self.time_of_a_request(which, threads, connections, depth, requests))
                for which, times in found.items():
                    print_spread(f"time: {which}, {threads} workers or threads, {connections} connections of depth {depth}: processor time", times, "us")

    def time_of_a_request(self, which, threads, connections, depth, requests):
        """The processor time that a server takes for a request, once it holds its items, in microseconds."""
        with self.start(which, threads) as server:
            port = server.port if which == "memcached" else server.ports["a"]
            self.load(port, 1, DEPTHS[-1], 1, "-k", HELD)
            before = server.processor_seconds()
            self.load(port, connections, depth, requests, "-k", HELD, "-o")
            return 1e6 * (server.processor_seconds() - before) / requests

    def show_seconds(self):
        if self.asked.generations == 1:
            sys.exit("one log isn't long enough for the group seconds")
        repository.require("memcached")
        for connections, depth in SHAPES:
            for threads in (1, 2):
                for which in ("wfmc", "memcached"):
                    with self.start(which, threads) as server:
                        port = server.port if which == "memcached" else server.ports["a"]
                        options = ["-k", HELD, "-s", self.asked.seconds, "-l", 1]
                        found = self.load(port, connections, depth, self.asked.seconds * MOST_A_SECOND[depth], *options)
                    show_seconds_of(f"seconds: {which}, {threads} workers or threads, {connections} connections of depth {depth}", found)

    def start(self, which, threads):
        if which == "memcached":
            return Memcached("-t", str(threads))
        return self.serve(threads, self.asked.places)


def show_wait(case, found):
    """The longest waits, as many as there were turn overs, and what they are above the usual wait, as a share of the time."""
    longest, usual = found["longest of the times to a reply"], found["50th percentile of the times to a reply"][0]
    print_figure(f"{case}: longest wait", longest[0] / 1000, "ms")
    print_figure(f"{case}: median of the waits at {len(longest)} turn overs", statistics.median(longest) / 1000, "ms")
    print_figure(f"{case}: median wait", usual / 1000, "ms")
    print_figure(f"{case}: time in turn overs", 100 * sum(wait - usual for wait in longest) / found["time of the run"][0], "percent")
    print_figure(f"{case}: requests", found["requests"][0], "requests/s")


def show_turns_of(case, turns):
    """The median of each part of the turn overs that were seen, and the longest standstill, from the first thread's end to the last one's begin."""
    print_figure(f"{case}: turn overs that were seen", len(turns), "count")
    if turns:
        for part, spans in zip(("joining", "closing", "opening and starting", "dropping"), zip(*turns)):
            print_figure(f"{case}: {part}", statistics.median(spans), "ms")
        print_figure(f"{case}: longest standstill", max(sum(spans[:3]) for spans in turns), "ms")


def time_of(client, piece):
    """How long the replies to a piece take."""
    begun = time.monotonic()
    client.stream([piece], 1)
    return time.monotonic() - begun


def show_seconds_of(case, found):
    """The requests of each second, and the longest wait in all of them."""
    each = found["requests in a second"]
    for second, count in enumerate(each, 1):
        print_figure(f"{case}: second {second}", count, "requests/s")
    print_figure(f"{case}: median of all seconds", statistics.median(each), "requests/s")
    print_figure(f"{case}: least of all seconds", min(each), "requests/s")
    print_figure(f"{case}: longest wait", found["longest of the times to a reply"][0] / 1000, "ms")


def sets(first, end, step=100, size=100):
    """Requests that set items of this size again and again, by their numbers, in pieces with the number of requests of each."""
    for start in range(first, end, step):
        numbers = range(start, min(start + step, end))
        yield b"".join(b"set %016d 0 0 %d\r\n%0*d\r\n" % (number % SET_AGAIN, size, size, number) for number in numbers), len(numbers)


GROUPS = {name[5:]: show for name, show in vars(Bench).items() if name.startswith("show_")}


def words():
    parser = command_line(__doc__)
    parser.add_argument("program", metavar="BINARY", nargs="?", default=repository.program("wfmc"))
    parser.add_argument("groups", nargs="*", metavar="GROUP")
    parser.add_argument("--logs", type=int, default=1_000, help="how many logs the group memory goes through")
    parser.add_argument("--seconds", type=int, default=60, help="how long the group seconds loads each server")
    parser.add_argument("--places", type=int, default=65_536, help="of a log in the other groups")
    parser.add_argument("--generations", type=int, default=0, help="how many logs there are; 0 for no end")
    asked = parser.parse_intermixed_args()
    unknown = [name for name in asked.groups if name not in GROUPS]
    if unknown:
        sys.exit(f"no group {unknown[0]}; there are {', '.join(GROUPS)}")
    return asked


def main():
    asked = words()
    repository.enter(asked.program)
    repository.require("gcc")
    with tempfile.TemporaryDirectory() as folder:
        bench = Bench(asked, build_load(folder))
        print_load("start")
        for name in asked.groups or GROUPS:
            GROUPS[name](bench)
        print_load("end")


main()
