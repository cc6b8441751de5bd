#!/usr/bin/env python3
"""Compares wfmc with memcached row by row, over logs that follow one another: rows.py [RUNS] [--seconds N] [--threads N...] [--rows WORD]
[--depths N...] [--places N] [--log-bytes N] [--preload LIBRARY].

A row has a number of connections with so many requests at a time each, of which 95 or 50 in 100 are gets and the others sets, data of
100 bytes to 1 MiB, and keys. A log is closed after 1 GiB (--log-bytes), and has as many places (--places) as that has data for, at most
1,048,576. wfmc takes its memory by the allocator of the defaults file, with --preload by that of another library, and with --preload none by the C
library's. For each row the servers are started by turns, anew for each of RUNS (3) runs of N (3) seconds, with as many workers as threads (1, 2 and
4). Prints for each row and server the median, the least and the greatest: requests a second, the server's processor time a request, and its page
faults a request. With --rows only rows whose names have WORD are measured, and with --depths such with 8 connections and that many requests at a
time, up to 1,024. Needs memcached, gcc and that library; the rows of 1,000,000 keys and of long data take up to 4 GB of memory.
"""

import pathlib
import subprocess
import sys
import tempfile

sys.path.insert(0, str(pathlib.Path(__file__).parents[1] / "tests"))
from harness import repository
from harness.measures import command_line, figures_of, gathered, print_load, print_spread
from harness.servers import LARGE, Memcached, Server, preloading
from wfmc import build_load

PROGRAM = repository.program("wfmc")
SHAPES = [(50, 1), (8, 32)]  # connections, requests that each sends at once
GETS = (95, 50)  # in 100
DATA = ((100, 10_000), (100, 1_000_000), (4_096, 10_000), (65_536, 1_000), (1_048_576, 100))  # bytes of an item, keys
LOG_BYTES = 1 << 30  # as it comes
MOST_PLACES = 1_048_576
NAMES = {100: "100 B", 4_096: "4 KiB", 65_536: "64 KiB", 1_048_576: "1 MiB"}


def rows(shapes):
    for connections, depth in shapes:
        for gets in GETS:
            for size, keys in DATA:
                name = f"{connections} x {depth}, {gets} % gets, {NAMES[size]}, {keys:,} keys"
                yield name, ["-k", str(keys), "-d", str(size), "-g", str(gets)], (connections, depth), size


def start(which, threads, places, log_bytes, library):
    if which == "memcached":
        server = Memcached("-t", str(threads), "-m", "4096", "-I", "2m")
        return server, server.port
    options = ["--workers", str(threads), "--places", str(places), "--generations", "0", "--log-bytes", str(log_bytes)]
    server = Server(PROGRAM, options, {"a": LARGE}, environment=preloading(library))
    return server, server.ports["a"]


def faults_of(server):
    """The page faults of a server's process so far."""
    fields = pathlib.Path(f"/proc/{server.pid}/stat").read_text().rpartition(")")[2].split()
    return int(fields[7]) + int(fields[9])


def load(program, options, port, shape, seconds):
    """What a run of the load measured."""
    connections, depth = shape
    # More requests than a server answers.
    most = (500_000 if depth == 1 else 4_000_000) * seconds
    words = [program, *options, "-s", str(seconds), port, connections, depth, most]
    return list(figures_of(subprocess.run([str(word) for word in words], capture_output=True, text=True, check=True).stdout))


def run(program, which, threads, log, options, shape, seconds):
    """The measurements of one run, after one that sets the keys."""
    server, port = start(which, threads, *log)
    with server:
        load(program, options, port, shape, 1)
        time, faults = server.processor_seconds(), faults_of(server)
        figures = load(program, ["-o", *options], port, shape, seconds)
        answered = sum(value for name, value, _ in figures if name == "requests in a second")
        return [
            next(figure for figure in figures if figure[0] == "requests"),
            ("processor time of a request", (server.processor_seconds() - time) / answered * 1e6, "us"),
            ("page faults of a request", (faults_of(server) - faults) / answered, "count"),
        ]


def main():
    parser = command_line(__doc__)
    parser.add_argument("runs", metavar="RUNS", nargs="?", type=int, default=3)
    parser.add_argument("--seconds", type=int, default=3)
    parser.add_argument("--threads", type=int, nargs="+", default=[1, 2, 4])
    parser.add_argument("--rows", default="")
    parser.add_argument("--depths", type=int, nargs="+")
    parser.add_argument("--places", type=int)
    parser.add_argument("--log-bytes", type=int, default=LOG_BYTES)
    parser.add_argument("--preload")
    words = parser.parse_args()
    repository.enter(PROGRAM)
    repository.require("memcached", "gcc")
    with tempfile.TemporaryDirectory() as folder:
        program = build_load(folder)
        print_load("start")
        shapes = [(8, depth) for depth in words.depths] if words.depths else SHAPES
        for name, options, shape, size in rows(shapes):
            if words.rows not in name:
                continue
            log = words.places or min(words.log_bytes // size, MOST_PLACES), words.log_bytes, words.preload
            for threads in words.threads:
                found = {"wfmc": [], "memcached": []}
                for _ in range(words.runs):
                    for which, runs in found.items():
                        runs.append(run(program, which, threads, log, options, shape, words.seconds))
                for which, runs in found.items():
                    for (what, unit), values in gathered(runs).items():
                        print_spread(f"{name}, {threads} threads: {which}: {what}", values, unit)
        print_load("end")


if __name__ == "__main__":
    main()
