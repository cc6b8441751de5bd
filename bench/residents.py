#!/usr/bin/env python3
"""Measures how much memory an item takes once the log in which it was set has been closed, with 1, 2 and 4 workers, next to memcached with as
many threads: residents.py [BINARY].

One client sets 100,000 items, and then 400,000 more, each time followed by sets of one of them until every log that has others in it was
followed by another. Of the resident memory after each of these the difference is divided by 400,000. Keys have 16 bytes and data 100 or 1,000.
Takes a minute and 2 GB of memory; needs memcached.
"""

import contextlib
import pathlib
import sys
import time

sys.path.insert(0, str(pathlib.Path(__file__).parents[1] / "tests"))
from harness import repository
from harness.client import connect
from harness.measures import command_line, print_figure, print_load
from harness.servers import LARGE, METRICS, Memcached, Server

PLACES = 65_536
OPTIONS = ("--places", str(PLACES), "--generations", "0", "--log-bytes", str(64 << 20), *METRICS)
FEW, MANY = 100_000, 500_000
BATCH = 1_000
STORED = b"STORED\r\n"
# Turn overs after the last set of another item: its own log is followed by a first one, which copies or merges, and by a second.
TURN_OVERS = 3


def store(client, keys, size):
    """Sets these items, some at a time."""
    block = b"v" * size
    for first in range(0, len(keys), BATCH):
        some = keys[first : first + BATCH]
        client.sendall(b"".join(b"set key%013d 0 0 %d\r\n%s\r\n" % (key, size, block) for key in some))
        missing = len(some) * len(STORED)
        while missing:
            missing -= len(client.recv(missing))


def settle(server, client, size):
    """Sets one item again and again until some logs were followed by others, and lets the server free what they left."""
    if isinstance(server, Server):
        until = server.turn_overs() + TURN_OVERS
        while server.turn_overs() < until:
            store(client, [0] * BATCH, size)
    time.sleep(1)


def bytes_an_item(server, port, size):
    with contextlib.closing(connect(port)) as client:
        residents = []
        for keys in (range(FEW), range(FEW, MANY)):
            store(client, keys, size)
            settle(server, client, size)
            residents.append(server.resident())
    return (residents[1] - residents[0]) / (MANY - FEW)


def main():
    parser = command_line(__doc__)
    parser.add_argument("program", metavar="BINARY", nargs="?", default=repository.program("wfmc"))
    program = parser.parse_args().program
    repository.enter(program)
    repository.require("memcached")
    print_load("start")
    for size in (100, 1_000):
        for workers in (1, 2, 4):
            with Server(program, ["--workers", str(workers), *OPTIONS], {"a": LARGE}) as server:
                print_figure(f"{size} B: wfmc, {workers} workers: memory of an item", bytes_an_item(server, server.ports["a"], size), "bytes")
            with Memcached("-t", str(workers), "-m", "4096") as server:
                print_figure(f"{size} B: memcached, {workers} threads: memory of an item", bytes_an_item(server, server.port, size), "bytes")
    print_load("end")


if __name__ == "__main__":
    main()
