#!/usr/bin/env python3
"""Measures how the cost of a request grows with the keys held, and the memory of a stored item: items.py [RUNS].

The built mc_stdin is fed over pipes, and memcached, where it is installed, over loopback. Data have 100 bytes and keys 9, in no order. Each
figure is measured RUNS (5) times, each time on a new process: printed are the median, the least and the greatest. Every reply is compared
with the bytes that are wanted.
"""

import pathlib
import random
import shutil
import subprocess
import sys
import threading
import time

sys.path.insert(0, str(pathlib.Path(__file__).parents[1] / "tests"))
from harness import repository, servers
from harness.client import connect
from harness.measures import print_load, print_spread, runs_wanted
from harness.processes import Process

PROGRAM = repository.program("mc_stdin")
BLOCK = b"v" * 100


class Stdin(Process):
    """mc_stdin over two pipes."""

    name = "mc_stdin"

    def __init__(self, places):
        words = [PROGRAM, "--places", str(places)]
        super().__init__(words, stdin=subprocess.PIPE, stdout=subprocess.PIPE, bufsize=0)
        self.write, self.read = self.process.stdin.write, self.process.stdout.read


class Memcached(servers.Memcached):
    """memcached, and one connection to it."""

    name = "memcached"

    def __init__(self, places):
        super().__init__("-m", "64")
        self.connection = connect(self.port)
        self.write, self.read = self.connection.send, self.connection.recv


def keys(count):
    """This many distinct keys, in no order, and the same ones each time."""
    numbers = list(range(count))
    random.Random(1).shuffle(numbers)
    return [b"key%06d" % number for number in numbers]


def some(held, count):
    """This many of the keys, each as likely as another."""
    return random.Random(2).choices(held, k=count)


def sets(named):
    """Requests and replies."""
    return b"".join(b"set %s 0 0 100\r\n%s\r\n" % (key, BLOCK) for key in named), b"STORED\r\n" * len(named)


def gets(named):
    """Requests and replies, of keys that are held."""
    replies = b"".join(b"VALUE %s 0 100\r\n%s\r\nEND\r\n" % (key, BLOCK) for key in named)
    return b"".join(b"get %s\r\n" % key for key in named), replies


def exchange(server, requests, wanted):
    """Sends all requests without waiting for replies, and returns the seconds until the last reply was there."""

    def send():
        rest = memoryview(requests)
        while rest:
            rest = rest[server.write(rest) :]

    pieces, missing = [], len(wanted)
    sender = threading.Thread(target=send)
    start = time.perf_counter()
    sender.start()
    while missing > 0:
        piece = server.read(1 << 20)
        if not piece:
            break
        pieces.append(piece)
        missing -= len(piece)
    seconds = time.perf_counter() - start
    sender.join()
    if b"".join(pieces) != wanted:
        sys.exit(f"{server.name}: other replies than wanted")
    return seconds


def rates(kind, phases, runs):
    """Requests a second of the last phase, in each run."""
    commands = [requests.count(b"key") for requests, _ in phases]
    found = []
    for _ in range(runs):
        with kind(sum(commands)) as server:
            seconds = [exchange(server, *phase) for phase in phases]
        found.append(commands[-1] / seconds[-1])
    return found


def memory(kind, named, runs):
    """The bytes that a set of these keys took, after 10,000 sets of distinct keys, in each run."""
    found = []
    for _ in range(runs):
        with kind(10000 + len(named)) as server:
            exchange(server, *sets(keys(60000)[:10000]))
            before = server.resident()
            exchange(server, *sets(named))
            found.append((server.resident() - before) / len(named))
    return found


def kinds():
    """The servers that are measured."""
    if shutil.which("memcached"):
        return [Stdin, Memcached]
    print("memcached isn't installed, so it isn't measured", file=sys.stderr)
    return [Stdin]


def main():
    runs = runs_wanted(__doc__, 5)
    repository.enter(PROGRAM)
    print_load("start")
    distinct, few, many = keys(60000), keys(1000), keys(50000)
    loads = {
        "60,000 sets of distinct keys": [sets(distinct)],
        "5,000 gets after 60,000 sets of distinct keys": [sets(distinct), gets(some(distinct, 5000))],
        "100,000 gets, 1,000 keys held": [sets(few), gets(some(few, 100000))],
        "100,000 gets, 50,000 keys held": [sets(many), gets(some(many, 100000))],
        "100,000 sets, 1,000 keys held": [sets(few), sets(some(few, 100000))],
        "100,000 sets, 50,000 keys held": [sets(many), sets(some(many, 100000))],
    }
    measured = kinds()
    for what, phases in loads.items():
        for kind in measured:
            print_spread(f"{kind.name}, {what}", rates(kind, phases, runs), "requests/s")
    for what, named in (("a key that isn't held", distinct[10000:]), ("a key that is held", some(distinct[:10000], 50000))):
        for kind in measured:
            print_spread(f"{kind.name}, memory of a set of {what}", memory(kind, named, runs), "bytes")
    print_load("end")


main()
