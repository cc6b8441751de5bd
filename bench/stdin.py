#!/usr/bin/env python3
"""Feeds mc_stdin 60,000 requests: a set, a get, an incr and a cas by turns, with data of 100 bytes, over some number of keys: stdin.py [RUNS].

Prints the median, the least and the greatest of RUNS (5) runs, their time, requests a second and MB a second of input: from file to file;
through a relay on loopback; and, where memcached is installed, memcached through the same relay, whose replies must be the same bytes. Needs
socat for the relay.
"""

import pathlib
import shutil
import socket
import subprocess
import sys
import tempfile
import threading
import time

sys.path.insert(0, str(pathlib.Path(__file__).parents[1] / "tests"))
from harness import repository
from harness.client import connect
from harness.measures import print_load, print_spread, runs_wanted
from harness.servers import Memcached, Relay
from oracle.protocol import requests
from oracle.table import Table

PROGRAM = repository.program("mc_stdin")
REQUESTS = 60_000
BLOCK = b"v" * 100


def stream_over(keys):
    """The stream over this many keys. A cas names the unique of the set before it: the changes so far, without the incr's."""
    parts, changes = [b"set count 0 0 1\r\n0\r\n"], 1
    for number in range(REQUESTS // 4):
        key = b"key%d" % (number % keys)
        parts.append(b"set %s 0 0 100\r\n%s\r\nget %s\r\nincr count 1\r\n" % (key, BLOCK, key))
        parts.append(b"cas %s 1 0 100 %d\r\n%s\r\n" % (key, changes + 1, BLOCK))
        changes += 3
    return b"".join([*parts, b"quit\r\n"])


def replies_to(stream):
    """The bytes that have to come back."""
    table = Table(1_048_576, 67_108_864)
    return b"".join(table.reply(request) for request in requests(stream))


def from_file(stream):
    """Seconds from file to file, and the replies."""
    with tempfile.TemporaryFile() as source, tempfile.TemporaryFile() as target:
        source.write(stream)
        source.seek(0)
        start = time.perf_counter()
        subprocess.run([PROGRAM], stdin=source, stdout=target, check=True)
        seconds = time.perf_counter() - start
        target.seek(0)
        return seconds, target.read()


def through(port, stream):
    """Seconds through a connection, and the replies."""
    with connect(port) as connection:
        pieces, start = [], time.perf_counter()
        sender = threading.Thread(target=lambda: (connection.sendall(stream), connection.shutdown(socket.SHUT_WR)))
        sender.start()
        while piece := connection.recv(1 << 18):
            pieces.append(piece)
        seconds = time.perf_counter() - start
        sender.join()
        return seconds, b"".join(pieces)


def through_relay(stream):
    with Relay(f"EXEC:{PROGRAM}") as relay:
        return through(relay.port, stream)


def through_memcached(stream):
    """As `through`, by a new memcached each time, so that its uniques begin at 1."""
    with Memcached("-m", "64") as memcached, Relay(f"TCP:127.0.0.1:{memcached.port}") as relay:
        return through(relay.port, stream)


def measure(name, runs, stream, wanted, run):
    """Prints what some runs took, each of which has to give the wanted replies."""
    times = []
    for _ in range(runs):
        seconds, replies = run(stream)
        if replies != wanted:
            sys.exit(f"{name}: other replies than wanted")
        times.append(seconds)
    print_spread(f"{name}: time", [1000 * seconds for seconds in times], "ms")
    print_spread(f"{name}: requests", [REQUESTS / seconds for seconds in times], "requests/s")
    print_spread(f"{name}: input", [len(stream) / seconds / 1e6 for seconds in times], "MB/s")


def main():
    runs = runs_wanted(__doc__, 5)
    repository.enter(PROGRAM)
    kinds = {"mc_stdin": from_file}
    for tool in ("socat", "memcached"):
        if not shutil.which(tool):
            print(f"{tool} isn't installed, so what needs it isn't measured", file=sys.stderr)
    if shutil.which("socat"):
        kinds["mc_stdin by the relay"] = through_relay
        if shutil.which("memcached"):
            kinds["memcached by the relay"] = through_memcached
    print_load("start")
    for keys in (1, 100, 1_000, 10_000):
        stream = stream_over(keys)
        wanted = replies_to(stream)
        for name, run in kinds.items():
            measure(f"{name}, {keys} key" + "s" * (keys > 1), runs, stream, wanted, run)
    print_load("end")


main()
