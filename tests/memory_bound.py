#!/usr/bin/env python3
"""Checks the number of docs/OPERATING.md, "One number": memory_bound.py [BINARY].

wfmc gets that many bytes of address space (RLIMIT_AS), and clients do what takes most: two tenants fill their quotas, and each alone fills
logs that are closed by their bytes, while other connections hold a block of a mebibyte up to its last byte, or ask for replies of several
and don't read them. Nobody may be refused for want of memory. Then it gets less than the replies to two lines have bytes: one of 500 items
of a mebibyte, and one of many of 4,000 bytes; both come whole. Then wfmc gets much less, and more connections hold such a block than there is memory for: those whose own
allocation is refused are told so and closed, and no other. Prints what was used; the last line is 'N passed, M failed'.
"""

import contextlib
import select
import sys

from harness import repository
from harness.bounds import MEBIBYTE, held, number
from harness.results import Results
from harness.servers import Server
from oracle.protocol import NO_ROOM, STARVED

PROGRAM = sys.argv[1] if len(sys.argv) > 1 else repository.program("wfmc")
BLOCK = MEBIBYTE - 1_000
QUOTA = (1_000, 8 * MEBIBYTE)
WORKERS, PLACES, LOG_BYTES = 2, 4_096, 16 * MEBIBYTE
CONNECTIONS, SETS = 40, 64
results = Results()
check = results.check


def block_line(key):
    return b"set %s 0 0 %d\r\n" % (key, BLOCK)


def whole(connection, size):
    """This many bytes of a reply, or fewer where the stream ends."""
    received = bytearray()
    with contextlib.suppress(ConnectionError):
        while len(received) < size and (piece := connection.recv(min(size - len(received), MEBIBYTE))):
            received += piece
    return bytes(received)


def line_of(connection):
    """The line that comes next, or what there is of it."""
    received = bytearray()
    with contextlib.suppress(ConnectionError):
        while not received.endswith(b"\n") and (piece := connection.recv(1)):
            received += piece
    return bytes(received)


def send_all(connection, sent):
    """Sends these bytes, unless the connection is closed meanwhile."""
    with contextlib.suppress(ConnectionError):
        connection.sendall(sent)


def options():
    return ["--workers", str(WORKERS), "--places", str(PLACES), "--generations", "0", "--log-bytes", str(LOG_BYTES)]


def most_with(connections):
    """The number, where the connections take this many bytes."""
    return number(WORKERS, PLACES, [QUOTA, QUOTA], connections, LOG_BYTES)


def limited(bytes_of_all):
    return Server(PROGRAM, options(), {"a": QUOTA, "b": QUOTA}, address_space=bytes_of_all)


def hold_blocks(server, count):
    """Connections that have sent a block but for its last bytes; every other one is of another tenant."""
    clients = [server.connect("ab"[at % 2]) for at in range(count)]
    for client in clients:
        send_all(client, block_line(b"held") + b"h" * BLOCK)
    return clients


def check_number():
    most = most_with(CONNECTIONS * held(names=1, data=BLOCK))
    with limited(most) as server:
        writers = {name: server.connect(name) for name in "ab"}
        for name, writer in writers.items():
            stored = []
            for at in range(7):
                send_all(writer, block_line(b"k%d" % at) + b"v" * BLOCK + b"\r\n")
                stored.append(line_of(writer))
            check(f"{name} fills its quota", stored == [b"STORED\r\n"] * 7, stored)
        holding = hold_blocks(server, CONNECTIONS // 2)
        wanted = b"".join(b"VALUE k%d 0 %d\r\n%s\r\nEND\r\n" % (at, BLOCK, b"v" * BLOCK) for at in range(7))
        asking = [server.client("ab"[at % 2], receive_buffer=4_096).socket for at in range(CONNECTIONS // 2)]
        for client in asking:
            send_all(client, b"".join(b"get k%d\r\n" % at for at in range(7)))
        for name, writer in writers.items():
            said = set()
            for at in range(SETS):
                send_all(writer, block_line(b"k%d" % (at % 7)) + b"v" * BLOCK + b"\r\n")
                said.add(line_of(writer))
            check(f"{name} alone fills logs, one after another", said == {b"STORED\r\n"}, said)
        for client in holding:
            send_all(client, b"\r\n")
        # A tenant has room for one more item of this size at most.
        ends = {line_of(client) for client in holding}
        check("blocks that were held are taken, or refused by a quota alone", ends <= {b"STORED\r\n", NO_ROOM}, ends)
        check("each reply that waited comes whole", all(whole(client, len(wanted)) == wanted for client in asking))
        used = server.figure("VmPeak")
        print(f"the number: {most // MEBIBYTE} MiB; used at most: {used // MEBIBYTE} MiB of address space, {server.peak() // MEBIBYTE} MiB resident")
        check("within the number", used <= most)
        check("it serves", server.is_running())


def comes(connection, value, count):
    """Whether this value comes so often, and then the end of its reply."""
    return all(whole(connection, len(value)) == value for _ in range(count)) and line_of(connection) == b"END\r\n"


def check_large_replies():
    """A line asks for far more bytes than there is memory for: what the log and the tables have is sent from there."""
    for key, size, names in ((b"k", BLOCK, 500), (b"m", 4_000, 30_000)):
        most = held(names, data=size)
        with limited(most_with(most)) as server, server.client("a").socket as client:
            send_all(client, b"set %s 0 0 %d\r\n%s\r\n" % (key, size, b"v" * size))
            stored = line_of(client)
            before = server.figure("VmPeak")
            send_all(client, b"get" + names * (b" " + key) + b"\r\n")
            value = b"VALUE %s 0 %d\r\n%s\r\n" % (key, size, b"v" * size)
            what = f"a reply of {names:,} items of {size:,} bytes"
            check(f"{what} comes whole", stored == b"STORED\r\n" and comes(client, value, names))
            more = server.figure("VmPeak") - before
            print(f"{what}: {names * size // MEBIBYTE} MiB of data, {more // MEBIBYTE} MiB of address space more, of {most // MEBIBYTE}")
            check(f"{what} takes no more than a connection may", more <= most, more)


def answered(clients):
    """Those of the clients to whom something is sent within a second."""
    return select.select(clients, [], [], 1)[0]


def check_own_allocation():
    """With room for some of these blocks those that are refused are told so and closed, and nobody else is. All blocks together have more bytes
    than the process may have. None is sent whole while there is no memory, since a log that is full then can't be followed."""
    with contextlib.ExitStack() as open_ones:
        at_start = open_ones.enter_context(Server(PROGRAM, options(), {"a": QUOTA, "b": QUOTA}))
        at_start.await_workers()
        least = at_start.address_space()
    most = least + 24 * MEBIBYTE
    with limited(most) as server:
        others = [server.connect(name) for name in "abab"]
        for other in others:
            send_all(other, b"set small 0 0 1\r\nx\r\n")
        check("small commands before", all(line_of(other) == b"STORED\r\n" for other in others))
        holding = hold_blocks(server, most // BLOCK + CONNECTIONS)
        refused = answered(holding)
        held = [client for client in holding if client not in refused]
        check("some are refused, and some aren't", len(refused) > 0 and len(held) > 8, (len(refused), len(held)))
        ends = {line_of(client) for client in refused}
        check("each is told its own end", ends == {STARVED}, ends)
        check("those that are refused are closed", all(whole(client, 1) == b"" for client in refused))
        for other in others:
            send_all(other, b"get small\r\n")
        check("no other is", [comes(other, b"VALUE small 0 1\r\nx\r\n", 1) for other in others] == [True] * 4)
        for client in held[8:]:
            client.close()
        for client in held[:8]:
            send_all(client, b"\r\n")
        ends = {line_of(client) for client in held[:8]}
        check("blocks that were held are taken", ends == {b"STORED\r\n"}, ends)
        check("it serves on", server.is_running())
        print(f"{len(refused)} of {len(holding)} connections were refused memory, and closed alone")


def main():
    repository.enter(PROGRAM)
    check_number()
    check_large_replies()
    check_own_allocation()
    results.finish()


main()
