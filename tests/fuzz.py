#!/usr/bin/env python3
"""Fuzzes wfmc, as built, over sockets on loopback:
fuzz.py [SECONDS] [BINARY] [--seed N] [--round N] [--generations [--workers W] [--log-bytes B] [--within]].

For this many seconds (60) it runs rounds, each with a server and tenants of its own, and all of these at once:
- tenants with one connection after another, random and mutated streams in random pieces: the replies byte for byte as the oracle has them;
- tenants with one connection after another, and between them an administrator's, which lowers and raises the tenant's quotas: the same;
- tenants with several connections, each over keys of its own: the same, but a unique may be any number;
- connections that are killed at any byte: what they received is right, and what they leave is what some first part of their stream gives;
- a reader and a writer that are slow, clients that send without reading, hundreds of connects and closes;
- and a steady client among them, whose longest wait is printed: above 10 seconds is a failure.
The tenants are in a random order with 40 idle ones. After each round every descriptor has to be given back, and the processor to rest. Before the
rounds: a load that is repeated leaves the memory where it was; more connections than there may be descriptors are served one after another;
connections that came and went close no other tenant's, and those that come and go without end keep no other waiting; a quiet connection keeps nothing
of its large replies, and little of many small ones and of a long line; where the system refuses threads the server ends; and gets whose replies are
far above the process's memory come whole, under a limit (RLIMIT_AS), next to another tenant.

With `--generations` the logs have 64 places and follow one another without an end, below 1, 2 and 4 workers by turns, or always as many as
`--workers` says; there are four tenants, one of each of the first four kinds, and no reply is that the log is full. With `--log-bytes` the logs
have 4,096 places, and are closed after this many bytes of commands, 4,000 for example. Before the rounds it is the memory under a load that is
repeated, and with `--log-bytes` whether logs are closed by their bytes, and what they keep. With `--within` each round's server has no more
address space than docs/OPERATING.md says that it takes ("One number"). A round's server is killed at its end, and the next one begins anew.

Replay a round with --seed N --round M. Prints a line for each failure; the last line is 'N passed, M failed'.
"""

import argparse
import concurrent.futures
import dataclasses
import errno
import os
import random
import resource
import select
import socket
import subprocess
import time

from generators import StreamGenerator, limit_lines, mutated, pieces
from harness import repository
from harness.client import Exchange, connect, exchange, reset
from harness.results import Results
from harness.servers import ADMIN, ENDLESS_WORKERS, METRICS, Server, among_idle, endless, most_of_endless
from oracle import protocol
from oracle.replies import NEVER_FULL, Replies
from oracle.table import Table

LATE = 10.0
ROUND_SECONDS = 3.0
# Connections of a round over logs that follow one another that take much at once.
AT_A_TIME = 64
LARGE = (1_000_000, 1_000_000_000)
MOST = (1_048_576, 1_073_741_824)
QUOTAS = ((1, 60), (3, 300), (4, 70_000), (1_000, 2_000_000), LARGE)
LIMITED = ("first-of-four", "another", "third_in_order", "last")
# Whether the log is full at first, as far as it is known.
full_at_first = False


def know_endless():
    """Notes that no log will be the last."""
    global full_at_first
    full_at_first = NEVER_FULL


def fault_of(received, ending, asked, replies):
    """What is wrong with a connection's replies, or `None`. After a request that ends the stream the system may reset it, and lose replies."""
    if ending == "late" or (ending == "reset" and not (asked and asked[-1].ends_stream)):
        return f"ended by {ending} after {len(received)} bytes"
    index = replies.first_wrong(asked)
    if index is None:
        return None
    request = asked[index] if index < len(asked) else "no request"
    return f"request {index} of {len(asked)}, {str(request)[:300]}: replies go on with {received[replies.at :][:120]!r}"


def solo(port, seed, quotas):
    """One connection after another; the tenant's table is known throughout."""
    chance, table, is_full, found = random.Random(seed), Table(*quotas), full_at_first, []
    generator = StreamGenerator(chance)
    for session in range(6):
        stream = generator.stream(chance.randrange(1, 120))
        if chance.random() < 0.5:
            stream = mutated(chance, stream)
        received, ending = exchange(port, pieces(chance, stream))
        replies = Replies(table, received, is_full, is_cut=ending == "reset")
        wrong = fault_of(received, ending, protocol.requests(stream), replies)
        found.append(("one connection at a time", wrong and f"session {session}: {wrong}"))
        is_full = replies.is_full
        if wrong:
            break
    return found


def limited(port, admin_port, seed, quotas, name):
    """As `solo`, with an administrator's connection between two of the tenant's; both kinds of lines are random, and some are mutated."""
    chance, table, is_full, found = random.Random(seed), Table(*quotas), full_at_first, []
    generator = StreamGenerator(chance)
    for session in range(10):
        is_admin = session % 2 == 1
        count = chance.randrange(1, 40)
        stream = limit_lines(chance, name, count) if is_admin else generator.stream(count, most=80_000)
        if chance.random() < 0.5:
            stream = mutated(chance, stream)
        asked = protocol.requests(stream, protocol.admin_request) if is_admin else protocol.requests(stream)
        asked = [dataclasses.replace(one, command=(), reply=protocol.BAD_FORMAT, is_quiet=False) if one.tenant not in (b"", name) else one for one in asked]
        received, ending = exchange(admin_port if is_admin else port, pieces(chance, stream))
        replies = Replies(table, received, is_full, is_cut=ending == "reset")
        wrong = fault_of(received, ending, asked, replies)
        what = "an administrator between a tenant's connections" if is_admin else "a tenant whose quotas change"
        found.append((what, wrong and f"session {session}: {wrong}"))
        is_full = replies.is_full
        if wrong:
            break
    return found


def shared(port, seed, number):
    """One of several connections of a tenant, over keys of its own."""
    chance = random.Random(seed)
    stream = StreamGenerator(chance, b"%d:" % number).stream(200)
    received, ending = exchange(port, pieces(chance, stream))
    replies = Replies(Table(*LARGE), received, full_at_first, masks_uniques=True)
    return [("several connections of a tenant", fault_of(received, ending, protocol.requests(stream), replies))]


def killed(port, seed, number):
    """A connection that is cut off at any byte. Returns what it sent too."""
    chance = random.Random(seed)
    stream = StreamGenerator(chance, b"%d:" % number).stream(60)
    sent = stream[: chance.randrange(len(stream) + 1)]
    client = Exchange(connect(port))
    for piece in pieces(chance, sent):
        client.send(piece)
    asked, table = protocol.requests(sent), Table(*LARGE)
    answers = [(table.reply(request), request.is_quiet) for request in asked]
    owed = sum(len(reply) for reply, is_quiet in answers if not is_quiet)
    client.until = time.monotonic() + 1  # where the log is full the replies are shorter
    client.wait_for(chance.choice((0, 0, 1, owed // 2)) if owed else 0)
    received, ending = bytes(client.received), client.ending
    reset(client.connection) if chance.random() < 0.5 else client.close()
    replies = Replies(Table(*LARGE), received, full_at_first, is_cut=True, masks_uniques=True)
    # After a request that ends the stream the server may have closed it first.
    is_early = ending in ("end", "reset") and not (asked and asked[-1].ends_stream)
    wrong = f"ended by {ending}" if is_early else fault_of(received, None, asked, replies)
    return [("killed at any byte", wrong)], (number, seed, sent)


def leaves(port, left):
    """Whether what a killed connection leaves is what some first part of its stream gives."""
    number, seed, sent = left
    show = StreamGenerator(random.Random(seed), b"%d:" % number).show_all()
    shown, _ = exchange(port, [show])
    table = Table(*LARGE)
    asked = protocol.requests(show)[0].command
    fronts = [table.answer(asked)]
    for request in protocol.requests(sent):
        if request.command:
            table.answer(request.command)
            fronts.append(table.answer(asked))
    refused = [] if full_at_first is NEVER_FULL else [protocol.LOG_FULL]
    wrong = None if shown in (*fronts, *refused) else f"what it left is no first part's: {shown[:200]!r}"
    return [("what killed connections leave", wrong)]


def slow_reader(port, seed):
    """Asks for much, and reads it slowly through a small buffer."""
    block = random.Random(seed).randbytes(100_000)
    client = socket.socket()
    client.setsockopt(socket.SOL_SOCKET, socket.SO_RCVBUF, 4_096)
    client.settimeout(60)
    client.connect(("127.0.0.1", port))
    client.sendall(b"set slow%d 0 0 100000\r\n%s\r\n" % (seed, block) + b"get slow%d\r\n" % seed * 60 + b"quit\r\n")
    received, until = bytearray(), time.monotonic() + ROUND_SECONDS
    while piece := client.recv(20_000):
        received += piece
        time.sleep(0.005 if time.monotonic() < until else 0)
    client.close()
    wanted = protocol.STORED + (b"VALUE slow%d 0 100000\r\n" % seed + block + b"\r\nEND\r\n") * 60
    full = full_at_first is not NEVER_FULL and protocol.LOG_FULL in (received[: len(protocol.LOG_FULL)], received[-len(protocol.LOG_FULL) :])
    return [("a slow reader", None if received == wanted or full else f"{len(received)} bytes in place of {len(wanted)}, or others")]


def slow_writer(port, seed):
    """Sends by single bytes."""
    chance = random.Random(seed)
    stream = StreamGenerator(chance, b"slow:").stream(20, most=100)[:3_000]
    client = Exchange(connect(port))
    for at in range(len(stream)):
        client.send(stream[at : at + 1])
        time.sleep(0.0005)
    received = client.finish()
    replies = Replies(Table(*LARGE), received, full_at_first, masks_uniques=True)
    return [("a slow writer", fault_of(received, client.ending, protocol.requests(stream), replies))]


def flood(port, seed):
    """Sends and never reads; is closed at last, by a reset or not."""
    chance, until = random.Random(seed), time.monotonic() + ROUND_SECONDS
    client = connect(port)
    data = chance.choice((b"version\r\n", b"get big\r\n", b"x" * 5_000 + b"\r\n", b"set f 0 0 900000\r\n" + b"y" * 900_000 + b"xx")) * 50
    client.settimeout(0.2)
    sent = 0
    while time.monotonic() < until:
        try:
            sent += client.send(data[sent % len(data) :])
        except TimeoutError:
            pass
        except OSError as error:
            return [("a flood", f"its connection ended: {error}")]
    reset(client) if chance.random() < 0.5 else client.close()
    return [("a flood", None)]


def storm(port, seed):
    """Connects and closes, with a byte or a reply or nothing between; each connection that asks is answered."""
    chance, wrong = random.Random(seed), None
    for _ in range(300):
        client = connect(port)
        kind = chance.random()
        if kind < 0.4:
            client.sendall(b"version\r\n")
            if client.recv(100) != protocol.VERSION:
                wrong = "a connection wasn't answered"
        elif kind < 0.6:
            client.sendall(chance.choice((b"v", b"set a 0 0 10\r\nabc", b"get a\r\n" * 100)))
        reset(client) if chance.random() < 0.3 else client.close()
    return [("connects and closes", wrong)]


def steady(port, _seed):
    """A client whose requests come one at a time, some over a connection made for them. Gives its longest wait too."""
    until, longest, wrong = time.monotonic() + ROUND_SECONDS, 0.0, None
    client = connect(port)
    while time.monotonic() < until:
        for visitor in (client, connect(port)):
            begun = time.monotonic()
            visitor.sendall(b"version\r\n")
            if visitor.recv(100) != protocol.VERSION:
                wrong = "another answer"
            longest = max(longest, time.monotonic() - begun)
        visitor.close()
        time.sleep(0.01)
    client.close()
    if longest > LATE:
        wrong = f"it waited {longest:.1f} seconds"
    return [("a steady client", wrong)], longest


def at_rest(server, workers):
    """How many descriptors and threads a server has once all its workers have served and nobody is connected."""
    for _ in range(workers):
        exchange(next(iter(server.ports.values())), [b"version\r\n"])
    time.sleep(0.1)
    return server.descriptors(), server.threads()


def settled(server, base):
    """What a server still holds or does, a while after all its clients are gone: wrong words, or nothing. What waits at its listeners then
    is accepted and closed first, which takes its time on a busy machine."""
    until = time.monotonic() + LATE
    while True:
        used = server.processor_seconds()
        time.sleep(0.5)
        used, now = server.processor_seconds() - used, (server.descriptors(), server.threads())
        if now == base and used <= 0.1:
            return None
        if time.monotonic() > until:
            break
    if now != base:
        return f"descriptors and threads were {base}, and are {now}"
    return f"the idle server used {used:.2f} seconds of a processor in half a second"


class Round:
    """A server and all who talk to it at once, all made from one seed."""

    address_space = None
    noise = "noise"  # the tenant of those whose replies aren't compared
    calm = "steady"  # and of the one whose waits are measured

    def __init__(self, program, seed):
        self.program = program
        chance = random.Random(seed)
        self.workers = chance.choice((1, 1, 2, 2, 3, 4, 8, 16))
        self.options = [*ADMIN, "--workers", str(self.workers), "--places"]
        self.options += [str(chance.choice((65_536, 65_536, 1_048_576, chance.randrange(1, 4_000))))]
        self.tenants = {f"solo{number}": chance.choice(QUOTAS) for number in range(5)}
        # Names of which no mutation makes another's.
        self.tenants |= {name: chance.choice(QUOTAS) for name in LIMITED}
        self.tenants |= dict.fromkeys(("shared", "killed", "noise", "steady"), LARGE)
        self.tenants = among_idle(chance, self.tenants)
        self.seeds = chance

    def calls(self, ports):
        """Each one who talks: a function and its words."""

        def seed():
            return self.seeds.randrange(1 << 30)

        for name, quotas in self.tenants.items():
            if name.startswith("solo"):
                yield solo, (ports[name], seed(), quotas)
            if name in LIMITED:
                yield limited, (ports[name], ports["admin"], seed(), quotas, name.encode())
        yield from ((shared, (ports["shared"], seed(), number)) for number in range(4))
        yield from ((killed, (ports["killed"], seed(), number)) for number in range(24))
        for disturber in (slow_reader, slow_writer, flood, flood, storm, storm):
            yield disturber, (ports[self.noise], seed())
        yield steady, (ports[self.calm], 0)

    def run(self, pool):
        """All that was found, as pairs of what was tried and what is wrong, and the steady client's longest wait."""
        with Server(self.program, self.options, self.tenants, address_space=self.address_space) as server:
            base = at_rest(server, self.workers)
            calls = list(self.calls(server.ports))
            answers = [(call, pool.submit(attempt, *call)) for call in reversed(calls)]
            found, left, longest = [], [], 0.0
            for (call, _), answer in answers:
                more, extra = answer.result()
                found += more
                if call is killed and extra:
                    left.append(extra)
                elif call is steady and extra:
                    longest = extra
            found.append(("all is given back", settled(server, base)))
            for one in left:
                found += leaves(server.ports["killed"], one)
            if not server.is_running():
                found.append(("it still runs", f"it has ended: {server.end()}"))
            return found, longest


class EndlessRound(Round):
    """A round over logs that follow one another, with four tenants that aren't idle."""

    noise = calm = "shared"

    def __init__(self, program, seed, workers, log_bytes, is_within):
        self.program, self.workers = program, workers
        chance = random.Random(seed)
        self.options = [*ADMIN, "--workers", str(workers), *endless(log_bytes)]
        tenants = {name: chance.choice(QUOTAS) for name in ("solo0", LIMITED[0])} | dict.fromkeys(("shared", "killed"), LARGE)
        self.tenants = among_idle(chance, tenants)
        if is_within:
            # An administrator may give the tenant that is limited as much as there can be.
            most = self.tenants | {LIMITED[0]: MOST}
            self.address_space = most_of_endless(workers, most, AT_A_TIME, log_bytes)
        self.seeds = chance


def attempt(call, words):
    """What a call found, or its fault as a finding."""
    try:
        answer = call(*words)
    except Exception as error:  # whatever it is, it is a finding
        return [(call.__name__, f"{type(error).__name__}: {error}")], None
    return answer if isinstance(answer, tuple) else (answer, None)


def load(server, seed):
    """A load that comes again, of requests that need no place: the log is full."""
    for call in (storm, slow_writer, solo_of_refusals, unread_replies):
        attempt(call, (server.ports["a"], seed))


def solo_of_refusals(port, seed):
    chance = random.Random(seed)
    for _ in range(20):
        exchange(port, pieces(chance, mutated(chance, StreamGenerator(chance).stream(100))))


def unread_replies(port, _seed):
    """100,000 replies, of 1.5 MB together, of which one byte is read."""
    client = connect(port)
    client.sendall(b"version\r\n" * 100_000)
    client.recv(1)
    client.close()


def check_flat(program):
    """The memory after a load that comes for the sixth time is that after the second."""
    with Server(program, ["--workers", "2", "--places", "2000"], {"a": LARGE}) as server:
        base = at_rest(server, 2)
        exchange(server.ports["a"], [b"get a\r\n" * 2_001])
        sizes, wrong = [], None
        for turn in range(6):
            load(server, turn % 2)
            found = settled(server, base)
            wrong = wrong or found
            sizes.append(server.resident() >> 10)
        grown = sizes[5] - sizes[1]
        print(f"memory under a load that comes again: {', '.join(map(str, sizes))} KB", flush=True)
        yield "descriptors and threads after it", wrong
        yield "memory after it", f"it grew by {grown} KB" if grown > 4_096 else None


def check_flat_over_logs(program, log_bytes):
    """The memory after as many logs as for the sixth time is that after the second."""
    with Server(program, ["--workers", "2", *endless(log_bytes)], {"a": LARGE}) as server:
        base = at_rest(server, 2)
        asked = b"set k%d 0 0 1000\r\n%s\r\nget k%d\r\n"
        count = 10_000 if log_bytes is None else 2_000
        stream = b"".join(asked % (number % 200, b"%04d" % number * 250, number % 100) for number in range(count))
        sizes, wrong = [], None
        for _ in range(6):
            received, ending = exchange(server.ports["a"], [stream])
            all_stored = ending == "end" and received.count(protocol.STORED) == count
            yield "a load over many logs", None if all_stored else f"{ending}, {received[-100:]!r}"
            found = settled(server, base)
            wrong = wrong or found
            sizes.append(server.resident() >> 10)
        grown = sizes[5] - sizes[1]
        print(f"memory under a load over many logs that comes again: {', '.join(map(str, sizes))} KB", flush=True)
        yield "descriptors and threads after many logs", wrong
        yield "memory after many logs", f"it grew by {grown} KB" if grown > 4_096 else None


def check_closed_by_bytes(program, log_bytes):
    """Logs are closed by their bytes before their places are taken, and one place is used for each command. The client sets an item of
    1,000 bytes again and again, 20 times as many bytes as a log keeps, and waits for each reply: a worker looks at the bytes once it has taken
    what was there."""
    count = 20 * (log_bytes // 1_000 + 1)
    for workers in ENDLESS_WORKERS:
        options = [*METRICS, "--workers", str(workers), *endless(log_bytes), "--connections", "1"]
        with Server(program, options, {"a": LARGE}) as server:
            with server.client() as client:
                replies = {client.line(b"set k 0 0 1000\r\n%s\r\n" % (b"k" * 1_000)) for _ in range(count)}
                turn_overs = server.turn_overs()
            yield f"{workers} workers, sets over logs closed by bytes", None if replies == {"STORED"} else f"{replies}"
            yield f"{workers} workers, logs closed by bytes", None if 10 < turn_overs < count else f"{turn_overs} after {count} sets"
            ended = server.wait()
            yield f"{workers} workers, places of all logs", None if ended == (0, b"done %d\n" % count, b"") else f"{ended}, after {count} sets"


def check_bytes_are_bounded(program):
    """Logs that keep 16 MiB are closed by blocks of a mebibyte, of which 400 would have places in one: they are never all kept."""
    options = endless(log_bytes=16 << 20)
    with Server(program, options, {"a": LARGE}) as server:
        block = b"set k 0 0 1048576\r\n" + b"k" * 1_048_576 + b"\r\n"
        received, ending = exchange(server.ports["a"], [block] * 400)
        yield "blocks of a mebibyte", None if (received, ending) == (protocol.STORED * 400, "end") else f"{ending}, {received[-100:]!r}"
        peak = server.peak() >> 20
        print(f"at most {peak} MB resident, where logs that keep 16 MB took 400 MB", flush=True)
        # The log and the one before it, items in all tables, and what is on its way.
        yield "memory of logs closed by bytes", f"{peak} MB at most" if peak > 150 else None


def check_few_descriptors(program):
    """More connections than the process may have descriptors: those that it has are served, and the others once these have gone."""
    with Server(program, ["--workers", "2"], {"a": LARGE, "b": LARGE}) as server:
        descriptors, _ = at_rest(server, 2)
        resource.prlimit(server.pid, resource.RLIMIT_NOFILE, (descriptors + 20, descriptors + 20))
        clients = [connect(server.ports["ab"[number % 2]], LATE) for number in range(60)]
        for client in clients:
            client.sendall(b"version\r\n")
        time.sleep(0.5)
        used = server.processor_seconds()
        time.sleep(1)
        used = server.processor_seconds() - used
        yield "too few descriptors, and it rests", f"{used:.2f} seconds of a processor in one" if used > 0.2 else None
        unanswered = len(clients) - answered(clients)
        yield "too few descriptors, and each is served in the end", f"{unanswered} of 60 weren't" if unanswered else None


def answered(clients):
    """How many clients were sent the version; each leaves then, which makes room for others."""
    count, waiting = 0, list(clients)
    while waiting and (ready := select.select(waiting, [], [], LATE)[0]):
        for client in ready:
            count += client.recv(100) == protocol.VERSION
            client.close()
            waiting.remove(client)
    for client in waiting:
        client.close()
    return count


def check_dead_arrivals(program):
    """While a worker is busy with one tenant, more connections of that tenant come and go than a worker takes; another tenant's is served after them."""
    with Server(program, ["--workers", "1"], {"a": LARGE, "b": LARGE}) as server:
        exchange(server.ports["a"], [b"set k 0 0 1048576\r\n" + b"k" * 1_048_576 + b"\r\n"])
        busy = connect(server.ports["a"])
        busy.sendall(b"get" + b" k" * 500 + b"\r\n")
        for _ in range(1_500):
            reset(connect(server.ports["a"]))
        client = connect(server.ports["b"])
        client.sendall(b"version\r\n")
        busy.close()
        try:
            reply = client.recv(100)
        except OSError as error:
            reply = f"{error}"
        client.close()
        yield "after connections that came and went", None if reply == protocol.VERSION else f"another tenant's client received {reply!r}"


def rush(port):
    """Connects and resets without end, and waits for none of it, until nobody listens."""
    until, waiting, begun = time.monotonic() + 3 * LATE, [], 0
    while time.monotonic() < until:
        client = socket.socket()
        client.setblocking(False)
        client.connect_ex(("127.0.0.1", port))
        waiting.append(client)
        if len(waiting) > 100:
            # Since it didn't wait, this tells only now whether it was refused.
            if waiting[0].getsockopt(socket.SOL_SOCKET, socket.SO_ERROR) == errno.ECONNREFUSED:
                break
            reset(waiting.pop(0))
            begun += 1
    return [("those that connect", None if begun > 100 else f"{begun} connections in all")]


def check_rush(program, pool):
    """Next to a tenant whose clients connect and go without end another tenant's new clients are answered."""
    with Server(program, ["--workers", "2"], {"a": LARGE, "b": LARGE}) as server:
        rushes = [pool.submit(attempt, rush, (server.ports["a"],)) for _ in range(3)]
        time.sleep(0.5)
        found, longest = attempt(steady, (server.ports["b"], 0))
        ended = sum(one.done() for one in rushes)
    found.append(("they connect until nobody listens", f"{ended} of 3 had ended before" if ended else None))
    for one in rushes:
        found += one.result()[0]
    if longest is not None:
        print(f"next to connects without end another tenant's clients waited {longest * 1000:.0f} ms at most", flush=True)
    yield from ((f"next to connects without end: {what}", wrong) for what, wrong in found)


def read(client, count):
    """Reads as many bytes."""
    while count and (piece := client.recv(count)):
        count -= len(piece)


def large_reply(client):
    client.sendall(b"get b b b b b b b b\r\n")
    read(client, 8 * len(b"VALUE b 0 1048576\r\n\r\n") + (8 << 20) + len(b"END\r\n"))


def small_replies(client):
    """8 MB of items of 1,000 bytes, more than the system holds: they are read once they wait in a queue."""
    client.sendall((b"get" + b" s" * 100 + b"\r\n") * 80)
    time.sleep(0.05)
    read(client, 80 * (100 * len(b"VALUE s 0 1000\r\n" + b"s" * 1_000 + b"\r\n") + len(b"END\r\n")))


def long_line(client):
    """A line of nearly as many bytes as it may have, and a short reply."""
    client.sendall(b"version\r\n".rjust(65_000))
    read(client, len(protocol.VERSION))


# What connections did before they were quiet, and how many megabytes each keeps at most, by which of the process's figures: by VmData it counts too
# what memory is kept and wasn't written to.
QUIET = (
    ("had a reply of 8 MB", large_reply, 2.5, "VmRSS"),
    ("had many small replies", small_replies, 0.3, "VmData"),
    ("sent a long line", long_line, 0.05, "VmData"),
)


def check_quiet_connections(program):
    """What is kept for connections that did one of these once, and then are quiet."""
    for what, does, most, figure in QUIET:
        with Server(program, ["--workers", "2"], {"a": LARGE}) as server:
            exchange(server.ports["a"], [b"set b 0 0 1048576\r\n%s\r\nset s 0 0 1000\r\n%s\r\n" % (b"b" * 1_048_576, b"s" * 1_000)])
            clients = [connect(server.ports["a"]) for _ in range(24)]
            for client in clients[:6]:
                does(client)
            before = server.figure(figure)
            for client in clients[6:]:
                does(client)
            kept = (server.figure(figure) - before) / 18 / (1 << 20)
            print(f"a quiet connection that once {what} keeps {kept:.2f} MB", flush=True)
            yield f"quiet connections that once {what}", f"each keeps {kept:.2f} MB" if kept > most else None
            for client in clients:
                client.close()


def check_refused_threads(program):
    """Threads of which the system refuses some, since no memory holds the stacks that they ask for: the server ends, and has served nobody."""
    limits = 'ulimit -s 1048576 && ulimit -v 2500000 && exec "$@"'
    with Server("sh", ["-c", limits, "sh", program, "--workers", "4"], {"a": LARGE}) as server:
        # It prints where it listens once all threads have begun.
        clients = [connect(server.ports["a"], 3 * LATE) for _ in range(4)] if server.ports else []
        for client in clients:
            client.sendall(b"version\r\n")
        served = sum(is_served(client) for client in clients)
        yield "refused threads, and nobody is served", f"{served} of 4 were" if served else None
        try:
            ended = server.wait(LATE)
        except subprocess.TimeoutExpired:
            ended = "not at all"
        yield "refused threads, and it ends", None if ended == (1, b"", b"wfmc: out of memory\n") else f"ended: {ended}"


def is_served(client):
    try:
        return client.recv(100) == protocol.VERSION
    except OSError:
        return False
    finally:
        client.close()


def greedy(port):
    """Asks for a reply of 1.5 GB, which comes whole, since its data are sent from where the table has them."""
    names, client, last, count = 1_500, connect(port, 120), b"", 0
    wanted = names * len(b"VALUE b 0 1048576\r\n" + b"b" * 1_048_576 + b"\r\n") + len(b"END\r\n")
    try:
        client.sendall(b"get" + b" b" * names + b"\r\n")
        while count < wanted and (piece := client.recv(1 << 20)):
            count += len(piece)
            last = (last + piece)[-100:]
    except OSError as error:
        return [("a get above the memory", f"{error or type(error).__name__}, after {count} bytes")]
    finally:
        client.close()
    return [("a get above the memory", None if count == wanted and last.endswith(b"b\r\nEND\r\n") else f"{count} bytes, the last {last!r}")]


def calm(port, seed):
    """Another tenant's clients meanwhile."""
    chance, until, found = random.Random(seed), time.monotonic() + 2 * ROUND_SECONDS, []
    table, generator = Table(*LARGE), StreamGenerator(chance)
    while time.monotonic() < until and not any(wrong for _, wrong in found):
        stream = generator.stream(20, most=2_000)
        received, ending = exchange(port, pieces(chance, stream))
        replies = Replies(table, received, is_cut=ending == "reset")
        found.append(("another tenant meanwhile", fault_of(received, ending, protocol.requests(stream), replies)))
    return found[-1:]


def check_starved(program, pool, workers):
    """Gets of one tenant whose replies are far above the memory that the process may have, next to another tenant."""
    with Server(program, ["--workers", str(workers)], {"greedy": LARGE, "calm": LARGE}) as server:
        # The C library takes 64 MiB of address space for each thread that allocates: all have by then.
        server.catch_up("calm")
        limit = server.address_space() + (100 << 20)
        resource.prlimit(server.pid, resource.RLIMIT_AS, (limit, limit))
        stored, _ = exchange(server.ports["greedy"], [b"set b 0 0 1048576\r\n" + b"b" * 1_048_576 + b"\r\n"])
        yield f"{workers} workers: an item of 1 MB", None if stored == protocol.STORED else f"{stored!r}"
        calls = [(calm, (server.ports["calm"], 7))] + [(greedy, (server.ports["greedy"],))] * 4
        for answer in [pool.submit(attempt, *call) for call in calls]:
            yield from ((f"{workers} workers: {what}", wrong) for what, wrong in answer.result()[0])
        again, _ = exchange(server.ports["greedy"], [b"get b\r\n"])
        yield f"{workers} workers: the same tenant after it", None if again.endswith(b"b\r\nEND\r\n") else f"{again[:100]!r}"
        yield f"{workers} workers: it still runs", None if server.is_running() else f"{server.end()}"


def words():
    parser = argparse.ArgumentParser(description=__doc__.split("\n")[0])
    parser.add_argument("seconds", nargs="?", type=float, default=60.0)
    parser.add_argument("program", nargs="?", default=repository.program("wfmc"))
    parser.add_argument("--seed", type=int, default=int.from_bytes(os.urandom(3), "big"))
    parser.add_argument("--round", type=int, help="this round alone")
    parser.add_argument("--generations", action="store_true", help="over logs of 64 places, one after another")
    parser.add_argument("--workers", type=int, help="with --generations: always this many")
    parser.add_argument("--log-bytes", type=int, help="with --generations: over logs that are closed after this many bytes of commands")
    parser.add_argument("--within", action="store_true", help="with --generations: with no more memory than OPERATING says")
    asked = parser.parse_intermixed_args()
    if not asked.generations and (asked.workers or asked.log_bytes or asked.within):
        parser.error("--workers, --log-bytes and --within go with --generations")
    return asked


def round_of(asked, number):
    """The round of this number."""
    seed = f"{asked.seed}/{number}"
    if asked.generations:
        workers = asked.workers or ENDLESS_WORKERS[number % len(ENDLESS_WORKERS)]
        return EndlessRound(asked.program, seed, workers, asked.log_bytes, asked.within)
    return Round(asked.program, seed)


def first_checks(asked, pool):
    """The checks before the rounds."""
    if asked.generations:
        by_bytes = [check_closed_by_bytes(asked.program, asked.log_bytes), check_bytes_are_bounded(asked.program)]
        return [check_flat_over_logs(asked.program, asked.log_bytes), *(by_bytes if asked.log_bytes else [])]
    alone = (check_flat, check_few_descriptors, check_dead_arrivals, check_quiet_connections, check_refused_threads)
    others = [check_rush(asked.program, pool), *(check_starved(asked.program, pool, workers) for workers in (1, 3))]
    return [*(part(asked.program) for part in alone), *others]


def rounds(asked, pool):
    """Rounds until the time is over, or the one that is asked for."""
    until, number, longest = time.monotonic() + asked.seconds, asked.round or 0, 0.0
    while number == (asked.round or 0) or (asked.round is None and time.monotonic() < until):
        found, waited = round_of(asked, number).run(pool)
        longest = max(longest, waited)
        yield from ((f"--seed {asked.seed} --round {number}: {what}", wrong) for what, wrong in found)
        number += 1
    print(f"{number - (asked.round or 0)} rounds; the steady client waited {longest * 1000:.0f} ms at most", flush=True)


def main():
    asked, results = words(), Results()
    repository.enter(asked.program)
    print(f"--seed {asked.seed}", flush=True)
    if asked.generations:
        know_endless()
    with concurrent.futures.ProcessPoolExecutor(48, initializer=know_endless if asked.generations else None) as pool:
        parts = first_checks(asked, pool) if asked.round is None else []
        for part in [*parts, rounds(asked, pool)]:
            for what, wrong in part:
                results.check(what, wrong is None, wrong)
    results.finish()


if __name__ == "__main__":
    main()
