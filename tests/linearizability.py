#!/usr/bin/env python3
"""Tests that each tenant's history is linearizable:
linearizability.py [SECONDS] [BINARY] [--seed N] [--generations [--workers W] [--log-bytes B] [--within]] | --self-test.

For this many seconds (60) it starts wfmc with 1 to 4 workers, or 16, and for each of several tenants, among 40 idle ones, clients at once, each a
process with a connection of its own. They send commands over the same few keys, some ahead of replies, and note when each was sent and answered. Next
to the clients of some tenants an administrator lowers and raises that tenant's quotas. Then linearizability_checker.py looks for one order of a
tenant's commands that explains all replies and puts no command before another that was answered when it was sent, so a client reads its own writes
too.

With `--generations` the logs have 64 places and follow one another without an end, below 1, 2 and 4 workers by turns, or always as many as
`--workers` says; there are four tenants beside the idle ones, each with an administrator and with a client whose connections are killed at any byte.
One order explains the replies over all logs, and none is that the log is full. With `--log-bytes` the logs have 4,096 places, and are closed after
this many bytes of commands, 4,000 for example; the server's metrics show that they were. With `--within` each server has no more address space than
docs/OPERATING.md says that it takes ("One number").

`--self-test` tests the checker instead: histories made wrong on purpose must be refused, and right ones accepted. The last line is
'N passed, M failed'.
"""

import argparse
import dataclasses
import functools
import math
import multiprocessing
import os
import random
import subprocess
import threading
import time

import linearizability_checker as checker
from harness import repository
from harness.client import connect, peer_socket, reset
from harness.processes import SECONDS, sockets
from harness.results import Results
from harness.servers import ADMIN, ENDLESS_WORKERS, METRICS, Server, among_idle, endless, most_of_endless
from linearizability_checker import Call
from oracle import protocol
from oracle.table import Table

EPOCHS = 40
# By how much a client's number rises with each connection of its own.
MOST_CLIENTS = 100
KEYS = (b"a", b"b", b"c", b"n")
QUOTAS = ((1_000, 1_000_000), (1_000, 1_000_000), (3, 1_000_000), (1_000, 60))
# Quotas that an administrator sets; the first refuse most that grows.
NEW_QUOTAS = ((1, 1_000), (2, 1_000), (3, 1_000_000), (1_000, 20), (1_000, 60), (1_000, 1_000_000), (1_000, 1_000_000))
STOPPED = "another client stopped"
results = Results()
check = results.check


class Client:
    """A connection over the tenant's keys, and its calls."""

    of_line = staticmethod(protocol.line_request)

    def __init__(self, port, number, seed):
        self.number = number
        self.chance = random.Random(seed)
        self.socket = connect(port)
        self.received = bytearray()
        self.calls = []
        self.count = 0
        self.uniques = {}

    def data(self):
        """Data that no other command puts."""
        self.count += 1
        return b"%d.%d" % (self.number, self.count)

    def some_keys(self):
        return b" ".join(self.chance.sample(KEYS, self.chance.choice((1, 1, 2, 4))))

    def request(self):
        chance, key = self.chance, self.chance.choice(KEYS)
        kind, quiet = chance.random(), b" noreply" if self.chance.random() < 0.08 else b""
        if kind < 0.35:
            return b"%s %s\r\n" % (chance.choice((b"get", b"gets", b"gets")), self.some_keys())
        if kind < 0.47:
            return b"%s n %d%s\r\n" % (chance.choice((b"incr", b"incr", b"decr")), chance.randrange(1, 5), quiet)
        if kind < 0.57:
            return b"delete %s%s\r\n" % (key, quiet)
        if kind < 0.59:
            return b"flush_all%s\r\n" % quiet
        if kind < 0.67 and self.uniques:
            key, unique = chance.choice(sorted(self.uniques.items()))
            data = self.data()
            return b"cas %s 0 0 %d %d%s\r\n%s\r\n" % (key, len(data), unique, quiet, data)
        data = self.data() if key != b"n" or kind > 0.97 else b"%d" % chance.randrange(100)
        name = chance.choice((b"set", b"set", b"set", b"add", b"add", b"replace", b"append", b"prepend"))
        return b"%s %s 0 0 %d%s\r\n%s\r\n" % (name, key, len(data), quiet, data)

    def begin_epoch(self):
        """What it does before it asks."""

    def end_epoch(self):
        """What it does once it has asked."""

    def ask(self, stream):
        """Sends requests together, and notes when each was answered."""
        asked, sent = self.send(stream)
        for request in asked:
            self.take(request, sent)

    def send(self, stream):
        """The whole requests of what is sent, and when that was."""
        asked, sent = protocol.requests(stream, self.of_line), time.monotonic()
        self.socket.sendall(stream)
        return asked, sent

    def take(self, request, sent):
        """Notes the reply to a request that was sent at this time."""
        reply = b"" if request.is_quiet else self.reply(request.command)
        self.calls.append(Call(self.number, sent, time.monotonic(), request.command, reply, request.is_quiet))
        if request.command[0] == b"gets":
            self.uniques.update({key: unique for key, _, unique in checker.values(reply)[0]})

    def reply(self, command):
        while (end := checker.reply_end(command, self.received, 0)) is None:
            piece = self.socket.recv(1 << 16)
            if not piece:
                raise EOFError(f"the connection ended after {bytes(self.received)!r}")
            self.received += piece
        reply = bytes(self.received[:end])
        del self.received[:end]
        return reply


class Administrator(Client):
    """An administrator's connection, which sets the quotas of one tenant."""

    of_line = staticmethod(protocol.admin_request)

    def __init__(self, port, number, seed, tenant):
        super().__init__(port, number, seed)
        self.tenant = tenant.encode()

    def request(self):
        items, size = self.chance.choice(NEW_QUOTAS)
        return b"limit %s %d %d%s\r\n" % (self.tenant, items, size, b" noreply" if self.chance.random() < 0.2 else b"")


class KilledClient(Client):
    """A client with a connection for each epoch, which is killed at any byte; `pid` is the server's process."""

    def __init__(self, port, number, seed, pid):
        super().__init__(port, number, seed)
        self.port, self.pid = port, pid

    def begin_epoch(self):
        self.socket.close()
        self.number += MOST_CLIENTS
        self.socket = connect(self.port)
        self.received.clear()
        self.socket.sendall(b"version\r\n")
        self.reply((b"version",))

    def end_epoch(self):
        """Sends some of a stream, takes some of its replies, and kills the connection. Calls that no reply follows are lost."""
        stream = b"".join(self.request() for _ in range(self.chance.randrange(1, 5)))
        asked, sent = self.send(stream[: self.chance.randrange(len(stream) + 1)])
        taken = self.chance.randrange(len(asked) + 1)
        for request in asked[:taken]:
            self.take(request, sent)
        lost = [Call(self.number, sent, sent, request.command, b"", is_quiet=True) for request in asked[taken:]]
        while self.calls and self.calls[-1].is_quiet and self.calls[-1].client == self.number:
            lost.insert(0, self.calls.pop())
        closed = self.kill()
        changing = (call for call in lost if call.command[0] not in (b"get", b"gets"))
        self.calls += [dataclasses.replace(call, answered=closed, is_lost=True) for call in changing]

    def kill(self):
        """Closes the connection, by a reset or not; when the server had closed it too."""
        held, until = peer_socket(self.socket), time.monotonic() + SECONDS
        reset(self.socket) if self.chance.random() < 0.7 else self.socket.close()
        while held in sockets(self.pid):
            if time.monotonic() > until:
                raise TimeoutError("a killed connection stays open")
            time.sleep(0.001)
        return time.monotonic()


def run_client(kind, words, number, seed, barrier, pipe):
    """Sends some requests, then stops together with the others while the first client reads all keys; and again."""
    try:
        client = kind(words[0], number, seed, *words[1:])
        for _ in range(EPOCHS):
            barrier.wait(SECONDS)
            client.begin_epoch()
            for _ in range(client.chance.randrange(1, 5)):
                client.ask(b"".join(client.request() for _ in range(client.chance.choice((1, 1, 1, 2, 4)))))
            client.end_epoch()
            barrier.wait(SECONDS)
            if number == 0:
                client.ask(b"gets %s\r\n" % b" ".join(KEYS))
        pipe.send(client.calls)
    except threading.BrokenBarrierError:
        pipe.send(STOPPED)
    except Exception as error:  # whatever it is, the history is missing
        barrier.abort()
        pipe.send(f"{type(error).__name__}: {error}")


def start_clients(kinds, seed):
    """Starts processes with a client each, of these kinds; a tenant's clients stop together. The barrier is returned to keep its memory alive."""
    barrier, clients = multiprocessing.Barrier(len(kinds)), []
    for number, (kind, words) in enumerate(kinds):
        ours, theirs = multiprocessing.Pipe(duplex=False)
        process = multiprocessing.Process(target=run_client, args=(kind, words, number, f"{seed}/{number}", barrier, theirs), daemon=True)
        process.start()
        theirs.close()
        clients.append((process, ours))
    return barrier, clients


def collect(clients):
    """The history of a tenant, or what went wrong."""
    history, faults = [], []
    for process, pipe in clients:
        try:
            part = pipe.recv() if pipe.poll(2 * SECONDS) else "a client didn't end"
        except EOFError:
            part = "a client ended"
        process.kill()
        process.join()
        if isinstance(part, str):
            faults.append(part)
        else:
            history += part
    return ", ".join(fault for fault in faults if fault != STOPPED) or STOPPED if faults else history


def tenants_of(chance, count):
    return {f"t{number}": chance.choice(QUOTAS) for number in range(count)}


def run_one_log(program, seed, _number):
    """Runs a server over one log, and clients of several tenants at once; each tenant's history, and what ran."""
    chance = random.Random(seed)
    workers = chance.choice((1, 2, 2, 3, 4, 4, 16))
    tenants = tenants_of(chance, chance.choice((1, 2, 3, 4)))
    # When the log becomes full is known to a tenant that is alone.
    places = chance.randrange(1, 500) if len(tenants) == 1 else 65_536
    with Server(program, [*ADMIN, "--workers", str(workers), "--places", str(places)], among_idle(chance, tenants)) as server:
        kinds = {
            name: [(Client, (server.ports[name],))] * chance.choice((3, 4, 5))
            + [(Administrator, (server.ports["admin"], name))] * chance.choice((0, 1, 1))
            for name in tenants
        }
        for name, count, history in histories(kinds, seed):
            yield f"{workers} workers, {places} places, tenant {name}, {count} clients", Table(*tenants[name]), places, history


def run_endless(program, seed, number, workers, log_bytes, is_within):
    """As `run_one_log`, over logs that follow one another, next to clients whose connections are killed. The numbers of workers take turns."""
    chance = random.Random(seed)
    workers = workers[number % len(workers)]
    tenants = tenants_of(chance, 4)
    alike = {name: chance.choice((2, 3, 4)) for name in tenants}
    # All connections of tenants, of which a killed client has one for each epoch and one before, and one that asks nothing and keeps the
    # server until its metrics are read.
    connections = sum(count + 1 + EPOCHS for count in alike.values()) + 1
    options = [*ADMIN, *METRICS, "--workers", str(workers), *endless(log_bytes), "--connections", str(connections)]
    everyone = among_idle(chance, tenants)
    # An administrator may give a tenant as much as any.
    most = everyone | dict.fromkeys(tenants, max(QUOTAS))
    # A killed client's connection is gone before it has the next one.
    at_a_time = sum(count + 2 for count in alike.values()) + 1
    address_space = most_of_endless(workers, most, at_a_time, log_bytes, len(KEYS)) if is_within else None
    with Server(program, options, everyone, address_space=address_space) as server:
        idle = server.connect(next(iter(tenants)))
        kinds = {
            name: [(Client, (server.ports[name],))] * alike[name]
            + [(Administrator, (server.ports["admin"], name)), (KilledClient, (server.ports[name], server.pid))]
            for name in tenants
        }
        for name, count, history in histories(kinds, seed):
            yield f"{workers} workers, one log after another, tenant {name}, {count} clients", Table(*tenants[name]), math.inf, history
        what = f"run {seed}, {workers} workers"
        check(f"{what}: logs follow one another", server.turn_overs() > 0)
        idle.close()
        check_end(server, what)


def check_end(server, what):
    """The server ends by itself once all clients are gone."""
    try:
        ended = server.wait(SECONDS)
    except subprocess.TimeoutExpired:
        ended = "not at all"
    check(f"{what}: the end", ended[0] == 0 and ended[1].startswith(b"done ") and not ended[2], ended)


def histories(kinds, seed):
    """The history of each tenant, whose clients are of these kinds, with their number; all of them at once."""
    begun = {name: start_clients(of_tenant, f"{seed}/{name}") for name, of_tenant in kinds.items()}
    for name, (_, clients) in begun.items():
        yield name, len(clients), collect(clients)


def check_histories(run, runs, program, seconds, seed):
    """Checks at least this many runs, and as many more as begin within the time."""
    until, number, calls, most = time.monotonic() + seconds, 0, 0, 0.0
    while number < runs or time.monotonic() < until:
        for what, table, places, history in run(program, f"{seed}/{number}", number):
            name = f"--seed {seed}, run {number}, {what}"
            if isinstance(history, str):
                check(f"{name}: {history}", False)
                continue
            search = checker.Search(history, table, places)
            holds = search.succeeds()
            check(f"{name}: no order explains {len(history)} calls; {search.furthest()}", holds)
            if places == math.inf:
                check(f"{name}: a reply is that the log is full", all(one.reply != protocol.LOG_FULL for one in history))
            calls += len(history)
            most = max(most, search.steps / len(history))
        number += 1
    print(f"{calls} calls in {number} runs; {most:.1f} steps a call at most", flush=True)


def call(client, sent, answered, text, reply):
    """A call, by what is sent and what comes back."""
    (request,) = protocol.requests(text)
    return Call(client, sent, answered, request.command, reply, request.is_quiet)


def lost(client, sent, closed, text):
    """A call over a connection that was killed before the reply came, and that the server had closed by this time."""
    (request,) = protocol.requests(text)
    return Call(client, sent, closed, request.command, b"", is_quiet=True, is_lost=True)


def limit(client, sent, answered, items, size, reply=protocol.OK):
    """A call of an administrator, who sets the quotas."""
    return Call(client, sent, answered, (b"limit", items, size), reply)


def put(name, key, data):
    return b"%s %s 0 0 %d\r\n%s\r\n" % (name, key, len(data), data)


def shown(key, data, unique=None):
    tail = b"" if unique is None else b" %d" % unique
    return b"VALUE %s 0 %d%s\r\n%s\r\n" % (key, len(data), tail, data)


SET_1, SET_2, GET_A = put(b"set", b"a", b"1"), put(b"set", b"a", b"2"), b"get a\r\n"
SET_B, SET_C = put(b"set", b"b", b"3"), put(b"set", b"c", b"4")
STORED, NO_ROOM, END = protocol.STORED, protocol.NO_ROOM, b"END\r\n"
IS_1, IS_2 = shown(b"a", b"1") + END, shown(b"a", b"2") + END
FIRST = call(0, 0, 1, SET_1, STORED)

# Histories, each with whether it is linearizable: client, sent at, answered at, text and reply of each call.
HISTORIES = {
    "a read of the last write": (True, [FIRST, call(1, 2, 3, GET_A, IS_1)]),
    "a read during a write, of the old": (True, [FIRST, call(0, 2, 5, SET_2, STORED), call(1, 3, 4, GET_A, IS_1)]),
    "a read during a write, of the new": (True, [FIRST, call(0, 2, 5, SET_2, STORED), call(1, 3, 4, GET_A, IS_2)]),
    "a stale read": (False, [FIRST, call(0, 2, 3, SET_2, STORED), call(1, 4, 5, GET_A, IS_1)]),
    "a lost write": (False, [FIRST, call(1, 2, 3, GET_A, END)]),
    "a write that nobody sent": (False, [FIRST, call(1, 2, 3, GET_A, IS_2)]),
    "two adds at once, one of which stored": (True, [call(0, 0, 3, put(b"add", b"a", b"1"), STORED), call(1, 1, 2, put(b"add", b"a", b"2"), protocol.NOT_STORED)]),
    "two adds that both stored": (False, [call(0, 0, 3, put(b"add", b"a", b"1"), STORED), call(1, 1, 2, put(b"add", b"a", b"2"), STORED)]),
    "two adds that both didn't": (False, [call(0, 0, 3, put(b"add", b"a", b"1"), protocol.NOT_STORED), call(1, 1, 2, put(b"add", b"a", b"2"), protocol.NOT_STORED)]),
    "two incrs at once, the later call first": (True, [FIRST, call(0, 2, 5, b"incr a 1\r\n", b"3\r\n"), call(1, 3, 4, b"incr a 1\r\n", b"2\r\n")]),
    "an incr that counted twice": (False, [FIRST, call(0, 2, 3, b"incr a 1\r\n", b"3\r\n")]),
    "two incrs that gave the same": (False, [FIRST, call(0, 2, 5, b"incr a 1\r\n", b"2\r\n"), call(1, 3, 4, b"incr a 1\r\n", b"2\r\n")]),
    "incrs against the times": (False, [FIRST, call(0, 2, 3, b"incr a 1\r\n", b"3\r\n"), call(1, 4, 5, b"incr a 1\r\n", b"2\r\n")]),
    "its own write isn't read": (False, [FIRST, call(0, 2, 9, SET_2, STORED), call(0, 2, 9, GET_A, IS_1)]),
    "two readers who see two writes in two orders": (
        False,
        [call(0, 0, 9, SET_1, STORED), call(1, 0, 9, SET_2, STORED), call(2, 1, 2, GET_A, IS_1), call(2, 3, 4, GET_A, IS_2), call(3, 1, 2, GET_A, IS_2), call(3, 3, 4, GET_A, IS_1)],
    ),
    "a unique of the order": (True, [FIRST, call(0, 2, 3, put(b"set", b"b", b"3"), STORED), call(1, 4, 5, b"gets a b\r\n", shown(b"a", b"1", 1) + shown(b"b", b"3", 2) + END)]),
    "uniques against the order": (False, [FIRST, call(0, 2, 3, put(b"set", b"b", b"3"), STORED), call(1, 4, 5, b"gets a b\r\n", shown(b"a", b"1", 2) + shown(b"b", b"3", 1) + END)]),
    "a unique that was used twice": (False, [FIRST, call(0, 2, 3, put(b"set", b"b", b"3"), STORED), call(1, 4, 5, b"gets a b\r\n", shown(b"a", b"1", 1) + shown(b"b", b"3", 1) + END)]),
    "a cas by an old unique that stored": (False, [FIRST, call(0, 2, 3, SET_2, STORED), call(1, 4, 5, b"cas a 0 0 1 1\r\nx\r\n", STORED)]),
    "two deletes of one item": (False, [FIRST, call(0, 2, 5, b"delete a\r\n", protocol.DELETED), call(1, 3, 4, b"delete a\r\n", protocol.DELETED)]),
    "an item after a flush": (False, [FIRST, call(0, 2, 3, b"flush_all\r\n", protocol.OK), call(1, 4, 5, GET_A, IS_1)]),
    "the second of two writes and not the first": (False, [call(0, 0, 1, SET_1, STORED), call(0, 2, 3, put(b"set", b"b", b"3"), STORED), call(1, 2, 9, b"get a b\r\n", shown(b"b", b"3") + END)]),
    "a write that lowered quotas refuse": (True, [FIRST, limit(1, 2, 3, 1, 100), call(0, 4, 5, SET_B, NO_ROOM)]),
    "a write beside the lowering that refuses it": (True, [FIRST, limit(1, 2, 9, 1, 100), call(0, 3, 4, SET_B, STORED), call(0, 5, 6, SET_C, NO_ROOM)]),
    "a write before the lowering that refuses it": (False, [FIRST, call(0, 2, 3, SET_B, NO_ROOM), limit(1, 4, 5, 1, 100)]),
    "a write above lowered quotas": (False, [FIRST, limit(1, 2, 3, 1, 100), call(0, 4, 5, SET_B, STORED)]),
    "what stands above lowered quotas is read": (True, [FIRST, limit(1, 2, 3, 1, 1), call(0, 4, 5, GET_A, IS_1)]),
    "what stands above lowered quotas is gone": (False, [FIRST, limit(1, 2, 3, 1, 1), call(0, 4, 5, GET_A, END)]),
    "a write that raised quotas admit": (True, [FIRST, limit(1, 2, 3, 1, 100), limit(1, 4, 5, 2, 100), call(0, 6, 7, SET_B, STORED)]),
    "a write that raised quotas refuse": (False, [FIRST, limit(1, 2, 3, 1, 100), limit(1, 4, 5, 2, 100), call(0, 6, 7, SET_B, NO_ROOM)]),
    "two workers with other quotas": (False, [FIRST, limit(1, 2, 3, 1, 100), call(0, 4, 5, SET_B, NO_ROOM), call(2, 6, 7, SET_B, STORED)]),
    "a lost write that is read": (True, [FIRST, lost(1, 2, 3, SET_2), call(0, 4, 5, GET_A, IS_2)]),
    "a lost write that isn't read": (True, [FIRST, lost(1, 2, 3, SET_2), call(0, 4, 5, GET_A, IS_1)]),
    "a lost write that is read before its connection is closed": (True, [FIRST, lost(1, 2, 9, SET_2), call(0, 3, 4, GET_A, IS_1), call(0, 5, 6, GET_A, IS_2)]),
    "a lost write after its connection was closed": (False, [FIRST, lost(1, 2, 3, SET_2), call(0, 4, 5, GET_A, IS_1), call(0, 6, 7, GET_A, IS_2)]),
    "a lost write before it was sent": (False, [FIRST, call(0, 2, 3, GET_A, IS_2), lost(1, 4, 5, SET_2)]),
    "a lost write that is read and then not": (False, [FIRST, lost(1, 2, 9, SET_2), call(0, 3, 4, GET_A, IS_2), call(0, 5, 6, GET_A, IS_1)]),
    "the first of two lost writes": (True, [FIRST, lost(1, 2, 3, SET_B), lost(1, 2, 3, SET_C), call(0, 4, 5, b"get b c\r\n", shown(b"b", b"3") + END)]),
    "the second of two lost writes and not the first": (False, [FIRST, lost(1, 2, 3, SET_B), lost(1, 2, 3, SET_C), call(0, 4, 5, b"get b c\r\n", shown(b"c", b"4") + END)]),
    "a lost write whose unique is used": (False, [FIRST, lost(1, 2, 3, SET_2), call(0, 4, 5, b"gets a\r\n", shown(b"a", b"2", 3) + END)]),
    "a quiet write that came late": (True, [FIRST, call(0, 2, 2, b"set a 0 0 1 noreply\r\n2\r\n", b""), call(1, 3, 4, GET_A, IS_1), call(0, 3, 9, GET_A, IS_2)]),
    "a quiet write that never came": (False, [FIRST, call(0, 2, 2, b"set a 0 0 1 noreply\r\n2\r\n", b""), call(0, 3, 4, GET_A, IS_1)]),
}  # fmt: skip


class PretendedClient(Client):
    """A client whose requests a table answers at once, at invented times."""

    def __init__(self, number, seed):
        self.number, self.chance, self.count, self.uniques = number, random.Random(seed), 0, {}


def pretended_history(seed, losing=0.0):
    """A linearizable history: each call takes effect at a moment of its own between its two times. So many calls are lost, with effect or not."""
    chance, table, history = random.Random(seed), Table(1_000, 1_000_000), []
    clients = [PretendedClient(number, f"{seed}/{number}") for number in range(4)]
    ends = [0.0] * len(clients)
    for moment in range(120):
        number = chance.randrange(len(clients))
        (request,) = protocol.requests(clients[number].request())
        if chance.random() < losing:
            if chance.random() < 0.5:
                table.answer(request.command)
            times = moment - chance.random() * 4, moment + chance.random() * 4
            history.append(Call(len(clients) + moment, *times, request.command, b"", is_quiet=True, is_lost=True))
            continue
        reply = table.answer(request.command)
        if request.command[0] == b"gets":
            clients[number].uniques.update({key: unique for key, _, unique in checker.values(reply)[0]})
        sent = max(ends[number], moment - chance.random() * 4)
        ends[number] = moment + chance.random() * 0.9
        history.append(Call(number, sent, ends[number], request.command, b"" if request.is_quiet else reply, request.is_quiet))
    last = Call(0, 200, 201, (b"gets", KEYS), table.answer((b"gets", KEYS)))
    return [*history, last]


def spoiled(history):
    """The history without a change that a later `gets` shows."""
    shown_data = {data for one in history if one.command[0] == b"gets" for _, data, _ in checker.values(one.reply)[0] if b"." in data}
    for index, one in enumerate(history):
        if one.command[0] in (b"set", b"add", b"replace", b"cas") and one.command[3] in shown_data:
            return history[:index] + history[index + 1 :]
    return None


def check_full():
    """A log with one place is full for the next command, and for none before it."""
    full = call(1, 2, 3, GET_A, protocol.LOG_FULL)
    check("self-test: full in time", checker.is_linearizable([FIRST, full], places=1))
    check("self-test: full too early", not checker.is_linearizable([FIRST, full], places=2))
    check("self-test: full too late", not checker.is_linearizable([FIRST, call(1, 2, 3, GET_A, IS_1), call(1, 4, 5, GET_A, protocol.LOG_FULL)], places=1))


def self_test():
    check_full()
    for what, (wanted, history) in HISTORIES.items():
        check(f"self-test: {what}", checker.is_linearizable(history) == wanted)
    for seed, losing in [*((seed, 0.0) for seed in range(60)), *((seed, 0.2) for seed in range(60, 90))]:
        history = pretended_history(seed, losing)
        check(f"self-test: a right history, {seed}", checker.is_linearizable(history))
        wrong = spoiled(history)
        if wrong:
            check(f"self-test: a change is left out, {seed}", not checker.is_linearizable(wrong))


def words():
    parser = argparse.ArgumentParser(description=__doc__.split("\n")[0])
    parser.add_argument("seconds", nargs="?", type=float, default=60.0)
    parser.add_argument("program", nargs="?", default=repository.program("wfmc"))
    parser.add_argument("--seed", type=int, default=int.from_bytes(os.urandom(3), "big"))
    parser.add_argument("--generations", action="store_true", help="over logs of 64 places, one after another")
    parser.add_argument("--workers", type=int, help="with --generations: always this many")
    parser.add_argument("--log-bytes", type=int, help="with --generations: over logs that are closed after this many bytes of commands")
    parser.add_argument("--self-test", action="store_true", help="tests the checker itself")
    parser.add_argument("--within", action="store_true", help="with --generations: with no more memory than OPERATING says")
    asked = parser.parse_intermixed_args()
    if not asked.generations and (asked.workers or asked.log_bytes or asked.within):
        parser.error("--workers, --log-bytes and --within go with --generations")
    return asked


def main():
    asked = words()
    if asked.self_test:
        self_test()
    else:
        repository.enter(asked.program)
        print(f"--seed {asked.seed}", flush=True)
        workers = (asked.workers,) if asked.workers else ENDLESS_WORKERS
        run_logs = functools.partial(run_endless, workers=workers, log_bytes=asked.log_bytes, is_within=asked.within)
        run, runs = (run_logs, len(workers)) if asked.generations else (run_one_log, 1)
        check_histories(run, runs, asked.program, asked.seconds, asked.seed)
    results.finish()


main()
