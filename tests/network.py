#!/usr/bin/env python3
"""Tests wfmc, as built, over sockets on loopback: network.py [BINARY].

Every golden test of mc_stdin that a server can answer (tests/rows/mc_stdin): its input over one connection, whole and, where it is short, a
byte at a time, by 1 worker for the first tenant and by 4 for the 17th (over several logs by 1 for the 17th); the bytes that come back must be
the same. Then clients that others must not notice: one that closes in the middle of a block, one that resets, one that never reads, more
connections than a worker takes, two tenants with the same key, 500 commands of 8 clients at once, 64 tenants, refused lines of the 17th with
noreply and without it, 300 clients of the 17th that each send 100 KB at once, all places of the longest log, and logs that follow one another
once their places are taken, or their bytes, while clients are cut off around each turn over.
An administrator, whose quotas are in force at every worker, and whom no tenant locks out. Tenants for whom places are kept, clients who have one
next to a crowd of another tenant's, and clients who are served by another worker where theirs has no place (network_places.py). And clients that
nobody may forget: the process is stopped until many have connected, asked or left, and then goes on, while a worker is busy, or descriptors are
scarce. Where no client is left, everything is given back, and no thread wakes. Clients that send more behind their last request, and read late, get
all their replies, at the end of a run too; where more leave than close, others are cut off for them; and where a wait for events fails
(tests/fail_wait.c, which needs gcc), everything ends. Connections have the system's keepalive.
Prints a line for each failure; the last line is 'N passed, M failed'.
"""

import concurrent.futures
import contextlib
import functools
import itertools
import pathlib
import random
import resource
import select
import shutil
import socket
import subprocess
import sys
import threading
import time

import network_places
from harness import preload, repository, servers
from harness.answers import PATIENCE, answer, are_answered, ask, is_answered, is_answered_again, is_closed, is_ended
from harness.client import exchange, late_reply, peer_sockets, reset
from harness.processes import sockets
from harness.results import Results
from harness.servers import ADMIN, METRICS, Server, behind, free_port
from network_places import LARGE, waiting_room
from oracle.protocol import BAD_CHUNK, BAD_FORMAT, MOST_OF_DATA, NO_EXPIRY, NO_ROOM, STORAGE, STORED, TOO_LARGE, VERSION

PROGRAM = sys.argv[1] if len(sys.argv) > 1 else repository.program("wfmc")
SHORT = 4096
results = Results()
check = results.check
ending_of = functools.partial(servers.ending_of, PROGRAM)


def in_steps(sent, step):
    """The bytes in pieces of this size, or whole."""
    return [sent[at : at + step] for at in range(0, len(sent), step)] if step else [sent]


def options_of(words):
    """The options of wfmc and the quotas of a tenant for a golden test's words; `None` where a server has no such options."""
    options, quotas = [], {"--items": "1048576", "--bytes": "67108864"}
    rest = [it for word in words for it in word.split("=")]
    while rest:
        option, *rest = rest
        if option not in ("--places", "--generations", *quotas):
            return None
        value, *rest = rest
        if option in quotas:
            quotas[option] = value
        else:
            options += [option, value]
    return options, tuple(quotas.values())


def golden_tests():
    for row in sorted(pathlib.Path("tests/rows/mc_stdin").iterdir()):
        options = options_of((row / "words").read_text().split("\n")[:-1] if (row / "words").stat().st_size else [])
        if options and (row / "status").read_text().strip() == "0":
            yield row.name, *options, (row / "input").read_bytes(), (row / "output").read_bytes()


def check_golden_tests():
    for name, options, quotas, sent, wanted in golden_tests():
        # Several workers leave the last places of a log to no command where another follows.
        for workers, idle in (("1", 16),) if "--generations" in options else (("1", 0), ("4", 16)):
            for step in [None, 1] if len(sent) <= SHORT else [None]:
                with Server(PROGRAM, ["--workers", workers, *options], behind(idle, {"a": quotas})) as server:
                    what = f"{name}, {workers} workers, tenant {idle + 1}, {'whole' if step is None else 'by bytes'}"
                    check(what, exchange(server.ports["a"], in_steps(sent, step)) == (wanted, "end"))


MEGABYTE = 1_000_000
# Gets of this many keys keep a worker busy: of an item of a megabyte, and of no item.
BLOCKS = 100
MISSES = 30_000
LATE_READERS = 40


def store_block(server):
    """Stores an item of a megabyte, of which a get of many makes a worker busy for a while."""
    check("a megabyte", answer(server, "a", b"set k 0 0 %d\r\n%s\r\n" % (MEGABYTE, b"k" * MEGABYTE)) == b"STORED\r\n")


def get_of_many(count):
    return b"get" + b" k" * count + b"\r\n"


def rests(server, descriptors, wakes=0):
    """Whether it comes down to this many descriptors, then uses no processor for a while, and wakes no more often than this."""
    until = time.monotonic() + PATIENCE
    while time.monotonic() < until:
        switched, used = server.context_switches(), server.processor_seconds()
        time.sleep(0.3)
        if server.context_switches() - switched <= wakes and server.processor_seconds() - used < 0.1 and server.descriptors() == descriptors:
            return True
    return False


def settled_descriptors(server):
    """How many descriptors it has, once that stays the same for a while: a client may see its end before the server has closed the stream."""
    count, before = server.descriptors(), -1
    while count != before:
        time.sleep(0.1)
        count, before = server.descriptors(), count
    return count


def check_tenants():
    with Server(PROGRAM, ["--connections", "2"], {"a": LARGE, "b": LARGE}) as server:
        check("the first tenant's", answer(server, "a", b"set a 0 0 1\r\nx\r\ngets a\r\nquit\r\n") == b"STORED\r\nVALUE a 0 1 1\r\nx\r\nEND\r\n")
        check("the second tenant's", answer(server, "b", b"gets a\r\nset a 0 0 1\r\ny\r\ngets a\r\nquit\r\n") == b"END\r\nSTORED\r\nVALUE a 0 1 1\r\ny\r\nEND\r\n")
        check("the end", server.wait() == (0, b"done 5\n", b""))


def storage_line(verb, last=b"", exptime=0, size=1, end=b"\r\n"):
    """A storage line of this command with this last word, and its data with what ends them."""
    unique = b" 1" if verb == b"cas" else b""
    return b"%s k 0 %d %d%s%s\r\n%s%s" % (verb, exptime, size, unique, last, b"x" * size, end)


def check_all_tenants():
    """64 tenants at two workers: each reads what it has stored itself, behind lines with noreply that are refused, and quotas go to the one that an
    administrator names."""
    tenants = {f"t{number}": LARGE for number in range(64)}
    with Server(PROGRAM, [*ADMIN, "--workers", "2"], tenants) as server:
        clients = {name: server.connect(name) for name in tenants}
        for name, client in clients.items():
            client.sendall(b"set k 0 0 3\r\n%-3s\r\n" % name.encode())
        check("each of 64 tenants stores", are_answered(clients.values(), b"STORED\r\n"))
        for client in clients.values():
            client.sendall(storage_line(b"set", b" noreply", exptime=9) + storage_line(b"cas", b" noreply", exptime=60) + b"gets k\r\n")
        held = {name: is_answered(client, b"VALUE k 0 3 1\r\n%-3s\r\nEND\r\n" % name.encode()) for name, client in clients.items()}
        check("each of 64 tenants reads its own", all(held.values()), " ".join(name for name, right in held.items() if not right))
        check("quotas of the last one", answer(server, "admin", b"limit t63 1 100\r\nquit\r\n") == b"OK\r\n")
        for client in clients.values():
            client.sendall(b"set l 0 0 1\r\nx\r\n")
        held = {name: is_answered(client, NO_ROOM if name == "t63" else b"STORED\r\n") for name, client in clients.items()}
        check("they are its own", all(held.values()), " ".join(name for name, right in held.items() if not right))
        for client in clients.values():
            client.close()


def refused_lines():
    """Storage lines of each command that are refused: the command, what is wrong with the line, and the refusal."""
    for verb in STORAGE:
        if verb not in (b"append", b"prepend"):
            yield verb, {"exptime": 60}, NO_EXPIRY
        yield verb, {"size": MOST_OF_DATA + 1}, TOO_LARGE
        yield verb, {"end": b"xy"}, BAD_CHUNK


def check_refused_lines():
    """Of the 17th tenant's lines that are refused only those without noreply are answered, and none stores anything."""
    with Server(PROGRAM, ["--workers", "1"], behind(16, {"a": LARGE})) as server:
        for verb, wrong, refusal in refused_lines():
            quiet, answered = (storage_line(verb, last, **wrong) for last in (b" noreply", b""))
            replies = answer(server, "a", quiet + b"version\r\n" + answered + b"get k\r\n")
            check(f"{verb.decode()} that is refused for its {', '.join(wrong)}", replies == VERSION + refusal + b"END\r\n", replies)


def check_much_of_many():
    """300 clients of the 17th tenant, who each send 100 KB of sets at once, and all of them there: each is answered, and the last one's item is kept."""
    with Server(PROGRAM, [], behind(16, {"a": LARGE})) as server:
        clients = [server.connect("a", PATIENCE) for _ in range(300)]
        with server.stopped():
            for number, client in enumerate(clients):
                client.sendall(b"set k%d 0 0 4000\r\n%s\r\n" % (number, b"%04d" % number * 1_000) * 25)
        check("300 clients that send much", are_answered(clients, STORED * 25))
        check("the last one's item", answer(server, "a", b"get k299\r\n") == b"VALUE k299 0 4000\r\n%s\r\nEND\r\n" % (b"0299" * 1_000))
        for client in clients:
            client.close()


def check_others_unnoticed():
    """One worker, so that all clients share it."""
    with Server(PROGRAM, ["--workers", "1"], {"a": LARGE}) as server:
        check("a first client", answer(server, "a", b"version\r\n") == VERSION)
        descriptors = settled_descriptors(server)
        with server.connect("a") as client:
            client.sendall(b"set k 0 0 5\r\nab")
        client = server.connect("a")
        client.sendall(b"set k 0 0 5\r\nab")
        reset(client)
        block = b"v" * 100_000
        lazy = server.connect("a")
        lazy.sendall(b"set big 0 0 100000\r\n" + block + b"\r\n")
        check("a client before it stops reading", lazy.recv(8, socket.MSG_WAITALL) == b"STORED\r\n")
        lazy.setblocking(False)
        try:
            while True:
                lazy.send(b"get big\r\n" * 100)
        except BlockingIOError:
            pass
        check("next to a client that never reads", answer(server, "a", b"get k\r\nget big\r\nquit\r\n") == b"END\r\nVALUE big 0 100000\r\n" + block + b"\r\nEND\r\n")
        lazy.close()
        check("after it", answer(server, "a", b"get k\r\n") == b"END\r\n")
        check("nobody is left, and it rests", rests(server, descriptors))


def check_too_many():
    """1,024 connections are served by a worker, in the order in which they came, and one more is closed without a byte. All but the first
    come while the worker is busy with that one's reply. Each needs a descriptor here and one there."""
    if min(resource.getrlimit(resource.RLIMIT_NOFILE)[0], waiting_room()) < 1100:
        print("1,024 connections aren't tried: too few are allowed here")
        return
    with Server(PROGRAM, ["--workers", "1"], {"a": LARGE}) as server:
        store_block(server)
        busy = server.connect("a")
        with server.stopped():
            busy.sendall(get_of_many(BLOCKS))
            clients = [ask(server, "a", b"get l\r\n") for _ in range(1023)]
            last = server.connect("a")
        check("1,024 connections", are_answered(clients, b"END\r\n"))
        check("one more", last.recv(100) == b"")
        clients[0].close()
        clients[1].sendall(b"get l\r\n")
        check("those before go on", clients[1].recv(100) == b"END\r\n")
        check("a place is free again", answer(server, "a", b"get l\r\n") == b"END\r\n")
        for client in clients:
            client.close()


def check_admin():
    """An administrator next to one tenant: what it is answered, and its quotas at every worker."""
    with Server(PROGRAM, [*ADMIN, "--workers", "4"], {"a": LARGE, "b": LARGE}) as server:
        check("its line comes last", list(server.ports) == ["a", "b", "admin"] and server.is_ready)
        check("two items before", answer(server, "a", b"set k 0 0 3\r\nold\r\nset l 0 0 1\r\nx\r\n") == b"STORED\r\n" * 2)
        said = answer(server, "admin", b"limit a 2 100\r\nlimit x 1 1\r\nget a\r\nquit\r\n")
        check("an administrator is answered", said == b"OK\r\nCLIENT_ERROR bad command line format\r\nERROR\r\n")
        # Connections are handed to the workers in turn.
        refused = [answer(server, "a", b"set n 0 0 1\r\nx\r\n") for _ in range(8)]
        check("the new quota is in force at every worker", refused == [NO_ROOM] * 8)
        check("what was there stays", answer(server, "a", b"get k l\r\n") == b"VALUE k 0 3\r\nold\r\nVALUE l 0 1\r\nx\r\nEND\r\n")
        check("below what is held", answer(server, "admin", b"limit a 1 1 noreply\r\nversion\r\n") == VERSION)
        check("still it stays", answer(server, "a", b"get k\r\nset k 0 0 4\r\nmore\r\n") == b"VALUE k 0 3\r\nold\r\nEND\r\n" + NO_ROOM)
        check("a delete works", answer(server, "a", b"delete k\r\nset k 0 0 0\r\n\r\n") == b"DELETED\r\n" + NO_ROOM)
        check("a flush works", answer(server, "a", b"flush_all\r\nset k 0 0 0\r\n\r\n") == b"OK\r\nSTORED\r\n")
        check("another tenant's are as they were", answer(server, "b", b"set k 0 0 3\r\nnew\r\nset l 0 0 1\r\nx\r\n") == b"STORED\r\n" * 2)
        check("a tenant sets none", answer(server, "a", b"limit a 5 5\r\n") == b"ERROR\r\n")
        check("raised again", answer(server, "admin", b"limit a 1000 1000\r\n") == b"OK\r\n")
        stored = [answer(server, "a", b"set n%d 0 0 1\r\nx\r\n" % number) for number in range(8)]
        check("at every worker", stored == [b"STORED\r\n"] * 8)
        bad = b"limit\r\nlimit a 1\r\nlimit a 1 1 1\r\nlimit a 1 1 1 1\r\nlimit a 0 1\r\nlimit a 1 1073741825\r\nlimit A 1 1\r\n"
        wanted = b"ERROR\r\n" * 2 + BAD_FORMAT + b"ERROR\r\n" + BAD_FORMAT * 3
        check("lines of another form", answer(server, "admin", bad) == wanted)
        check("they set nothing", answer(server, "a", b"set m 0 0 1\r\nx\r\n") == b"STORED\r\n")


def check_admin_does_not_count():
    """`--connections` counts the connections of tenants, and the server ends when all have ended."""
    with Server(PROGRAM, [*ADMIN, "--connections", "2"], {"a": LARGE}) as server:
        for _ in range(3):
            check("an administrator comes and goes", answer(server, "admin", b"limit a 1 100\r\nquit\r\n") == b"OK\r\n")
        for _ in range(2):
            check("a tenant's client", answer(server, "a", b"version\r\nquit\r\n") == VERSION)
        check("the end after two", server.wait() == (0, b"done 3\n", b""))


def check_admins_address():
    with socket.create_server(("127.0.0.1", 0)) as other:
        taken = "127.0.0.1:%d" % other.getsockname()[1]
        check("a port in use", ending_of("--admin", taken, "a=127.0.0.1:0,1,1") == (1, b"", b"wfmc: cannot listen admin\n"))
        check("a tenant's is tried first", ending_of("--admin", taken, f"a={taken},1,1") == (1, b"", b"wfmc: cannot listen a\n"))
    port = free_port()
    check("a port of two tenants", ending_of(*(f"{name}=127.0.0.1:{port},1,1" for name in "ab")) == (1, b"", b"wfmc: cannot listen b\n"))
    refused = 2, b"", b"wfmc: bad settings\n"
    check("a tenant named admin", ending_of("--admin", "127.0.0.1:0", "a=127.0.0.1:0,1,1", "admin=127.0.0.1:0,1,1") == refused)
    for address in ("127.0.0.1", "localhost:1", "[::1]:1", "127.0.0.1:65536", "127.0.0.1:0,1,1"):
        check(f"no address: {address}", ending_of(f"--admin={address}", "a=127.0.0.1:0,1,1") == refused)
    with Server(PROGRAM, [], {"admin": LARGE}) as server:
        check("a tenant of that name, where there are no administrators", answer(server, "admin", b"limit admin 1 1\r\nget a\r\n") == b"ERROR\r\nEND\r\n")


def check_crowd():
    """More clients of a tenant come at once than a worker takes, and then one of another's, which has its turn before them all have had theirs."""
    if min(resource.getrlimit(resource.RLIMIT_NOFILE)[0], waiting_room()) < 1_600:
        print("a crowd isn't tried: too few connections are allowed here")
        return
    for name, another in ("ab", "ba"):
        with Server(PROGRAM, ["--workers", "1"], {"a": LARGE, "b": LARGE}) as server:
            check("a client before a crowd", is_answered(ask(server, name)))
            with server.stopped():
                crowd = [server.connect(name, PATIENCE) for _ in range(1_500)]
                other = ask(server, another)
            check("another tenant's client after a crowd", is_answered(other))
            for client in crowd:
                client.close()


def check_at_once():
    """Clients of two tenants come at once, ask at once, and leave at once, some in the middle of a block and some by a reset; one worker has them all."""
    with Server(PROGRAM, ["--workers", "1"], {"a": LARGE, "b": LARGE}) as server:
        check("a first client", answer(server, "a", b"version\r\n") == VERSION)
        descriptors = settled_descriptors(server)
        with server.stopped():
            clients = [ask(server, "ab"[number % 2]) for number in range(100)]
        check("clients that come at once", are_answered(clients))
        with server.stopped():
            for client in clients:
                client.sendall(b"version\r\n")
        check("clients that ask at once", are_answered(clients))
        check("idle clients, and it rests", rests(server, descriptors + 100))
        with server.stopped():
            for number, client in enumerate(clients):
                client.sendall(b"set k 0 0 5\r\nab") if number % 3 else client.sendall(b"version\r\n")
                reset(client) if number % 2 else client.close()
        check("no client, and it rests", rests(server, descriptors))


def check_much_at_once():
    """Clients of one worker, each with requests for many turns, and all of them there."""
    with Server(PROGRAM, ["--workers", "1"], {"a": LARGE}) as server:
        clients = [server.connect("a", PATIENCE) for _ in range(8)]
        request = b"set k 0 0 50000\r\n" + b"k" * 50_000 + b"\r\n"
        for client in clients:
            client.sendall(request * 10)
        check("clients that send much", are_answered(clients, b"STORED\r\n" * 10))
        with server.stopped():
            for client in clients:
                client.sendall(request * 3)
        check("clients that send much at once", are_answered(clients, b"STORED\r\n" * 3))
        with server.stopped():
            for client in clients:
                client.sendall(request * 3)
                client.shutdown(socket.SHUT_WR)
        check("clients that come meanwhile", all(is_answered(ask(server, "a")) for _ in range(20)))
        check("clients next to whom others come", are_answered(clients, b"STORED\r\n" * 3))
        check("their ends", all(is_ended(client) for client in clients))


def check_busy_worker():
    """A worker that is busy with a reply: clients come meanwhile, and then those ask who were there; one asks for much, and reads it late."""
    with Server(PROGRAM, ["--workers", "1"], {"a": LARGE, "b": LARGE}) as server:
        store_block(server)
        busy, others = server.connect("a", PATIENCE), [ask(server, "b") for _ in range(20)]
        check("clients before the worker is busy", are_answered(others))
        with server.stopped():
            busy.sendall(get_of_many(BLOCKS))
            more = [ask(server, "b") for _ in range(300)]
        time.sleep(0.01)
        for client in others:
            client.sendall(b"version\r\n")
        check("clients that come to a busy worker", are_answered(more))
        check("clients that ask a busy worker", are_answered(others))
        check("a reply that is read late", is_answered(busy, (b"VALUE k 0 %d\r\n%s\r\n" % (MEGABYTE, b"k" * MEGABYTE)) * BLOCKS + b"END\r\n"))


def check_flood():
    """A client whose requests come faster than they are answered, and one of another tenant at the same worker."""
    with Server(PROGRAM, ["--workers", "1"], {"a": LARGE, "b": LARGE}) as server:
        flooding, is_over = server.connect("a", PATIENCE), threading.Event()

        def flood():
            with contextlib.suppress(OSError):
                while not is_over.is_set():
                    flooding.sendall(get_of_many(MISSES) * 10)

        thread = threading.Thread(target=flood)
        thread.start()
        time.sleep(0.1)
        check("next to a flood", is_answered(ask(server, "b")))
        check("the flood goes on", thread.is_alive())
        is_over.set()
        reset(flooding)
        thread.join()


def check_short_requests():
    """More requests at once than a turn takes, behind a line so long that a read takes as much as it can: no event tells of those that wait."""
    with Server(PROGRAM, ["--workers", "1"], {"a": LARGE}) as server:
        client = ask(server, "a", b"set n 0 0 1\r\n0\r\n")
        check("a number before short requests", is_answered(client, b"STORED\r\n"))
        with server.stopped():
            client.sendall(b"x" * 2_048 + b"\n" + b"incr n 1\r\n" * 1_600 + b"\n" * 16_384)
        counts = b"".join(b"%d\r\n" % count for count in range(1, 1_601))
        check("more requests at once than a turn takes", is_answered(client, b"ERROR\r\n" + counts + b"ERROR\r\n" * 16_384))


def check_few_descriptors():
    """Where descriptors are scarce, clients of the first tenant who come again and again leave some to another's, and nobody is forgotten."""
    with Server(PROGRAM, ["--workers", "1"], {"a": LARGE, "b": LARGE}) as server:
        check("a client before descriptors are scarce", answer(server, "a", b"version\r\n") == VERSION)
        least = settled_descriptors(server)
        most = least + 4
        resource.prlimit(server.pid, resource.RLIMIT_NOFILE, (most, most))
        waiting, other = [ask(server, "a") for _ in range(8)], ask(server, "b")
        check("descriptors are scarce, and it rests", rests(server, most, wakes=20))
        until, wrong = time.monotonic() + PATIENCE, 0
        while not select.select([other], [], [], random.random() / 10)[0] and time.monotonic() < until:
            first = waiting.pop(0)
            wrong += not is_answered(first)
            first.close()
            waiting.append(ask(server, "a"))
        check("another tenant's client, where descriptors are scarce", time.monotonic() < until and is_answered(other))
        other.close()
        for client in waiting:
            wrong += not is_answered(client)
            client.close()
        check("each of the others", wrong == 0)
        check("descriptors are there again, and it rests", rests(server, least))


def check_gone_arrivals():
    """While a worker is busy, more clients come and go than a worker takes; one that comes after them is served."""
    if waiting_room() < 3_100:
        print("connections that are gone aren't tried: too few may wait here")
        return
    with Server(PROGRAM, ["--workers", "1"], {"a": LARGE}) as server:
        store_block(server)
        busy = server.connect("a", PATIENCE)
        with server.stopped():
            busy.sendall(get_of_many(BLOCKS))
            for _ in range(3_000):
                reset(server.connect("a", PATIENCE))
            client = ask(server, "a")
        check("a client after those that are gone", is_answered(client))


def check_gone_among_busy():
    """The same next to many tenants who keep the worker busy, so that those that are gone are served far more slowly than they come."""
    if waiting_room() < 3_100:
        print("connections that are gone aren't tried among busy tenants: too few may wait here")
        return
    others = [f"t{number}" for number in range(40)]
    with Server(PROGRAM, ["--workers", "1", "--places", "1048576"], dict.fromkeys(["a", *others], LARGE)) as server:
        busy = [ask(server, name) for name in others]
        check("other tenants' clients", are_answered(busy))
        first = ask(server, "a")
        check("a client before those that are gone", is_answered(first))
        with server.stopped():
            # More than ten times as much as a worker takes of one connection before others have their turns.
            for client in busy:
                client.sendall(b"get %s\r\n" % (b"x" * 200) * 2_000)
            for _ in range(3_000):
                reset(server.connect("a", PATIENCE))
            client = ask(server, "a")
        check("a client after those that are gone, among busy tenants", is_answered(client))
        check("one before them", is_answered_again(first))
        check("the other tenants' clients", all(is_answered(one, b"END\r\n" * 2_000) for one in busy))


def check_last():
    """As many clients come at once as are to be served, and one more."""
    with Server(PROGRAM, ["--connections", "20"], {"a": LARGE}) as server:
        with server.stopped():
            clients = [ask(server, "a", b"version\r\nquit\r\n") for _ in range(21)]
        check("as many as are to be served", are_answered(clients[:20]))
        check("one more than are to be served", is_closed(clients[20]))
        check("the end after them", server.wait() == (0, b"done 0\n", b""))


def check_early():
    """A client that comes as soon as somebody listens, maybe before the workers are there."""
    for _ in range(3):
        port, clients = free_port(), []

        def come():
            until = time.monotonic() + PATIENCE
            while not clients and time.monotonic() < until:
                # From another address, since a client may reach itself at a port where nobody listens.
                with contextlib.suppress(ConnectionRefusedError):
                    clients.append(socket.create_connection(("127.0.0.1", port), PATIENCE, ("127.0.0.2", 0)))
                    clients[0].sendall(b"version\r\n")

        thread = threading.Thread(target=come)
        thread.start()
        with Server(PROGRAM, ["--workers", "16"], {"a": LARGE}, ports={"a": port}):
            thread.join()
            check("an early client", are_answered(clients) and clients)


def follows_soon(client):
    """Whether the second of two replies doesn't wait for a client that acknowledges late. One pull takes in one request, so they are sent apart."""
    client.setsockopt(socket.IPPROTO_TCP, socket.TCP_QUICKACK, 0)
    client.sendall(b"version\r\n".rjust(16_384) + b"version\r\n")
    first, begun = is_answered(client), time.monotonic()
    return first and is_answered(client) and time.monotonic() - begun < 0.02


def check_no_delay():
    with Server(PROGRAM, ["--workers", "1"], {"a": LARGE}) as server:
        client = server.connect("a", PATIENCE)
        check("a reply right after another", any(follows_soon(client) for _ in range(20)))


def has_keepalive(client, port):
    """Whether the server's end of a client's quiet connection has the timer of a keepalive, by the system's list of sockets (its number is 2)."""
    ends = [f"0100007F:{number:04X}" for number in (port, client.getsockname()[1])]
    sockets = (line.split() for line in pathlib.Path("/proc/net/tcp").read_text().splitlines())
    return any(words[1:3] == ends and words[5].startswith("02:") for words in sockets)


def check_keepalive():
    """The system asks now and then whether a client that is quiet is still there."""
    with Server(PROGRAM, [], {"a": LARGE}) as server:
        with ask(server, "a") as client:
            is_asked = is_answered(client) and any(has_keepalive(client, server.ports["a"]) or time.sleep(0.05) for _ in range(40))
            check("a quiet client's host is asked for", is_asked)


def check_client(number, replies):
    """A client of `check_together` reads what it wrote, and its numbers grow."""
    lines = (replies or b"").split(b"\r\n")
    values, counts = lines[2:-1:5], [int(count) for count in lines[4:-1:5]]
    check(f"client {number} reads what it wrote", values == [b"%04d" % at for at in range(500)])
    check(f"client {number} counts up", counts == sorted(set(counts)) and len(counts) == 500)


def check_together():
    """8 clients of two tenants on 4 workers: each reads what it wrote, and a counter of each tenant counts all."""
    with Server(PROGRAM, ["--workers", "4"], {"a": LARGE, "b": LARGE}) as server:
        for name in "ab":
            answer(server, name, b"set n 0 0 1\r\n0\r\n")

        def client(number):
            requests = (b"set k%d 0 0 4\r\n%04d\r\nget k%d\r\nincr n 1\r\n" % (number, at, number) for at in range(500))
            return answer(server, "ab"[number % 2], b"".join(requests))

        with concurrent.futures.ThreadPoolExecutor(8) as pool:
            for number, replies in enumerate(pool.map(client, range(8))):
                check_client(number, replies)
        for name in "ab":
            check(f"tenant {name} counts all", answer(server, name, b"get n\r\n") == b"VALUE n 0 4\r\n2000\r\nEND\r\n")


def check_whole_log():
    """Two clients at two workers count up until the longest log is full: no number is missing, and none comes twice."""
    places = 1 << 20
    with Server(PROGRAM, ["--workers", "2", "--places", str(places)], {"a": LARGE}) as server:
        answer(server, "a", b"set n 0 0 1\r\n0\r\n")
        with concurrent.futures.ThreadPoolExecutor(2) as pool:
            # On a slow machine these take more than the patience for one answer.
            replies = list(pool.map(lambda _: exchange(server.ports["a"], [b"incr n 1\r\n" * (places // 2)], 600)[0], range(2)))
        lines = [it.split(b"\r\n")[:-1] for it in replies]
        counts = [[int(line) for line in it if line.isdigit()] for it in lines]
        check("each client's numbers grow", all(it == sorted(set(it)) for it in counts))
        check("each place of the log counts once", sorted(sum(counts, [])) == list(range(1, places)))
        check("the last command finds the log full", [line for it in lines for line in it if not line.isdigit()] == [b"SERVER_ERROR log full"])


def check_logs_in_turn(workers, commands):
    """A client that asks nothing keeps its connection while another fills several logs, which take this many commands. The length at the end is
    that of all logs. They are the 17th tenant's and the 18th's."""
    options = ["--workers", str(workers), "--places", "10", "--generations", "4", "--connections", "2"]
    with Server(PROGRAM, options, behind(16, {"a": LARGE, "b": LARGE})) as server:
        idle = ask(server, "b")
        check("a client before the first log is full", is_answered(idle))
        replies = answer(server, "a", b"set n 0 0 1\r\n0\r\n" + b"incr n 1\r\n" * 44 + b"quit\r\n")
        numbers = b"".join(b"%d\r\n" % number for number in range(1, commands))
        check(f"four logs, and no more, {workers} workers", replies == b"STORED\r\n" + numbers + b"SERVER_ERROR log full\r\n" * (45 - commands))
        check("the same client after the last log is full", is_answered_again(idle))
        idle.close()
        check("the length of all logs", server.wait() == (0, b"done %d\n" % commands, b""))


def check_cuts_around_turn_overs():
    """A client counts over logs of four places, while others close or reset in the middle of a block, before each of its commands and after each:
    before, at and behind every turn over. Nothing of theirs is there, and no number is missing."""
    for workers in ("1", "2"):
        with Server(PROGRAM, ["--workers", workers, "--places", "4", "--generations", "0"], {"a": LARGE}) as server:
            with server.client() as client:
                replies = [client.line(b"set n 0 0 1\r\n0\r\n")]
                for end, is_behind, _ in itertools.product((socket.socket.close, reset), (False, True), range(12)):
                    cut = server.connect("a")
                    cut.sendall(b"set k 0 0 5\r\nab")
                    if not is_behind:
                        end(cut)
                    replies.append(client.line(b"incr n 1\r\n"))
                    if is_behind:
                        end(cut)
                check(f"the client that stays, {workers} workers", replies == ["STORED", *map(str, range(1, 49))], replies)
                check(f"nothing of those that were cut, {workers} workers", client.line(b"get k\r\n") == "END")


def check_logs_closed_by_bytes():
    """100 items of 1,000 bytes, set one after another, over logs that keep 4,000: two logs of three are closed by them, and the only log isn't.
    One place is used for each."""
    for generations in ("3", "1"):
        for workers in ("1", "4"):
            options = ["--workers", workers, "--places", "1000", "--generations", generations, "--log-bytes", "4000", "--connections", "1"]
            with Server(PROGRAM, [*METRICS, *options], {"a": LARGE}) as server:
                what = f"{generations} logs that keep 4,000 bytes, {workers} workers"
                with server.client() as client:
                    replies = {client.line(b"set k%02d 0 0 1000\r\n%s\r\n" % (number, b"k" * 1_000)) for number in range(100)}
                    turn_overs = server.turn_overs()
                check(f"{what}: all is stored", replies == {"STORED"}, replies)
                check(f"{what}: those before the last are closed", turn_overs == int(generations) - 1, turn_overs)
                check(f"{what}: their length", server.wait() == (0, b"done 100\n", b""))


def check_workers_and_places():
    """No more workers serve than a log has places, where another may follow."""
    for generations, threads in (("0", 3), ("2", 3), ("1", 5)):
        with Server(PROGRAM, ["--workers", "4", "--places", "2", "--generations", generations], {"a": LARGE}) as server:
            until = time.monotonic() + PATIENCE
            # One that has ended may be listed a moment longer.
            while server.threads() > threads and time.monotonic() < until:
                time.sleep(0.01)
            check(f"threads of 4 workers, 2 places and {generations} logs", server.threads() == threads, server.threads())


def check_late_readers():
    """Clients of the 17th tenant that ask for a large item, end their stream by `quit` or by a line that is too long, and send more."""
    block = b"k" * 400_000
    value = b"VALUE k 0 %d\r\n%s\r\nEND\r\n" % (len(block), block)
    endings = ("quit", b"quit\r\n", value), ("a line too long", b"", value + b"CLIENT_ERROR line too long\r\n")
    for name, last, wanted in endings:
        more = b"version\r\n" * 100 if last else b"a" * 100_000
        with Server(PROGRAM, [], behind(16, {"a": LARGE})) as server:
            check("a large item", answer(server, "a", b"set k 0 0 %d\r\n%s\r\n" % (len(block), block)) == b"STORED\r\n")
            descriptors = settled_descriptors(server)
            with concurrent.futures.ThreadPoolExecutor(LATE_READERS) as pool:
                ask_late = lambda _: late_reply(server.ports["a"], b"get k\r\n" + last, more, PATIENCE)
                whole = sum(reply == (wanted, True) for reply in pool.map(ask_late, range(LATE_READERS)))
            check(f"replies before {name}, and more behind it", whole == LATE_READERS, f"{LATE_READERS - whole} of {LATE_READERS} were lost in part")
            check(f"nobody is left after {name}, and it rests", rests(server, descriptors))


def check_kept_streams():
    """More clients that don't close after `quit` than a worker keeps the streams of: all others' are closed, and those of clients that send on."""
    with Server(PROGRAM, ["--workers", "1"], {"a": LARGE}) as server:
        check("a first client", answer(server, "a", b"version\r\n") == VERSION)
        descriptors = settled_descriptors(server)
        clients = [ask(server, "a", b"version\r\nquit\r\n") for _ in range(80)]
        check("clients that don't close", are_answered(clients) and all(is_ended(client) for client in clients))
        check("64 streams are kept", rests(server, descriptors + 64))
        with contextlib.suppress(OSError):
            for _ in range(2):
                clients[-1].sendall(b"a" * 40_000)
        check("one less is kept", rests(server, descriptors + 63))
        for client in clients:
            client.close()
        check("no stream is kept", rests(server, descriptors))
    with Server(PROGRAM, ["--connections", "1"], {"a": LARGE}) as server:
        client, begun = ask(server, "a", b"version\r\nquit\r\n"), time.monotonic()
        check("the last client", is_answered(client) and is_ended(client))
        check("the end next to a client that doesn't close", server.wait() == (0, b"done 0\n", b"") and time.monotonic() - begun < PATIENCE)


def leave(server):
    """A client that has said `quit` and was told the end, and doesn't close."""
    client = ask(server, "a", b"version\r\nquit\r\n")
    check("a client that doesn't close", is_answered(client) and is_ended(client))
    return client


def check_kept(what, server, clients, first):
    """The server comes to have the streams of these clients from the one of this number on, and none of those before it."""
    until, wrong = time.monotonic() + PATIENCE / 5, [first]
    while wrong and time.monotonic() < until:
        held = sockets(server.pid)
        wrong = [number for number, peer in enumerate(peer_sockets(clients)) if (peer in held) != (number >= first)]
        time.sleep(0.01)
    check(what, not wrong, f"not so of {wrong}")


def check_oldest_streams():
    """Clients leave one after another, and don't close: a worker that has as many streams as it keeps closes one for each, place by place, which in this
    order is that of the one who left first. Where one of the others closes, the next who leaves takes its room."""
    with Server(PROGRAM, ["--workers", "1"], {"a": LARGE}) as server:
        clients = [leave(server) for _ in range(80)]
        check_kept("the last 64 streams are kept", server, clients, 16)
        descriptors = server.descriptors()
        clients.pop(40).close()
        check("all of them but one whose client closes", rests(server, descriptors - 1))
        for first in (16, 17, 18):
            clients.append(leave(server))
            check_kept(f"those from the one of number {first} on are kept", server, clients, first)
        for client in clients:
            client.close()


def check_late_at_the_end():
    """The last client reads a large item late, and sends more meanwhile. It has the time for that, of which another takes none that has left too and
    goes on sending."""
    block = b"k" * 100_000
    request = b"set k 0 0 %d\r\n%s\r\nget k\r\nquit\r\n" % (len(block), block)
    wanted = b"STORED\r\nVALUE k 0 %d\r\n%s\r\nEND\r\n" % (len(block), block), True
    with Server(PROGRAM, ["--connections", "1"], {"a": LARGE}) as server:
        reply = late_reply(server.ports["a"], request, b"version\r\n", PATIENCE, pause=0.1)
        check("the last client's reply", reply == wanted, f"{len(reply[0])} bytes, {reply[1]}")
        check("the end behind it", server.wait() == (0, b"done 2\n", b""))
    options = ["--workers", "1", "--connections", "2"]
    with Server(PROGRAM, options, {"a": LARGE}) as server, concurrent.futures.ThreadPoolExecutor(1) as pool:
        late = pool.submit(late_reply, server.ports["a"], request, b"version\r\n", PATIENCE, pause=0.5)
        with leave(server) as other, contextlib.suppress(OSError):
            while not late.done():
                other.sendall(b"a")
                time.sleep(0.0002)
        reply = late.result()
        check("the last reply next to a client that sends on", reply == wanted, f"{len(reply[0])} bytes, {reply[1]}")
        check("the end behind both", server.wait() == (0, b"done 2\n", b""))


def ending_where_a_wait_fails(environment, poll, wait):
    """How a server of two workers ends where a wait of this number fails at the poll of this number: the workers', and then the acceptor's. Where
    it fails before all loops have begun, no port is printed."""
    with Server(PROGRAM, [], {"a": LARGE}, environment={**environment, "POLL": str(poll), "WAIT": str(wait)}) as server:
        clients = []
        with contextlib.suppress(OSError):
            for _ in range(PATIENCE * 100):
                if not server.ports or not server.is_running():
                    break
                clients.append(ask(server, "a"))
                time.sleep(0.01)
        # A refused connection may come just before the end.
        with contextlib.suppress(subprocess.TimeoutExpired):
            return server.wait(PATIENCE)
        return "not at all"


def check_failing_waits():
    """Where a wait for events fails in one thread, all others end too, with their clients, and it is reported. Without gcc it isn't tried."""
    if not shutil.which("gcc"):
        print("gcc isn't installed: no wait is made to fail")
        return
    with preload.library(preload.FAIL_WAIT) as environment:
        for poll in (1, 2, 3):
            for wait in (1, 2, 4):
                ending = ending_where_a_wait_fails(environment, poll, wait)
                check(f"the end where wait {wait} fails at poll {poll}", ending == (1, b"", b"wfmc: input failed\n"), ending)


def allow_connections():
    """Thousands of connections are made here at a time, each of which needs a descriptor."""
    _, most = resource.getrlimit(resource.RLIMIT_NOFILE)
    resource.setrlimit(resource.RLIMIT_NOFILE, (min(most, 4096) if most != resource.RLIM_INFINITY else 4096, most))


def main():
    repository.enter(PROGRAM)
    allow_connections()
    check_golden_tests()
    check_tenants()
    check_all_tenants()
    check_refused_lines()
    check_much_of_many()
    check_others_unnoticed()
    check_too_many()
    check_admin()
    network_places.check_admins_places(PROGRAM, check)
    check_admin_does_not_count()
    check_admins_address()
    network_places.check_reserve(PROGRAM, check)
    network_places.check_next_to_crowd(PROGRAM, check)
    network_places.check_next_to_busy(PROGRAM, check)
    network_places.check_passing_on(PROGRAM, check)
    check_crowd()
    check_at_once()
    check_much_at_once()
    check_busy_worker()
    check_flood()
    check_short_requests()
    check_few_descriptors()
    check_gone_arrivals()
    check_gone_among_busy()
    check_last()
    check_early()
    check_no_delay()
    check_keepalive()
    check_together()
    check_whole_log()
    # The last place of a log but the last is left to no command of one worker while there is another.
    check_logs_in_turn(workers=1, commands=40)
    check_logs_in_turn(workers=2, commands=37)
    check_cuts_around_turn_overs()
    check_logs_closed_by_bytes()
    check_workers_and_places()
    check_late_readers()
    check_kept_streams()
    check_oldest_streams()
    check_late_at_the_end()
    check_failing_waits()
    results.finish()


main()
