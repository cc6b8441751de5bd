#!/usr/bin/env python3
"""Measures what docs/OPERATING.md says of wfmc as built: what it takes in memory at the start, for each command, item and connection;
what clients are answered when the log is full; what one reply of gigabytes costs without and with a limit on the process, and what its
neighbours notice; a client that doesn't read, or reads late; and the line that each mistake prints.

Prints a line `GROUP: CASE: WHAT<TAB>VALUE<TAB>UNIT` for each measurement. A value whose unit is `text` is a reply or an outcome.

Usage: bench/operating.py [BINARY [GROUP...]]; the binary is crates/wfmc/out/wfmc and all groups are measured where none is named.
It takes some minutes, up to 4 GB of memory and free ports, and ends what it starts.
"""

import concurrent.futures
import pathlib
import signal
import socket
import subprocess
import sys
import time

sys.path.insert(0, str(pathlib.Path(__file__).parents[1] / "tests"))
from harness import repository
from harness.client import Client, late_reply
from harness.measures import Probe, command_line, print_figure
from harness.servers import LARGE, Server

PARSER = command_line(__doc__)
PARSER.add_argument("program", metavar="BINARY", nargs="?", default=repository.program("wfmc"))
PARSER.add_argument("groups", metavar="GROUP", nargs="*")
WORDS = PARSER.parse_args()
MEBIBYTE = 1 << 20
PLACES = ["--places", "1048576"]


def serve(options=(), tenants=("a",), quotas=LARGE, **limits):
    """A started server whose workers are there."""
    server = Server(WORDS.program, options, dict.fromkeys(tenants, quotas), **limits)
    if tenants and server.is_ready:
        with server.ended_on_failure():
            server.await_workers(tenants[0])
    return server


def printer(group, *columns):
    """A function that prints one case: a line for each of these columns, which are pairs of what is measured and its unit."""

    def show(case, *values):
        for (what, unit), value in zip(columns, values, strict=True):
            if value is not None:
                print_figure(f"{group}: {case}: {what}", value, unit)

    return show


def mebibytes(size):
    return size / MEBIBYTE


def names(count):
    return [f"t{number}" for number in range(count)] if count > 1 else ["a"]


def data(size):
    return b"v" * size


def a_set(key, size, tail=b""):
    return b"set %b 0 0 %d%b\r\n%b\r\n" % (key, size, tail, data(size))


def pieces(request, count, step=100):
    """Many requests, in pieces with their numbers of requests; `request` may be a function of the request's number."""
    make = request if callable(request) else lambda _: request
    for first in range(0, count, step):
        here = range(first, min(first + step, count))
        yield b"".join(make(at) for at in here), len(here)


def show_start():
    """Every worker has a list of places, and a table for each tenant; each thread has an arena of addresses that it may never use."""
    show = printer("start", ("resident", "MiB"), ("address space", "MiB"), ("descriptors", "count"), ("threads", "count"))
    for workers, places, tenants in [(1, 65536, 1), (2, 65536, 2), (2, 1048576, 2), (4, 1048576, 2), (16, 1048576, 2), (16, 1048576, 64)]:
        options = ["--workers", str(workers), "--places", str(places)]
        with serve(options, names(tenants), (1000, 1_000_000)) as server:
            measured = mebibytes(server.resident()), mebibytes(server.address_space()), server.descriptors(), server.threads()
            show(f"{workers} workers, {places:,} places, {tenants} tenants", *measured)


def growth(workers, request, count, lines, before):
    """By how many bytes resident memory grows a request, once all workers have replayed it."""
    with serve(["--workers", str(workers), *PLACES]) as server:
        with server.client(worker=0) as client:
            if before:
                client.line(before)
            # The first commands take what is taken once.
            client.stream(pieces(request, 2000), lines)
            server.catch_up()
            then = server.resident()
            client.stream(pieces(request if not callable(request) else lambda at: request(at + 2000), count), lines)
            server.catch_up()
            return (server.resident() - then) / count


COMMANDS = [
    ("get of a key of 16 bytes that isn't held", b"get 0123456789abcdef\r\n", 100_000, 1, None),
    ("get of one that is held, 100 bytes of data", b"get 0123456789abcdef\r\n", 100_000, 3, a_set(b"0123456789abcdef", 100)),
    ("set of a held key, 100 bytes of data", a_set(b"0123456789abcdef", 100), 100_000, 1, a_set(b"0123456789abcdef", 100)),
    ("set of a held key, 1,000 bytes", a_set(b"0123456789abcdef", 1000), 50_000, 1, a_set(b"0123456789abcdef", 1000)),
    ("set of a held key, 10,000 bytes", a_set(b"0123456789abcdef", 10_000), 20_000, 1, a_set(b"0123456789abcdef", 10_000)),
    ("incr of a key of 16 bytes", b"incr 0123456789abcdef 1\r\n", 100_000, 1, b"set 0123456789abcdef 0 0 1\r\n1\r\n"),
    ("set of a new key of 16 bytes, 100 bytes", lambda at: a_set(b"%016d" % at, 100), 100_000, 1, None),
    ("set of a new key, 1,000 bytes", lambda at: a_set(b"%016d" % at, 1000), 50_000, 1, None),
    ("set of a new key, 10,000 bytes", lambda at: a_set(b"%016d" % at, 10_000), 20_000, 1, None),
]


def show_commands():
    """The memory that stays for each command, once every worker has replayed it."""
    show = printer("commands", *((f"{workers} workers", "bytes") for workers in (1, 2, 4)))
    for what, request, count, lines, before in COMMANDS:
        show(what, *(growth(workers, request, count, lines, before) for workers in (1, 2, 4)))


def show_connections():
    """The process's memory for each of 500, without the kernel's own. Each has sent one command and waits, or has sent half of a block."""
    show = printer("connections", ("memory of each", "bytes"))
    for what, sent, taken in [
        ("idle after a get", b"get -\r\n", b"END\r\n"),
        ("idle after a set of 1,000,000 bytes", a_set(b"k", 1_000_000), b"STORED\r\n"),
        ("in the middle of a block of 1,000,000 bytes", a_set(b"k", 1_000_000)[:-10], None),
        ("idle after a reply of 1,000,000 bytes", b"get big\r\n", b"END\r\n"),
        ("idle after a reply of 4,153,445 bytes", b"get" + b" s" * 4080 + b"\r\n", b"END\r\n"),
    ]:
        with serve(["--workers", "1"]) as server:
            with server.client() as client:
                client.ask(a_set(b"big", 1_000_000), b"\r\n")
                client.ask(a_set(b"s", 1_000), b"\r\n")
                once = per_command(server, client, sent, taken)
            clients = [server.client() for _ in range(500)]
            then = server.resident()
            for client in clients:
                if taken:
                    client.ask(sent, taken)
                else:
                    client.send(sent)
            time.sleep(2)
            show(what, (server.resident() - then) / 500 - once)
            for client in clients:
                client.close()


def per_command(server, client, sent, taken):
    """What the log keeps of each such command, which isn't the connection's."""
    if not taken:
        return 0
    client.ask(sent, taken)
    then = server.resident()
    for _ in range(50):
        client.ask(sent, taken)
    return (server.resident() - then) / 50


def show_lag():
    """A worker replays with its next command all that others have brought into the log since its last."""
    show = printer("lag", ("time to the next reply", "ms"), ("time to the one after", "ms"))
    for count in (1000, 100_000, 1_000_000):
        with serve(["--workers", "2", *PLACES]) as server:
            with server.client(worker=0) as busy, server.client(worker=1) as silent:
                silent.ask(b"get -\r\n", b"END\r\n")
                busy.stream(pieces(a_set(b"0123456789abcdef", 100), count), 1)
                times = []
                for _ in range(2):
                    began = time.monotonic()
                    silent.ask(b"get -\r\n", b"END\r\n")
                    times.append(1000 * (time.monotonic() - began))
                show(f"{count:,} commands of others", *times)


REQUESTS = [
    (b"set b 0 0 1\r\nx\r\n", "set"),
    (b"get a\r\n", "get of an item that is held"),
    (b"incr n 1\r\n", "incr"),
    (b"delete a\r\n", "delete"),
    (b"flush_all\r\n", "flush_all"),
    (b"set b 0 0 1 noreply\r\nx\r\nversion\r\n", "set with noreply, then version"),
    (b"version\r\n", "version"),
    (b"stats\r\n", "stats, or any other name"),
    (b"set b 0 60 1\r\nx\r\n", "set with an exptime"),
    (b"get \x01\r\n", "get of a malformed key"),
]


def show_full():
    """The replies before and after the last place of the log."""
    show = printer("full", ("reply before", "text"), ("reply when the log is full", "text"))
    for request, what in REQUESTS:
        lines = []
        for fills in (0, 20):
            with serve(["--places", "20"]) as server, server.client() as client:
                client.line(b"set a 0 0 1\r\nx\r\n")
                client.line(b"set n 0 0 1\r\n1\r\n")
                for _ in range(fills):
                    client.line(b"get -\r\n")
                lines.append(client.line(request))
        show(what, *(it.replace("\n", " ").replace("\r", "") for it in lines))


def many_names(count, key=b"b"):
    return b"get" + (b" " + key) * count + b"\r\n"


def show_replies():
    """One line `get b b b ..` over an item of 1 MiB. The client reads as fast as it can; others ask for a small item meanwhile."""
    show = printer("replies", ("reply", "MiB"), ("memory at its greatest", "MiB"), ("memory kept afterwards", "MiB"), ("time", "s"),
                   ("longest wait at the same worker", "ms"), ("longest wait at the other", "ms"))
    for count in (1, 10, 100, 1000):
        with serve(["--workers", "2", *PLACES]) as server:
            probes, hog = others_and_hog(server)
            server.forget_peak()
            then = server.resident()
            began = time.monotonic()
            hog.send(many_names(count) + b"quit\r\n")
            size, _ = hog.drain()
            took = time.monotonic() - began
            more = server.peak() - then
            time.sleep(0.5)
            kept = server.resident() - then
            (_, same, wrong), (_, other, also_wrong) = (probe.stop() for probe in probes)
            assert not wrong and not also_wrong, (wrong, also_wrong)
            show(f"{count:,} names", mebibytes(size), mebibytes(more), mebibytes(kept), took, same, other)


def others_and_hog(server):
    """A client at each of two workers that asks again and again, and one more at the first, with an item of 1 MiB in the table."""
    with server.client(worker=0) as first:
        first.ask(a_set(b"small", 10), b"\r\n")
        first.ask(a_set(b"b", MEBIBYTE), b"\r\n")
    server.catch_up()
    probes = [Probe(server.client(worker=worker)) for worker in (0, 1)]
    hog = server.client(worker=0)
    time.sleep(0.3)
    return probes, hog


def start_size(options, tenants=("a",)):
    with serve(options, tenants) as server:
        return server.address_space()


def show_limits():
    """A reply of 3,000 MiB under a limit on the address space, the start's size and this much more; three such clients one after another."""
    options = ["--workers", "2", *PLACES]
    least = start_size(options)
    show = printer("limits", ("what each client gets", "text"), ("resident at most", "MiB"), ("neighbours' longest wait", "ms"), ("wfmc afterwards", "text"))
    for more in (64, 256, 1024):
        with serve(options, address_space=least + more * MEBIBYTE) as server:
            probes, hog = others_and_hog(server)
            gets = []
            for _ in range(3):
                hog.send(many_names(3000) + b"quit\r\n")
                size, last = hog.drain()
                gets.append("all of it" if last.endswith(b"v\r\nEND\r\n") else f"{size:,} bytes, the last {last[-30:]!r}")
                hog = server.client(worker=0)
            waits = [probe.stop() for probe in probes]
            wrong = [it for wait in waits for it in wait[2]]
            after = "serves" if server.is_running() and not wrong and server.client().line(b"version\r\n").startswith("VERSION") else f"{wrong} {server.end()}"
            peak = mebibytes(server.peak()) if server.is_running() else None
            show(f"{more} MiB above the start", "; ".join(sorted(set(gets))), peak, max(wait[1] for wait in waits), after)


def show_used():
    """One tenant sets 1 MiB again and again until it is refused, 400 MiB of address space allowed; then another by 100 new connections."""
    show = printer("used", ("sets until it is refused", "count"), ("reply then", "text"), ("small sets of the other tenant", "text"), ("wfmc afterwards", "text"))
    with serve(["--workers", "2", *PLACES], ("a", "b"), address_space=400 * MEBIBYTE) as server:
        sets, counts = 0, {}
        with server.client("a", worker=0) as greedy:
            while (line := greedy.line(a_set(b"big", MEBIBYTE))) == "STORED":
                sets += 1
        for _ in range(100):
            with server.client("b") as other:
                said = " ".join(other.line(b"set k 0 0 1\r\ny\r\n").split()[:4])
            counts[said] = counts.get(said, 0) + 1
        answers = ", ".join(f"{count} {said}" for said, count in counts.items())
        show("400 MiB of address space", sets, f"{line}, closed", answers, "serves" if server.client("b").line(b"version\r\n").startswith("VERSION") else server.end())


def waits_of(probe):
    """The median and the longest wait of a client."""
    median, longest, wrong = probe.stop()
    assert not wrong, wrong
    return median, longest


def show_slow():
    """Clients that ask for 100 MiB by 1,000 gets of 100 KiB each and read nothing, and others next to them."""
    show = printer("slow", ("memory of each", "MiB"), ("median wait at the same worker", "ms"), ("longest wait at the same worker", "ms"),
                   ("median wait at the other", "ms"), ("longest wait at the other", "ms"), ("processor use", "percent"))
    for count in (0, 1, 10, 100):
        with serve(["--workers", "2", *PLACES]) as server:
            with server.client(worker=0) as first:
                first.ask(a_set(b"small", 10), b"\r\n")
                first.ask(a_set(b"large", 100 << 10), b"\r\n")
            server.catch_up()
            then = server.resident()
            slow = [server.client(worker=0, receive_buffer=4096) for _ in range(count)]
            for client in slow:
                client.send(b"get large\r\n" * 1000)
            time.sleep(3)
            more = (server.resident() - then) / max(count, 1)
            probes = [Probe(server.client(worker=worker)) for worker in (0, 1)]
            began = server.processor_seconds()
            time.sleep(3)
            used = 100 * (server.processor_seconds() - began) / 3
            waits = [wait for probe in probes for wait in waits_of(probe)]
            show(f"{count} such clients", mebibytes(more) if count else None, *waits, used)
            for client in slow:
                client.close()


def show_late():
    """40 clients that ask for an item of 400,000 bytes, end their streams, send more once the replies have begun, and read slowly."""
    show = printer("late", ("replies lost in part, of 40", "count"))
    value = b"VALUE k 0 400000\r\n" + data(400_000) + b"\r\nEND\r\n"
    too_long = value + b"CLIENT_ERROR line too long\r\n"
    for what, end, behind, wanted in [
        ("quit", b"quit\r\n", 1_000, value),
        ("quit", b"quit\r\n", 1_000_000, value),
        ("a line that is too long", b"", 100_000, too_long),
    ]:
        with serve() as server:
            with server.client() as client:
                client.ask(a_set(b"k", 400_000), b"\r\n")
            ask = lambda _: late_reply(server.ports["a"], b"get k\r\n" + end, b"a" * behind)
            with concurrent.futures.ThreadPoolExecutor(40) as pool:
                lost = sum(reply != (wanted, True) for reply in pool.map(ask, range(40)))
            show(f"{what}, {behind:,} bytes behind it", lost)


def lines_of(words, **limits):
    """How it ends by these words, and what is on standard error then; after "ready", where it has come so far."""
    with serve(words, (), **limits) as server:
        try:
            status = server.process.wait(timeout=20)
        except subprocess.TimeoutExpired:
            return "goes on", []
        front = ["ready"] if server.is_ready else []
        return status, front + server.process.stderr.read().decode().splitlines()


def tenant(name="a", address="127.0.0.1:0", items="1000", size="1000000"):
    return f"{name}={address},{items},{size}"


def show_errors():
    """Each mistake that people make with the words, and what it prints."""
    show = printer("errors", ("on standard error", "text"), ("status", "status"))
    with socket.socket() as taken:
        taken.bind(("127.0.0.1", 0))
        taken.listen()
        port = taken.getsockname()[1]
        many = [tenant(f"t{number}") for number in range(65)]
        mistakes = [
            ("a port in use", [tenant(address=f"127.0.0.1:{port}")], {}),
            ("a port in use, of `--admin`", ["--admin", f"127.0.0.1:{port}", tenant()], {}),
            ("the same port for two tenants", [tenant(address=f"127.0.0.2:{port}"), tenant("b", f"127.0.0.2:{port}")], {}),
            ("an address that isn't this machine's", [tenant(address="192.0.2.1:11211")], {}),
            ("a name or an IPv6 address in its place", [tenant(address="localhost:11211")], {}),
            ("no port", [tenant(address="127.0.0.1")], {}),
            ("too few descriptors for the listeners", many[:64], {"descriptors": 40}),
            ("too few descriptors for the workers", ["--workers", "16", tenant()], {"descriptors": 20}),
            ("too little address space", [tenant()], {"address_space": 8 << 20}),
            ("a quota of 0", [tenant(items="0")], {}),
            ("a quota above 1 GiB", [tenant(size="2000000000")], {}),
            ("a size with a unit", [tenant(size="64M")], {}),
            ("a name used twice", [tenant(), tenant()], {}),
            ("a tenant named `admin`, with `--admin`", ["--admin", "127.0.0.1:0", tenant("admin")], {}),
            ("a name in capitals", [tenant("Shop")], {}),
            ("65 tenants", many, {}),
            ("17 workers", ["--workers", "17", tenant()], {}),
            ("more than 1,048,576 places", ["--places", "2000000", tenant()], {}),
            ("more than 65,536 logs", ["--generations", "100000", tenant()], {}),
            ("logs of 0 bytes", ["--log-bytes", "0", tenant()], {}),
            ("more places kept than a worker has", ["--reserve", "1025", tenant()], {}),
            ("no number", ["--places", "many", tenant()], {}),
            ("an unknown option", ["--port", "11211", tenant()], {}),
            ("no tenant", [], {}),
        ]
        for what, words, limits in mistakes:
            status, lines = lines_of(words, **limits)
            show(what, ", ".join(lines[:2] if lines[:1] == ["ready"] else lines[:1]), status)


def show_descriptors():
    """80 clients connect to 2 workers and 1 tenant until no descriptor is left, of 64; and then one leaves."""
    show = printer("descriptors", ("answered", "clients"), ("wait without an answer", "clients"), ("processor use meanwhile", "percent"),
                   ("the first that waits, once another has left", "text"), ("wfmc afterwards", "text"))
    with serve(["--workers", "2"], descriptors=64) as server:
        clients = [server.client() for _ in range(80)]
        answered = 0
        for client in clients:
            client.socket.settimeout(0.3)
            try:
                answered += client.line(b"version\r\n").startswith("VERSION")
            except TimeoutError:
                pass
        began = server.processor_seconds()
        time.sleep(2)
        used = 100 * (server.processor_seconds() - began) / 2
        waiting = clients[answered]
        clients[0].close()
        waiting.socket.settimeout(5)
        waited = waiting.socket.recv(100)
        afterwards = "serves" if server.is_running() else server.end()
        show("64 descriptors, 80 clients", answered, 80 - answered, used, waited.decode().strip(), afterwards)


def show_signals():
    """How it ends with a client connected, and whether a new one can listen at the same port at once."""
    show = printer("signals", ("status", "status"), ("on standard error", "text"), ("the client's next reply", "text"), ("a new wfmc at the same port", "text"))
    for how in (signal.SIGTERM, signal.SIGINT, signal.SIGHUP):
        with serve() as server, server.client() as client:
            client.line(b"set a 0 0 1\r\nx\r\n")
            status, _, errors = server.end(how)
            left = client.line(b"get a\r\n")
            words = [f"a=127.0.0.1:{server.ports['a']},1000,1000"]
            with serve(words, ()) as new:
                listens = "listens, with an empty table" if new.is_ready and Client(server.ports["a"]).line(b"get a\r\n") == "END" else new.end()
            show(how.name, status, errors.decode() or "nothing", left or "nothing", listens)


GROUPS = {name[5:]: show for name, show in list(globals().items()) if name.startswith("show_")}


def main():
    if unknown := [name for name in WORDS.groups if name not in GROUPS]:
        PARSER.error(f"no group {unknown[0]}; there are {', '.join(GROUPS)}")
    repository.enter(WORDS.program)
    for name in WORDS.groups or GROUPS:
        GROUPS[name]()


main()
