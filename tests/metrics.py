#!/usr/bin/env python3
"""Tests the metrics of wfmc, as built, over sockets on loopback: metrics.py [BINARY].

What a scrape shows is held against what the clients know: items, bytes, quotas, connections, commands by kind, hits, misses and refusals of each of
three tenants behind idle ones, the connections of each of 16 workers, which log is served, how many bytes it keeps, by each kind of command, and
whether a worker lags; and while nobody scrapes no processor is used. Then scrapes as fast as they come while clients are answered as ever, requests
that are slow, huge or none, one that does nothing, which is closed after ten seconds, many more connections than there are places for, and floods of
requests, next to which a scrape is answered soon and little of a processor is used. And the words: an address that is taken, a tenant named metrics.
A live scrape and the rules of etc/ are held against promtool (Debian's package prometheus; PROMTOOL names another) where it is installed, and it is
said where it isn't.
Prints a line for each failure; the last line is 'N passed, M failed'.
"""

import concurrent.futures
import contextlib
import functools
import os
import re
import resource
import select
import shutil
import socket
import subprocess
import sys
import threading
import time

from harness import repository, servers
from harness.client import connect
from harness.results import Results
from harness.servers import ADMIN, LARGE, METRICS, Server, behind
from oracle import protocol

PROGRAM = sys.argv[1] if len(sys.argv) > 1 else repository.program("wfmc")
PROMTOOL = os.environ.get("PROMTOOL") or shutil.which("promtool")
RULES = str(repository.ROOT / "etc/prometheus-wfmc.rules.yml")
PATIENCE = 5
PLACES = 500
# After how many places an idle worker is woken (docs/OPERATING.md).
STRIDE = 4096
MOST = 16
# In how many seconds a scrape is answered next to any strangers.
SOON = 2
# How much of a processor a flood may take: twice the listener's part, for a measure that is off.
MOST_OF_A_PROCESSOR = 0.25
SAMPLE = re.compile(r'([a-z_]+)(?:\{([a-z_]+="[^"]*"(?:,[a-z_]+="[^"]*")*)\})? ([0-9.]+)')
results = Results()
check = results.check
ending_of = functools.partial(servers.ending_of, PROGRAM)


class Scraper:
    """A connection to the listener for metrics."""

    def __init__(self, server, seconds=20):
        self.socket = connect(server.ports["metrics"], seconds)
        self.held = b""

    def send(self, sent):
        self.socket.sendall(sent)

    def has_more(self):
        """Whether more comes, which is held then, before the connection ends."""
        try:
            piece = self.socket.recv(65536)
        except ConnectionResetError:
            piece = b""
        self.held += piece
        return piece != b""

    def reply(self):
        """The status, the fields and the body of the next reply. Where the connection ends first, the status is empty; where it ends in the body,
        it is `cut off`."""
        while b"\r\n\r\n" not in self.held:
            if not self.has_more():
                return "", {}, ""
        head, _, self.held = self.held.partition(b"\r\n\r\n")
        status, *lines = head.decode().split("\r\n")
        fields = dict(line.split(": ", 1) for line in lines)
        length = int(fields["content-length"])
        while len(self.held) < length:
            if not self.has_more():
                return "cut off", {}, ""
        body, self.held = self.held[:length].decode(), self.held[length:]
        return status, fields, body

    def get(self, path="/metrics"):
        self.send(f"GET {path} HTTP/1.1\r\nHost: wfmc\r\n\r\n".encode())
        return self.reply()

    def ends(self):
        """Whether the connection ends, without a byte more."""
        try:
            return self.socket.recv(1) == b""
        except ConnectionResetError:
            return True

    def close(self):
        self.socket.close()


def expect(what, holds, why):
    """Counts what doesn't hold, and nothing where it does: how often this is asked for depends on the machine."""
    if not holds:
        check(what, False, why)


def samples(text):
    """The value of each sample of a text, by its name and labels."""
    lines = [line for line in text.splitlines() if not line.startswith("#")]
    found = [sample for sample in map(SAMPLE.fullmatch, lines) if sample]
    expect("a scrape's samples", len(found) == len(lines), [line for line in lines if not SAMPLE.fullmatch(line)][:3])
    return {sample[1] if sample[2] is None else f"{sample[1]}{{{sample[2]}}}": float(sample[3]) for sample in found}


def scrape(server):
    scraper = Scraper(server)
    status, _, body = scraper.get()
    expect("a scrape", status == "HTTP/1.1 200 OK", status)
    scraper.close()
    return samples(body)


def awaits(server, what, wanted):
    """Scrapes until these samples have these values: what a worker shows follows its replies by a moment."""
    until = time.monotonic() + PATIENCE
    while True:
        shown = scrape(server)
        wrong = {name: (shown.get(name), value) for name, value in wanted.items() if shown.get(name) != value}
        if not wrong or time.monotonic() > until:
            check(what, not wrong, str(wrong))
            return shown
        time.sleep(0.02)


def of(name, tenant):
    return f'wfmc_tenant_{name}{{tenant="{tenant}"}}'


def tables(tenant, items, size, quotas, connections):
    numbers = {"items": items, "bytes": size, "quota_items": quotas[0], "quota_bytes": quotas[1], "connections": connections}
    return {of(name, tenant): value for name, value in numbers.items()}


def lag_of(worker):
    return f'wfmc_worker_lag_places{{worker="{worker}"}}'


def lags_of(shown):
    """The lags of two workers."""
    return [shown[lag_of(worker)] for worker in range(2)]


def check_numbers():
    """Three tenants behind 61 idle ones, and 16 workers, of whom half have a connection each."""
    tenants = behind(61, {"shop": (100, 10_000), "b-2_x": (20, 5_000), "third": (30, 7_000)})
    with Server(PROGRAM, ("--workers", "16", "--places", "1000", *ADMIN, *METRICS), tenants) as server:
        check("the listeners in their order", list(server.ports) == [*tenants, "admin", "metrics"] and server.is_ready)
        nothing = {name: value for tenant, quotas in tenants.items() for name, value in tables(tenant, 0, 0, quotas, 0).items()}
        awaits(server, "nothing yet", {**nothing, "wfmc_log_used_places": 0, "wfmc_log_bytes": 0})
        shops = [server.client("shop") for _ in range(5)]
        other = server.client("b-2_x")
        thirds = [server.client("third") for _ in range(2)]
        for number, client in enumerate(shops * 4):
            check("a set", client.line(f"set key{number:02} 0 0 7\r\n1234567\r\n".encode()) == "STORED")
        check("another's set", other.line(b"set k 0 0 3\r\nabc\r\n") == "STORED")
        for number, client in enumerate(thirds * 2):
            check("a third's set", client.line(f"set t{number} 0 0 5\r\n12345\r\n".encode()) == "STORED")
        third = tables("third", 4, 4 * 7, (30, 7_000), 2)
        wanted = {**nothing, **tables("shop", 20, 20 * 12, (100, 10_000), 5), **tables("b-2_x", 1, 4, (20, 5_000), 1), **third}
        # Keys and data, and 64 more for each command, as --log-bytes counts them.
        kept = 20 * 12 + 4 + 4 * 7 + 25 * 64
        log = {"wfmc_log_used_places": 25, "wfmc_log_bytes": kept, "wfmc_log_places": 1000, "wfmc_log_generation": 1}
        # The last set was sent to the eighth worker, which has replayed them all then.
        shown = awaits(server, "what the clients know", {**wanted, **log, lag_of(7): 0})
        connections = [shown[f'wfmc_worker_connections{{worker="{worker}"}}'] for worker in range(16)]
        # Connections are handed to the workers in turn.
        check("the workers' connections", connections == [1] * 8 + [0] * 8, str(connections))
        check("the resident memory", 1 << 20 < shown["process_resident_memory_bytes"] < 1 << 32)
        with server.client("admin") as chief:
            check("an administrator", chief.line(b"limit b-2_x 7 99\r\n") == "OK")
            check("a delete", shops[0].line(b"delete key00\r\n") == "DELETED")
            wanted = {**tables("shop", 19, 19 * 12, (100, 10_000), 5), **tables("b-2_x", 1, 4, (7, 99), 1), **third}
            # A delete keeps its key and 64 bytes more, and a limit none.
            awaits(server, "other quotas", {**wanted, "wfmc_log_used_places": 27, "wfmc_log_bytes": kept + 5 + 64})
        for client in shops:
            client.close()
        awaits(server, "the connections that are left", {of("connections", "shop"): 0, of("connections", "b-2_x"): 1, of("connections", "third"): 2})
        check_pages(server)


def check_pages(server):
    """What is answered at other paths, and by other methods; and a scrape of these 64 tenants as a whole."""
    scraper = Scraper(server)
    status, fields, body = scraper.get("/")
    check("the page", status.endswith("200 OK") and fields["content-type"].startswith("text/html") and "<th>shop<td>19<td>100<td>228" in body, body)
    check("another path", scraper.get("/favicon.ico")[0] == "HTTP/1.1 404 Not Found")
    scraper.send(b"POST /metrics HTTP/1.1\r\nHost: wfmc\r\nContent-Length: 0\r\n\r\n")
    check("another method", scraper.reply()[0] == "HTTP/1.1 405 Method Not Allowed")
    text = scraper.get()[2]
    check("each kind of commands and refusals", text.count("wfmc_tenant_commands_total{") == 64 * 12 and text.count("wfmc_tenant_refusals_total{") == 64 * 11)
    check_by_promtool(text)


def fallen_lags(server, most):
    """The lags of two workers, once none is above this, or after some patience."""
    until = time.monotonic() + PATIENCE
    while max(lags := lags_of(scrape(server))) > most and time.monotonic() < until:
        time.sleep(0.02)
    return lags


def check_lag():
    """A few commands don't wake the worker that has no command of its own: it lags until it has one, or until many places were used."""
    with Server(PROGRAM, ("--workers", "2", *METRICS)) as server:
        busy, idle = server.client("a", 0), server.client("a", 1)
        check("an idle worker's client", idle.line(b"version\r\n") == "VERSION 1.0.0")
        # Until that worker waits for its next event it may still replay what the other does.
        time.sleep(0.3)
        check("a busy worker's sets", {busy.line(b"set k 0 0 1\r\nx\r\n") for _ in range(50)} == {"STORED"})
        lags = lags_of(awaits(server, "what the busy worker has done", {"wfmc_log_used_places": 50, "wfmc_log_bytes": 50 * 66}))
        check("a worker that lags", lags[0] == 0 < lags[1], str(lags))
        check("an idle worker's get", idle.ask(b"get k\r\n", b"END\r\n") == b"VALUE k 0 1\r\nx\r\nEND\r\n")
        # A get keeps a byte more for each of its keys.
        lags = lags_of(awaits(server, "what both have done", {"wfmc_log_used_places": 51, "wfmc_log_bytes": 50 * 66 + 66}))
        check("a worker that has caught up", lags[1] == 0 and lags[0] <= 1, str(lags))
        replies = busy.ask(b"get k\r\n" * (2 * STRIDE) + b"version\r\n", b"VERSION 1.0.0\r\n")
        check("a busy worker's gets", replies.count(b"END\r\n") == 2 * STRIDE)
        awaits(server, "what the busy worker has done then", {"wfmc_log_used_places": 51 + 2 * STRIDE})
        lags = fallen_lags(server, STRIDE)
        check("a worker that is woken where many places were used", max(lags) <= STRIDE, str(lags))


def check_by_promtool(text):
    """Holds a scrape and the rules against promtool."""
    if not PROMTOOL:
        print("promtool isn't installed (Debian's package prometheus), so neither a scrape nor the rules are held against it")
        return
    for what, words, given in (("metrics", ["check", "metrics"], text), ("rules", ["check", "rules", RULES], "")):
        told = subprocess.run([PROMTOOL, *words], input=given, capture_output=True, text=True, timeout=20)
        check(f"promtool check {what}", told.returncode == 0, told.stdout + told.stderr)


# Commands, what each is answered, and how many bytes of the log it keeps, whatever comes of it: 64 and those of its key and its data, or of each of
# its keys and a byte more.
KEEPING = [
    ("set key 0 0 2\r\n12\r\n", "STORED", 64 + 3 + 2),
    ("add other 0 0 7\r\n1234567\r\n", "STORED", 64 + 5 + 7),
    ("add other 0 0 9\r\n123456789\r\n", "NOT_STORED", 64 + 5 + 9),
    ("replace key 0 0 5\r\n12345\r\n", "STORED", 64 + 3 + 5),
    ("append key 0 0 6\r\n678901\r\n", "STORED", 64 + 3 + 6),
    ("prepend key 0 0 8\r\n12345678\r\n", "STORED", 64 + 3 + 8),
    ("cas key 0 0 10 999999\r\n1234567890\r\n", "EXISTS", 64 + 3 + 10),
    ("cas missing 0 0 11 1\r\n12345678901\r\n", "NOT_FOUND", 64 + 7 + 11),
    ("incr other 1\r\n", "1234568", 64 + 5),
    ("incr missing 1\r\n", "NOT_FOUND", 64 + 7),
    ("decr other 2\r\n", "1234566", 64 + 5),
    ("get missing\r\n", "END", 64 + 7 + 1),
    ("gets missing none\r\n", "END", 64 + 7 + 1 + 4 + 1),
    ("delete other\r\n", "DELETED", 64 + 5),
    ("flush_all\r\n", "OK", 0),
]


def check_kept_bytes():
    """What each kind of command keeps of a log's bytes."""
    with Server(PROGRAM, ("--workers", "1", *METRICS)) as server, server.client() as client:
        kept = 0
        for number, (request, reply, count) in enumerate(KEEPING, 1):
            what = request.partition("\r\n")[0]
            told = client.line(request.encode())
            check(f"the reply to {what}", told == reply, told)
            shown = awaits(server, f"what {what} keeps", {"wfmc_log_used_places": number, "wfmc_log_bytes": kept + count})
            kept = shown["wfmc_log_bytes"]


def used_in_a_second(server):
    """The processor time that it uses in the next second."""
    used = server.processor_seconds()
    time.sleep(1)
    return server.processor_seconds() - used


def used_at_rest(server):
    """The same of the first second of some in which that is little, or else of the last."""
    until = time.monotonic() + PATIENCE
    while (used := used_in_a_second(server)) >= 0.1 and time.monotonic() < until:
        pass
    return used


def check_rest():
    """Where nobody scrapes no processor is used, and none next to a connection that had more scrapes than one of its turns takes and stays."""
    with Server(PROGRAM, METRICS) as server:
        used = used_at_rest(server)
        check("nobody scrapes, and it rests", used < 0.1, f"{used:.2f} seconds of a processor in one")
        scraper = Scraper(server)
        scraper.send(b"GET /metrics HTTP/1.1\r\nHost: wfmc\r\n\r\n" * 20)
        check("scrapes that are asked for at once", all(scraper.reply()[0] == "HTTP/1.1 200 OK" for _ in range(20)))
        used = used_at_rest(server)
        check("a quiet connection, and it rests", used < 0.1, f"{used:.2f} seconds of a processor in one")
        check("one more scrape over it", scraper.get()[0] == "HTTP/1.1 200 OK")


# What a client sends and is answered, and what is counted of it: the kind of its command, how many keys that retrieves, and its refusal. The
# tenant may hold two items.
VALUE = "VALUE k 0 3\r\n645\r\nEND\r\n"
COUNTED = [
    ("set k 0 0 1\r\n1\r\n", "STORED\r\n", "set", 0, None),
    ("set k 0 0 1 noreply\r\n2\r\n", "", "set", 0, None),
    ("add k 0 0 1\r\n3\r\n", "NOT_STORED\r\n", "add", 0, None),
    ("replace k 0 0 1\r\n4\r\n", "STORED\r\n", "replace", 0, None),
    ("append k 0 0 1\r\n5\r\n", "STORED\r\n", "append", 0, None),
    ("prepend k 0 0 1\r\n6\r\n", "STORED\r\n", "prepend", 0, None),
    ("cas k 0 0 1 999999\r\n7\r\n", "EXISTS\r\n", "cas", 0, None),
    ("incr k 1\r\n", "646\r\n", "incr", 0, None),
    ("decr k 1 noreply\r\n", "", "decr", 0, None),
    ("get k\r\n", VALUE, "get", 1, None),
    ("get x k y\r\n", VALUE, "get", 3, None),
    ("gets x\r\n", "END\r\n", "gets", 1, None),
    ("get" + " x" * 300 + "\r\n", "END\r\n", "get", 300, None),
    ("delete x\r\n", "NOT_FOUND\r\n", "delete", 0, None),
    ("set n 0 0 1\r\na\r\n", "STORED\r\n", "set", 0, None),
    ("incr n 1\r\n", "CLIENT_ERROR cannot increment or decrement non-numeric value\r\n", "incr", 0, "not_a_number"),
    ("set o 0 0 1\r\nb\r\n", "SERVER_ERROR out of memory storing object\r\n", "set", 0, "no_room"),
    ("set o 0 0 1 noreply\r\nb\r\n", "", "set", 0, "no_room"),
    ("nothing\r\n", "ERROR\r\n", None, 0, "unknown_command"),
    ("set k 0 7 1\r\n8\r\n", "CLIENT_ERROR expiry is not supported\r\n", None, 0, "no_expiry"),
    ("set k 0 7 1 noreply\r\n9\r\n", "", None, 0, "no_expiry"),
    ("incr k x\r\n", "CLIENT_ERROR invalid numeric delta argument\r\n", None, 0, "bad_delta"),
    ("version\r\n", "VERSION 1.0.0\r\n", None, 0, None),
    ("flush_all\r\n", "OK\r\n", "flush_all", 0, None),
]
KINDS = "get gets set add replace append prepend cas delete incr decr flush_all".split()
REFUSALS = "unknown_command bad_format bad_block no_expiry line_too_long too_large no_room not_a_number bad_delta log_full out_of_memory".split()


def tallies(tenant, rounds):
    """The samples of a tenant whose clients have sent this so often."""
    def kinds(metric, label, names, place):
        named = [row[place] for row in COUNTED]
        return {f'wfmc_tenant_{metric}_total{{tenant="{tenant}",{label}="{name}"}}': rounds * named.count(name) for name in names}

    hits = sum(row[1].count("VALUE") for row in COUNTED if row[3])
    misses = sum(row[3] for row in COUNTED) - hits
    found = {of("hits_total", tenant): rounds * hits, of("misses_total", tenant): rounds * misses}
    return {**found, **kinds("commands", "command", KINDS, 2), **kinds("refusals", "refusal", REFUSALS, 4)}


def check_tallies():
    """Commands, hits, misses and refusals of three tenants behind 40 idle ones, over two of five workers and over logs that follow one another."""
    sent, wanted = ("".join(row[at] for row in COUNTED).encode() for at in (0, 1))
    tenants = behind(40, {"a": (2, 1000), "b": (2, 1000), "c": (2, 1000)})
    with Server(PROGRAM, ("--workers", "5", "--places", "60", "--generations", "0", *METRICS), tenants) as server:
        awaits(server, "no request yet", {**tallies("a", 0), **tallies("b", 0), **tallies("c", 0)})
        clients = [server.client(tenant, worker) for tenant in ("a", "a", "b") for worker in (0, 4)] + [server.client("c", 0)]
        for number, client in enumerate(clients * 3):
            reply = client.ask(sent, wanted[-30:])
            check("the replies that are counted", reply == wanted, f"{number}: {reply}")
        shown = awaits(server, "tallies that the clients know", {**tallies("a", 12), **tallies("b", 6), **tallies("c", 3)})
        check("over several logs", shown["wfmc_log_generation"] >= 4, str(shown["wfmc_log_generation"]))
        for client in clients:
            client.close()
        with server.client("b", 4) as client:
            check("another client's replies", client.ask(sent, wanted[-30:]) == wanted)
        awaits(server, "tallies after connections have ended", {**tallies("a", 12), **tallies("b", 7), **tallies("c", 3), of("connections", "a"): 0})


def starve(client):
    """What a client reads once its block has come up to where no memory is left for more of it."""
    # Where much is on its way yet, a reset follows the reply.
    with contextlib.suppress(OSError):
        client.socket.sendall(b"set k 0 0 1000000\r\n")
        for _ in range(99):
            client.socket.sendall(10_000 * b"x")
            if select.select([client.socket], [], [], 0.02)[0]:
                break
    return client.drain()[1]


def check_starved():
    """A request for which memory runs out: its client is told so in place of a reply, and that is counted."""
    def starved(tenant, count):
        return {f'wfmc_tenant_refusals_total{{tenant="{tenant}",refusal="out_of_memory"}}': count, f'wfmc_tenant_commands_total{{tenant="{tenant}",command="set"}}': 1}

    with Server(PROGRAM, METRICS, {"a": LARGE, "b": LARGE}) as server:
        clients = [server.client(tenant) for tenant in ("a", "b")]
        for client in clients:
            check("a set while there is memory", client.line(b"set k 0 0 1\r\nx\r\n") == "STORED")
        awaits(server, "nobody was refused memory", {**starved("a", 0), **starved("b", 0)})
        limits = resource.prlimit(server.process.pid, resource.RLIMIT_DATA)
        # Linux takes a limit of 0 for none.
        resource.prlimit(server.process.pid, resource.RLIMIT_DATA, (4096, limits[1]))
        told = starve(clients[0])
        resource.prlimit(server.process.pid, resource.RLIMIT_DATA, limits)
        check("what the client is told", told == protocol.STARVED, told)
        awaits(server, "a request that was refused memory", {**starved("a", 1), **starved("b", 0), of("connections", "a"): 0})
        check("another tenant's client", clients[1].ask(b"get k\r\n", b"END\r\n") == b"VALUE k 0 1\r\nx\r\nEND\r\n")


def works(server, tenant, stop, wrong):
    """A client that checks each reply until it is stopped; how many sets and gets it sent."""
    with server.client(tenant) as client:
        number = 0
        while not stop.is_set():
            number += 1
            if client.line(f"set k{number % 7} 0 0 6\r\n{number:06}\r\n".encode()) != "STORED":
                wrong.append(f"set {number}")
            wanted = f"VALUE k{number % 7} 0 6\r\n{number:06}\r\nEND\r\n".encode()
            if client.ask(f"get k{number % 7}\r\n".encode(), b"END\r\n") != wanted:
                wrong.append(f"get {number}")
    return number


def scrapes(server, stop, wrong):
    """Scrapes until it is stopped; how often."""
    scraper, count = Scraper(server), 0
    while not stop.is_set():
        status, _, body = scraper.get()
        count += 1
        used = re.search(r"^wfmc_log_used_places ([0-9]+)$", body, re.M)
        if not status.endswith("200 OK") or not used or int(used[1]) > PLACES:
            wrong.append(f"scrape {count}: {status} {used}")
    return count


def counted(thread, wrong):
    """What a thread has counted; a fault that it ended by is wrong."""
    try:
        return thread.result()
    except Exception as error:  # whatever it is, it is a failure
        wrong.append(f"{type(error).__name__}: {error}")
        return 0


def at_full_speed(server, tenants, seconds=3):
    """A client of each tenant, and three scrapers, for some seconds: what is wrong, and what each client and each scraper has counted."""
    stop, wrong = threading.Event(), []
    with concurrent.futures.ThreadPoolExecutor(len(tenants) + 3) as pool:
        # Each client has a tenant of its own, and so knows what it is to be answered.
        clients = {tenant: pool.submit(works, server, tenant, stop, wrong) for tenant in tenants}
        scrapers = [pool.submit(scrapes, server, stop, wrong) for _ in range(3)]
        try:
            time.sleep(seconds)
        finally:
            stop.set()
    served = {tenant: counted(client, wrong) for tenant, client in clients.items()}
    counts = [counted(scraper, wrong) for scraper in scrapers]
    return wrong, served, counts


def check_full_speed():
    """Scrapes as fast as they come, over logs that follow one another, while clients of two tenants are answered as ever."""
    tenants, begun = {"a": LARGE, "b": LARGE}, time.monotonic()
    with Server(PROGRAM, ("--workers", "2", "--places", str(PLACES), "--generations", "0", *METRICS), tenants) as server:
        wrong, served, counts = at_full_speed(server, tenants)
        check("replies and scrapes at full speed", not wrong, str(wrong[:5]))
        total = sum(served.values())
        check("many of both", total > 200 and min(counts) > 20, f"{served} {counts}")
        wanted = {of("items", "a"): 7, of("items", "b"): 7, of("connections", "a"): 0}
        for tenant, number in served.items():
            wanted |= {f'wfmc_tenant_commands_total{{tenant="{tenant}",command="{kind}"}}': number for kind in ("set", "get")}
            wanted |= {of("hits_total", tenant): number, of("misses_total", tenant): 0}
        shown = awaits(server, "what two clients leave", wanted)
        # Each of these is a set and a get. A log's last place is often left.
        logs = 2 * total // PLACES
        check("logs that followed", logs <= shown["wfmc_log_generation"] <= logs + logs // 100 + 2, f"{shown['wfmc_log_generation']} {logs}")
        check("turn overs", shown["wfmc_turn_over_seconds_count"] == shown["wfmc_log_generation"] - 1)
        seconds, passed = shown["wfmc_turn_over_seconds_sum"], time.monotonic() - begun
        check("their time, in seconds", 0 < seconds < passed, f"{seconds} {passed}")


def closing_of(scraper):
    """Whether a connection is closed on which nothing is sent, and after how many seconds."""
    begun = time.monotonic()
    try:
        is_closed = scraper.ends()
    except TimeoutError:
        is_closed = False
    return is_closed, time.monotonic() - begun


def check_strangers():
    """Requests that are slow, huge or none, and many more connections than there are places for."""
    with Server(PROGRAM, METRICS, {"a": LARGE}) as server, concurrent.futures.ThreadPoolExecutor(1) as pool:
        # In a thread of its own, so that the others don't count for the time.
        idle = pool.submit(closing_of, Scraper(server))
        check_odd_requests(server)
        with server.client("a") as client:
            check("a tenant's client beside them", client.line(b"set k 0 0 1\r\nx\r\n") == "STORED")
        awaits(server, "a scrape beside them", {of("items", "a"): 1})
        is_closed, seconds = idle.result()
        check("one that does nothing is closed", is_closed and 8 < seconds < 14, str(seconds))
        check_crowd(server)


def check_odd_requests(server):
    """Requests that are slow, huge or none, each over a connection of its own."""
    slow = Scraper(server)
    for byte in b"GET /metrics HTTP/1.1\r\nHost: wfmc\r\n\r\n":
        slow.send(bytes([byte]))
        time.sleep(0.01)
    check("a slow request", slow.reply()[0] == "HTTP/1.1 200 OK")
    head, line = b"GET / HTTP/1.1\r\nX: " + b"x" * 100_000 + b"\r\n\r\n", b"GET /" + b"x" * 100_000
    for what, sent, wanted in (("a huge head", head, "431"), ("a huge line", line, "414")):
        huge = Scraper(server)
        # Where much is on its way yet, a reset follows the answer.
        with contextlib.suppress(OSError):
            huge.send(sent)
        status = huge.reply()[0]
        check(what, status.split()[1:2] == [wanted], status)
    body = b"GET / HTTP/1.1\r\nHost: w\r\nContent-Length: 9\r\n\r\n123456789"
    for what, sent in (("no request", b"\0\1\2\r\n\r\n"), ("memcached's words", b"get a\r\n\r\n"), ("a body", body)):
        wrong = Scraper(server)
        wrong.send(sent)
        status = wrong.reply()[0]
        check(what, status.split()[1:2] in (["400"], ["413"]) and wrong.ends(), status)
    half = Scraper(server)
    half.send(b"GET /met")
    half.socket.shutdown(socket.SHUT_WR)
    half.close()


def timed_scrape(server, what):
    """A scrape over a connection of its own, which is to be answered soon."""
    begun = time.monotonic()
    try:
        status = Scraper(server).get()[0]
    except OSError as error:
        status = repr(error)
    seconds = time.monotonic() - begun
    check(what, status == "HTTP/1.1 200 OK" and seconds < SOON, f"{status} after {seconds:.2f} seconds")


def check_crowd(server):
    """As many connections as there are places for, and more; the tenant's item is there."""
    crowd = [Scraper(server) for _ in range(MOST)]
    for scraper in crowd:
        check("one of sixteen", scraper.get()[0] == "HTTP/1.1 200 OK")
    timed_scrape(server, "the seventeenth is answered")
    crowd[0].socket.settimeout(SOON)
    check("the one that was idle longest gives its place", closing_of(crowd[0])[0])
    check("the others keep theirs", all(scraper.get()[0] == "HTTP/1.1 200 OK" for scraper in crowd[1:]))
    strangers = [Scraper(server) for _ in range(MOST)]
    timed_scrape(server, "a scrape next to sixteen that send nothing")
    strangers += [Scraper(server) for _ in range(200)]
    timed_scrape(server, "a scrape behind two hundred that send nothing")
    for stranger in strangers[-MOST:]:
        # A part of a head is no request.
        stranger.send(b"GET /metrics HTTP/1.1\r\n")
    timed_scrape(server, "a scrape next to sixteen that send half a request")
    with server.client("a") as client:
        check("a tenant's client beside a crowd", client.ask(b"get k\r\n", b"END\r\n") == b"VALUE k 0 1\r\nx\r\nEND\r\n")
    for scraper in crowd + strangers:
        scraper.close()


def floods(server, request, stop):
    """Sends requests as fast as the server takes them, over one connection after another, and drops what is answered."""
    while not stop.is_set():
        try:
            with contextlib.closing(Scraper(server, seconds=0.2)) as scraper:
                while not stop.is_set():
                    scraper.send(request)
                    scraper.has_more()
                    scraper.held = b""
        except OSError:
            # It was closed in the middle, or takes nothing for a moment.
            pass


def check_flood():
    """Requests without end over as many connections as there are places for. 64 tenants make each answer a long one."""
    head, odd = b"HEAD /metrics HTTP/1.1\r\nHost: wfmc\r\n\r\n", b"GET /none HTTP/1.1\r\nHost: wfmc\r\n\r\n"
    with Server(PROGRAM, METRICS, behind(63, {"a": LARGE})) as server:
        for what, request in (("heads", 50 * head), ("a path that isn't there", 50 * odd), ("one at a time", head)):
            stop = threading.Event()
            with concurrent.futures.ThreadPoolExecutor(MOST) as pool:
                flooding = [pool.submit(floods, server, request, stop) for _ in range(MOST)]
                try:
                    used = used_in_a_second(server)
                    timed_scrape(server, f"a scrape in a flood: {what}")
                finally:
                    stop.set()
            check(f"who floods: {what}", all(flood.exception() is None for flood in flooding))
            check(f"a flood takes little of a processor: {what}", used < MOST_OF_A_PROCESSOR, f"{used:.2f} seconds of a processor in one")


def check_words():
    with socket.create_server(("127.0.0.1", 0)) as other:
        taken = "127.0.0.1:%d" % other.getsockname()[1]
        check("a port in use", ending_of("--metrics", taken, "a=127.0.0.1:0,1,1") == (1, b"", b"wfmc: cannot listen metrics\n"))
        check("an administrators' is tried first", ending_of("--metrics", taken, "--admin", taken, "a=127.0.0.1:0,1,1") == (1, b"", b"wfmc: cannot listen admin\n"))
    refused = 2, b"", b"wfmc: bad settings\n"
    check("a tenant named metrics", ending_of(*METRICS, "metrics=127.0.0.1:0,1,1") == refused)
    for address in ("127.0.0.1", "localhost:1", "127.0.0.1:65536"):
        check(f"no address: {address}", ending_of(f"--metrics={address}", "a=127.0.0.1:0,1,1") == refused)
    told = 2, b"", b"wfmc: --metrics :1: ADDR is not an IPv4 address and a port\n"
    check("what is wrong with it", ending_of("--check", "--metrics", ":1", "a=127.0.0.1:0,1,1") == told)
    told = 2, b"", b"wfmc: two listeners are named metrics\n"
    check("two of that name", ending_of("--check", *METRICS, *ADMIN, "a=127.0.0.1:0,1,1", "metrics=127.0.0.1:0,1,1") == told)
    with Server(PROGRAM, (), {"metrics": LARGE}) as server:
        check("a tenant of that name, where none are scraped", list(server.ports) == ["metrics"])
    with Server(PROGRAM, ("--connections", "1", *METRICS), {"a": LARGE}) as server:
        scraper = Scraper(server)
        check("a scrape before the end", scraper.get()[0] == "HTTP/1.1 200 OK")
        with server.client("a") as client:
            client.line(b"set k 0 0 1\r\nx\r\n")
        check("the end, at once", server.wait() == (0, b"done 1\n", b"") and scraper.ends())


def main():
    repository.enter(PROGRAM)
    check_words()
    check_numbers()
    check_lag()
    check_kept_bytes()
    check_rest()
    check_tallies()
    check_starved()
    check_full_speed()
    check_strangers()
    check_flood()
    results.finish()


if __name__ == "__main__":
    main()
