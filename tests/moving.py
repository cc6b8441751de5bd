#!/usr/bin/env python3
"""Tests how a tenant is moved from a running memcached, as docs/CLIENTS.md has it: Debian's memcached behind twemproxy, by the configuration on
that page, tools/move_tenant.py while a client goes on, and the switch. Afterwards each item without an expiry is read through the proxy as memcached
holds it, what was deleted is gone, and the other tenant has noticed nothing. Then a second try after one that was broken off, what is refused, a
client that goes on too long, and servers that aren't there or are others than the tool takes.

Usage: tests/moving.py [WFMC]. tools/moving.sh installs what it needs. The last line is 'N passed, M failed'.
"""

import pathlib
import random
import re
import signal
import subprocess
import sys
import tempfile
import threading

from harness import repository
from harness.client import Client
from harness.processes import SECONDS, Process
from harness.results import Results
from harness.servers import ADMIN, Memcached, Server, free_port, listens, wait_for

sys.path.insert(0, str(repository.ROOT / "tools"))
from move_tenant import Move

QUOTAS = (100_000, 100_000_000)
KEYS = [f"key{at}".encode() for at in range(1_500)]
EXPIRING = [f"expiring{at}".encode() for at in range(20)]
PAGE = "docs/CLIENTS.md"
results = Results()
check = results.check


def configuration():
    """The proxy's configuration on the page, but that it waits longer, since this machine may be busy when a log is followed by the next."""
    section = pathlib.Path(PAGE).read_text().partition("\n## Moving a tenant from memcached\n")[2]
    block = re.search(r"```yaml\n(.*?)```", section, re.S)[1]
    return re.sub("^   ", "", block, flags=re.M).replace("timeout: 2000", "timeout: 60000")


class Proxy:
    """twemproxy by that configuration, at a port that stays, before the server at another port."""

    def __init__(self, folder):
        self.folder, self.port, self.status = folder, free_port(), free_port()
        self.process = None

    def start(self, server):
        file = pathlib.Path(self.folder, "proxy.yml")
        file.write_text(configuration().replace("22121", str(self.port)).replace("11311", str(server)))
        words = ["nutcracker", "-c", str(file), "-s", str(self.status), "-a", "127.0.0.1", "-o", f"{self.folder}/log", "-p", f"{self.folder}/pid"]
        self.process = Process(words)
        wait_for(lambda: not self.process.is_running() or listens(self.port), "nutcracker")

    def stop(self):
        if self.process:
            self.process.end()
        self.process = None

    def __enter__(self):
        return self

    def __exit__(self, *_):
        self.stop()


def stored(client, key, data, flags=0, expiry=0):
    return client.line(b"set %s %d %d %d\r\n%s\r\n" % (key, flags, expiry, len(data), data)) == "STORED"


def got(replies):
    """The bytes of one reply to a get of one key: nothing, an item, or an error."""
    reply = replies.readline()
    if reply.startswith(b"VALUE "):
        reply += replies.read(int(reply.split()[3]) + 2) + replies.readline()
    return reply


def held(port, keys):
    """The replies to a get of each of these keys."""
    found = {}
    with Client(port, seconds=SECONDS) as client, client.socket.makefile("rb") as replies:
        for key in keys:
            client.send(b"get %s\r\n" % key)
            found[key] = got(replies)
    return found


class Writer(threading.Thread):
    """A client that sets, counts and deletes through the proxy until that stops."""

    def __init__(self, port):
        super().__init__()
        self.client, self.done = Client(port, seconds=SECONDS), 0
        self.enough = threading.Event()

    def run(self):
        chance = random.Random(7)
        try:
            while True:
                key = chance.choice(KEYS)
                request = chance.choice((b"set %s 3 0 9\r\n\r\nEND\r\n%02d\r\n" % (key, self.done % 100), b"delete %s\r\n" % key, b"incr number 1\r\n"))
                if self.client.line(request) in ("(closed)", "(reset)"):
                    return
                self.done += 1
                if self.done == 200:
                    self.enough.set()
        except OSError:
            return


def move(*words):
    pipes = {"stdin": subprocess.PIPE, "stdout": subprocess.PIPE, "stderr": subprocess.PIPE}
    return Process([sys.executable, "tools/move_tenant.py", *words], text=True, **pipes)


def tried(*words):
    """Its status, output and errors, where its input has ended."""
    with move(*words) as process:
        process.process.stdin.close()
        process.process.stdin = None
        return process.wait()


def fill(port):
    chance = random.Random(5)
    with Client(port) as client:
        check("items are set", all(stored(client, key, chance.randbytes(chance.randrange(300)), at) for at, key in enumerate(KEYS)))
        check("one of nearly a mebibyte", stored(client, b"large", chance.randbytes(1_000_000), 4_294_967_295))
        check("a number", stored(client, b"number", b"41"))
        check("one that memcached pads", stored(client, b"padded", b"10") and client.line(b"decr padded 1\r\n") == "9")
        check("a key with all other characters", stored(client, b"\xff%20=\x80&+", b"x"))
        check("items with an expiry", all(stored(client, key, b"x", expiry=3_000) for key in EXPIRING))


def check_move(source, server, proxy):
    """Warms up while a client goes on, stops it, and switches."""
    address = [f"127.0.0.1:{port}" for port in (source.port, server.ports["shop"])]
    proxy.start(source.port)
    fill(proxy.port)
    with Client(server.ports["blog"]) as blog, Client(server.ports["shop"]) as shop:
        check("the other tenant's", stored(blog, b"key0", b"blog") and stored(blog, b"only", b"blog"))
        check("an older item of the tenant", stored(shop, b"older", b"shop"))
    writer = Writer(proxy.port)
    writer.start()
    status, output, errors = tried(*address, "--once")
    check("a tenant that isn't new is refused", status == 2 and "with --flush all are removed first" in errors and "copied" not in output, errors)
    with move(*address, "--flush") as process:
        said = [process.process.stdout.readline() for _ in range(5)]
        check("it says what it copied", re.fullmatch(r"[1-9]\d* items copied, 0 deleted; 20 with an expiry are left out\n", said[2]), said)
        check("and what is padded", said[3] == "1 are numbers with blanks behind them, which incr and decr refuse here\n", said)
        check("and waits", said[4] == "Stop the clients, and then press Enter.\n", said)
        writer.enough.wait(SECONDS)
        proxy.stop()
        writer.join(SECONDS)
        check("a client went on meanwhile", writer.done > 200 and not writer.is_alive(), writer.done)
        names = [*KEYS, b"large", b"number", b"padded", b"\xff%20=\x80&+"]
        before = held(source.port, names)
        output, errors = process.process.communicate("\n", timeout=SECONDS)
    there = sum(reply != b"END\r\n" for reply in before.values())
    check("its status", process.process.returncode == 0, errors)
    check("what has changed is copied", re.search(r"^[1-9]\d* items copied, [1-9]\d* deleted; 20 with", output), output)
    check("all is the same at both", f"\n{there} items are the same at both\n" in output, (there, output))
    check("padded numbers are counted", "\n1 are numbers with blanks behind them, which incr and decr refuse here\n" in output, output)
    proxy.start(server.ports["shop"])
    after = held(proxy.port, names)
    check("through the proxy all is as it was", after == before, [(key, reply) for key, reply in after.items() if reply != before[key]][:3])
    check("some items had been deleted", any(before[key] == b"END\r\n" for key in KEYS))
    check("what had an expiry is left out", set(held(proxy.port, EXPIRING).values()) == {b"END\r\n"})
    check("the tenant's older item is gone", held(proxy.port, [b"older"])[b"older"] == b"END\r\n")
    other = held(server.ports["blog"], [*names, b"only"])
    check("the other tenant's items", {key for key, reply in other.items() if reply != b"END\r\n"} == {b"key0", b"only"})
    check("and their data", other[b"key0"] == b"VALUE key0 0 4\r\nblog\r\nEND\r\n")
    check("memcached's items", held(source.port, names) == before)
    with Client(proxy.port) as client:
        check("a count goes on", client.line(b"incr number 1\r\n").isdigit())
        check("a padded one doesn't", client.line(b"incr padded 1\r\n").startswith("CLIENT_ERROR cannot increment"))
        check("until it is set anew", stored(client, b"padded", b"9") and client.line(b"incr padded 1\r\n") == "10")
        check("a set after the switch", stored(client, b"key0", b"new"))
    check("goes to wfmc", held(server.ports["shop"], [b"key0"]) != held(source.port, [b"key0"]))
    proxy.stop()


def check_again(source, server):
    """After a try that was broken off only one with --flush goes on, so that no item stays that memcached has deleted or lets expire since."""
    address = [f"127.0.0.1:{port}" for port in (source.port, server.ports["again"])]
    with Client(source.port) as client:
        client.line(b"flush_all\r\n")
        check("items are set before the first try", all(stored(client, key, b"old") for key in (b"p", b"q", b"r")))
        with move(*address) as process:
            said = [process.process.stdout.readline() for _ in range(4)]
            check("it waits for the second pass", said[3] == "Stop the clients, and then press Enter.\n", said)
            status, _, errors = process.end(signal.SIGINT)
        check("it is broken off", status == 130 and "begin again with --flush" in errors, errors)
        check("one is deleted meanwhile", client.line(b"delete q\r\n") == "DELETED")
        check("one has an expiry by now", stored(client, b"r", b"new", expiry=3_000))
    status, _, errors = tried(*address, "--once")
    check("without --flush it doesn't begin again", status == 2 and "with --flush all are removed first" in errors, errors)
    status, output, errors = tried(*address, "--flush", "--once")
    check("with it one item is copied", status == 0 and "\n1 items are the same at both\n" in output, (output, errors))
    found = held(server.ports["again"], [b"p", b"q", b"r", b"-"])
    check("and no other is there", [key for key, reply in found.items() if reply != b"END\r\n"] == [b"p"], found)


def check_refused(source, server):
    """What can't be copied is counted after each pass, and items that the first one has copied under these keys are dropped."""
    address = [f"127.0.0.1:{port}" for port in (source.port, server.ports["small"])]
    with Client(source.port) as client:
        client.line(b"flush_all\r\n")
        sizes = {b"k0": 500, b"k1": 500, b"k2": 1_200}
        check("items are set there", all(stored(client, key, b"x" * size) for key, size in sizes.items()))
        check("one with a key that the protocol forbids", stored(client, b"tab\tbed", b"x"))
        with move(*address) as process:
            said = [process.process.stdout.readline() for _ in range(6)]
            check("what is copied", said[2] == "2 items copied, 0 deleted; 0 with an expiry are left out\n", said)
            check("one is refused by the quota", "1 were refused: SERVER_ERROR out of memory storing object\n" in said[3:5], said)
            check("one by its key", "1 were refused: the key has a character that memcached's protocol forbids\n" in said[3:5], said)
            check("these are said before it waits", said[5] == "Stop the clients, and then press Enter.\n", said)
            check("one grows", stored(client, b"k0", b"x" * 1_200))
            output, _ = process.process.communicate("\n", timeout=SECONDS)
    check("the status when some are refused", process.process.returncode == 1, output)
    check("by the quota", "2 were refused: SERVER_ERROR out of memory storing object\n" in output, output)
    check("by the key", "1 were refused: the key has a character that memcached's protocol forbids\n" in output, output)
    check("the other is the same", "\n1 items are the same at both\n" in output, output)
    found = held(server.ports["small"], list(sizes))
    check("no older item is left", [len(reply) for reply in found.values()] == [5, 523, 5], found)


def check_going_on(source, server):
    """After the last pass the items are the same; a client that goes on shows by each key that it changes, deletes, sets or lets expire."""
    with Client(source.port) as client:
        client.line(b"flush_all\r\n")
        check("some are set", all(stored(client, b"k%d" % at, b"x") for at in range(5)))
        check("and one that isn't copied", stored(client, b"expiring", b"x", expiry=3_000))
        mover = Move(*(f"127.0.0.1:{port}" for port in (source.port, server.ports["shop"])))
        check("all are copied", mover.copy() == (5, 0))
        check("nothing differs", not mover.different(), mover.different())
        check("one is changed", stored(client, b"k0", b"y"))
        check("one is deleted", client.line(b"delete k1\r\n") == "DELETED")
        check("one is to expire", client.line(b"touch k2 3000\r\n") == "TOUCHED")
        check("one is new", stored(client, b"k5", b"x"))
        check("one has a key that the protocol forbids", stored(client, b"tab\tbed", b"x"))
    wrong = mover.different()
    check("these differ", wrong == {b"k0", b"k1", b"k2", b"k5", b"tab\tbed"}, wrong)


def check_stopped(source, server):
    """Servers that aren't there or are others, and no second pass."""
    address = [f"127.0.0.1:{port}" for port in (source.port, server.ports["shop"])]
    nobody = f"127.0.0.1:{free_port()}"
    status, _, errors = tried(nobody, address[1])
    check("no memcached", status == 1 and f"{nobody}: Connection refused" in errors, errors)
    status, _, errors = tried(address[0], nobody)
    check("no wfmc", status == 1 and f"{nobody}: Connection refused" in errors, errors)
    status, _, errors = tried(f"[::1]:{free_port()}", address[1])
    check("an IPv6 address is none that is unknown", status == 1 and "Name or service" not in errors, errors)
    status, _, errors = tried(*address, "--flush")
    check("no second pass", status == 1 and "the second pass wasn't made" in errors and "begin again with --flush" in errors, errors)
    administrators = f"127.0.0.1:{server.ports['admin']}"
    others = {
        "FROM and TO are the same": (address[0], address[0]),
        f"{address[1]} is no memcached 1.6: are FROM and TO swapped?": (address[1], address[0]),
        f"localhost:{source.port} is a memcached, and no tenant of wfmc": (address[0], f"localhost:{source.port}"),
        f"{administrators} is no tenant's listener": (address[0], administrators),
    }
    for why, words in others.items():
        status, _, errors = tried(*words, "--flush", "--once")
        check("others are refused", status == 2 and why in errors, errors)
    for word in ("here", "127.0.0.1:99999", "127.0.0.1:1e4"):
        status, _, errors = tried(word, address[1])
        check("no address", status == 2 and f"{word} is no HOST:PORT" in errors, errors)


def main():
    program = sys.argv[1] if len(sys.argv) > 1 else repository.program("wfmc")
    repository.enter(program)
    repository.require("memcached", "nutcracker")
    tenants = {"shop": QUOTAS, "blog": QUOTAS, "again": QUOTAS, "small": (100, 1_100)}
    options = ["--generations", "0", "--places", "1024", *ADMIN]
    with tempfile.TemporaryDirectory() as folder, Memcached() as source, Server(program, options, tenants) as server, Proxy(folder) as proxy:
        server.addresses()
        check_move(source, server, proxy)
        check_again(source, server)
        check_refused(source, server)
        check_going_on(source, server)
        check_stopped(source, server)
    results.finish()


main()
