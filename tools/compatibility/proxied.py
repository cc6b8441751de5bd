"""Tests twemproxy over three instances of wfmc, as tools/proxy.yml has it, on free ports; tools/proxy.sh runs it.

One pool is one tenant. With auto_eject_hosts off and then on: keys go to all three instances, tenants are isolated, one instance is
stopped and started again, and clients get what docs/CLIENTS.md says. The last line is 'N passed, M failed'.
"""

import contextlib
import pathlib
import re
import signal
import sys
import tempfile
import time

from pymemcache.client.base import Client
from pymemcache.exceptions import MemcacheError

sys.path.insert(0, str(pathlib.Path(__file__).parents[2] / "tests"))
from harness import repository
from harness.processes import Process
from harness.results import Results
from harness.servers import Server, free_port, wait_for

HERE = pathlib.Path(__file__).parent
CLIENTS = HERE.parent.parent / "docs/CLIENTS.md"
SECONDS = 30
QUOTAS = (100_000, 100_000_000)
KEYS = [f"key{at}" for at in range(300)]
results = Results()
check = results.check


def client(port):
    return Client(("127.0.0.1", port), default_noreply=False, timeout=SECONDS, connect_timeout=SECONDS)


class Instance:
    """One wfmc for the two tenants, at ports that stay when it is stopped."""

    def __init__(self, program, ports):
        self.program, self.ports = program, ports
        self.start()

    def start(self):
        self.server = Server(self.program, tenants=dict.fromkeys(self.ports, QUOTAS), ports=self.ports)
        self.server.addresses()

    def stop(self):
        self.server.end(signal.SIGTERM)

    def held(self, tenant):
        """The tenant's keys that this instance holds, asked of it and not of the proxy."""
        return client(self.ports[tenant]).get_many(KEYS)


class Cluster:
    """Three instances behind a proxy, with the configuration's addresses put at free ports."""

    def __init__(self, program, folder, eject):
        text = (HERE.parent / "proxy.yml").read_text().replace("auto_eject_hosts: false", f"auto_eject_hosts: {'true' if eject else 'false'}")
        ports = {}

        def free(match):
            return "127.0.0.1:" + str(ports.setdefault(match[1], free_port()))

        text = re.sub(r"127\.0\.0\.1:(\d+)", free, re.sub("#.*", "", text))
        self.file = pathlib.Path(folder, "proxy.yml")
        self.file.write_text(text)
        self.pools = {"shop": ports["22121"], "blog": ports["22122"]}
        self.instances = []
        words = ["nutcracker", "-c", str(self.file), "-s", str(free_port()), "-a", "127.0.0.1", "-o", f"{folder}/log", "-p", f"{folder}/pid"]
        with contextlib.ExitStack() as started:
            for at in "123":
                self.instances.append(Instance(program, {"shop": ports[f"112{at}1"], "blog": ports[f"112{at}2"]}))
                started.callback(self.instances[-1].stop)
            proxy = started.enter_context(Process(words))
            wait_for(lambda: not proxy.is_running() or self.listens(), "nutcracker")
            self.started = started.pop_all()

    def listens(self):
        with contextlib.suppress(OSError):
            client(self.pools["blog"]).get("nothing")
            return True

    def close(self):
        self.started.close()


def tried(function, *words, **named):
    """The answer, or the first word of the error with the rest of it."""
    try:
        return function(*words, **named)
    except (MemcacheError, OSError) as fault:
        return f"{type(fault).__name__}: {fault.args[0].decode() if fault.args and isinstance(fault.args[0], bytes) else fault}"


def check_keys(cluster):
    """Keys go to all instances, each to one; and commands on one key do what they do without a proxy."""
    shop = client(cluster.pools["shop"])
    check("sets are stored", all(shop.set(key, f"shop {key}") for key in KEYS))
    held = [instance.held("shop") for instance in cluster.instances]
    check("each instance holds some keys", all(held), [len(it) for it in held])
    check("each key is at one of them", sorted(key for it in held for key in it) == sorted(KEYS))
    counts = [len(it) for it in held]
    check("as many keys of each as docs/CLIENTS.md says", "{}, {} and {}".format(*counts) in CLIENTS.read_text(), counts)
    check("a get of all keys", shop.get_many(KEYS) == {key: f"shop {key}".encode() for key in KEYS})
    check("add, held and not", (shop.add("key0", "x"), shop.add("lock", "me"), shop.delete("lock")) == (False, True, True))
    value, unique = shop.gets("key1")
    check("cas", (shop.cas("key1", value, unique), shop.cas("key1", "x", unique)) == (True, False))
    check("numbers", (shop.set("n", "41"), shop.incr("n", 1), shop.decr("n", 2), shop.delete("n")) == (True, 42, 40, True))
    check("append", (shop.append("key2", "!"), shop.get("key2"), shop.set("key2", "shop key2")) == (True, b"shop key2!", True))
    check("a set without a reply", (shop.set("q", "1", noreply=True), shop.get("q"), shop.delete("q")) == (True, b"1", True))


def check_tenants(cluster):
    blog, shop = client(cluster.pools["blog"]), client(cluster.pools["shop"])
    check("the other tenant sees none of these keys", blog.get_many(KEYS) == {})
    check("it sets the same keys", all(blog.set(key, f"blog {key}") for key in KEYS))
    check("and each reads its own", (blog.get("key7"), shop.get("key7")) == (b"blog key7", b"shop key7"))
    check("as all of them do", shop.get_many(KEYS) == {key: f"shop {key}".encode() for key in KEYS})


def check_refused(cluster):
    """What the proxy doesn't pass on."""
    for name, function in {"flush_all": lambda it: it.flush_all(), "stats": lambda it: it.stats()}.items():
        answer = tried(function, client(cluster.pools["shop"]))
        check(f"{name} isn't passed on", answer == "MemcacheUnexpectedCloseError: ", answer)
    answer = tried(client(cluster.pools["shop"]).set, "expiring", "x", expire=60)
    check("an expiry is refused through it too", answer == "MemcacheClientError: expiry is not supported", answer)


def check_stopped(cluster):
    """Without ejection: an error for each key of the instance that is stopped, and no other effect."""
    shop, stopped = client(cluster.pools["shop"]), cluster.instances[0]
    lost = set(stopped.held("shop"))
    stopped.stop()
    answer = {key: tried(shop.get, key) for key in KEYS}
    check("the keys of the others are read", all(answer[key] == f"shop {key}".encode() for key in set(KEYS) - lost))
    check("each of its own is an error", all(str(answer[key]).startswith("MemcacheServerError") for key in lost), {answer[key] for key in lost})
    check("and this error", {answer[key] for key in lost} == {"MemcacheServerError: Connection refused"}, {answer[key] for key in lost})
    others = sorted(set(KEYS) - lost)
    check("a get of many keys that names none of its own", len(shop.get_many(others)) == len(others))
    key = sorted(lost)[0]
    answer = tried(shop.get_many, [*others[:5], key])
    check("a get of many keys that names one of its own", answer == "MemcacheServerError: Connection refused", answer)
    answer = tried(shop.set, key, "x")
    check("a set is an error too", str(answer).startswith("MemcacheServerError"), answer)
    stopped.start()
    wait_for(lambda: tried(shop.get, key) is None, "the instance behind the proxy")
    check("started again, its keys are lost", all(tried(shop.get, key) is None for key in lost))
    check("and the others' are there", all(shop.get(key) == f"shop {key}".encode() for key in set(KEYS) - lost))
    check("its keys can be set again", all(shop.set(key, "again") for key in lost) and set(stopped.held("shop")) == lost)


def check_ejected(cluster):
    """With ejection: its keys go to the others until it is back, and what they were given there stays there."""
    shop, stopped = client(cluster.pools["shop"]), cluster.instances[0]
    lost = sorted(stopped.held("shop"))
    stopped.stop()
    answer = [tried(shop.get, key) for key in lost]
    errors = [it for it in answer if isinstance(it, str)]
    check("at first some errors, then its keys aren't held", errors and answer[-1] is None, answer)
    check("these errors", set(errors) == {"MemcacheServerError: Connection refused"}, errors)
    check("the keys of the others are read", all(shop.get(key) == f"shop {key}".encode() for key in set(KEYS) - set(lost)))
    key = lost[0]
    until = time.monotonic() + SECONDS
    while tried(shop.set, key, "given meanwhile") is not True and time.monotonic() < until:
        time.sleep(0.05)
    others = [key in instance.held("shop") for instance in cluster.instances[1:]]
    check("a set goes to another instance", sorted(others) == [False, True], others)
    stopped.start()

    def is_back():
        return tried(shop.set, lost[1], "x") is True and lost[1] in stopped.held("shop")

    wait_for(is_back, "the instance that is back")
    check("it is used again", shop.get(key) is None and shop.set(key, "given afterwards") and shop.get(key) == b"given afterwards")
    stopped.stop()
    answer = []
    while b"given meanwhile" not in answer and len(answer) < 1000:
        answer.append(tried(shop.get, key))
        time.sleep(0.02)
    check("stopped once more, its key is read as it was meanwhile", answer[-1] == b"given meanwhile", answer[-3:])
    stopped.start()


def main():
    program = sys.argv[1] if len(sys.argv) > 1 else repository.program("wfmc")
    for eject in (False, True):
        print(f"auto_eject_hosts: {'true' if eject else 'false'}")
        with tempfile.TemporaryDirectory() as folder, contextlib.closing(Cluster(program, folder, eject)) as cluster:
            check_keys(cluster)
            check_tenants(cluster)
            check_refused(cluster)
            check_ejected(cluster) if eject else check_stopped(cluster)
    results.finish()


main()
