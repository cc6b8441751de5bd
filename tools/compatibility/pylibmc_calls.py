"""Calls of pylibmc, which stands on libmemcached; calls.py says how it is run."""

import pylibmc
from calls import SECONDS, case, main

LARGEST = 1024 * 1024


def client(address, **behaviors):
    """A client on a table that is empty; unlike pymemcache's, its connection stays at an error."""
    milliseconds = SECONDS * 1000
    times = {"connect_timeout": milliseconds, "send_timeout": milliseconds * 1000, "receive_timeout": milliseconds * 1000, "_poll_timeout": milliseconds}
    made = pylibmc.Client([f"{address[0]}:{address[1]}"], behaviors={"tcp_nodelay": True, **times, **behaviors})
    made.flush_all()
    return made


@case()
def storage(call, servers):
    it = client(servers["first"])
    call("get of no key", it.get, "greeting")
    call("set", it.set, "greeting", "hello")
    call("get", it.get, "greeting")
    call("add on a held key", it.add, "greeting", "hi")
    call("add", it.add, "other", "hi")
    call("replace", it.replace, "other", "ho")
    call("replace on no key", it.replace, "third", "ho")
    call("append", it.append, "greeting", ", world")
    call("prepend", it.prepend, "greeting", "oh ")
    call("append on no key", it.append, "third", "x")
    call("after it", it.get, "greeting")
    call("get_multi", it.get_multi, ["greeting", "third", "other"])
    call("set_multi", it.set_multi, {"a": "1", "b": "2"})
    call("add_multi", it.add_multi, {"a": "3", "c": "4"})
    call("after them", it.get_multi, ["a", "b", "c"])
    call("with a prefix", it.set_multi, {"a": "5"}, key_prefix="app:")
    call("get_multi with a prefix", it.get_multi, ["a"], key_prefix="app:")
    call("delete", it.delete, "a")
    call("delete of no key", it.delete, "a")
    call("delete_multi", it.delete_multi, ["b", "c"])
    call("delete_multi of no keys", it.delete_multi, ["b", "c"])
    call("an item as of a dictionary", lambda: (it.__setitem__("c", "3"), it["c"], "c" in it, it.__delitem__("c"), "c" in it))
    call("flush_all", it.flush_all)
    call("after flush_all", it.get, "greeting")


@case()
def values(call, servers):
    it = client(servers["first"])
    for what, value in {"text": "grün", "bytes": b"\x00\r\n\xff", "number": 2**70, "true": True, "list": [1, None, 2.5], "none": b""}.items():
        call(f"set of {what}", it.set, what, value)
        call(f"get of {what}", it.get, what)
    call("set, compressed", it.set, "long", "x" * 100_000, min_compress_len=1000)
    call("get, uncompressed", lambda: it.get("long") == "x" * 100_000)


@case()
def uniques(call, servers):
    it = client(servers["first"], cas=True)
    it.set("a", "1")
    value, unique = it.gets("a")
    call("gets", lambda: value)
    call("gets of no key", it.gets, "b")
    call("cas", it.cas, "a", "2", unique)
    call("cas with an old unique", it.cas, "a", "3", unique)
    call("cas on no key", it.cas, "b", "3", unique)
    call("after cas", it.get, "a")


@case()
def numbers(call, servers):
    it = client(servers["first"])
    it.set("n", 40)
    call("incr", it.incr, "n", 2)
    call("decr", it.decr, "n", 2)
    call("decr below zero", it.decr, "n", 100)
    call("get of it", it.get, "n")
    call("incr on no key", it.incr, "other")
    it.set_multi({"m": 1, "o": 2})
    call("incr_multi", it.incr_multi, ["m", "o"], delta=10)
    call("after it", it.get_multi, ["m", "o"])
    it.set("t", "abc")
    call("incr of text", it.incr, "t")
    call("get after it", it.get, "t")


@case()
def keys_and_sizes(call, servers):
    it = client(servers["first"])
    call("key of 250 bytes", it.set, "k" * 250, "1")
    call("get of it", it.get, "k" * 250)
    call("key of 251 bytes", it.set, "k" * 251, "1")
    it.set("a", b"old")
    call("set of one byte too many", it.set, "a", b"x" * (LARGEST + 1))
    call("get after it", it.get, "a")
    call("set of 1,047,552 bytes", it.set, "b", b"x" * (LARGEST - 1024))
    call("get of them", lambda: len(it.get("b")))


@case()
def expiry(call, servers):
    it = client(servers["first"])
    call("set for a minute", it.set, "a", "1", time=60)
    call("set_multi for a minute", it.set_multi, {"b": "1", "c": "2"}, time=60)
    call("after them", it.get_multi, ["a", "b", "c"])
    it.set("d", "1")
    call("touch of a held key", it.touch, "d", 60)
    call("after touch", it.get, "d")


@case()
def administration(call, servers):
    call("get_stats", lambda: [sorted(stats)[:1] for _, stats in client(servers["first"]).get_stats()])


@case()
def behaviors(call, servers):
    """Ways of sending that change what goes over the wire, or how much of it at once."""
    for behavior in ({"no_block": True}, {"_noreply": True}, {"ketama": True}, {"hash": "md5"}):
        it = client(servers["first"], **behavior)
        name = next(iter(behavior))
        call(f"{name}, set", it.set, "a", "1")
        call(f"{name}, set_multi", it.set_multi, {f"k{at}": str(at) for at in range(100)})
        call(f"{name}, get", it.get, "a")
        call(f"{name}, get_multi", lambda it=it: sorted(it.get_multi([f"k{at}" for at in range(101)]).items()) == sorted((f"k{at}", str(at)) for at in range(100)))
        call(f"{name}, delete", it.delete, "a")
        call(f"{name}, after it", it.get, "a")


@case("shared")
def clones(call, servers):
    it = client(servers["first"])
    it.set("a", "1")
    other = it.clone()
    call("get of a clone", other.get, "a")
    it.disconnect_all()
    call("get over a new connection", it.get, "a")


@case("second")
def hashed(call, servers):
    """Keys spread over two servers by the client itself; memcached's are one."""
    it = pylibmc.Client([f"{host}:{port}" for host, port in (servers["first"], servers["second"])], behaviors={"ketama": True})
    it.flush_all()
    call("set_multi", it.set_multi, {f"key{at}": at for at in range(40)})
    call("get_multi", lambda: sorted(it.get_multi([f"key{at}" for at in range(41)]).items()))


@case("small")
def quota(call, servers):
    it = client(servers["small"])
    call("100 items", lambda: sum(it.set(f"k{at}", "x") for at in range(100)))
    call("one item more", it.set, "more", "x")
    call("get after it", it.get, "more")


@case()
def binary(call, servers):
    it = pylibmc.Client([f"{servers['first'][0]}:{servers['first'][1]}"], binary=True, behaviors={"receive_timeout": 5_000_000, "_poll_timeout": 5000})
    call("set by the binary protocol", it.set, "a", "1")


main("pylibmc")
