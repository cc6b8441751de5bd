"""Calls of pymemcache; calls.py says how it is run."""

from calls import SECONDS, case, main
from pymemcache.client.base import Client, PooledClient
from pymemcache.client.hash import HashClient
from pymemcache.client.retrying import RetryingClient
from pymemcache.exceptions import MemcacheUnexpectedCloseError
from pymemcache.serde import pickle_serde

LARGEST = 1024 * 1024


def client(address, kind=Client, **settings):
    """A client that waits for replies, on a table that is empty."""
    made = kind(address, timeout=SECONDS, connect_timeout=SECONDS, **{"default_noreply": False, **settings})
    made.flush_all()
    return made


@case()
def storage(call, servers):
    it = client(servers["first"])
    call("get of no key", it.get, "greeting")
    call("get with a default", it.get, "greeting", b"none")
    call("set with flags", it.set, "greeting", "hello", flags=5)
    call("get", it.get, "greeting")
    call("add on a held key", it.add, "greeting", "hi")
    call("add", it.add, "other", "hi")
    call("replace", it.replace, "other", "ho")
    call("replace on no key", it.replace, "third", "ho")
    call("append", it.append, "greeting", ", world")
    call("prepend", it.prepend, "greeting", "oh ")
    call("append on no key", it.append, "third", "x")
    call("prepend on no key", it.prepend, "third", "x")
    call("after it", it.get, "greeting")
    call("get_many", it.get_many, ["greeting", "third", "other"])
    call("set_many", it.set_many, {"a": "1", "b": "2"})
    call("after set_many", it.get_many, ["a", "b"])
    call("delete", it.delete, "a")
    call("delete of no key", it.delete, "a")
    call("delete_many", it.delete_many, ["a", "b"])
    call("after delete_many", it.get_many, ["a", "b"])
    call("an item as of a dictionary", lambda: (it.__setitem__("c", "3"), it["c"], it.__delitem__("c"), it.get("c")))
    call("flush_all", it.flush_all)
    call("after flush_all", it.get, "greeting")
    call("quit", it.quit)


@case()
def quiet(call, servers):
    """The library's own default: no reply to what stores and deletes."""
    it = client(servers["first"], default_noreply=True)
    call("set", it.set, "a", "1")
    call("add on a held key", it.add, "a", "2")
    call("replace", it.replace, "a", "3")
    call("append", it.append, "a", "4")
    call("prepend", it.prepend, "a", "5")
    call("after them", it.get, "a")
    call("set_many", it.set_many, {"b": "1", "c": "2", "d": "3"})
    call("incr", it.incr, "b", 1, noreply=True)
    call("decr", it.decr, "c", 1, noreply=True)
    call("cas with an old unique", lambda: it.cas("b", "9", b"4711", noreply=True))
    call("delete", it.delete, "d")
    call("after all", it.get_many, ["a", "b", "c", "d"])
    call("flush_all", it.flush_all)
    call("after flush_all", it.get_many, ["a", "b", "c", "d"])


@case()
def quiet_refusals(call, servers):
    """What is refused without a reply shows only at the next get."""
    it = client(servers["first"], default_noreply=True)
    it.set("a", "old")
    call("set for a minute", it.set, "a", "new", expire=60)
    call("after set for a minute", it.get, "a")
    call("append of an object that grows too large", it.append, "a", b"x" * LARGEST)
    call("length after it", lambda: len(it.get("a")))


@case()
def uniques(call, servers):
    it = client(servers["first"])
    it.set("a", "1")
    value, unique = it.gets("a")
    call("gets", lambda: value)
    call("gets of no key", it.gets, "b")
    call("cas", it.cas, "a", "2", unique)
    call("cas with an old unique", it.cas, "a", "3", unique)
    call("cas on no key", it.cas, "b", "3", unique)
    call("after cas", it.get, "a")
    it.set("b", "4")
    call("gets_many", lambda: {key: value for key, (value, _) in it.gets_many(["a", "b", "c"]).items()})
    call("uniques differ", lambda: it.gets("a")[1] != it.gets("b")[1])


@case("second")
def tenants(call, servers):
    """Two tenants; of memcached's, which has none, both are one server."""
    one, other = client(servers["first"]), client(servers["second"])
    for _ in range(3):
        one.set("a", "of the first")
    other.set("b", "of the second")
    call("the second's first unique", other.gets, "b")
    call("the first's key at the second", other.get, "a")
    call("flush_all of the second", other.flush_all)
    call("the first's key after it", one.get, "a")


@case()
def numbers(call, servers):
    it = client(servers["first"])
    it.set("n", "18446744073709551615")
    call("incr that wraps", it.incr, "n", 1)
    call("incr", it.incr, "n", 41)
    call("decr", it.decr, "n", 2)
    call("decr below zero", it.decr, "n", 40)
    call("incr on no key", it.incr, "other", 1)
    call("decr on no key", it.decr, "other", 1)
    it.set("n", "10")
    call("decr to fewer digits", it.decr, "n", 1)
    call("get after it", it.get, "n")
    it.set("n", "99")
    call("incr to more digits", it.incr, "n", 1)
    call("get after incr to more digits", it.get, "n")
    it.set("t", "abc")
    call("incr of text", it.incr, "t", 1)


@case()
def keys_and_data(call, servers):
    it = client(servers["first"])
    block = bytes(range(256)) * 4096
    call("set of any bytes", it.set, "large", block[: LARGEST - 1024])
    call("get of any bytes", lambda: it.get("large") == block[: LARGEST - 1024])
    call("set of no bytes", it.set, "none", b"")
    call("get of no bytes", it.get, "none")
    call("set with line ends", it.set, "lines", b"\r\nEND\r\n")
    call("get with line ends", it.get, "lines")
    call("key of 250 bytes", it.set, "k" * 250, "1")
    call("get of it", it.get, "k" * 250)
    call("key of 251 bytes", it.set, "k" * 251, "1")
    call("key with a space", it.set, "a b", "1")
    call("the greatest flags", it.set, "flags", "1", flags=4294967295)
    call("flags above them", it.set, "flags", "1", flags=4294967296)


@case()
def keys_of_any_language(call, servers):
    it = client(servers["first"], allow_unicode_keys=True)
    call("set", it.set, "grüße-κλειδί", "1")
    call("get", it.get, "grüße-κλειδί")


@case()
def too_large(call, servers):
    it = client(servers["first"])
    it.set("a", "old")
    call("set of one byte too many", it.set, "a", b"x" * (LARGEST + 1))


@case("shared")
def after_too_large(call, servers):
    """The library closes its connection at an error."""
    it = client(servers["first"])
    it.set("a", "old")
    call("set of one byte too many", it.set, "a", b"x" * (LARGEST + 1))
    call("get after it", it.get, "a")


@case()
def largest(call, servers):
    it = client(servers["first"])
    call("set of 1 MiB", it.set, "a", b"x" * LARGEST)


@case()
def expiry(call, servers):
    call("set for a minute", lambda: client(servers["first"]).set("a", "1", expire=60))
    call("set that has expired", lambda: client(servers["first"]).set("a", "1", expire=-1))
    call("add for a minute", lambda: client(servers["first"]).add("a", "1", expire=60))
    call("flush_all in ten seconds", lambda: client(servers["first"]).flush_all(delay=10))
    call("touch", lambda: client(servers["first"]).touch("a", 60))
    call("touch for ever", lambda: client(servers["first"]).touch("a", 0))


@case()
def administration(call, servers):
    call("version", lambda: client(servers["first"]).version())
    call("stats", lambda: sorted(client(servers["first"]).stats())[:1])
    call("cache_memlimit", lambda: client(servers["first"]).cache_memlimit(64))


@case()
def serializer(call, servers):
    it = client(servers["first"], serde=pickle_serde)
    value = {"list": [1, 2.5, None], "text": "grün", "bytes": b"\x00\xff"}
    call("set", it.set, "value", value)
    call("get", it.get, "value")
    call("set of a number", it.set, "number", 7)
    call("get of a number", it.get, "number")



@case()
def prefixes(call, servers):
    it = client(servers["first"], key_prefix=b"app:")
    call("set", it.set, "a", "1")
    call("get", it.get, "a")
    call("get_many", it.get_many, ["a", "b"])


@case()
def pool(call, servers):
    it = client(servers["first"], kind=PooledClient, max_pool_size=1)
    call("set", it.set, "a", "1")
    call("get", it.get, "a")
    call("gets", lambda: it.gets("a")[0])
    call("get_many", it.get_many, ["a", "b"])
    call("delete", it.delete, "a")


@case()
def retrying(call, servers):
    it = RetryingClient(client(servers["first"]), attempts=3, retry_for=[MemcacheUnexpectedCloseError])
    call("set", it.set, "a", "1")
    call("get", it.get, "a")


@case("second")
def hashed(call, servers):
    """Keys spread over two servers by the client itself; memcached's are one."""
    it = client([servers["first"], servers["second"]], kind=HashClient)
    call("set_many", it.set_many, {f"key{at}": str(at) for at in range(40)})
    call("get_many", lambda: sorted(it.get_many([f"key{at}" for at in range(41)]).items()))
    call("delete_many", it.delete_many, [f"key{at}" for at in range(40)])
    call("after it", it.get_many, [f"key{at}" for at in range(40)])


@case()
def lock(call, servers):
    """A lock by add, which is given back by delete."""
    it = client(servers["first"])
    call("taken", it.add, "lock", "me")
    call("taken again", it.add, "lock", "you")
    call("given back", it.delete, "lock")
    call("taken once more", it.add, "lock", "you")


@case("small")
def quota(call, servers):
    it = client(servers["small"])
    call("100 items", lambda: [key for at in range(100) if not it.set(f"k{at}", "x") for key in (f"k{at}",)])
    call("a held key in a full table", it.set, "k7", "y")
    call("one item more", it.set, "more", "x")


@case("small")
def quota_of_bytes(call, servers):
    it = client(servers["small"])
    block = b"x" * 100_000
    call("81 items of 100,000 bytes", lambda: [key for at in range(81) if not it.set(f"k{at}", block) for key in (f"k{at}",)])
    call("4 more", lambda: [it.set(f"k{at}", block) for at in range(81, 85)])


@case("small", "shared")
def after_the_quota(call, servers):
    """What is held once 12 MB were sent to a table of 8 MiB."""
    it = client(servers["small"], default_noreply=True)
    block = b"x" * 100_000
    for at in range(120):
        it.set(f"k{at}", block)
    call("the first key", lambda: it.get("k0") is not None)
    call("the last key", lambda: it.get("k119") is not None)


@case("short")
def end_of_the_log(call, servers):
    it = client(servers["short"])
    for at in range(7):
        it.set("a", str(at))
    call("version", lambda: bool(it.version()))
    call("a command after the last place", it.get, "a")


main("pymemcache")
