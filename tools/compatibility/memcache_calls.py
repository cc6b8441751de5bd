"""Calls of python3-memcache (the module memcache, also known as python-memcached); calls.py says how it is run."""

import memcache
from calls import SECONDS, case, main

LARGEST = 1024 * 1024


def client(address, **settings):
    """A client on a table that is empty. The library itself answers refusals by False, 0 or None, and keeps its connection."""
    made = memcache.Client([f"{address[0]}:{address[1]}"], socket_timeout=SECONDS, **settings)
    made.flush_all()
    return made


@case()
def storage(call, servers):
    it = client(servers["first"])
    call("get of no key", it.get, "greeting")
    call("set", it.set, "greeting", "hello")
    call("get", it.get, "greeting")
    call("add on a held key", it.add, "greeting", "hi")
    call("add", it.add, "other", "hi")
    call("replace", it.replace, "other", "ho")
    call("replace on no key", it.replace, "third", "ho")
    call("append", it.append, "greeting", ", world")
    call("prepend", it.prepend, "greeting", "oh ")
    call("append on no key", it.append, "third", "x")
    call("after it", it.get, "greeting")
    call("get_multi", it.get_multi, ["greeting", "third", "other"])
    call("set_multi", it.set_multi, {"a": "1", "b": "2"})
    call("after set_multi", it.get_multi, ["a", "b"])
    call("set_multi with a prefix", it.set_multi, {"a": "3"}, key_prefix="app:")
    call("get_multi with a prefix", it.get_multi, ["a"], key_prefix="app:")
    call("delete", it.delete, "a")
    call("delete of no key", it.delete, "a")
    call("delete_multi", it.delete_multi, ["b", "c"])
    call("after delete_multi", it.get_multi, ["a", "b", "c"])
    call("flush_all", it.flush_all)
    call("after flush_all", it.get, "greeting")


@case()
def quiet(call, servers):
    it = client(servers["first"])
    call("set", it.set, "a", "1", noreply=True)
    call("add", it.add, "b", "2", noreply=True)
    call("replace", it.replace, "b", "3", noreply=True)
    call("append", it.append, "b", "4", noreply=True)
    call("prepend", it.prepend, "b", "5", noreply=True)
    call("incr", it.incr, "a", 8, noreply=True)
    call("decr", it.decr, "a", 2, noreply=True)
    call("set_multi", it.set_multi, {"c": "6", "d": "7"}, noreply=True)
    call("after them", it.get_multi, ["a", "b", "c", "d"])
    call("delete", it.delete, "a", noreply=True)
    call("delete_multi", it.delete_multi, ["c", "d"], noreply=True)
    call("after delete", it.get_multi, ["a", "b", "c", "d"])


@case()
def values(call, servers):
    it = client(servers["first"])
    for what, value in {"text": "grün", "bytes": b"\x00\r\n\xff", "number": 7, "list": [1, None, 2.5], "none": ""}.items():
        call(f"set of {what}", it.set, what, value)
        call(f"get of {what}", it.get, what)
    call("set, compressed", it.set, "long", "x" * 100_000, min_compress_len=1000)
    call("get, uncompressed", lambda: it.get("long") == "x" * 100_000)


@case()
def uniques(call, servers):
    it = client(servers["first"], cache_cas=True)
    it.set("a", "1")
    call("gets", it.gets, "a")
    call("gets of no key", it.gets, "b")
    call("cas", it.cas, "a", "2")
    call("cas with an old unique", it.cas, "a", "3")
    call("after cas", it.get, "a")


@case()
def numbers(call, servers):
    it = client(servers["first"])
    it.set("n", 40)
    call("incr", it.incr, "n", 2)
    call("decr", it.decr, "n", 2)
    call("decr below zero", it.decr, "n", 100)
    call("get of it", it.get, "n")
    call("incr on no key", it.incr, "other")
    it.set("t", "abc")
    call("incr of text", it.incr, "t")
    call("get after it", it.get, "t")


@case()
def fewer_digits(call, servers):
    it = client(servers["first"])
    it.set("n", "10")
    call("decr", it.decr, "n")
    call("get", it.get, "n")


@case()
def keys_and_sizes(call, servers):
    it = client(servers["first"], server_max_value_length=2 * LARGEST)
    call("key of 250 bytes", it.set, "k" * 250, "1")
    call("get of it", it.get, "k" * 250)
    call("key of 251 bytes", it.set, "k" * 251, "1")
    it.set("a", b"old")
    call("set of one byte too many", it.set, "a", b"x" * (LARGEST + 1))
    call("get after it", it.get, "a")


@case()
def expiry(call, servers):
    it = client(servers["first"])
    call("set for a minute", it.set, "a", "1", time=60)
    call("get after it", it.get, "a")
    call("set_multi for a minute", it.set_multi, {"b": "1", "c": "2"}, time=60)
    call("delete with a time of 0", it.delete, "a", time=0)
    it.set("d", "1")
    call("touch of a held key", it.touch, "d", 60)
    call("get after touch", it.get, "d")


@case()
def administration(call, servers):
    call("get_stats", lambda: [sorted(stats)[:1] for _, stats in client(servers["first"]).get_stats()])


@case()
def delete_with_a_time(call, servers):
    it = client(servers["first"])
    it.set("a", "1")
    call("delete with a time of 5", it.delete, "a", time=5)
    call("get after it", it.get, "a")


@case("small")
def quota(call, servers):
    it = client(servers["small"])
    call("100 items", lambda: sum(it.set(f"k{at}", "x") for at in range(100)))
    call("one item more", it.set, "more", "x")
    call("get after it", it.get, "more")


main("python3-memcache")
