#!/usr/bin/env python3
"""Copies the items of a running memcached into a tenant of wfmc.

Usage: tools/move_tenant.py FROM TO [--flush] [--once]. FROM and TO are HOST:PORT, an IPv6 address in brackets: a memcached 1.6, and the
listener of the tenant.

It copies in two passes. The first one takes all items, while clients go on. Then it waits for a line on its standard input: stop the
clients first, by stopping the proxy before memcached, or otherwise. The second pass takes what has changed since, by the items' uniques, and
deletes what is gone; then both servers' items are compared, and memcached is asked once more which keys it holds, so that clients that went on
show. With --once there is no first pass.

The tenant has to be one in which nothing was ever stored, or --flush removes all that it holds, before the first pass: it can't list its keys, so
an item that an earlier try has copied, and that memcached has deleted since, would stay. After a try that was broken off, begin again with --flush.

An item with an expiry isn't copied, since it would never expire here; nor is one that wfmc refuses, for its size, its key or the quota, and what
an earlier pass has copied under its key is deleted. How many there were of each is printed after each pass, and how many numbers have blanks
behind them, as memcached's decr leaves them: these are copied as they are, and are no numbers here. Nothing is changed at memcached.

Status 0: all items without an expiry are at both. 1: some aren't, or a server doesn't answer. 2: wrong words, FROM is no memcached or TO no
tenant, or something was stored in it before; nothing was changed then.
"""

import argparse
import collections
import re
import socket
import sys
import time
import urllib.parse

SECONDS = 60
KEYS_AT_ONCE = 64
BYTES_AT_ONCE = 1 << 20
KEY = re.compile(rb"[^\x00-\x20\x7f]{1,250}")
PADDED = re.compile(rb"[0-9]+ +")
NUMBER_BYTES = 20


BEGIN_AGAIN = "the tenant may hold some of the items: begin again with --flush"


class Stop(Exception):
    """Why it can't go on."""


class Refused(Exception):
    """Why it doesn't begin."""


class Server:
    """A connection to a server of memcached's text protocol."""

    def __init__(self, address):
        host, _, port = address.rpartition(":")
        self.address = address
        try:
            self.stream = socket.create_connection((re.sub(r"^\[(.*)\]$", r"\1", host), int(port)), SECONDS)
        except OSError as error:
            raise Stop(f"{address}: {error.strerror or error}") from error
        self.replies = self.stream.makefile("rb")

    def send(self, text):
        self.stream.sendall(text)

    def line(self):
        line = self.replies.readline()
        if not line.endswith(b"\n"):
            raise Stop(f"{self.address} closed the connection")
        return line.rstrip(b"\r\n")

    def items(self, keys):
        """The flags, the unique and the data of these keys, of those that are held."""
        found = {}
        self.send(b"gets %s\r\n" % b" ".join(keys))
        while (line := self.line()) != b"END":
            word, *words = line.split(b" ")
            if word != b"VALUE":
                raise Stop(f"{self.address} answered {line.decode(errors='replace')}")
            key, flags, length, unique = words
            found[key] = (int(flags), int(unique), self.replies.read(int(length)))
            self.line()
        return found

    def replies_to(self, commands):
        """The replies to commands that are answered by one line each."""
        self.send(b"".join(commands))
        return [self.line() for _ in commands]

    def reply_to(self, command):
        return self.replies_to([command])[0].decode(errors="replace")


Listed = collections.namedtuple("Listed", "key unique size expires")


def asked_for_keys(address):
    """A connection of its own over which a memcached lists its keys, and the first line. One that is busy, since its crawler runs, is asked again."""
    until = time.monotonic() + SECONDS
    while True:
        server = Server(address)
        server.send(b"lru_crawler metadump hash\r\n")
        line = server.line()
        if not line.startswith(b"BUSY") or time.monotonic() > until:
            return server, line
        server.stream.close()
        time.sleep(1)


def listed(address):
    """What a memcached holds, by its own list of keys."""
    server, line = asked_for_keys(address)
    found = []
    while line != b"END":
        fields = dict(field.partition(b"=")[::2] for field in line.split(b" "))
        if b"key" not in fields:
            raise Stop(f"{address} answered {line.decode(errors='replace')} when it was asked for its keys")
        key = urllib.parse.unquote_to_bytes(fields[b"key"])
        found.append(Listed(key, int(fields[b"cas"]), int(fields[b"size"]), fields[b"exp"] != b"-1"))
        line = server.line()
    server.stream.close()
    return found


def batches(items):
    """These items, some at a time: neither many keys nor many bytes."""
    batch, size = [], 0
    for item in items:
        if batch and (len(batch) == KEYS_AT_ONCE or size + item.size > BYTES_AT_ONCE):
            yield batch
            batch, size = [], 0
        batch.append(item)
        size += item.size
    if batch:
        yield batch


def is_padded(data):
    """Whether these are the data of a number that memcached has made shorter: with blanks behind it, in the place of digits."""
    return len(data) <= NUMBER_BYTES and PADDED.fullmatch(data) is not None


class Move:
    """The items that were copied, with their uniques at memcached, those of them that are padded, and those that were refused, with the reply."""

    def __init__(self, source, target):
        self.source, self.target = source, target
        self.uniques, self.refused, self.expiring, self.padded = {}, {}, set(), set()

    def copy(self):
        """One pass: copies the items that aren't copied as they stand, and deletes those that were copied and are gone. How many of each."""
        there = listed(self.source)
        self.expiring = {item.key for item in there if item.expires}
        lasting = [item for item in there if not item.expires]
        keys = {item.key for item in lasting}
        new = [item for item in lasting if self.uniques.get(item.key) != item.unique]
        gone = self.uniques.keys() - keys
        self.refused = {key: reply for key, reply in self.refused.items() if key in keys}
        source, target = Server(self.source), Server(self.target)
        copied = sum(self._put(source, target, batch) for batch in batches(new))
        for key in gone:
            target.replies_to([b"delete %s\r\n" % key])
            del self.uniques[key]
        self.padded &= keys
        return copied, len(gone)

    def _put(self, source, target, batch):
        """Copies these items, as they are by now. How many were stored."""
        for item in batch:
            if not KEY.fullmatch(item.key):
                self.refused[item.key] = "the key has a character that memcached's protocol forbids"
        found = source.items([item.key for item in batch if KEY.fullmatch(item.key)] or [b"-"])
        found = {key: found[key] for key in (item.key for item in batch) if key in found}
        sets = [b"set %s %d 0 %d\r\n%s\r\n" % (key, flags, len(data), data) for key, (flags, _, data) in found.items()]
        stored = 0
        for (key, (_, unique, data)), reply in zip(found.items(), target.replies_to(sets)):
            self.padded.discard(key)
            if reply == b"STORED":
                self.uniques[key] = unique
                self.refused.pop(key, None)
                stored += 1
                if is_padded(data):
                    self.padded.add(key)
            else:
                self.refused[key] = reply.decode(errors="replace")
                self._drop(target, key)
        return stored

    def _drop(self, target, key):
        """An older item under a key whose new one is refused would be read as if it were the new one."""
        target.replies_to([b"delete %s\r\n" % key])
        self.uniques.pop(key, None)

    def different(self):
        """The keys whose items aren't the same at both: copied ones that differ or are gone from memcached, and new ones there."""
        lasting = {item.key: item for item in listed(self.source) if not item.expires}
        wrong = self.uniques.keys() - lasting.keys()
        new = lasting.keys() - self.uniques.keys() - self.refused.keys()
        source, target = Server(self.source), Server(self.target)
        wrong |= {key for key in new if not KEY.fullmatch(key)}
        for batch in batches(lasting[key] for key in new - wrong):
            wrong |= source.items([item.key for item in batch]).keys()
        for batch in batches(lasting[key] for key in lasting.keys() & self.uniques.keys()):
            keys = [item.key for item in batch]
            here, there = source.items(keys), target.items(keys)
            wrong |= {key for key in keys if (here.get(key) or there.get(key)) and self._bare(here, key) != self._bare(there, key)}
        return wrong

    @staticmethod
    def _bare(items, key):
        """An item without its unique, which each server counts itself."""
        return key in items and (items[key][0], items[key][2])


def look_at(source, target):
    """Refuses servers that aren't a memcached and a tenant, and says which versions they have. Nothing is changed at them."""
    if source == target:
        raise Refused("FROM and TO are the same")
    for address, is_source in ((source, True), (target, False)):
        server = Server(address)
        version = server.reply_to(b"version\r\n")
        if not version.startswith("VERSION "):
            raise Refused(f"{address} is neither a memcached nor a tenant: it answered {version} when it was asked for its version")
        # Memcached 1.6 alone has this one, which does nothing.
        if (server.reply_to(b"mn\r\n") == "MN") != is_source:
            raise Refused(f"{address} is {'no memcached 1.6' if is_source else 'a memcached, and no tenant of wfmc'}: are FROM and TO swapped?")
        # A tenant refuses this key; an administrator's listener doesn't know the command.
        if not is_source and server.reply_to(b"get \x7f\r\n") == "ERROR":
            raise Refused(f"{address} is no tenant's listener: is it the administrators'?")
        print(f"{address}: {version}", flush=True)


def is_new(address):
    """Whether nothing was ever stored in a tenant: its uniques are counted from 1. The quotas of any tenant have room for this item."""
    server = Server(address)
    reply = server.reply_to(b"add - 0 0 0\r\n\r\n")
    if reply in ("NOT_STORED", "SERVER_ERROR out of memory storing object"):
        return False
    if reply != "STORED":
        raise Stop(f"{address} answered {reply}")
    _, unique, _ = server.items([b"-"]).get(b"-", (0, 0, b""))
    server.reply_to(b"delete -\r\n")
    return unique == 1


def make_ready(address, flush):
    """Sees that a tenant holds nothing."""
    if flush:
        if (reply := Server(address).reply_to(b"flush_all\r\n")) != "OK":
            raise Stop(f"{address} answered {reply}")
    elif not is_new(address):
        raise Refused(f"the tenant at {address} has stored items before, and may hold some of them still: with --flush all are removed first")


def report(move, copied, gone):
    print(f"{copied} items copied, {gone} deleted; {len(move.expiring)} with an expiry are left out", flush=True)
    for reply, count in collections.Counter(move.refused.values()).items():
        print(f"{count} were refused: {reply}", flush=True)
    if move.padded:
        print(f"{len(move.padded)} are numbers with blanks behind them, which incr and decr refuse here", flush=True)


def words_of_command_line():
    parser = argparse.ArgumentParser(usage="%(prog)s FROM TO [--flush] [--once]", description=__doc__, formatter_class=argparse.RawDescriptionHelpFormatter)
    parser.add_argument("source", metavar="FROM", help="HOST:PORT of a memcached 1.6")
    parser.add_argument("target", metavar="TO", help="HOST:PORT of the tenant's listener")
    parser.add_argument("--flush", action="store_true", help="first remove all that the tenant holds")
    parser.add_argument("--once", action="store_true", help="one pass; the clients were stopped before")
    words = parser.parse_args()
    for address in (words.source, words.target):
        if not re.fullmatch(r".+:\d{1,5}", address) or int(address.rpartition(":")[2]) > 65_535:
            parser.error(f"{address} is no HOST:PORT")
    return words


def run(move, is_once):
    """The passes and the comparison; the status."""
    if not is_once:
        report(move, *move.copy())
        print("Stop the clients, and then press Enter.", flush=True)
        if not sys.stdin.readline():
            raise Stop("standard input has ended: the second pass wasn't made")
    report(move, *move.copy())
    wrong = move.different()
    told = f", {len(wrong)} differ, are gone from {move.source} or are new there: did clients go on?" if wrong else ""
    print(f"{len(move.uniques.keys() - wrong)} items are the same at both{told}")
    return 1 if move.refused or wrong else 0


def main():
    words = words_of_command_line()
    is_begun = False
    try:
        look_at(words.source, words.target)
        make_ready(words.target, words.flush)
        is_begun = True
        return run(Move(words.source, words.target), words.once)
    except KeyboardInterrupt:
        status, why = 130, "broken off"
    except Refused as error:
        status, why = 2, error
    except (Stop, OSError) as error:
        status, why = 1, error
    print(f"tools/move_tenant.py: {why}{f'; {BEGIN_AGAIN}' if is_begun else ''}", file=sys.stderr)
    return status


if __name__ == "__main__":
    sys.exit(main())
