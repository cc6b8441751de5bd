"""What differs from memcached, by the rows of docs/PROTOCOL.md: for each row the calls that show it, with our answer.

A call that isn't here has to be answered as by memcached; one that is, otherwise than by it, and as it stands here. `SAME` says that
a row speaks of memcached's document alone: its release, of which Debian has 1.6.18, answers as we do.

differences.py --check fails where the rows of the page and those here don't have the same names; it needs no server.
"""

import pathlib
import sys

PAGE = pathlib.Path(__file__).resolve().parents[2] / "docs/PROTOCOL.md"
SAME = object()
REFUSED = "MemcacheClientError: expiry is not supported"
ERROR = "b'ERROR\\r\\n'"
BAD_FORMAT = "b'CLIENT_ERROR bad command line format\\r\\n'"
BAD_DELTA = "b'CLIENT_ERROR invalid numeric delta argument\\r\\n'"
NO_NUMBER = "b'STORED\\r\\nCLIENT_ERROR cannot increment or decrement non-numeric value\\r\\n'"

DIFFERENCES = {
    "exptime other than 0": {
        "pymemcache, quiet refusals: after set for a minute": "b'old'",
        "pymemcache, expiry: set for a minute": REFUSED,
        "pymemcache, expiry: set that has expired": REFUSED,
        "pymemcache, expiry: add for a minute": REFUSED,
        "pylibmc, expiry: set for a minute": "ClientError: error 9 from memcached_set: (N) expiry is not supported,  host: N",
        "pylibmc, expiry: set_multi for a minute": "ClientError: error 9 from memcached_set_multi: (N) expiry is not supported,  host: N",
        "pylibmc, expiry: after them": "{}",
        "python3-memcache, expiry: set for a minute": "False",
        "python3-memcache, expiry: get after it": "None",
        "python3-memcache, expiry: set_multi for a minute": "['b', 'c']",
        "libmemcached's tools, existence: memcexist of a held key": """(1, "Fatal error for key 'a': (N) expiry is not supported,  host: N\\n")""",
        "libmemcached's tools, existence: memcexist of no key": """(1, "Fatal error for key 'nothing': (N) expiry is not supported,  host: N\\n")""",
        "libmemcached's tools, expiry: memccp for a minute": """(1, "Error occurred during memcached_set('a'): (N) expiry is not supported,  host: N\\n")""",
        "libmemcached's tools, expiry: memccat after it": "(1, '')",
        "plain lines, times: set a 0 60 3 / get / get a": "b'CLIENT_ERROR expiry is not supported\\r\\nEND\\r\\n'",
        "plain lines, times: set a 0 -1 1 / x / get a": "b'CLIENT_ERROR expiry is not supported\\r\\nEND\\r\\n'",
        "plain lines, times: set a 0 9 1 noreply / x / get a": "b'END\\r\\n'",
        "plain lines, times: add a 0 9 1 noreply / x / get a": "b'END\\r\\n'",
        "plain lines, times: set a 0 0 1 / x / replace a 0 9 1 noreply / y / get a": "b'STORED\\r\\nVALUE a 0 1\\r\\nx\\r\\nEND\\r\\n'",
    },
    "`flush_all 10`": {
        "pymemcache, expiry: flush_all in ten seconds": REFUSED,
        "libmemcached's tools, expiry: memcflush in ten seconds": "(1, 'Failed to flush server: (N) expiry is not supported,  host: N\\n')",
        "plain lines, times: flush_all 10": "b'CLIENT_ERROR expiry is not supported\\r\\n'",
    },
    "tenants": {
        "pymemcache, tenants: the first's key at the second": "None",
        "pymemcache, tenants: the first's key after it": "b'of the first'",
    },
    "the table is full": {
        "pymemcache, quota of bytes: 4 more": "MemcacheServerError: out of memory storing object",
        "pymemcache, after the quota: the first key": "True",
        "pymemcache, after the quota: the last key": "False",
    },
    "what counts for it": {
        "pymemcache, quota: one item more": "MemcacheServerError: out of memory storing object",
        "pylibmc, quota: one item more": "Error: error 48 from memcached_set",
        "pylibmc, quota: get after it": "None",
        "python3-memcache, quota: one item more": "False",
        "python3-memcache, quota: get after it": "None",
    },
    "`stats`, `touch`, `gat`, `gats`, `verbosity`, `cache_memlimit` and others, meta commands": {
        "pymemcache, expiry: touch": "MemcacheUnknownCommandError: touch",
        "pymemcache, expiry: touch for ever": "MemcacheUnknownCommandError: touch",
        "pymemcache, administration: stats": "MemcacheUnknownCommandError: stats",
        "pymemcache, administration: cache_memlimit": "MemcacheUnknownCommandError: cache_memlimit",
        "pylibmc, expiry: touch of a held key": "SocketCreateError: error 11 from memcached_touch(d)",
        "pylibmc, administration: get_stats": "Error: error 38 from get_stats",
        "python3-memcache, expiry: touch of a held key": "0",
        "python3-memcache, administration: get_stats": "IndexError: list index out of range",
        "libmemcached's tools, expiry: memctouch": """(1, "Fatal error for key 'b': SUCCESS\\n")""",
        "libmemcached's tools, administration: memcstat": "1",
        "libmemcached's tools, administration: memcstat --analyze": "1",
        "libmemcached's tools, administration: memcdump": "(1, 'Failed to dump keys:SUCCESS\\n')",
        "libmemcached's tools, capabilities: memccapable, ascii verbosity": "False",
        "libmemcached's tools, capabilities: memccapable, ascii stat": "False",
        "libmemcached's tools, capabilities: memccapable": "1",
        "plain lines, other commands: stats": ERROR,
        "plain lines, other commands: touch a 0": ERROR,
        "plain lines, other commands: gat 0 a": ERROR,
        "plain lines, other commands: gats 0 a": ERROR,
        "plain lines, other commands: verbosity 1": ERROR,
        "plain lines, other commands: cache_memlimit 64": ERROR,
        "plain lines, other commands: mn": ERROR,
        "plain lines, other commands: mg a v": ERROR,
        "plain lines, other commands: ms a 1 / x": "b'ERROR\\r\\nERROR\\r\\n'",
        "plain lines, other commands: md a": ERROR,
    },
    "the binary protocol": {
        "pylibmc, binary: set by the binary protocol": "Error: error 31 from memcached_set: (N) A TIMEOUT OCCURRED, time out,  host: N -> ./src/libmemcached/io.cc:220",
    },
    "an HTTP request": {
        "plain lines, http requests: POST / HTTP/1.1 /  / version": "b'ERROR\\r\\nERROR\\r\\nVERSION 1.0.0\\r\\n'",
        "plain lines, http requests: nothing HTTP/": ERROR,
    },
    "`version`": {
        "pymemcache, administration: version": "b'1.0.0'",
        "plain lines, limits: version": "b'VERSION 1.0.0\\r\\n'",
    },
    "`decr` or `incr` to fewer digits": {
        "pymemcache, numbers: get after it": "b'9'",
        "python3-memcache, fewer digits: get": "'9'",
        "plain lines, data of numbers: set n 0 0 2 / 10 / decr n 1 / get n": "b'STORED\\r\\n9\\r\\nVALUE n 0 1\\r\\n9\\r\\nEND\\r\\n'",
        "plain lines, data of numbers: set n 0 0 3 / 007 / incr n 1 / get n": "b'STORED\\r\\n8\\r\\nVALUE n 0 1\\r\\n8\\r\\nEND\\r\\n'",
        "plain lines, data of numbers: set n 0 0 20 / 18446744073709551615 / incr n 1 / get n": "b'STORED\\r\\n0\\r\\nVALUE n 0 1\\r\\n0\\r\\nEND\\r\\n'",
    },
    "data of `incr` and `decr` with blanks around the digits, a byte 0 behind them, a plus before them (before zero a minus too), or more than 20 of them": {
        "plain lines, data of numbers: set n 0 0 2 / 9  / incr n 1": NO_NUMBER,
        "plain lines, data of numbers: set n 0 0 2 /  9 / incr n 1": NO_NUMBER,
        "plain lines, data of numbers: set n 0 0 2 / +9 / decr n 1": NO_NUMBER,
        "plain lines, data of numbers: set n 0 0 3 / 9 x / incr n 1": NO_NUMBER,
        "plain lines, data of numbers: set n 0 0 3 / 9<0>x / incr n 1": NO_NUMBER,
        "plain lines, data of numbers: set n 0 0 2 / -0 / incr n 1": NO_NUMBER,
        "plain lines, data of numbers: set n 0 0 21 / 000000000000000000009 / incr n 1": NO_NUMBER,
    },
    "a `set` that is too large": {
        "pymemcache, after too large: get after it": "b'old'",
        "pylibmc, keys and sizes: get after it": "b'old'",
        "python3-memcache, keys and sizes: get after it": "b'old'",
        "libmemcached's tools, too large: memccat after it": "(0, 'old\\n')",
    },
    "an `append` or `prepend` that grows too large": {
        "plain lines, limits: an append that grows too large": "b'STORED\\r\\nSERVER_ERROR object too large for cache\\r\\n'",
        "plain lines, limits: a prepend that grows too large": "b'STORED\\r\\nSERVER_ERROR object too large for cache\\r\\n'",
    },
    "the largest data": {
        "pymemcache, largest: set of 1 MiB": "True",
        "plain lines, limits: 1 MiB": "b'STORED\\r\\n'",
    },
    "`<flags>` above 32 bits": {
        "pymemcache, keys and data: flags above them": "MemcacheClientError: bad command line format",
        "plain lines, limits: flags above 32 bits": "b'CLIENT_ERROR bad command line format\\r\\nEND\\r\\n'",
    },
    "`<bytes>` above 32 bits": {
        "plain lines, limits: a length above 32 bits": "b'CLIENT_ERROR bad command line format\\r\\nEND\\r\\n'",
    },
    "a sign before a number, or a plus before an exptime": {
        "plain lines, signs: set a +5 0 1 / x / get a": "b'CLIENT_ERROR bad command line format\\r\\nEND\\r\\n'",
        "plain lines, signs: set a -0 0 1 / x / get a": "b'CLIENT_ERROR bad command line format\\r\\nEND\\r\\n'",
        "plain lines, signs: set a 0 +0 1 / x / get a": "b'CLIENT_ERROR bad command line format\\r\\nEND\\r\\n'",
        "plain lines, signs: set a 0 0 +1 / x / get a": "b'CLIENT_ERROR bad command line format\\r\\nERROR\\r\\nEND\\r\\n'",
        "plain lines, signs: cas a 0 0 1 +1 / x": BAD_FORMAT,
        "plain lines, signs: incr a +1": BAD_DELTA,
        "plain lines, signs: decr a -0": BAD_DELTA,
        "plain lines, signs: flush_all +0": BAD_FORMAT,
    },
    "a byte 0 in a line": {
        "plain lines, spaces and line ends: get a<0>b": BAD_FORMAT,
        "plain lines, spaces and line ends: version<0>now": ERROR,
    },
    "control characters in a key": {
        "plain lines, spaces and line ends: get a<9>b": BAD_FORMAT,
        "plain lines, spaces and line ends: get a<13>": BAD_FORMAT,
        "libmemcached's tools, loads: memcaslap": "(0, [('cmd_get', '0'), ('cmd_set', '4000'), ('get_misses', '0')], '')",
    },
    "a storage line whose key, flags, exptime or unique can't be read": {
        "plain lines, mistakes: set <251 bytes> 0 0 1 / y / get a": "b'CLIENT_ERROR bad command line format\\r\\nEND\\r\\n'",
        "plain lines, mistakes: set a x 0 1 noreply / y / get a": "b'CLIENT_ERROR bad command line format\\r\\nEND\\r\\n'",
        "plain lines, mistakes: set a 0 x 1 / y / get a": "b'CLIENT_ERROR bad command line format\\r\\nEND\\r\\n'",
        "plain lines, mistakes: cas a 0 0 1 x / y / get a": "b'CLIENT_ERROR bad command line format\\r\\nEND\\r\\n'",
    },
    "a last word other than `noreply` behind a storage line, `incr`, `decr` or `flush_all 0`": {
        "plain lines, mistakes: set a 0 0 1 quietly / y / get a": "b'CLIENT_ERROR bad command line format\\r\\nEND\\r\\n'",
        "plain lines, mistakes: incr a 1 quietly": BAD_FORMAT,
        "plain lines, mistakes: decr a 1 quietly": BAD_FORMAT,
        "plain lines, mistakes: flush_all 0 quietly": BAD_FORMAT,
    },
    "a malformed `delete`, `incr`, `decr` or `flush_all`, or a `<bytes>` that can't be read, with `noreply`": {
        "plain lines, mistakes without a reply: delete <251 bytes> noreply": BAD_FORMAT,
        "plain lines, mistakes without a reply: delete a 1 noreply": BAD_FORMAT,
        "plain lines, mistakes without a reply: incr <251 bytes> 1 noreply": BAD_FORMAT,
        "plain lines, mistakes without a reply: incr a x noreply": BAD_DELTA,
        "plain lines, mistakes without a reply: decr a x noreply": BAD_DELTA,
        "plain lines, mistakes without a reply: flush_all x noreply": BAD_FORMAT,
        "plain lines, mistakes without a reply: set a 0 0 x noreply": BAD_FORMAT,
        "plain lines, mistakes without a reply: cas a 0 0 -1 1 noreply": BAD_FORMAT,
    },
    "uniques": {
        "pymemcache, tenants: the second's first unique": "(b'of the second', b'1')",
    },
    "the last log's end": {
        "pymemcache, end of the log: a command after the last place": "MemcacheServerError: log full",
    },
    "a known name with a wrong number of words": {
        "plain lines, wrong numbers of words: version now": ERROR,
        "plain lines, wrong numbers of words: quit now / version": "b'ERROR\\r\\nVERSION 1.0.0\\r\\n'",
    },
    "a line that is too long": {
        "plain lines, limits: a line without an end": "b'CLIENT_ERROR line too long\\r\\n'",
        "plain lines, long lines: a get of 300 keys of 250 bytes": "b'CLIENT_ERROR line too long\\r\\n'",
    },
    "words behind `CLIENT_ERROR` and `SERVER_ERROR`": {
        "plain lines, mistakes: flush_all x": BAD_FORMAT,
        "plain lines, times: delete a 1": BAD_FORMAT,
    },
    "between words, and at a line's end": {
        "plain lines, spaces and line ends: set<9>a 0 0 1": SAME,
        "plain lines, spaces and line ends: set a 0 0 1 / x / get a": SAME,
    },
}


def rows():
    """The names of the page's rows, which are their first cells."""
    table = PAGE.read_text(encoding="utf-8").partition("## What differs from memcached 1.6")[2].partition("\n## ")[0]
    return [line.split(" | ")[0].removeprefix("| ") for line in table.splitlines() if line.startswith("| ") and not line.startswith("| |")]


def check_names():
    """Ends the script where the page has a row that no call here shows, or a row here isn't one of the page."""
    named = rows()
    wrong = [f"no call shows the row of docs/PROTOCOL.md: {row}" for row in named if not DIFFERENCES.get(row)]
    wrong += [f"docs/PROTOCOL.md has no such row: {row}" for row in DIFFERENCES if row not in named]
    if wrong or not named:
        sys.exit("\n".join(wrong) or "docs/PROTOCOL.md has no rows")


if __name__ == "__main__":
    if sys.argv[1:] != ["--check"]:
        sys.exit("usage: differences.py --check")
    check_names()
