"""Calls of libmemcached's tools; calls.py says how it is run. Each run of a tool is a connection of its own.

Its answer is the tool's status with what it prints; of the tools that make a load, whose times differ, the status alone.
"""

import pathlib
import re
import subprocess
import tempfile

from calls import SECONDS, case, main, plain

folder = tempfile.TemporaryDirectory()
LARGEST = 1024 * 1024


class Tools:
    """The tools against one server, whose table is empty."""

    def __init__(self, address):
        self.server = f"{address[0]}:{address[1]}"
        self("memcflush")

    def __call__(self, tool, *words):
        ran = subprocess.run([tool, f"--servers={self.server}", *words], capture_output=True, text=True, errors="replace", timeout=SECONDS, cwd=folder.name)
        return ran.returncode, plain(ran.stdout + ran.stderr)

    def status(self, tool, *words):
        return self(tool, *words)[0]


def file(name, data):
    path = pathlib.Path(folder.name, name)
    path.write_bytes(data)
    return name


@case()
def one_by_one(call, servers):
    """What needs no table that another connection has filled."""
    tools = Tools(servers["first"])
    call("memcping", tools, "memcping")
    call("memccat of no key", tools, "memccat", "nothing")
    call("memcrm of no key", tools, "memcrm", "nothing")
    call("memccp", tools, "memccp", file("a", b"hello\n"))
    call("memccp --replace on no key", tools, "memccp", "--replace", file("b", b"ho"))
    call("memccp --flags", tools, "memccp", "--flags=5", "a")
    call("memcflush", tools, "memcflush")
    call("memcstat --server-version", tools.status, "memcstat", "--server-version")


@case("shared")
def files(call, servers):
    tools = Tools(servers["first"])
    block = bytes(range(256)) * 4000
    call("memccp of three", tools, "memccp", file("a", b"hello\n"), file("b", b"x\r\ny"), file("c", b""))
    call("memccat of three", tools, "memccat", "a", "b", "c")
    call("memccp --add on a held key", tools, "memccp", "--add", "a")
    call("memccp --add", tools, "memccp", "--add", file("d", b"new"))
    call("memccp --replace", tools, "memccp", "--replace", file("a", b"other"))
    call("memccp with flags", tools, "memccp", "--flags=77", file("f", b"flags"))
    call("memccat with flags", tools, "memccat", "--flags", "f")
    call("memccp of a large file", tools, "memccp", file("large", block))
    call("memccat of it, to a file", tools, "memccat", "--file=back", "large")
    call("the file", lambda: pathlib.Path(folder.name, "back").read_bytes().rstrip(b"\n") == block)
    call("memccat of four and none", tools, "memccat", "a", "b", "nothing", "d")
    call("memcrm", tools, "memcrm", "a", "b")
    call("memccat after it", tools, "memccat", "a", "b", "c")
    call("memcflush", tools, "memcflush")
    call("memccat after memcflush", tools, "memccat", "c")


@case("shared")
def existence(call, servers):
    """The library asks by an add with an exptime."""
    tools = Tools(servers["first"])
    tools("memccp", file("a", b"hello"))
    call("memcexist of a held key", tools, "memcexist", "a")
    call("memcexist of no key", tools, "memcexist", "nothing")
    call("memccat after it", tools, "memccat", "a", "nothing")


@case("shared")
def expiry(call, servers):
    tools = Tools(servers["first"])
    call("memccp for a minute", tools, "memccp", "--expire=60", file("a", b"hello"))
    call("memccat after it", tools, "memccat", "a")
    tools("memccp", file("b", b"hello"))
    call("memctouch", tools, "memctouch", "--expire=60", "b")
    call("memccat after memctouch", tools, "memccat", "b")
    call("memcflush in ten seconds", tools, "memcflush", "--expire=10")


@case("shared")
def administration(call, servers):
    tools = Tools(servers["first"])
    tools("memccp", file("a", b"hello"))
    call("memcstat", tools.status, "memcstat")
    call("memcstat --analyze", tools.status, "memcstat", "--analyze")
    call("memcdump", tools, "memcdump")


@case("shared")
def too_large(call, servers):
    tools = Tools(servers["first"])
    tools("memccp", file("a", b"old"))
    call("memccp of one byte too many", tools, "memccp", file("a", b"x" * (LARGEST + 1)))
    call("memccat after it", tools, "memccat", "a")


@case("shared")
def loads(call, servers):
    tools = Tools(servers["first"])
    for test in ("set", "get", "mget"):
        call(f"memcslap {test}", tools.status, "memcslap", f"--test={test}", "--concurrency=4", "--execute-number=500")
    call("memcslap without replies", tools.status, "memcslap", "--noreply", "--test=set", "--execute-number=500")
    call("memcslap, not blocking", tools.status, "memcslap", "--non-blocking", "--test=set", "--execute-number=500")
    call("memcaslap", caslap, tools.server)


def caslap(server):
    """Its status, and what it says of commands that failed."""
    words = [f"--servers={server}", "--threads=2", "--concurrency=8", "--execute_number=4000", "--fixed_size=100"]
    ran = subprocess.run(["memcaslap", *words], capture_output=True, text=True, timeout=SECONDS)
    said = re.findall(r"^(get_misses|cmd_\w+): *(\d+)", ran.stdout, re.MULTILINE)
    return ran.returncode, said, ran.stderr


@case("shared")
def capabilities(call, servers):
    """What the tool that tries a server's commands says of each."""
    host, port = servers["first"]
    ran = subprocess.run(["memccapable", "-a", "-t", "10", "-h", host, "-p", str(port)], capture_output=True, text=True, timeout=SECONDS)
    for name, passed in re.findall(r"(ascii [a-z ]+?) {2,}(\[pass\])?", ran.stdout):
        call(f"memccapable, {name}", bool, passed)
    call("memccapable", lambda: ran.returncode)


main("libmemcached's tools")
