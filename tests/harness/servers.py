"""Servers on free ports of loopback: wfmc, memcached, and a relay that starts a program for each connection."""

import contextlib
import os
import pathlib
import pwd
import re
import resource
import select
import socket
import subprocess
import sys
import tempfile
import time
import urllib.request

from .bounds import LOG_BYTES, MOST_NAMES, held, number
from .client import Client, connect
from .processes import SECONDS, Process
from .repository import ROOT

LARGE = (1_048_576, 1_073_741_824)

# The quotas of a tenant whom nobody asks to keep anything.
IDLE = (1, 1)

# The options for an administrators' listener, whose port goes by the name "admin" then, as if it were a tenant's.
ADMIN = ("--admin", "127.0.0.1:0")

# The options for a listener whose metrics `Server.turn_overs` reads.
METRICS = ("--metrics", "127.0.0.1:0")

# The numbers of workers over logs that follow one another.
ENDLESS_WORKERS = (1, 2, 4)
# How many places each of these logs has, and where it is closed by its bytes: more than its commands take until then.
FEW_PLACES = 64
PLACES_ABOVE = 4_096


def preloading(library=None):
    """The environment of a server by this library's allocator, by the C library's for `none`, or by that of the defaults file."""
    environment = {name: value for name, value in os.environ.items() if name != "LD_PRELOAD"}
    named = re.search(r"^LD_PRELOAD=(.*)$", (ROOT / "etc/wfmc.default").read_text(encoding="utf-8"), re.M)
    library = library or (named[1] if named else "none")
    if library == "none":
        return environment
    environment["LD_PRELOAD"] = library
    if "cannot be preloaded" in subprocess.run(["true"], env=environment, capture_output=True, text=True).stderr:
        sys.exit(f"{library} is missing: apt-get install libtcmalloc-minimal4, or --preload none")
    return environment


def endless(log_bytes=None):
    """Options for logs that follow one another without an end: of 64 places each, or closed after this many bytes of commands."""
    size = ("--places", str(FEW_PLACES)) if log_bytes is None else ("--places", str(PLACES_ABOVE), "--log-bytes", str(log_bytes))
    return (*size, "--generations", "0")


def behind(count, tenants):
    """These tenants behind this many idle ones."""
    return {f"idle{number}": IDLE for number in range(count)} | tenants


def among_idle(chance, tenants):
    """These tenants and 40 idle ones in a random order, in which most come after the 16th."""
    together = list(behind(40, tenants).items())
    chance.shuffle(together)
    return dict(together)


def most_of_endless(workers, tenants, connections, log_bytes=None, names=MOST_NAMES):
    """The address space that a server over such logs takes at most, with so many connections at a time, whose lines ask for so many names."""
    places = FEW_PLACES if log_bytes is None else PLACES_ABOVE
    return number(workers, places, tenants.values(), connections * held(names), log_bytes or LOG_BYTES)


class Server(Process):
    """wfmc with these options, for tenants of these quotas; under limits on its address space or descriptors where given."""

    def __init__(self, program, options=(), tenants=None, ports=None, environment=None, address_space=None, descriptors=None):
        def limit():
            if address_space:
                resource.setrlimit(resource.RLIMIT_AS, (address_space, address_space))
            if descriptors:
                resource.setrlimit(resource.RLIMIT_NOFILE, (descriptors, descriptors))

        tenants, ports = {"a": LARGE} if tenants is None else tenants, ports or {}
        words = [f"{name}=127.0.0.1:{ports.get(name, 0)},{items},{size}" for name, (items, size) in tenants.items()]
        pipes = {"stdin": subprocess.DEVNULL, "stdout": subprocess.PIPE, "stderr": subprocess.PIPE}
        super().__init__([program, *options, *words], env=environment, preexec_fn=limit, **pipes)
        self.workers = int(options[options.index("--workers") + 1]) if "--workers" in options else 2
        self.accepted = 0
        self.ports, self.is_ready = {}, False
        with self.ended_on_failure():
            self._read_ports(time.monotonic() + SECONDS)

    def _read_ports(self, until):
        while line := self._line(until):
            said, name, address, *_ = line.decode().split() + ["", "", ""]
            self.is_ready = said == "ready"
            if said != "listening":
                return
            self.ports[name] = int(address.rpartition(":")[2])

    def _line(self, until):
        """The next line that it prints, and no byte behind it; nothing once it has ended. The line is to come until then."""
        line, output, poll = bytearray(), self.process.stdout.fileno(), select.poll()
        poll.register(output, select.POLLIN)
        while not line.endswith(b"\n"):
            if not poll.poll(1000 * max(0.0, until - time.monotonic())):
                raise TimeoutError(f"wfmc isn't ready after {SECONDS} seconds")
            if not (byte := os.read(output, 1)):
                break
            line += byte
        return bytes(line)

    def addresses(self):
        """The words `NAME=ADDRESS` of its tenants."""
        if not self.is_ready:
            sys.exit(f"wfmc doesn't serve: {self.end()[2].decode().strip()}")
        return [f"{name}=127.0.0.1:{port}" for name, port in self.ports.items()]

    def connect(self, tenant, seconds=SECONDS):
        return connect(self.ports[tenant], seconds)

    def client(self, tenant="a", worker=None, receive_buffer=None):
        """A connection of this worker, where all are made by this call: connections are handed to the workers in turn."""
        while worker is not None and self.accepted % self.workers != worker:
            self.client(tenant).close()
        self.accepted += 1
        return Client(self.ports[tenant], receive_buffer)

    def await_workers(self, tenant="a"):
        """Waits for a first answer."""
        with self.client(tenant) as client:
            client.line(b"version\r\n")

    def turn_overs(self):
        """How many turn overs there were, by its metrics."""
        # A proxy that the environment names doesn't reach loopback.
        direct = urllib.request.build_opener(urllib.request.ProxyHandler({}))
        with direct.open(f"http://127.0.0.1:{self.ports['metrics']}/metrics", timeout=SECONDS) as answer:
            return int(re.search(rb"^wfmc_turn_over_seconds_count ([0-9]+)$", answer.read(), re.M)[1])

    def catch_up(self, tenant="a"):
        """Has each worker replay the whole log, as it does with its next command."""
        for worker in range(self.workers):
            with self.client(tenant, worker) as client:
                client.ask(b"get -\r\n", b"END\r\n")


def ending_of(program, *words):
    """How a run of wfmc ends that doesn't serve: its status, output and standard error."""
    ended = subprocess.run([program, *words], capture_output=True, timeout=20)
    return ended.returncode, ended.stdout, ended.stderr


def wait_for(holds, what):
    """Waits until a condition holds, or ends the script."""
    until = time.monotonic() + SECONDS
    while not holds():
        if time.monotonic() > until:
            sys.exit(f"{what} doesn't listen")
        time.sleep(0.02)


def listens(port):
    with contextlib.suppress(OSError), socket.create_connection(("127.0.0.1", port), timeout=1):
        return True


def free_port():
    with socket.socket() as stream:
        stream.bind(("127.0.0.1", 0))
        return stream.getsockname()[1]


class Memcached(Process):
    """memcached with these options, at a port of the system's choice, which it writes to a file."""

    def __init__(self, *options, before=()):
        user = [] if os.getuid() else ["-u", "nobody"]
        with tempfile.TemporaryDirectory() as folder:
            if user:
                os.chown(folder, pwd.getpwnam("nobody").pw_uid, -1)
            file = pathlib.Path(folder, "ports")
            environment = {**os.environ, "MEMCACHED_PORT_FILENAME": str(file)}
            words = [*before, "memcached", *user, "-U", "0", "-l", "127.0.0.1", "-p", "-1", *options]
            super().__init__(words, env=environment, stdout=subprocess.DEVNULL, stderr=subprocess.DEVNULL)
            with self.ended_on_failure():
                wait_for(lambda: file.exists() and file.read_text().startswith("TCP INET: ") and file.read_text().endswith("\n"), "memcached")
                self.port = int(file.read_text().split()[2])


class Relay(Process):
    """A port at which socat connects each client to this address of its own, such as a program that it starts."""

    def __init__(self, address):
        self.port = free_port()
        listen = f"TCP-LISTEN:{self.port},bind=127.0.0.1,reuseaddr,fork,nodelay"
        super().__init__(["socat", "-t", str(SECONDS), listen, address], stderr=subprocess.DEVNULL)
        with self.ended_on_failure():
            wait_for(lambda: not self.is_running() or listens(self.port), "socat")
