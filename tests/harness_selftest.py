#!/usr/bin/env python3
"""Tests tests/harness itself and what scripts make of it, with stand-ins for the servers, in some seconds: a server that hangs before it is ready,
one that never listens, and a script that is told to end, none of which leaves a process; clients of metrics.py whose connections are closed; and
programs that hang below allocation_failures.py. The last line is 'N passed, M failed'.
"""

import contextlib
import os
import pathlib
import signal
import socket
import subprocess
import sys
import tempfile
import threading
import time
import types
from unittest.mock import patch

import allocation_failures as failures
import metrics
from harness import servers
from harness.client import Client
from harness.results import Results

PATIENCE = 10
results = Results()
check = results.check

# What a script does that has a process in the block of a generator and one that isn't in any block yet.
SCRIPT = """
import os, sys, time
from concurrent.futures import ProcessPoolExecutor
from multiprocessing.context import ForkProcess
from multiprocessing.process import BaseProcess
from harness.processes import Process

def started():
    with Process(["sleep", "100"]) as first:
        yield first.pid

def main():
    for pid in started():
        second = Process(["sleep", "100"])
        with second.ended_on_failure():
            {does}

main()
"""


def is_gone(pid):
    """Whether a process ends soon; one that nobody has waited for has ended too."""
    until = time.monotonic() + PATIENCE
    while time.monotonic() < until:
        try:
            state = pathlib.Path(f"/proc/{pid}/stat").read_text(encoding="ascii").rpartition(")")[2].split()[0]
        except (FileNotFoundError, ProcessLookupError):
            return True
        if state == "Z":
            return True
        time.sleep(0.02)
    return False


@contextlib.contextmanager
def stand_in(name, text):
    """A program of this name in a folder of its own."""
    with tempfile.TemporaryDirectory() as folder:
        program = pathlib.Path(folder, name)
        program.write_text(f"#!/bin/sh\n{text}\n", encoding="ascii")
        program.chmod(0o755)
        yield program


def failure_of(start):
    """What starting a server raised, after how many seconds, and whether its process is gone."""
    begun, started, popen = time.monotonic(), [], subprocess.Popen
    # By the number that it was started under: it may be ended before it has run at all.
    note = lambda *words, **settings: started.append(popen(*words, **settings)) or started[-1]
    try:
        with patch.object(subprocess, "Popen", note):
            start()
        said = "nothing"
    except (Exception, SystemExit) as error:
        said = f"{type(error).__name__}: {error}"
    took = time.monotonic() - begun
    return said, took, len(started) == 1 and is_gone(started[0].pid)


def check_hanging_servers():
    for what, text in (("nothing", ""), ("its listeners", "echo listening a 127.0.0.1:1"), ("half a line", "printf 'listening a'")):
        with stand_in("wfmc", f"{text}\nexec sleep 100") as program, patch.object(servers, "SECONDS", 1):
            said, took, gone = failure_of(lambda: servers.Server(str(program)))
            check(f"wfmc hangs once it has said {what}", said == "TimeoutError: wfmc isn't ready after 1 seconds" and took < PATIENCE, (said, took))
            check(f"it is ended, once it has said {what}", gone)
    for name, start in (("memcached", servers.Memcached), ("socat", lambda: servers.Relay("EXEC:true"))):
        with stand_in(name, "exec sleep 100") as program, patch.object(servers, "SECONDS", 1):
            with patch.dict(os.environ, PATH=f"{program.parent}:{os.environ['PATH']}"):
                said, took, gone = failure_of(start)
            check(f"{name} never listens", said == f"SystemExit: {name} doesn't listen" and took < PATIENCE, (said, took))
            check(f"{name} is ended", gone)


def check_other_servers():
    """Servers that are ready, and that end before."""
    with stand_in("wfmc", "echo listening a 127.0.0.1:70\necho ready\nprintf 'done 7\\n'\necho wrong >&2") as program, servers.Server(str(program)) as server:
        check("wfmc is ready", server.ports == {"a": 70} and server.is_ready, server.ports)
        check("what it says behind that", server.wait() == (0, b"done 7\n", b"wrong\n"))
    with stand_in("wfmc", "echo wfmc: bad settings >&2; exit 2") as program, servers.Server(str(program)) as server:
        check("wfmc ends before it is ready", not server.ports and not server.is_ready and server.wait() == (2, b"", b"wfmc: bad settings\n"))


def check_script(what, does, how, wanted):
    """A script that does these lines, and is told to end so once it has printed its processes, has this status, and they are gone."""
    words = [sys.executable, "-c", SCRIPT.format(does="\n            ".join(does))]
    with subprocess.Popen(words, cwd=pathlib.Path(__file__).parent, stdout=subprocess.PIPE, stderr=subprocess.DEVNULL, text=True) as script:
        pids = script.stdout.readline().split()
        script.send_signal(how)
        try:
            status = script.wait(PATIENCE)
        except subprocess.TimeoutExpired:
            status = "none"
            script.kill()
    check(f"{what}: its status", status == wanted, status)
    check(f"{what}: its processes are gone", len(pids) > 1 and all(is_gone(pid) for pid in pids), pids)


def check_fork():
    """A process of a pool isn't asked to unwind."""
    ours, theirs = os.pipe()
    if not (child := os.fork()):
        with contextlib.suppress(SystemExit):
            os.write(theirs, b"x")
            time.sleep(PATIENCE)
        os._exit(0)
    os.read(ours, 1)
    os.kill(child, signal.SIGTERM)
    check("a process of a pool ends by the signal", os.waitpid(child, 0)[1] == signal.SIGTERM)


def check_scripts():
    two = "print(pid, second.pid, flush=True)"
    check_script("a script that is told to end", [two, "time.sleep(100)"], signal.SIGTERM, 143)
    check_script("one that waits for a process", [two, "second.process.wait()"], signal.SIGTERM, 143)
    check_script("one that fails", [two, "sys.stdin.missing"], signal.SIGCONT, 1)
    pool = "with ProcessPoolExecutor(2) as pool: "
    three = "third, last = pool.submit(os.getpid).result(), pool.submit(time.sleep, 100); print(pid, second.pid, third, flush=True); last.result()"
    check_script("one with a pool", [pool + three], signal.SIGTERM, 143)
    # The signal comes after the first process of the pool, which has nothing yet that ends these.
    start = "ForkProcess.start = lambda self: (BaseProcess.start(self), print(pid, second.pid, self.pid, flush=True), os.kill(os.getpid(), 15))"
    check_script("one that begins a pool", [start, pool + "pool.submit(time.sleep, 100).result()"], signal.SIGCONT, 143)


@contextlib.contextmanager
def closing(sent):
    """The port of a listener that sends each client these bytes, and closes its connection."""
    with socket.create_server(("127.0.0.1", 0)) as listener:

        def accept():
            with contextlib.suppress(OSError):
                while True:
                    with listener.accept()[0] as client:
                        client.sendall(sent)

        threading.Thread(target=accept, daemon=True).start()
        yield listener.getsockname()[1]
        listener.shutdown(socket.SHUT_RDWR)


def check_closed():
    """Scrapers and clients of metrics.py whose connections end too early."""
    head = b"HTTP/1.1 200 OK\r\ncontent-length: 10\r\n\r\n"
    for sent, wanted in ((head + b"123", "cut off"), (head[:-2], ""), (head + b"1234567890", "HTTP/1.1 200 OK")):
        with closing(sent) as port:
            status, _, body = metrics.Scraper(types.SimpleNamespace(ports={"metrics": port}), PATIENCE).reply()
            check(f"a scrape's reply of {len(sent)} bytes", status == wanted and body == ("1234567890" if wanted.endswith("OK") else ""), (status, body))
    with closing(b"") as port:
        server = types.SimpleNamespace(ports={"metrics": port}, client=lambda _: Client(port, seconds=PATIENCE))
        wrong, served, counts = metrics.at_full_speed(server, "ab", seconds=2)
        check("threads that have died have counted nothing", served == {"a": 0, "b": 0} and counts == [0, 0, 0], (served, counts))
        check("and that is wrong", sum(one.startswith(("BrokenPipeError", "ConnectionResetError")) for one in wrong) == 5, wrong[-5:])


def check_hangs():
    """Programs that hang, which have a second here, are failures of a sweep, and don't end it."""
    nothing, late = "exec sleep 100", "cat >/dev/null; echo late; echo 1 2 >&2"
    with patch.object(failures, "SECONDS", 1), patch.object(servers, "SECONDS", 1):
        with stand_in("mc_stdin", nothing) as program:
            check("a stream that hangs", failures.fed([program], b"", None) == failures.HUNG)
            check("a client that hangs", failures.by_turns(None, [program]) == failures.HUNG)
        with stand_in("mc_stdin", late) as program:
            check("a client that is answered at its end", failures.by_turns(None, [program]) == failures.HUNG)
        with stand_in("wfmc", nothing) as program, patch.object(failures, "WFMC", str(program)):
            check("a server that hangs", failures.serve_clients(None) == (failures.HUNG, []))
    with stand_in("mc_stdin", late) as program:
        check("a stream that is answered at its end", failures.fed([program], b"x", None) == (0, b"late\n", b"1 2\n"))
    judges = failures.judge_stdin, lambda ended, mode: failures.judge_wfmc((ended, []), mode)
    check("no judge lets it pass", all(judge(failures.HUNG, "one")[1] is False for judge in judges))


def main():
    check_hanging_servers()
    check_other_servers()
    check_scripts()
    check_fork()
    check_closed()
    check_hangs()
    results.finish()


main()
