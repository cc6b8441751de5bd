#!/usr/bin/env python3
"""Loads wfmc over loopback, compared with memcached, by turns, each started anew for each run: wfmc.py [RUNS].

50 connections with one request at a time, and 8 connections with 32; 95 in 100 are gets, of 1,000 keys with data of 100 bytes
(bench/load.c); with 1 and 2 workers or threads. Prints for each the median, the least and the greatest of RUNS (5) runs: requests a second,
the median and the 99th percentile of the time to a reply (or to the last of 32), the server's processor time a request; and the server's
system calls a request, of a run by itself. Then wfmc with 1, 8 and 64 tenants. wfmc's log has 1,048,576 places, which bounds a run. Needs
memcached, gcc and strace.
"""

import os
import pathlib
import signal
import subprocess
import sys
import tempfile

sys.path.insert(0, str(pathlib.Path(__file__).parents[1] / "tests"))
from harness import repository
from harness.measures import figures_of, gathered, print_figure, print_load, print_spread, runs_wanted
from harness.servers import Memcached, Server

PROGRAM = repository.program("wfmc")
QUOTAS = (100_000, 100_000_000)
SHAPES = [(50, 1, 400_000), (8, 32, 900_000)]  # connections, requests that each sends at once, requests in total
TRACED = 64_000
SET_BEFORE = 1_000
THREADS = {1: "1 thread", 2: "2 threads"}


def shape_name(shape):
    connections, depth, _ = shape
    return f"{connections} connections of depth {depth}"


def build_load(folder):
    """The program that loads a server."""
    path = f"{folder}/load"
    subprocess.run(["gcc", "-O2", "-o", path, "bench/load.c"], check=True)
    return path


def load(program, ports, shape):
    """Loads a server, and returns what that measured: requests a second, and the median and 99th percentile of the time to a reply."""
    words = [program, ",".join(map(str, ports)), *map(str, shape)]
    return list(figures_of(subprocess.run(words, capture_output=True, text=True, check=True).stdout))


def start(which, threads, tenants=1, before=()):
    """A server with this many threads, and its ports; `before` are the words of a tool that runs it."""
    if which == "memcached":
        server = Memcached("-t", str(threads), before=before)
        return server, [server.port]
    words = [*before, PROGRAM]
    options = [*words[1:], "--workers", str(threads), "--places", "1048576"]
    server = Server(words[0], options, {f"t{number}": QUOTAS for number in range(tenants)})
    return server, list(server.ports.values())


def run(program, which, threads, tenants, shape):
    """The measurements of one run."""
    server, ports = start(which, threads, tenants)
    with server:
        figures = load(program, ports, shape)
        return [*figures, ("processor time of a request", server.processor_seconds() / shape[2] * 1e6, "us")]


def system_calls(program, folder, which, threads, shape):
    """The system calls a request of a server that is traced."""
    counted = pathlib.Path(folder, "calls")
    server, ports = start(which, threads, before=["strace", "-f", "-c", "-o", str(counted)])
    with server:
        load(program, ports, (*shape[:2], TRACED))
        for child in server.children():
            os.kill(child, signal.SIGTERM)
        server.wait()
    total = next(line for line in counted.read_text().splitlines() if line.endswith("total"))
    return float(total.split()[3]) / (TRACED + SET_BEFORE)


def show(name, runs):
    """Prints what some runs measured."""
    for (what, unit), values in gathered(runs).items():
        print_spread(f"{name}: {what}", values, unit)


def compare(program, folder, runs):
    """wfmc and memcached by turns."""
    for shape in SHAPES:
        for threads, threads_name in THREADS.items():
            found = {"wfmc": [], "memcached": []}
            for _ in range(runs):
                for which, figures in found.items():
                    figures.append(run(program, which, threads, 1, shape))
            for which, figures in found.items():
                name = f"{which}, {threads_name}, {shape_name(shape)}"
                show(name, figures)
                print_figure(f"{name}: system calls of a request", system_calls(program, folder, which, threads, shape), "count")


def main():
    runs = runs_wanted(__doc__, 5)
    repository.enter(PROGRAM)
    repository.require("memcached", "gcc", "strace")
    with tempfile.TemporaryDirectory() as folder:
        program = build_load(folder)
        print_load("start")
        compare(program, folder, runs)
        shape = (64, 1, 400_000)
        for tenants, tenants_name in {1: "1 tenant", 8: "8 tenants", 64: "64 tenants"}.items():
            show(f"wfmc, {THREADS[2]}, {tenants_name}, {shape_name(shape)}", [run(program, "wfmc", 2, tenants, shape) for _ in range(runs)])
    print_load("end")


if __name__ == "__main__":
    main()
