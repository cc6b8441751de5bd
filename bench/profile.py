#!/usr/bin/env python3
"""Shows where wfmc's processor time goes: samples of the server (perf) under the loads of bench/wfmc.py, with 1 and 2 workers.

Prints for each the shares of the kernel, of the program and of the C library, and then the program's functions with the largest shares.
Needs perf and gcc, and the right to sample (root, or kernel.perf_event_paranoid at 1 or below).
"""

import collections
import pathlib
import signal
import subprocess
import sys
import tempfile

from wfmc import PROGRAM, THREADS, build_load, load, shape_name, start

sys.path.insert(0, str(pathlib.Path(__file__).parents[1] / "tests"))
from harness import repository
from harness.measures import command_line, print_figure, print_load
from harness.processes import Process

SHAPES = [(50, 1, 900_000), (8, 32, 900_000)]
QUIET = {"stdout": subprocess.DEVNULL, "stderr": subprocess.DEVNULL}


def sample(program, folder, workers, shape):
    """One run under perf: the shares of functions, as lines of share, part and function."""
    samples = f"{folder}/samples"
    server, ports = start("wfmc", workers)
    with server, Process(["perf", "record", "-q", "-F", "2000", "-o", samples, "-p", str(server.pid)], **QUIET) as perf:
        load(program, ports, shape)
        server.end(signal.SIGTERM)
        perf.wait()
    words = ["perf", "report", "-q", "-i", samples, "--sort", "dso,symbol", "--percent-limit", "0"]
    report = subprocess.run(words, capture_output=True, text=True, check=True).stdout
    return [line.split() for line in report.splitlines() if line.strip() and not line.lstrip().startswith("#")]


def part_of(name):
    return "the kernel" if name.startswith("[") else "wfmc" if "wfmc" in name else "the C library"


def show(name, lines):
    """Prints the shares of the parts, and those of the program's twelve largest functions."""
    parts, functions = collections.Counter(), collections.Counter()
    for share, part, _, *function in lines:
        parts[part_of(part)] += float(share.rstrip("%"))
        if part_of(part) == "wfmc":
            functions[" ".join(function).removesuffix(" - -")] += float(share.rstrip("%"))
    for what, share in parts.most_common() + functions.most_common(12):
        print_figure(f"{name}: {what}", share, "percent")


def main():
    command_line(__doc__).parse_args()
    repository.enter(PROGRAM)
    repository.require("perf", "gcc")
    with tempfile.TemporaryDirectory() as folder:
        program = build_load(folder)
        print_load("start")
        for shape in SHAPES:
            for workers, workers_name in THREADS.items():
                show(f"wfmc, {workers_name}, {shape_name(shape)}", sample(program, folder, workers, shape))
    print_load("end")


main()
