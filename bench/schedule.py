#!/usr/bin/env python3
"""Measures how the time of mc_schedule grows with its event list: schedule.py [RUNS].

Runs lists of an eighth of the most bytes, a quarter, a half and all of them, of some kinds. Printed are the events (those of a submit
counted one by one), and of RUNS (7) runs the median, the least and the greatest: of the time, and of an event's part in it. A fault ends
the script.
"""

import pathlib
import subprocess
import sys
import time

sys.path.insert(0, str(pathlib.Path(__file__).parents[1] / "tests"))
from harness import repository
from harness.measures import print_figure, print_load, print_spread, runs_wanted

PROGRAM = repository.program("mc_schedule")
BYTES = 1_048_576

# Of each kind: how many workers there are, and the line of a number.
KINDS = {
    "submits of one worker": (1, lambda number: "submit 0 0 get a"),
    "submits of 16 workers in turn": (16, lambda number: f"submit {number % 16} 0 get a"),
    "submits of 16 workers in turn, each of a new key": (16, lambda number: f"submit {number % 16} 0 set k{number} 0 x"),
    "single events": (1, lambda number: ("announce 0 0 get a", "read 0", "look 0", "propose 0", "replay 0")[number % 5]),
    "reads of an empty place": (1, lambda number: "read 0"),
}


def event_list(workers, line_of, most):
    """A list of this kind with as many lines as fit."""
    lines = [f"core {workers} {BYTES}", f"tenant {BYTES} {1024 * BYTES}"]
    size = sum(len(line) + 1 for line in lines)
    while True:
        line = line_of(len(lines) - 2)
        size += len(line) + 1
        if size > most:
            return ("\n".join(lines) + "\n").encode()
        lines.append(line)


def run(listed, *words):
    ended = subprocess.run([PROGRAM, *words], input=listed, stdout=subprocess.PIPE, check=True)
    return ended.stdout


def events_of(listed):
    """How many lines the picture has, without its heading."""
    return run(listed, "--picture", "--quiet").partition(b"\n\n")[0].count(b"\n")


def seconds(listed):
    begun = time.perf_counter()
    run(listed)
    return time.perf_counter() - begun


def main():
    runs = runs_wanted(__doc__, 7)
    repository.enter(PROGRAM)
    print_load("start")
    for kind, (workers, line_of) in KINDS.items():
        for part in (8, 4, 2, 1):
            listed = event_list(workers, line_of, BYTES // part)
            name = f"{kind}, {len(listed)} bytes"
            events, times = events_of(listed), [seconds(listed) for _ in range(runs)]
            print_figure(f"{name}: events", events, "count")
            print_spread(f"{name}: time", [1e3 * it for it in times], "ms")
            print_spread(f"{name}: an event", [1e9 * it / events for it in times], "ns")
    print_load("end")


main()
