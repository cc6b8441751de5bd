#!/usr/bin/env python3
"""Measures what a submit to the shared log costs, compared with the same commands applied to one table without a log: submits.py [RUNS].

crates/benches runs each load RUNS (15) times, the loads in turn, each run a process of its own. Printed are the median, the least and the
greatest: of a submit's time, by workers, idle workers and tenants; of its steps; and of its time in each tenth of a worker's commands; and
what one submit takes, counted. One command in twenty is a set with 100 bytes of data, the others are gets; all keys are set before, and
commands are made before the time begins.

What is counted is the difference of two runs, one with twice the commands of the other, less that of runs that only make the commands:
allocations and copies that are asked of the C library, and instructions where valgrind is installed. Needs gcc.
"""

import pathlib
import subprocess
import sys

sys.path.insert(0, str(pathlib.Path(__file__).parents[1] / "tests"))
from harness import preload, repository
from harness.measures import figures_of, gathered, print_figure, print_load, print_spread, runs_wanted

PROGRAM = repository.program("benches")
STEPS = ("announce", "read", "look", "propose", "replay")
MANY_KEYS = "--keys=16000 --commands=80000"
LOADS = {
    "no log": "--apply --workers=1",
    "1 worker": "--workers=1",
    "2 workers": "--workers=2",
    "4 workers": "--workers=4",
    "1 worker, 1 idle": "--workers=1 --idle=1",
    "1 worker, 3 idle": "--workers=1 --idle=3",
    "1 worker, 7 idle": "--workers=1 --idle=7",
    "1 worker, 15 idle": "--workers=1 --idle=15",
    "1 worker, 4 tenants": "--workers=1 --tenants=4",
    "1 worker, 16 tenants": "--workers=1 --tenants=16",
    "no log, 16,000 keys": f"--apply --workers=1 {MANY_KEYS}",
    "1 worker, 16,000 keys": f"--workers=1 {MANY_KEYS}",
    "1 worker, 16 tenants, 16,000 keys": f"--workers=1 --tenants=16 {MANY_KEYS}",
}

# The loads whose commands' costs are counted: the words of a load, and those of its task.
COUNTED = {
    "a get, no log": ("--workers=1 --sets=0", "--apply"),
    "a get, 1 worker": ("--workers=1 --sets=0", ""),
    "a set, no log": ("--workers=1 --sets=100", "--apply"),
    "a set, 1 worker": ("--workers=1 --sets=100", ""),
    "no log": ("--workers=1", "--apply"),
    "1 worker": ("--workers=1", ""),
    "1 worker, 15 idle": ("--workers=1 --idle=15", ""),
    "1 worker, 16 tenants": ("--workers=1 --tenants=16", ""),
    "2 workers": ("--workers=2", ""),
    "4 workers": ("--workers=4", ""),
}
COMMANDS = 8_000


def run(load):
    """The measurements of one run of a load."""
    words = [PROGRAM, "submits", "--time", "--commands=99000", *load.split()]
    return list(figures_of(subprocess.run(words, capture_output=True, text=True, check=True).stdout))


def print_run_figures(load, values):
    """Prints what the runs of a load measured; steps and proposals only where there is a log."""
    times = values["a submit", "ns"]
    print_spread(f"{load}: a submit", times, "ns")
    print_spread(f"{load}: submits", [1e9 / each for each in times], "submits/s")
    most = max(values["most proposals for a command", "proposals"])
    if most:
        for step in STEPS:
            print_spread(f"{load}: {step} of a submit", values[f"{step} of a submit", "steps"], "steps")
        print_figure(f"{load}: most proposals for a command", most, "proposals")
    for tenth in range(1, 11):
        name = f"a submit in tenth {tenth}"
        if (name, "ns") in values:
            print_spread(f"{load}: {name}", values[name, "ns"], "ns")


def costs(environment, words):
    """What COMMANDS more commands take."""
    less, more = (preload.costs(environment, [PROGRAM, "submits", *words.split(), f"--commands={count}"]) for count in (COMMANDS, 2 * COMMANDS))
    return [after - before for before, after in zip(less, more)]


def print_costs(environment, name, words, task):
    """Prints what one command takes, without what making it takes."""
    made, done = costs(environment, f"{words} --make --workers=1"), costs(environment, f"{words} {task}")
    for (what, unit), before, after in zip(preload.COSTS.items(), made, done):
        # Threads count their allocations and copies over one another.
        if what == "instructions" or "workers" not in name:
            print_figure(f"{name}, one command: {what}", (after - before) / COMMANDS, unit)


def main():
    runs, figures = runs_wanted(__doc__, 15), {name: [] for name in LOADS}
    repository.enter(PROGRAM)
    print_load("start")
    for _ in range(runs):
        for name, load in LOADS.items():
            figures[name].append(run(load))
    for name, found in figures.items():
        print_run_figures(name, gathered(found))
    with preload.library(preload.COUNT) as environment:
        for name, (words, task) in COUNTED.items():
            print_costs(environment, name, words, task)
    print_load("end")


main()
