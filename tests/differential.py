#!/usr/bin/env python3
"""A differential test: compares mc_schedule with an oracle (oracle/schedule.py) over random event lists.

For each list the oracle says what the program must print on standard output and standard error, and its status. The program runs without
options, with --quiet, and with --picture, of which only the report and the number of lines are compared. At a difference the list is reduced
while the two still differ, and shown with both outputs. --counts prints what the lists reached; --first begins at the list of that number.
"""

import argparse
import subprocess
import sys
from collections import Counter

from generators import ListGenerator
from harness import repository
from oracle.schedule import expected

MODES = ([], ["--quiet"], ["--picture"], ["--picture", "--quiet"])


def difference(program, mode, text, counts):
    """What the program must print with these options, what it prints, and whether they differ."""
    must = expected(text, counts)
    run = subprocess.run([program, *mode], input=text, capture_output=True, timeout=120)
    report = must.report if "--quiet" in mode else must.replies + must.report
    output, steps = run.stdout, None
    if "--picture" in mode and must.steps is not None and output.endswith(b"\n\n" + report):
        output, steps = report, run.stdout[: len(run.stdout) - len(report) - 1].count(b"\n") - 1
        report, output = (part + b"(%d events)" % count for part, count in ((report, must.steps), (output, steps)))
    wanted, got = (report, must.errors, must.status), (output, run.stderr, run.returncode)
    return wanted, got, wanted != got


def smaller(program, mode, text):
    """A list over which the two still differ, made by taking out ever fewer lines, in not more than 2,000 tries."""
    lines, tries = text.split(b"\n"), 0
    size = len(lines)
    while size := size // 2:
        at = 0
        while at < len(lines) and tries < 2000:
            fewer, tries = lines[:at] + lines[at + size :], tries + 1
            if difference(program, mode, b"\n".join(fewer), Counter())[2]:
                lines = fewer
            else:
                at += size
    return b"\n".join(lines)


def words():
    parser = argparse.ArgumentParser(description=__doc__.split("\n")[0])
    parser.add_argument("program", nargs="?", default=repository.program("mc_schedule"))
    parser.add_argument("--lists", type=int, default=2000, help="how many")
    parser.add_argument("--seed", type=int, default=1, help="of the random lists")
    parser.add_argument("--first", type=int, default=0, help="number of the first list")
    parser.add_argument("--counts", action="store_true", help="print what the lists reached")
    return parser.parse_args()


def show(program, mode, text):
    """Prints a list over which the two differ, reduced, and what either says."""
    text = smaller(program, mode, text)
    wanted, got, _ = difference(program, mode, text, Counter())
    print(f"options {mode}: status {got[2]}, must be {wanted[2]}")
    parts = (text, *(side[stream] for stream in (0, 1) for side in (wanted, got)))
    for name, part in zip(("list", "must print", "prints", "must print on standard error", "prints there"), parts):
        print(name + ":", *map(repr, part[:20000].split(b"\n")), sep="\n    ")


def compare(asked, index, counts):
    """Whether the program does with a list what the oracle says, with all options."""
    text = ListGenerator(f"{asked.seed} {index}").text()
    for mode in MODES:
        if difference(asked.program, mode, text, counts if mode == [] else Counter())[2]:
            print(f"seed {asked.seed}, list {index}:")
            show(asked.program, mode, text)
            return False
    return True


def main():
    asked, counts = words(), Counter()
    repository.enter(asked.program)
    wrong = sum(not compare(asked, index, counts) for index in range(asked.first, asked.first + asked.lists))
    for name, count in sorted(counts.items()) if asked.counts else ():
        print("%9d  %s" % (count, name))
    sums = [sum(counts[name] for name in counts if name.startswith(start)) for start in ("bad line", "bad settings", "fault", "reply")]
    print("%d lists, %d of them with bad lines, %d with bad settings, %d with faults, %d replies" % (asked.lists, *sums))
    print(f"{asked.lists - wrong} passed, {wrong} failed")
    return 1 if wrong else 0


if __name__ == "__main__":
    sys.exit(main())
