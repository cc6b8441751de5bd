#!/usr/bin/env python3
"""Counts what one command costs mc_stdin from bytes in to bytes out: allocations and copies, with their bytes, and the processor's
instructions where valgrind is installed.

Each figure is the difference of two runs, one with twice the commands of the other, divided by these, so the start and the end aren't in
it. What the program copies in a loop of its own, byte by byte, is not among the copies. Needs gcc, and the built program.
"""

import pathlib
import sys

sys.path.insert(0, str(pathlib.Path(__file__).parents[1] / "tests"))
from harness import preload, repository
from harness.measures import command_line, print_figure

PROGRAM = repository.program("mc_stdin")
KEY = b"key-of-16-bytes!"
SET = b"set " + KEY + b" 0 0 100\r\n" + 100 * b"v" + b"\r\n"
GET = b"get " + KEY + b"\r\n"
NEW = [b"set key-%012d 0 0 100\r\n" % number + 100 * b"v" + b"\r\n" for number in range(6000)]
COUNT = 2000

STREAMS = {
    "a set of a held key": lambda count: SET + count * SET,
    "a set of a new key": lambda count: b"".join(NEW[: 2000 + count]),
    "a get of a held key": lambda count: SET + count * GET,
    "a get of a key that isn't held": lambda count: count * GET,
    "an incr": lambda count: b"set n 0 0 1\r\n0\r\n" + count * b"incr n 1\r\n",
    "a version, by its line alone": lambda count: count * b"version\r\n",
}


def main():
    command_line(__doc__).parse_args()
    repository.enter(PROGRAM)
    with preload.library(preload.COUNT) as environment:
        for name, stream in STREAMS.items():
            once, twice = (preload.costs(environment, [PROGRAM], stream(count)) for count in (COUNT, 2 * COUNT))
            for (what, unit), less, more in zip(preload.COSTS.items(), once, twice):
                print_figure(f"{name}: {what}", (more - less) / COUNT, unit)


main()
