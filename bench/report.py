#!/usr/bin/env python3
"""Prints the median, the least and the greatest of each measurement that runs of crates/benches printed: report.py [FILE...].

Without files it reads standard input. A run prints a line `name<TAB>value<TAB>unit` for each measurement, and no other line; so does this
script. Values of the same name and unit are taken together, whether they are of one run or of several; where all are the same, only this
value is printed.
"""

import pathlib
import sys

sys.path.insert(0, str(pathlib.Path(__file__).parents[1] / "tests"))
from harness.measures import command_line, figures_of, gathered, print_spread


def main():
    parser = command_line(__doc__)
    parser.add_argument("files", metavar="FILE", nargs="*", type=pathlib.Path)
    texts = [file.read_text() for file in parser.parse_args().files] or [sys.stdin.read()]
    values = gathered(figures_of(text) for text in texts)
    if not values:
        sys.exit("no measurements were read")
    for (name, unit), found in values.items():
        print_spread(name, found, unit)


main()
