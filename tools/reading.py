#!/usr/bin/env python3
"""Which definitions a call's promises stand on: reading.py [CRATE::FUNCTION...], by default the calls that carry the headline.

For each call, named as in docs/PROMISES.md: how many definitions its clauses reach through specs/ that no call before it does, with their lines,
file by file. Comments, blank lines and imports don't count, nor definitions of the kit.

reading.py --sizes prints how long specs/ of each crate is: its lines, and of these those of definitions, imports and comments.
reading.py --write brings the two tables of docs/DEFINITIONS.md up to date, which have these numbers and how long specs/ of each crate is;
reading.py --check fails where they aren't, or where a name that the document explains isn't in the crates that its section names.
"""

import re
import sys
from collections import defaultdict

from specifications import CRATES, ROOT, WORD, Definitions, anchor_of, public_items

DOCUMENT = ROOT / "docs/DEFINITIONS.md"
SECTION = re.compile(r"(?m)^(?=## )")
# The names that an entry begins with.
EXPLAINED = re.compile(r"(?m)^- ((?:`[^`]*`(?:,\s+|\s+and\s+)?)+)")
NAME = re.compile(r"`([A-Za-z_]\w*)")
HEADLINE = (
    "uc_worker::Worker::submit",
    "uc_worker::Worker::meet",
    "mc_conn::Conn::turn",
    "mc_net::serve",
    "uc_core::laws",
    "uc_core::two_worlds",
    "uc_core::runs_do_what_is_asked",
    "uc_places::calls_lie_on_one_run",
)


def reached_by(calls):
    """For each call in turn: the definitions that it reaches and none before it does, by crate, module and name, with their lines."""
    definitions, known = Definitions(), set()
    items = {f"{item.crate}::{item.name}": item for item in public_items()}
    for call in calls:
        if call not in items:
            sys.exit(f"{call} is no public function")
        reached = definitions.reached_from(definitions.cited_by(items[call])) - known
        known |= reached
        yield call, {one: len(definitions.lines[one]) for one in sorted(reached)}


def kind_of(line):
    """What a line of specs/ is counted as: a definition, an import, a comment, or nothing."""
    if not line.strip() or line.startswith("pub mod "):
        return None
    return "comment" if line.lstrip().startswith("--") else "import" if line.startswith(("use ", "pub use ")) else "definition"


def sizes():
    """For each crate that has definitions: the lines of its specs/, and of these those of definitions, imports and comments."""
    found = {}
    for folder in sorted(CRATES.glob("*/specs")):
        lines = [line for file in folder.glob("**/*.antt") for line in file.read_text(encoding="utf-8").splitlines()]
        kinds = [kind_of(line) for line in lines]
        if lines:
            found[folder.parent.name] = [len(lines), *(kinds.count(kind) for kind in ("definition", "import", "comment"))]
    return found


def size_rows():
    found = sizes()
    for crate, numbers in found.items():
        yield f"| `{crate}` | " + " | ".join(str(number) for number in numbers) + " |"
    yield "| together | " + " | ".join(f"{sum(column):,}" for column in zip(*found.values())) + " |"


def with_numbers(document, row, definitions, lines):
    """The document with these numbers at the end of the row that begins so."""
    document, times = re.subn(rf"^({re.escape(row)} \|.*) \| \d+ \| \d+ \|$", rf"\1 | {definitions} | {lines} |", document, flags=re.MULTILINE)
    if times != 1:
        sys.exit(f"docs/DEFINITIONS.md has {times} rows that begin {row}")
    return document


def updated(document):
    """The document with the numbers of today in its tables."""
    together = {}
    for call, reached in reached_by(HEADLINE):
        together |= reached
        document = with_numbers(document, f"| [`{call}`](PROMISES.md#{anchor_of(call)})", len(reached), sum(reached.values()))
    document = with_numbers(document, "| all of them", len(together), sum(together.values()))
    table = "\n".join(size_rows())
    head = r"(?m)(^\| Crate \| Lines of `specs/` \|.*\n\|[-|]+\|\n)"
    return re.sub(head + r"(?:\|.*\n)*?\| together \|.*$", lambda found: found[1] + table, document)


def unknown_names(document):
    """For each section of the definitions of a crate: the names that its entries explain and no crate has of those that it names."""
    words = {folder.name: words_of(folder) for folder in CRATES.iterdir()}
    for section in SECTION.split(document):
        title = section.partition("\n")[0]
        if "crates/" in title:
            known = set().union(*(words[crate] for crate in words.keys() & set(WORD.findall(section))))
            explained = (name for entry in EXPLAINED.findall(section) for name in NAME.findall(entry))
            yield from ((title, name) for name in explained if name not in known)


def words_of(folder):
    files = [*folder.glob("specs/**/*.antt"), *folder.glob("src/**/*.rt")]
    return {word for file in files for word in WORD.findall(file.read_text(encoding="utf-8"))}


def print_calls(calls):
    together = {}
    for call, reached in reached_by(calls):
        together |= reached
        print(f"{call}: {len(reached)} definitions, {sum(reached.values())} lines")
        files = defaultdict(list)
        for crate, module, name in reached:
            files[f"{crate}/specs/{module}.antt"].append(name)
        for file, names in files.items():
            print(f"    {file}: {', '.join(names)}")
    print(f"together {len(together)} definitions, {sum(together.values())} lines")


def main():
    document = DOCUMENT.read_text(encoding="utf-8")
    if sys.argv[1:] == ["--write"]:
        DOCUMENT.write_text(updated(document), encoding="utf-8")
    elif sys.argv[1:] == ["--check"]:
        if updated(document) != document:
            sys.exit("docs/DEFINITIONS.md has other numbers than the sources: make documents")
        unknown = [f"docs/DEFINITIONS.md: {title.strip('# ')}: `{name}` is in none of its crates" for title, name in unknown_names(document)]
        if unknown:
            sys.exit("\n".join(unknown))
    elif sys.argv[1:] == ["--sizes"]:
        print("\n".join(size_rows()))
    elif any(word.startswith("-") for word in sys.argv[1:]):
        sys.exit("usage: tools/reading.py [CRATE::FUNCTION... | --sizes | --write | --check]")
    else:
        print_calls(sys.argv[1:] or HEADLINE)


main()
