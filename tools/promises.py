#!/usr/bin/env python3
"""Writes docs/PROMISES.md: what each public call of the product's libraries asks and promises, as the sources say it.

promises.py --check fails where the document differs, where the table of docs/PROVED.md names a call, a clause or a mutant that isn't there, where
those of docs/FAULTS.md name a call or a clause that isn't there or leave out a call that can fail, and where a link to the document leads nowhere;
and where it finds none of these to look at.
"""

import re
import sys
from collections import defaultdict

from specifications import CRATES, ROOT, Definitions, Library, anchor_of, libraries, public_items

PAGE, BY_HAND, FAULTS = ROOT / "docs/PROMISES.md", ROOT / "docs/PROVED.md", ROOT / "docs/FAULTS.md"
SETS = {"must-fail": "gate", "more-edits": "full set"}
INTRODUCTION = """\
# What each call promises

Written by `tools/promises.py` from the sources, which are proved; `make documents` writes it anew. [PROVED.md](PROVED.md) says what these contracts come to, and
what isn't proved at all.

Each public type, trait and function of a library stands below its file, with its comment and then its contract, word for word. `requires` is what
a call asks of its caller, `ensures` what it promises; `.old` and `.new` are what is lent to it before and after, `.now` what it only reads. A law is a
function with an empty body: its contract is all there is to it. The `ghost` lines of a type are its invariants and what contracts see of it, those of an implementation what it makes of its trait;
none of them exists at run time. Definitions of Rattle's std aren't listed. [DEFINITIONS.md](DEFINITIONS.md) explains those of this repository.

A mutant is a small change of the code, which the prover must reject. The gate tries the first set at each run, `make mutants` the full set.
"""


def joined(lines):
    return "\n".join(lines)


def first_sentence(lines):
    return re.split(r"(?<=\.)\s", " ".join(lines).strip(), maxsplit=1)[0]


def mutants_of(crate):
    """For each file of a crate, the names of its mutants, by set."""
    found = defaultdict(lambda: defaultdict(list))
    for folder in SETS:
        for mutant in sorted((CRATES / crate / folder).glob("*.edit")):
            for file in dict.fromkeys(re.findall(r"^file: src/(\w+)\.rt", mutant.read_text(encoding="utf-8"), re.MULTILINE)):
                found[file][folder].append(mutant.stem)
    return found


def names_of(mutants):
    """The mutants of a file, the gate's first."""
    named = (f"{SETS[folder]}: {', '.join(f'`{name}`' for name in mutants[folder])}" for folder in SETS if mutants[folder])
    return "; ".join(named)


def citations(definitions, item):
    """The definitions that a contract names, file by file, with a link to each file."""
    files = defaultdict(list)
    for crate, module, name in definitions.cited_by(item):
        files[f"{crate}/specs/{module.replace('.', '/')}.antt"].append(f"`{name}`")
    return "; ".join(f"{', '.join(names)} of [{file}](../crates/{file})" for file, names in files.items())


def shown(definitions, item):
    """An item of the page."""
    parts = [f"#### `{item.crate}::{item.name}`"]
    if item.comment:
        parts.append(joined(item.comment))
    contract = [f"    {line}" for line in item.contract]
    parts.append(joined(["```rust", item.signature, *contract, "```"]))
    if cited := citations(definitions, item):
        parts.append(f"Cites {cited}.")
    return parts


def shown_crate(definitions, crate):
    """A crate's part of the page."""
    library, mutants = Library(crate), mutants_of(crate)
    parts = [f"## {crate}", joined(library.comment())]
    if others := library.others():
        parts.append("Makes public too: " + "; ".join(f"{', '.join(f'`{name}`' for name in names)} of `{other}`" for other, names in others) + ".")
    for file in library.texts:
        items = library.items(file)
        if not items:
            continue
        parts.append(f"### [{crate}/src/{file}.rt](../crates/{crate}/src/{file}.rt)")
        if file != "lib":
            parts.append(joined(library.comment(file)))
        parts += [part for item in items for part in shown(definitions, item)]
        if named := names_of(mutants.pop(file, {folder: [] for folder in SETS})):
            parts.append(f"Mutants of this file. {named[0].upper()}{named[1:]}.")
    if mutants:
        rest = (f"- `{file}.rt`. {names_of(mutants[file])}" for file in sorted(mutants))
        parts.append("Mutants of files without a public call:\n\n" + joined(rest))
    return [part for part in parts if part]


def row_of(crate):
    """A crate's row of the first table: its calls, their promises, and its mutants by set."""
    library = Library(crate)
    items = [item for file in library.texts for item in library.items(file)]
    calls = [item for item in items if " fn " in f" {item.signature}"]
    promises = sum(len(item.labels()) for item in calls)
    counts = [len(list((CRATES / crate / folder).glob("*.edit"))) for folder in SETS]
    return f"| [`{crate}`](#{crate}) | {first_sentence(library.comment())} | {len(calls)} | {promises} | {counts[0]} + {counts[1]} |"


def page():
    definitions, crates = Definitions(), libraries()
    table = ["| Crate | What it is | Calls | Promises | Mutants: gate + more |", "|---|---|---|---|---|", *map(row_of, crates)]
    parts = [INTRODUCTION.strip(), joined(table), *(part for crate in crates for part in shown_crate(definitions, crate))]
    return "\n\n".join(parts) + "\n"


def quoted(cell):
    return re.findall(r"`([^`]+)`", cell)


def claims():
    """The rows of the hand-written document that name calls, clauses and mutants, as these three lists."""
    for line in BY_HAND.read_text(encoding="utf-8").splitlines():
        cells = line.strip("|").split("|")
        if len(cells) == 4 and "::" in cells[1]:
            yield [quoted(cell) for cell in cells[1:]]


def kinds_unnamed():
    """Which of calls, clauses and mutants none of those rows names."""
    rows = list(claims())
    return [kind for at, kind in enumerate(("calls", "clauses", "mutants")) if not any(row[at] for row in rows)]


def unknown_names():
    """What those rows name and the sources don't have."""
    promises = {f"{item.crate}::{item.name}": item.labels() for item in public_items()}
    known = {file.stem for folder in SETS for file in CRATES.glob(f"*/{folder}/*.edit")}
    for calls, clauses, mutants in claims():
        labels = {label for call in calls for label in promises.get(call, ())}
        yield from [call for call in calls if call not in promises]
        yield from [clause for clause in clauses if clause not in labels]
        yield from [mutant for mutant in mutants if mutant not in known]


def can_fail(item):
    """Whether an item is a call that answers a fault or an error of the system."""
    head, arrow, result = item.signature.partition("->")
    return " fn " in f" {head}" and "Result<" in result


def wrong_faults():
    """What the tables of faults name and the sources don't have, and the calls that they leave out."""
    promises = {f"{item.crate}::{item.name}": item for item in public_items()}
    listed = set()
    for line in FAULTS.read_text(encoding="utf-8").splitlines():
        cells = line.strip("|").split("|")
        if len(cells) == 4 and "::" in cells[0]:
            calls = quoted(cells[0])
            listed.update(calls)
            labels = {label for call in calls if call in promises for label in promises[call].labels()}
            yield from [f"no call {call}" for call in calls if call not in promises]
            yield from [f"no clause {clause} of {', '.join(calls)}" for clause in quoted(cells[3]) if clause not in labels]
    yield from [f"{call} isn't listed" for call, item in promises.items() if can_fail(item) and call not in listed]


def links():
    """The links of other documents to headings of the page: each document and heading."""
    for document in (ROOT / "README.md", *sorted(PAGE.parent.glob("*.md"))):
        for anchor in re.findall(r"PROMISES\.md#([\w-]+)", document.read_text(encoding="utf-8")):
            yield document, anchor


def dead_links(text):
    """The links to headings that the page doesn't have."""
    anchors = {anchor_of(heading) for heading in re.findall(r"^#+ (.*)$", text, re.MULTILINE)}
    for document, anchor in links():
        if anchor not in anchors:
            yield f"#{anchor} in {document.name}"


def check():
    text = page()
    if PAGE.read_text(encoding="utf-8") != text:
        sys.exit("docs/PROMISES.md isn't what the sources say: make documents")
    if nothing := kinds_unnamed():
        sys.exit(f"docs/PROVED.md has no row that names {', '.join(nothing)}: its table has another form than is read here")
    if not any(links()):
        sys.exit("no document has a link to a heading of docs/PROMISES.md, or in another form than is read here")
    if unknown := list(unknown_names()):
        sys.exit(f"docs/PROVED.md names what the sources don't have: {', '.join(unknown)}")
    if wrong := list(wrong_faults()):
        sys.exit(f"docs/FAULTS.md isn't what the sources say: {'; '.join(wrong)}")
    if dead := list(dead_links(text)):
        sys.exit(f"links to docs/PROMISES.md lead nowhere: {', '.join(dead)}")


def main():
    if sys.argv[1:] == ["--check"]:
        check()
    elif sys.argv[1:]:
        sys.exit("usage: tools/promises.py [--check]")
    else:
        PAGE.write_text(page(), encoding="utf-8")


main()
