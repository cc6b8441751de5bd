#!/usr/bin/env python3
"""Checks what keeps the crates apart, as text:

- a definition's name stands once in the repository, so that who searches for it finds one;
- of another crate's proofs only those of a crate of lemmas are cited, which has no code;
- specs/ holds definitions alone: no file there cites a proof;
- crates.txt lists for a crate only those that it calls or cites, and for the crates of the network only those that they call:
  these get the words of deeper crates from the `specs/Cited.antt` of the one that they call.
"""

import functools
import re
import sys
from collections import defaultdict

from specifications import CRATES, Definitions, ROOT, listed

IMPORT = re.compile(r"\bRattle\.(\w+)\.(specs|proofs)\.(\w+)")
CALL = re.compile(r"\b(\w+)::")
CITED = re.compile(r"\bRattle\.(\w+)\.")
# These list only crates whose code they call, and crates of lemmas.
CALLS_ALL = ("mc_conn", "mc_connections", "mc_net", "mc_server")


def sources(*kinds):
    """The repository's files of these folders (src, specs, proofs), each with its crate."""
    for file in sorted(CRATES.rglob("*")):
        crate, *inside = file.relative_to(CRATES).parts
        if file.suffix in (".rt", ".antt") and inside and inside[0] in kinds:
            yield crate, file


def names_used_twice():
    places = defaultdict(list)
    for crate, module, name in Definitions().lines:
        if name:
            places[name].append(f"{crate}/specs/{module.replace('.', '/')}.antt")
    return [f"{name} is defined in {' and in '.join(where)}" for name, where in sorted(places.items()) if len(where) > 1]


@functools.cache
def has_code(crate):
    """Whether a crate's src/ has more than comments and attributes; one that has nothing else holds lemmas."""
    lines = (line.strip() for file in (CRATES / crate / "src").rglob("*.rt") for line in file.read_text(encoding="utf-8").splitlines())
    return any(line and not line.startswith(("//", "#![")) for line in lines)


def proofs_cited(crates):
    """Imports of the proofs of another crate that has code, and imports of any proofs in specs/."""
    for crate, file in sources("src", "specs", "proofs"):
        kind = file.relative_to(CRATES).parts[1]
        for other, folder, module in IMPORT.findall(file.read_text(encoding="utf-8")):
            if folder == "proofs" and kind == "specs":
                yield f"{file.relative_to(ROOT)} cites proofs of {other}"
            elif folder == "proofs" and other in crates and other != crate and has_code(other):
                yield f"{file.relative_to(ROOT)} cites {module} of {other}, which isn't a crate of lemmas"


def crates_listed_in_vain(crates):
    called, cited = defaultdict(set), defaultdict(set)
    lemmas = {library for library in crates if not has_code(library)}
    for crate, file in sources("src", "specs", "proofs"):
        text = file.read_text(encoding="utf-8")
        cited[crate] |= set(CITED.findall(text))
        if file.suffix == ".rt":
            code = (line for line in text.splitlines() if not re.match(r"\s*(//|ghost use)", line))
            called[crate] |= {name for line in code for name in CALL.findall(line)}
    for crate, libraries in crates.items():
        used = called[crate] | (lemmas & cited[crate] if crate in CALLS_ALL else cited[crate])
        yield from (f"crates.txt lists {library} for {crate} in vain" for library in libraries if library not in used)


def main():
    crates = listed()
    faults = [*names_used_twice(), *proofs_cited(crates), *crates_listed_in_vain(crates)]
    print("\n".join(faults) or "each definition has a name of its own, and of another's proofs only lemmas of crates without code are cited")
    return 1 if faults else 0


if __name__ == "__main__":
    sys.exit(main())
