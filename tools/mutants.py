#!/usr/bin/env python3
"""Mutation testing of the contracts: the prover must refuse each mutant of both sets, the gate's (must-fail/) and the full one (more-edits/).

Usage: tools/mutants.py [CRATE | CRATE/MUTANT]..., where a crate's name stands for all of its mutants, and no word for all crates. It
begins with the libraries that make test or make build has built, and proves those that have changed since.

A proof knows of other functions their contracts alone, so mutants that change the bodies of different functions are tried at once, and
so are those of the clauses of laws, whose bodies are empty: each is refused if a goal of its own function is. What changes anything else,
or isn't refused so, is tried alone: first on a few functions, its own or those whose clauses name what it changes, since a crate isn't
proved if one of its functions isn't; and then by a check of the whole crate. The last lines name the mutants that weren't refused, and
then 'N passed, M failed'.
"""

import os
import re
import shutil
import subprocess
import sys
import tempfile
from collections import Counter
from concurrent.futures import ThreadPoolExecutor
from dataclasses import dataclass, field
from pathlib import Path

from specifications import DEFINITION, WORD, listed

sys.path.insert(0, str(Path(__file__).resolve().parents[1] / "tests"))
from harness.repository import kit

TOOLS = Path(__file__).resolve().parent
ROOT = Path(os.environ.get("REPOSITORY", TOOLS.parent)).resolve()
CRATES = ROOT / "crates"
SETS = ("must-fail", "more-edits")
PARTS = ("src", "specs", "proofs")
# How many mutants are tried at once: with more, a crate's checks would be fewer, and one wrong edit would cost more of them a second try.
AT_ONCE = 12
# How many functions a mutant of a definition is tried on before the whole crate is checked.
NEAREST = 4

FUNCTION = re.compile(r"^( *)(?:pub(?:\([\w:]+\))? )?(?:const )?fn (\w+)")
IMPL = re.compile(r"^ *impl(?:<(.*?)>)? (?:(\w[\w:]*)(?:<(.*)>)? for )?(&(?:'\w+ )?(?:mut )?)?(\w[\w:]*)(?:<(.*)>)?")
PARAMETER = re.compile(r"(?:^|,) *(\w+)(?=:|,|$)")
ARGUMENT = re.compile(r"(?:^|,) *(\w[\w:]*|\(\))")
TRAIT = re.compile(r"^( *)(?:pub(?:\([\w:]+\))? )?trait (\w+)")
TYPE = re.compile(r"^(?:pub(?:\([\w:]+\))? )?(?:struct|enum|trait) (\w+)", re.MULTILINE)
CONSTANT = re.compile(r" *(?:pub(?:\([\w:]+\))? )?(?:const|static) (\w+):")
# The prover's words for a goal that it refuses, a proof that doesn't fit any more, and a proof that only lacks what the mutant took away.
OPEN_GOAL = re.compile(r"note: (src/\S+?):(\d+):\d+: it is not proved that")
WRONG_PROOF = re.compile(r"(?:\./)?proofs/(\S+)/(?:Answers|Proof|Invariants)\.antt:\d+:\d+: error")
LACKING = re.compile(r"has no `|has no field|is not in scope|was not admitted")
UNREAD = re.compile(r"(?:\./)?(?:src|specs)/\S+?:\d+:\d+: error|error\[[\w-]+\]")


@dataclass(frozen=True)
class Function:
    """A function of a file: its name as a check prints it, below the crate, and its first line, the body's and the last."""

    name: str
    file: str
    first: int
    body: int
    last: int

    @property
    def proofs(self):
        return self.name.replace("::", "/")

    @property
    def is_empty(self):
        """Whether its body is one line: `{}` then, as of a law, which rests on no other function."""
        return self.body == self.last

    def has_alone(self, line):
        """Whether a change of this line, counted from 1, is one of its proof alone: of its body, or of the clauses of an empty one."""
        return self.first <= line <= self.last if self.is_empty else self.body < line < self.last


def module_of(file):
    return re.sub(r"/mod$|^lib$|^main$", "", file.removeprefix("src/").removesuffix(".rt")).replace("/", "::")


def owner_of(line):
    """The type, and the trait after it with the types that it is given, to which the functions of a block that begins in this line belong,
    as a check names them."""
    if begins := IMPL.match(line):
        kind = "RefMut" if "mut" in (begins[4] or "") else "Ref" if begins[4] else begins[5].split("::")[-1]
        of_trait, of_type = ([it for it in ARGUMENT.findall(some or "") if it not in PARAMETER.findall(begins[1] or "")] for some in (begins[3], begins[6]))
        if not begins[2]:
            return kind, "+".join((kind, *of_type))
        return kind, kind + "".join("Unit" if it == "()" else it.split("::")[-1] for it in (begins[2], *of_trait))
    begins = TRAIT.match(line)
    return begins and (begins[2], begins[2])


def functions(file, text, modules):
    """The functions of a formatted file whose bodies begin in lines of their own. A check names a type's own methods by its module."""
    lines, owner, found = text.split("\n"), None, []
    for number, line in enumerate(lines):
        begins = FUNCTION.match(line)
        if line.startswith("}"):
            owner = None
        owner = owner_of(line) or owner
        if not begins:
            continue
        rest = range(number, len(lines))
        last = next((at for at in rest if lines[at] in (begins[1] + "}", begins[1] + "{}")), None)
        body = next((at for at in rest if lines[at] in (begins[1] + "{", begins[1] + "{}") or re.match(rf"{begins[1]}\S.*\{{$", lines[at])), None)
        if last and body is not None and body <= last:
            kind, named = owner or (None, None)
            module = modules.get(kind, module_of(file)) if kind == named else module_of(file)
            found.append(Function("::".join(it for it in (module, named, begins[2]) if it), file, number + 1, body + 1, last + 1))
    return found


@dataclass
class Mutant:
    """A mutant: where it stands, and the texts that it changes, each as its file, the old one and the new one."""

    crate: str
    path: Path
    changes: list = field(default_factory=list)

    @property
    def name(self):
        return f"{self.crate}/{self.path.name}"

    def read(self):
        """Reads the edit; says what is wrong with it, if anything is."""
        file, old = "", None
        for line in self.path.read_text(encoding="utf-8").split("\n"):
            if line.startswith("file: "):
                file = line.removeprefix("file: ").strip()
            elif line.startswith("old: "):
                old = line.removeprefix("old: ")
            elif line.startswith("new:"):
                source = CRATES / self.crate / file
                if not old or not source.is_file() or source.read_text(encoding="utf-8").count(old) != 1:
                    return f"its old text isn't in {file or 'a file'} once"
                self.changes.append((file, old, line.removeprefix("new:").removeprefix(" ")))
        return None if self.changes else "it changes nothing"

    def places(self):
        """The file of each change, its text, and the line in which the change begins, counted from 1."""
        for file, old, _ in self.changes:
            text = (CRATES / self.crate / file).read_text(encoding="utf-8")
            yield file, text, text[: text.index(old)].count("\n") + 1

    def function(self, known):
        """The one function whose body alone the mutant changes, or the clauses of an empty one; or none."""
        found = set()
        for file, _, line in self.places():
            within = [it for it in known.get(file, ()) if it.has_alone(line)]
            found.add(max(within, key=lambda it: it.first) if within else None)
        return found.pop() if len(found) == 1 else None

    def definitions(self):
        """The names of the definitions and constants that the mutant changes."""
        for file, text, line in self.places():
            lines = text.split("\n")[:line]
            if file.startswith("specs/"):
                yield from [it[1] or it[2] for it in map(DEFINITION.match, lines) if it][-1:]
            elif constant := CONSTANT.match(lines[-1]):
                yield constant[1]


class Crate:
    """A crate with mutants, which are tried on copies of its files."""

    def __init__(self, name, wanted, libraries, folder):
        self.name = name
        self.libraries = libraries
        self.folder = folder / name
        self.own = CRATES / name
        self.refused, self.kept = set(), []
        paths = [path for part in SETS for path in sorted((self.own / part).glob("*.edit"))]
        self.mutants = [Mutant(name, path) for path in paths if path.stem in wanted]
        sources = sorted((self.own / "src").rglob("*.rt"))
        inside = {file.relative_to(self.own).as_posix(): file.read_text(encoding="utf-8") for file in sources}
        modules = {kind: module_of(file) for file, text in inside.items() for kind in TYPE.findall(text)}
        self.functions = {file: functions(file, text, modules) for file, text in inside.items()}
        known = [it for some in self.functions.values() for it in some]
        self.clauses = {it: words_of(inside[it.file], it.first, it.body) for it in known}
        self.bodies = {it: words_of(inside[it.file], it.body, it.last) for it in known}
        self.definitions = {}
        for file in (self.own / "specs").rglob("*.antt"):
            self.definitions |= definitions_of(file.read_text(encoding="utf-8"))

    def nearest(self, mutant):
        """Functions that a mutant is most likely to break: those in which it changes something, and then those whose clauses name what it
        changes, or what is defined by that, the nearest first and of these the ones that say least else; or those whose bodies do."""
        near = [it for file, _, line in mutant.places() for it in self.functions.get(file, ()) if it.first <= line <= it.last]
        changed = names = set(mutant.definitions())
        while names and len(near) < NEAREST:
            users = [it for it in self.clauses if self.clauses[it] & names and it not in near]
            near += sorted(users, key=lambda it: len(self.clauses[it]))
            wider = names | {name for name, said in self.definitions.items() if said & names}
            names = wider if wider != names else set()
        return near[:NEAREST] or [it for it in self.bodies if self.bodies[it] & changed][:NEAREST]

    def words(self):
        """The words of a check of the crate over the libraries as built."""
        of_kit = f"{kit()}/rlibs"
        root = "src/main.rt" if (self.own / "src/main.rt").exists() else "src/lib.rt"
        words = [f"{kit()}/bin/rattle", "check", "--crate-name", self.name, root, "--extern", f"std={of_kit}/std.rlib"]
        for library in self.libraries[self.name]:
            words += ["--extern", f"{library}={built(library) if library in self.libraries else f'{of_kit}/{library}.rlib'}"]
        words += ["-L", f"dependency={of_kit}"]
        for library in sorted(below(self.name, self.libraries)):
            words += ["-L", f"dependency={built(library).parent}"]
        project = f"{kit()}/rattle/logic/antt-project.json"
        return [*words, "--antt-project", project, "--logic-built", f"{kit()}/logic_built", "--jobs", "1"]

    def check(self, mutants, kept, *more):
        """Checks a copy of the crate with these mutants, over what is kept in a folder; returns the status and what was said."""
        with tempfile.TemporaryDirectory(dir=self.folder) as room:
            for part in PARTS:
                if (self.own / part).is_dir():
                    shutil.copytree(self.own / part, f"{room}/{part}")
            changes = [change for mutant in mutants for change in mutant.changes]
            for file in {file for file, _, _ in changes}:
                text = (self.own / file).read_text(encoding="utf-8")
                # From the end of the file on, so that each old text is still the first of its kind.
                for _, old, new in sorted((it for it in changes if it[0] == file), key=lambda it: -text.index(it[1])):
                    text = text.replace(old, new, 1)
                Path(room, file).write_text(text, encoding="utf-8")
            words = [*self.words(), "--incremental", str(kept), *more]
            ran = subprocess.run(words, cwd=room, stdin=subprocess.DEVNULL, stdout=subprocess.PIPE, stderr=subprocess.STDOUT, text=True, errors="replace")
            return ran.returncode, ran.stdout.rstrip("\n").split("\n")

    def try_bodies(self, mutants):
        """Tries mutants of the bodies of different functions at once; returns those that weren't refused, or whose function has another name."""
        asked = [word for mutant in mutants for word in ("--only", mutant.function(self.functions).name)]
        status, said = self.check(mutants, self.folder / "bodies", *asked)
        if status == 2 and (unknown := [it for it in mutants if f"`{it.function(self.functions).name}`" in said[-1]]):
            known = [it for it in mutants if it not in unknown]
            return unknown + (self.try_bodies(known) if known else [])
        left = []
        for mutant in mutants:
            why = refusal(mutant.function(self.functions), said)
            if why:
                self.refuse(mutant, why)
            else:
                left.append(mutant)
        if left and len(mutants) > 1:
            return [it for mutant in left for it in self.try_bodies([mutant])]
        return left

    def check_alone(self, mutant, seed, *more):
        """Checks the crate with a mutant over a copy of what is kept in a folder; returns the status, why a proof is refused, if one is
        and the mutant itself could be read, and what was said."""
        own = self.folder / "mutant"
        shutil.copytree(seed, own, copy_function=linked)
        status, said = self.check([mutant], own, *more)
        shutil.rmtree(own)
        refused = status == 1 and not any(UNREAD.search(line) for line in said)
        return status, refused and next((line for line in said if OPEN_GOAL.match(line) or ": error" in line), said[-1]), said

    def try_nearest(self, mutant):
        """Tries a mutant on the functions that it is most likely to break; returns whether one of them was refused."""
        seed, near = self.folder / "bodies", self.nearest(mutant)
        seed.mkdir(exist_ok=True)
        asked = [word for function in near for word in ("--only", function.name)]
        _, why, said = self.check_alone(mutant, seed, *asked) if near else (0, None, [""])
        if why and re.match(r"only=\d+ proved=\d+", said[-1]) and any(re.match(r"fn .*: (not proved|no proof)", line) for line in said):
            self.refuse(mutant, why)
        return mutant.name in self.refused

    def try_whole(self, mutant):
        """Tries a mutant by a check of the whole crate."""
        seed = self.folder / "whole"
        if not seed.exists():
            status, said = self.check([], seed)
            if status:
                raise SystemExit(f"{self.name} itself isn't proved: {said[-1]}")
        status, why, said = self.check_alone(mutant, seed)
        if why and said[-1].startswith("logic=not-proved"):
            self.refuse(mutant, why)
        else:
            unread = next((line for line in said if UNREAD.search(line)), None)
            self.keep(mutant, "the crate is still proved" if not status else f"it can't be read: {unread}" if unread else f"no verdict: {said[-1]}")

    def refuse(self, mutant, why):
        self.refused.add(mutant.name)
        print(f"{mutant.name}: refused: {why[:160]}", flush=True)

    def keep(self, mutant, why):
        self.kept.append(mutant.name)
        print(f"{mutant.name}: NOT REFUSED: {why[:300]}", flush=True)

    def try_all(self):
        self.folder.mkdir()
        batches, alone = [], []
        for mutant in self.mutants:
            if wrong := mutant.read():
                self.keep(mutant, wrong)
            elif function := mutant.function(self.functions):
                batch = next((it for it in batches if function not in it and len(it) < AT_ONCE), None)
                if batch is None:
                    batches.append(batch := {})
                batch[function] = mutant
            else:
                alone.append(mutant)
        alone += [mutant for batch in batches for mutant in self.try_bodies(list(batch.values()))]
        whole = [mutant for mutant in alone if not self.try_nearest(mutant)]
        shutil.rmtree(self.folder / "bodies", ignore_errors=True)
        for mutant in whole:
            self.try_whole(mutant)
        shutil.rmtree(self.folder)


def words_of(text, first, last):
    """The words of these lines of a text, counted from 1."""
    return set(WORD.findall("\n".join(text.split("\n")[first - 1 : last])))


def definitions_of(text):
    """The names that a file of specs defines, each with the words by which it does."""
    lines = text.split("\n")
    begun = [(number, it[1] or it[2]) for number, it in enumerate(map(DEFINITION.match, lines), 1) if it]
    ends = [number - 1 for number, _ in begun[1:]] + [len(lines)]
    found = {}
    for (number, name), end in zip(begun, ends):
        found.setdefault(name, set()).update(words_of(text, number, end))
    return found


def linked(one, other):
    """A second name for a proof that is kept, which a check replaces and never writes into; any other file is copied."""
    return os.link(one, other) if one.endswith(".oantt") else shutil.copy2(one, other)


def refusal(function, said):
    """The line that refuses a goal of the function's own, and the function isn't proved then; or nothing."""
    ended = re.compile(rf"fn \w+::{re.escape(function.name)}: (not proved|no proof)")
    if not any(ended.match(line) for line in said):
        return None
    for line in said:
        goal, proof = OPEN_GOAL.match(line), WRONG_PROOF.match(line)
        if goal and goal[1] == function.file and function.first <= int(goal[2]) <= function.last:
            return line
        if proof and proof[1] == function.proofs and not LACKING.search(line):
            return line
    return None


def below(crate, libraries):
    """The libraries of this repository below a crate."""
    own = {it for it in libraries[crate] if it in libraries}
    return own.union(*(below(it, libraries) for it in own))


def built(library):
    return CRATES / library / "out/rlib" / f"{library}.rlib"


def is_stale(library, libraries):
    """Whether a library isn't built, or a file of its own or of those below it is newer than its folder. (What the gate has kept is linked there.)"""
    if not built(library).is_dir():
        return True
    made = built(library).stat().st_mtime
    sources = (CRATES / it / part for it in (library, *below(library, libraries)) for part in PARTS)
    return any(file.stat().st_mtime > made for folder in sources for file in folder.rglob("*"))


def wanted_of(words):
    """The crates whose mutants are wanted, each with these mutants' names; or nothing, once it has said which word is wrong."""
    having = {}
    for path in sorted(path for part in SETS for path in CRATES.glob(f"*/{part}/*.edit")):
        having.setdefault(path.relative_to(CRATES).parts[0], set()).add(path.stem)
    wanted = {}
    for word in words or having:
        crate, _, mutant = word.removesuffix(".edit").partition("/")
        if crate not in having or mutant and mutant not in having[crate]:
            print(f"{word} is no mutant, and no crate that has any", file=sys.stderr)
            return None
        if mutant:
            wanted.setdefault(crate, set()).add(mutant)
        else:
            wanted[crate] = set(having[crate])
    return wanted


def main():
    libraries = listed(ROOT)
    wanted = wanted_of(sys.argv[1:])
    if wanted is None:
        return 2
    if stale := sorted({it for name in wanted for it in below(name, libraries) if is_stale(it, libraries)}):
        subprocess.run([TOOLS / "prove.sh", *stale], check=True, env=os.environ | {"REPOSITORY": str(ROOT)})
    with tempfile.TemporaryDirectory() as folder:
        # Those with the most mutants begin first.
        crates = sorted((Crate(name, some, libraries, Path(folder)) for name, some in wanted.items()), key=lambda it: -len(it.mutants))
        with ThreadPoolExecutor(len(os.sched_getaffinity(0))) as pool:
            list(pool.map(Crate.try_all, crates))
    failed = [name for crate in crates for name in crate.kept]
    tried = Counter(mutant.name for crate in crates for mutant in crate.mutants)
    failed += [f"{name} (in both sets)" for name, times in tried.items() if times > 1]
    for name in sorted(failed):
        print(f"NOT REFUSED: {name}")
    print(f"{sum(len(crate.refused) for crate in crates)} passed, {len(failed)} failed")
    return 1 if failed else 0


if __name__ == "__main__":
    sys.exit(main())
