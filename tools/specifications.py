"""What the sources say of themselves: the definitions of specs/, and the public items of src/ with their comments and clauses.

All of it is read as text, by the layout that the formatter gives: no prover is needed.
"""

import pathlib
import re
from collections import defaultdict
from dataclasses import dataclass, field

ROOT = pathlib.Path(__file__).resolve().parent.parent
CRATES = ROOT / "crates"
LISTED = re.compile(r"^(\w+)[^#\n:]*:(.*)$", re.MULTILINE)
IMPORT = re.compile(r"^ *(?:pub |ghost )?use Rattle\.(\w+)\.specs\.([\w.]+?)\.\{([^}]*)\}", re.MULTILINE)
DEFINITION = re.compile(r"^(?:  )?(?:(?:abbrev|unfoldable) pub|(?:pub )?(?:record|data)) (\w+)|^(?:pub )?(\w+) *(?:\{[^}]*\} *)?:")
WORD = re.compile(r"\w+")
BLOCK = re.compile(r"^(?:pub )?(?:impl|trait)\b.*\{$")
FUNCTION = re.compile(r"^ *(?:pub )?fn (\w+)")
TYPE = re.compile(r"^pub (struct|enum|trait) (\w+)")
GHOST = re.compile(r"^(?: *///?.*\n)* *(?:pub )?ghost (?!use )(\w+).*\n(?:^ {8,}.*\n)*", re.MULTILINE)
MEMBER = re.compile(r"^(?: *///?.*\n)* *(?:pub (?!fn)|ghost (?!use )).*\n(?:^ {8,}.*\n)*", re.MULTILINE)
PROOF = re.compile(r"laws|total|matches_\w+|continues_\w+")
CLAUSE = re.compile(r"^ *(requires|ensures) (?:(\w+) )?\{")


def listed(root=ROOT):
    """The crates of crates.txt, in its order, and the libraries that it gives each, those of the kit too."""
    return {crate: names.split() for crate, names in LISTED.findall((root / "crates.txt").read_text(encoding="utf-8"))}


def libraries():
    """The crates of the product that others call, in the order of crates.txt."""
    return [name for name in listed() if not name.endswith("_tests") and (CRATES / name / "src/lib.rt").exists()]


def imports_of(text):
    """For each imported name, where it is defined."""
    found = {}
    for crate, module, names in IMPORT.findall(text):
        for name in filter(None, map(str.strip, names.split(","))):
            original, _, shown = name.partition(" as ")
            found[shown or original] = (crate, module, original)
    return found


class Definitions:
    """All that stands in specs/, by crate, module and name."""

    def __init__(self):
        self.lines, self.imports = defaultdict(list), {}
        for file in sorted(CRATES.glob("*/specs/**/*.antt")):
            crate, module = file.relative_to(CRATES).parts[0], ".".join(file.relative_to(CRATES).parts[2:])[: -len(".antt")]
            text, name = file.read_text(encoding="utf-8"), None
            self.imports[crate, module] = imports_of(text)
            for line in text.splitlines():
                if not line.strip() or line.lstrip().startswith("--") or line.startswith(("use ", "pub use ", "pub mod ")):
                    continue
                begun = DEFINITION.match(line)
                name = (begun[1] or begun[2]) if begun else name
                self.lines[crate, module, name].append(line)

    def find(self, crate, module, name):
        """Where a name of this module is defined, if it is in specs/."""
        while (crate, module) in self.imports:
            if (crate, module, name) in self.lines:
                return crate, module, name
            if name not in self.imports[crate, module]:
                return None
            crate, module, name = self.imports[crate, module][name]
        return None

    def reached_from(self, first):
        reached, left = set(), list(first)
        while left:
            one = left.pop()
            if one and one not in reached:
                reached.add(one)
                left += (self.find(*one[:2], word) for word in WORD.findall("\n".join(self.lines[one])))
        return reached

    def cited_by(self, item):
        """The definitions that the clauses of a public item name, in their order."""
        cited = (self.find(*item.imports[word]) for line in item.contract for word in WORD.findall(code_of(line)) if word in item.imports)
        return list(dict.fromkeys(filter(None, cited)))


def code_of(line):
    """A line without its comment."""
    return "" if line.lstrip().startswith("//") else line


@dataclass
class Item:
    """A public function, method, type or trait."""

    crate: str
    file: str
    name: str
    signature: str
    comment: list
    contract: list
    imports: dict = field(repr=False)

    def labels(self):
        """The labels of its promises; one without a label has none."""
        clauses = (CLAUSE.match(line) for line in self.contract)
        return [clause[2] for clause in clauses if clause and clause[1] == "ensures"]


def comment_above(lines, at):
    """The doc comment above a line, which attributes may follow."""
    found = []
    while at > 0 and lines[at - 1].lstrip().startswith(("///", "#[")):
        at -= 1
        if lines[at].lstrip().startswith("///"):
            found.insert(0, lines[at].lstrip()[3:].removeprefix(" "))
    return found


def head_of(lines, at):
    """A function's signature and clauses, up to its body."""
    head = []
    for line in lines[at:]:
        if line.strip() in ("{", "{}"):
            break
        head.append(line)
        if not CLAUSE.match(line) and line.endswith(("{", "{}")) or line.endswith(";"):
            break
    return head


def one_line(lines):
    """A signature as one line."""
    joined = " ".join(line.strip() for line in lines).strip()
    return re.sub(r"\s*(?:\{\}?|;)$", "", joined).replace("( ", "(").replace(", )", ")").removesuffix(",")


def without_indent(lines):
    """Clauses from the left margin on, without blank lines."""
    lines = [line for line in lines if line.strip()]
    margin = min((len(line) - len(line.lstrip()) for line in lines), default=0)
    return [line[margin:] for line in lines]


def split_head(head):
    """The signature, and what stands below it: clauses with their comments."""
    first = next((at for at, line in enumerate(head) if CLAUSE.match(line) or line.lstrip().startswith("//")), len(head))
    contract = without_indent(head[first:])
    if contract:
        contract[-1] = contract[-1].removesuffix(";")
    return one_line(head[:first]), contract


def owner_of(block):
    """The type or trait of which a block has the methods, and the trait that it implements, if it does."""
    plain = re.sub(r"<(?:[^<>]|<[^<>]*>)*>", "", block.removesuffix("{")).replace("&mut ", "")
    trait, _, owner = re.sub(r"^(?:pub )?(?:impl|trait) *", "", plain).strip().rpartition(" for ")
    return owner.split(":")[0].strip(), trait.strip()


class Library:
    """What a crate makes public."""

    def __init__(self, crate):
        self.crate = crate
        self.texts = {file.stem: file.read_text(encoding="utf-8") for file in sorted((CRATES / crate / "src").glob("*.rt"))}
        front = self.texts["lib"]
        self.open = {"lib", *re.findall(r"^pub mod (\w+);", front, re.MULTILINE)}
        self.shown = defaultdict(set)
        for module, names in re.findall(r"^pub use (\w+)::\{?([^;}]*)\}?;", front, re.MULTILINE):
            self.shown[module] |= set(WORD.findall(names))
        self.types = {name for file, text in self.texts.items() for _, name in re.findall(TYPE.pattern, text, re.MULTILINE) if self.shows(file, name)}

    def shows(self, file, name):
        return file in self.open or name in self.shown[file]

    def comment(self, file="lib"):
        """The comment at the front of a file."""
        return [line[3:].removeprefix(" ") for line in self.texts[file].splitlines() if line.startswith("//!")]

    def others(self):
        """What it shows of other crates as its own, by crate."""
        return [(other, sorted(names, key=str.lower)) for other, names in self.shown.items() if other not in self.texts]

    def items(self, file):
        """The public items of a file, in their order."""
        lines, block, found = self.texts[file].splitlines(), "", []
        imports = imports_of(self.texts[file])
        for at, line in enumerate(lines):
            kind = TYPE.match(line)
            if BLOCK.match(line) or line.startswith("}"):
                block = "" if line.startswith("}") else line
            if block == line and not line.startswith("pub "):
                found += self.implementation(file, lines, at, imports)
            if kind and self.shows(file, kind[2]):
                members = members_below(lines, at, kind[1]) + model_of(lines, kind[2])
                found.append(Item(self.crate, file, kind[2], one_line([line]), comment_above(lines, at), members, imports))
            elif FUNCTION.match(line):
                found += self.function(file, lines, at, block, imports)
        return found

    def implementation(self, file, lines, at, imports):
        """What a public type makes of a trait, or a type of another crate of a public trait."""
        owner, trait = owner_of(lines[at])
        ghosts = ghosts_below(lines, at, lambda name: not PROOF.fullmatch(name))
        if not ghosts or trait in ("", "Model") or not (owner in self.types or trait in self.types and not self.declares(owner)):
            return []
        signature = one_line([lines[at]])
        said, whose = re.match(rf".*(\b{trait}\b.*) for (.*)", signature).groups()
        return [Item(self.crate, file, f"<{owner if owner in self.types else whose} as {said}>", signature, comment_above(lines, at), ghosts, imports)]

    def declares(self, name):
        return any(re.search(rf"^ *(pub(\(crate\))? )?(struct|enum) {name}\b", text, re.MULTILINE) for text in self.texts.values())

    def function(self, file, lines, at, block, imports):
        """The function at this line, if it is public, or promises something by itself as the method of a trait."""
        name, is_marked = FUNCTION.match(lines[at])[1], lines[at].lstrip().startswith("pub ")
        owner, trait = owner_of(block) if block else ("", "")
        signature, contract = split_head(head_of(lines, at))
        is_method = owner in self.types and (contract if trait else is_marked or block.startswith("pub trait"))
        if not (is_method if block else is_marked and self.shows(file, name)):
            return []
        path = f"<{owner} as {trait}>::{name}" if trait else f"{owner}::{name}" if owner else name
        return [Item(self.crate, file, path, signature, comment_above(lines, at), contract, imports)]


def inside(lines, at):
    """What stands between the braces that a line opens, without attributes."""
    if not lines[at].endswith("{"):
        return ""
    end = next(below for below in range(at, len(lines)) if lines[below].startswith("}"))
    return "".join(f"{line}\n" for line in lines[at + 1 : end] if not line.lstrip().startswith("#["))


def ghosts_below(lines, at, is_wanted):
    """The ghost members of an implementation that are wanted by their names, with their comments."""
    members = (member[0] for member in GHOST.finditer(inside(lines, at)) if is_wanted(member[1]))
    return without_indent("".join(members).splitlines())


def members_below(lines, at, kind):
    """The variants of an enum, and else the public and the ghost members, with their comments."""
    text = inside(lines, at)
    return without_indent((text if kind == "enum" else "".join(MEMBER.findall(text))).splitlines())


def model_of(lines, name):
    """What contracts see of a type as its value, and what they know of it."""
    begun = (at for at, line in enumerate(lines) if re.match(rf"impl\b.* Model for {name}\b", line))
    return [line for at in begun for line in ghosts_below(lines, at, {"Value", "invariant"}.__contains__)]


def anchor_of(heading):
    """The name by which a heading of a document is linked."""
    return re.sub(r"[^\w\- ]", "", heading.lower()).replace(" ", "-")


def public_items():
    """All public items of the product's libraries."""
    return [item for crate in libraries() for library in [Library(crate)] for file in library.texts for item in library.items(file)]
