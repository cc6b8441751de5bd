"""Runs the examples of the documents against two tenants: those in Python by doctest, those of a shell by bash.

An example is tried where it speaks to the ports of `make serve`, 11211 and 11212, in whose place the tenants' own are put.
"""

import importlib.util
import pathlib
import re
import subprocess
import sys
import tempfile

from pymemcache.client.base import Client

SECONDS = 60
PAGES = ("README.md", "docs/CLIENTS.md")
DOCTEST = "import doctest, sys; sys.exit(doctest.testfile(sys.argv[1], module_relative=False).failed > 0)"


def examples():
    """Each example's page with its number there, its language and its text."""
    for page in PAGES:
        text = pathlib.Path(page).read_text()
        for at, (language, block) in enumerate(re.findall(r"^```(pycon|console)\n(.*?)^```$", text, re.MULTILINE | re.DOTALL), 1):
            if re.search(r"\b1121[12]\b", block) and not re.match(r"\$ (make|crates/)", block):
                yield f"{page}, example {at}", language, block


def missing(block):
    """The modules that the example wants and this machine hasn't."""
    wanted = re.findall(r"^>>> (?:from|import) (\w+)", block, re.MULTILINE)
    return [name for name in wanted if not importlib.util.find_spec(name)]


def ran(words, text, folder):
    done = subprocess.run([*words, text], capture_output=True, text=True, timeout=SECONDS, cwd=folder)
    return done.returncode, done.stdout.replace("\r", ""), done.stderr


def python_fails(block, folder):
    """What doctest says, or nothing where the example is right."""
    path = pathlib.Path(folder, "example")
    path.write_text(block)
    status, out, errors = ran([sys.executable, "-B", "-c", DOCTEST], str(path), folder)
    return out + errors if status else ""


def shell_fails(block, folder):
    """The first command that prints something else, or nothing."""
    for step in re.split(r"^\$ ", block, flags=re.MULTILINE)[1:]:
        command, _, wanted = step.partition("\n")
        _, out, errors = ran(["bash", "-c"], command, folder)
        if out + errors != wanted:
            return f"{command}\n{out}{errors}"
    return ""


def failures(first, second):
    """For each example its name and what is wrong with it, against tenants at these addresses; and a line for what can't be tried. That none of
    a page could be is wrong too."""
    untried = set(PAGES)
    for name, language, block in examples():
        lacks = missing(block) if language == "pycon" else []
        if lacks:
            print(f"  not tried: {name}, since {', '.join(lacks)} is missing")
            continue
        for address in (first, second):
            host, _, port = address.rpartition(":")
            Client((host, int(port)), default_noreply=False).flush_all()
        for port, address in (("11211", first), ("11212", second)):
            block = re.sub(rf"\b{port}\b", address.rpartition(":")[2], block)
        untried.discard(name.partition(",")[0])
        with tempfile.TemporaryDirectory() as folder:
            yield name, (python_fails if language == "pycon" else shell_fails)(block, folder)
    for page in sorted(untried):
        yield page, "none of its examples was tried"
