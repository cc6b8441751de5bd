"""Libraries in C that are preloaded into a built program."""

import contextlib
import os
import pathlib
import re
import shutil
import subprocess
import tempfile

from .repository import ROOT, require

REFUSE = ROOT / "tests/refuse.c"
FAIL_WAIT = ROOT / "tests/fail_wait.c"
COUNT = ROOT / "bench/count.c"

# What `costs` counts, and the unit of each.
COSTS = {"allocations": "count", "allocated": "bytes", "copies": "count", "copied": "bytes", "instructions": "count"}


@contextlib.contextmanager
def library(source):
    """The environment that preloads a library, which is built from this source."""
    require("gcc")
    with tempfile.TemporaryDirectory() as folder:
        built = pathlib.Path(folder, source.stem + ".so")
        subprocess.run(["gcc", "-shared", "-fPIC", "-O1", "-fno-builtin", "-o", built, source, "-ldl"], check=True)
        yield {**os.environ, "LD_PRELOAD": str(built)}


def instructions(words, stream=b""):
    """The processor's instructions that a run takes, in a list; an empty one where valgrind isn't installed."""
    if not shutil.which("valgrind"):
        return []
    cachegrind = ["valgrind", "--tool=cachegrind", "--cache-sim=no", "--cachegrind-out-file=/dev/null"]
    ended = subprocess.run([*cachegrind, *words], input=stream, capture_output=True, check=True)
    return [int(re.search(rb"I\s+refs:\s+([\d,]+)", ended.stderr)[1].replace(b",", b""))]


def costs(environment, words, stream=b""):
    """What a run takes, in the order of `COSTS`; instructions only where valgrind is installed."""
    ended = subprocess.run(words, input=stream, capture_output=True, env=environment, check=True)
    return [int(count) for count in ended.stderr.split()] + instructions(words, stream)
