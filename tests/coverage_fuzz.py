#!/usr/bin/env python3
"""Fuzzes the reader guided by coverage: coverage_fuzz.py [--minutes M | --runs N] [--keep].

Builds the reader as a static library whose code is instrumented: `rt lib` on a copy of the crates below it, with the kit's clang behind a script
that adds -fsanitize-coverage. Both stay in ~/.cache/wovengalena-coverage, so that later runs prove only what has changed. libFuzzer (Debian's
clang) runs it for M minutes (2), or over N inputs, from the golden tests of mc_stdin and the inputs of tests/coverage/inputs.txt on; a crash is a
reader whose requests depend on the pieces in which the bytes come. Then each input that reached new code is read by the oracle, which has to find
as many requests, and as many to be logged. With --keep, inputs.txt is written anew: as few of all these inputs as reach the same code. The last
line is 'N passed, M failed'.
"""

import argparse
import ast
import os
import pathlib
import shutil
import subprocess
import tempfile

from harness import repository
from harness.repository import kit
from harness.results import Results
from oracle.protocol import requests

CRATES = ("lists", "mc_model", "model_lemmas", "mc_read")
SOURCES = repository.ROOT / "tests/coverage"
INPUTS = SOURCES / "inputs.txt"
# The kit's gate reads each folder of the repository, and wants no sources beside those of its crates.
BUILT = pathlib.Path(os.environ.get("XDG_CACHE_HOME") or pathlib.Path.home() / ".cache", "wovengalena-coverage")
INSTRUMENTED = "-fsanitize-coverage=inline-8bit-counters,pc-table,trace-cmp"
MOST_BYTES = 160
results = Results()


def instrumenting_kit(folder):
    """A folder that looks like the kit, but whose clang instruments what it compiles."""
    shutil.rmtree(folder, ignore_errors=True)
    (folder / "bin").mkdir(parents=True)
    (folder / "toolchain/bin").mkdir(parents=True)
    for path in kit().iterdir():
        if path.name not in ("bin", "toolchain"):
            (folder / path.name).symlink_to(path)
    for path in (kit() / "bin").iterdir():
        # A program finds the kit by where it is, links followed.
        shutil.copy(path, folder / "bin") if path.name in ("rt", "rtlib.py") else (folder / "bin" / path.name).symlink_to(path)
    (folder / "toolchain/lib").symlink_to(kit() / "toolchain/lib")
    for path in (kit() / "toolchain/bin").iterdir():
        if path.name != "clang":
            (folder / "toolchain/bin" / path.name).symlink_to(path)
    clang = folder / "toolchain/bin/clang"
    clang.write_text(f'#!/bin/sh\nexec {kit()}/toolchain/bin/clang "$@" {INSTRUMENTED}\n', encoding="utf-8")
    clang.chmod(0o755)
    return folder


def copy_crates(folder):
    """The crates below the reader, and the one that exports it to C. What an earlier run has proved of them stays."""
    for name in CRATES:
        for part in ("src", "specs", "proofs"):
            shutil.rmtree(folder / "crates" / name / part, ignore_errors=True)
            if (theirs := repository.ROOT / "crates" / name / part).exists():
                shutil.copytree(theirs, folder / "crates" / name / part)
    source = folder / "crates/reader_c/src/lib.rt"
    source.parent.mkdir(parents=True, exist_ok=True)
    shutil.copy(SOURCES / "reader_c.txt", source)
    shutil.copy(repository.ROOT / "HANDLES", folder)
    lines = (repository.ROOT / "crates.txt").read_text(encoding="utf-8").splitlines(keepends=True)
    kept = [line for line in lines if line.partition(":")[0] in CRATES]
    (folder / "crates.txt").write_text("".join(kept) + "reader_c staticlib: mc_model mc_read\n", encoding="utf-8")
    return source.parents[1]


def build(folder):
    """The fuzzer, as a program."""
    crate = copy_crates(folder / "copy")
    rt = instrumenting_kit(folder / "kit") / "bin/rt"
    subprocess.run([rt, "lib"], cwd=crate, check=True, stdout=subprocess.DEVNULL)
    program = folder / "fuzzer"
    words = ["clang", "-O1", "-fsanitize=fuzzer", SOURCES / "reader.c", crate / "out/libreader_c.a", kit() / "c/liblibc_c.a", "-o", program]
    subprocess.run(words, check=True)
    return program


def counts_of(program, path):
    """How many requests the reader finds in a file, and how many of these are to be logged."""
    ended = subprocess.run([program, path], capture_output=True, env={**os.environ, "PRINT": "1"}, check=False)
    lines = [line.split()[1:] for line in ended.stdout.splitlines() if line.startswith(b"counts ")]
    return tuple(map(int, lines[0])) if lines else None


def compare(program, corpus):
    """Each input of the corpus, read by the oracle too."""
    for path in sorted(corpus.iterdir()):
        stream = path.read_bytes()
        if stream:
            found = requests(stream)
            wanted = (len(found), sum(bool(request.command) for request in found))
            counts = counts_of(program, path)
            results.check(f"{stream!r}", counts == wanted, f"{counts}, not {wanted}")


def write_seeds(folder):
    """The inputs to begin with: short golden tests, and those that were kept."""
    folder.mkdir()
    rows = [path.read_bytes() for path in repository.ROOT.glob("tests/rows/mc_stdin/*/input")]
    kept = [ast.literal_eval(line) for line in INPUTS.read_text(encoding="ascii").splitlines()]
    for number, stream in enumerate([row for row in rows if len(row) <= MOST_BYTES] + kept):
        (folder / str(number)).write_bytes(stream)


def keep(program, folder):
    """Writes as few inputs as reach the same code."""
    few = folder / "few"
    few.mkdir()
    subprocess.run([program, "-set_cover_merge=1", few, folder / "seeds", folder / "corpus"], capture_output=True, check=True)
    streams = sorted((path.read_bytes() for path in few.iterdir()), key=lambda stream: (len(stream), stream))
    INPUTS.write_text("".join(f"{stream!r}\n" for stream in streams), encoding="ascii")


def main():
    parser = argparse.ArgumentParser(description=__doc__.split("\n")[0])
    parser.add_argument("--minutes", type=float, default=2, metavar="M", help="how long it runs")
    parser.add_argument("--runs", type=int, metavar="N", help="over how many inputs, in the place of a time")
    parser.add_argument("--keep", action="store_true", help="writes tests/coverage/inputs.txt anew")
    asked = parser.parse_args()
    repository.require("rt", "clang")
    program = build(BUILT)
    with tempfile.TemporaryDirectory() as name:
        folder = pathlib.Path(name)
        write_seeds(folder / "seeds")
        (folder / "corpus").mkdir()
        bound = f"-runs={asked.runs}" if asked.runs else f"-max_total_time={round(60 * asked.minutes)}"
        words = [program, bound, f"-max_len={MOST_BYTES}", "-print_final_stats=1", folder / "corpus", folder / "seeds"]
        ended = subprocess.run(words, cwd=folder, capture_output=True, text=True, errors="replace", check=False)
        print("\n".join(line for line in ended.stderr.splitlines() if line.startswith(("stat::", "Done"))), flush=True)
        results.check("no crash", ended.returncode == 0, ended.stderr[-2000:])
        compare(program, folder / "corpus")
        compare(program, folder / "seeds")
        if asked.keep:
            keep(program, folder)
    results.finish()


main()
