"""The compatibility suite: runs the calls of several clients against a server and against memcached, and compares the answers.

Usage: compare.py [WFMC | mc_stdin | HOST:PORT [HOST:PORT]]; tools/compatibility.sh says more. Each answer has to be memcached's, or what
differences.py says of the call under a row of docs/PROTOCOL.md. Prints a line for each failure; the last line is 'N passed, M failed'.
"""

import contextlib
import pathlib
import re
import subprocess
import sys

import pages
import servers
from differences import DIFFERENCES, SAME, rows
from harness import repository
from harness.results import Results

HERE = pathlib.Path(__file__).parent
SCRIPTS = ("pymemcache", "pylibmc", "memcache", "libmemcached", "wire")
SECONDS = 300
results = Results()
check = results.check


def answers(words):
    """The answers of all scripts by their calls, and the cases that were left out."""
    found, left_out = {}, []
    for script in SCRIPTS:
        ran = subprocess.run([sys.executable, "-B", str(HERE / f"{script}_calls.py"), *words], stdout=subprocess.PIPE, text=True, timeout=SECONDS)
        if ran.returncode:
            raise SystemExit(f"{script}_calls.py ends with status {ran.returncode}")
        for line in ran.stdout.splitlines():
            call, _, answer = line.partition("\t")
            if call.startswith("left out: "):
                left_out.append(call.removeprefix("left out: "))
            elif call in found:
                raise SystemExit(f"two calls have the name {call!r}")
            else:
                found[call] = answer
    return found, left_out


def compare(where, ours, theirs):
    """Compares the answer to each call with memcached's."""
    expected = {call: (row, answer) for row, calls in DIFFERENCES.items() for call, answer in calls.items()}
    for call, answer in ours.items():
        row, wanted = expected.get(call, (None, None))
        if row is None or wanted is SAME:
            check(f"{where}: {call}", answer == theirs.get(call), f"{answer}, and memcached: {theirs.get(call)}")
        elif wanted == theirs.get(call):
            check(f"{where}: {call}", False, f"memcached answers the same; the row of docs/PROTOCOL.md is: {row}")
        else:
            check(f"{where}: {call}", answer == wanted, f"{answer}, not {wanted}; the row of docs/PROTOCOL.md is: {row}")


def check_rows(tried):
    """The rows are those of the page, each has a call that shows it, and no call is named that doesn't exist."""
    named = rows()
    for row in named:
        check(f"docs/PROTOCOL.md: {row}", row in DIFFERENCES, "no call shows this row")
    for row, calls in DIFFERENCES.items():
        check(f"differences.py: {row}", row in named, "docs/PROTOCOL.md has no such row")
        for call in calls:
            check(f"differences.py: {call}", call in tried, "there is no such call")


def check_pages(words):
    """The examples of the documents, where there are two tenants whose connections share their tables."""
    named = dict(word.split("=") for word in words if "=" in word)
    if "second" in named and "shared" in words:
        for name, why in pages.failures(named["first"], named["second"]):
            check(name, not why, why)


def places(words):
    """The servers to test: a name, and what starts them."""
    if words and re.fullmatch(r"[^/]*:\d+", words[0]):
        return [(words[0], contextlib.nullcontext([f"{name}={word}" for name, word in zip(("first", "second"), words)] + ["shared"]))]
    if words and pathlib.Path(words[0]).name == "mc_stdin":
        return [("mc_stdin", servers.all_of_stdin(words[0] if "/" in words[0] else repository.program("mc_stdin")))]
    program = words[0] if words else repository.program("wfmc")
    return [(f"wfmc, {workers} worker{'s' * (workers != '1')}", servers.all_of_wfmc(program, workers)) for workers in ("1", "4")]


def main():
    tried = set()
    for where, place in places(sys.argv[1:]):
        with place as words, servers.all_of_memcached() as memcacheds:
            ours, left_out = answers(words)
            theirs, _ = answers(memcacheds)
            check_pages(words)
        compare(where, ours, theirs)
        tried |= set(theirs)
        print(f"{where}: {len(ours)} calls" + "".join(f"\n  not tried there: {case}" for case in left_out), flush=True)
    check_rows(tried)
    results.finish()


main()
