#!/usr/bin/env python3
"""Runs mc_stdin with less and less memory (ulimit -v) over three streams.

Each run must write complete replies, in order, and end well; or the first of them and then "SERVER_ERROR out of memory", with the fault on
standard error and status 1. In the stream `queued`, which comes in one piece, the replies before the request that runs out of memory are still
queued. In the stream `refused` a quota refuses. The history is reserved at the start, so these runs have few places; more places than there
is memory for are tried at the end, where the refusal has to be all that is written. The last line is 'N passed, M failed'.
"""

import subprocess

from harness import repository
from harness.results import Results
from oracle.protocol import STARVED, requests
from oracle.replies import prefixes
from oracle.table import Table

PROGRAM = repository.program("mc_stdin")
FEW = ["--places", "64"]
LARGE = Table(1_048_576, 67_108_864)
results = Results()


def a_set(name, key, size):
    return b"%s %s 0 0 %d\r\n%s\r\n" % (name, key, size, b"v" * size)


def growing():
    """Blocks of several sizes, each after a refusal."""
    for size in (1, 8, 64, 512, 4_096, 32_768, 262_144):
        key = b"key%d" % size
        yield b"bogus\r\n" + a_set(b"set", key, size) + b"get " + key + b"\r\n"


def queued():
    """A get that shows an item 2,000 times."""
    yield a_set(b"set", b"a", 4_096) + b"bogus\r\nget" + b" a" * 2_000 + b"\r\n"


def refused():
    """Sets that are stored, and between them sets and appends that exceed a quota."""
    for size in (4_096, 16_384, 65_536, 262_144):
        yield a_set(b"set", b"a", size) + a_set(b"set", b"b", 1) + a_set(b"append", b"a", 262_144)


class Part:
    """A stream with the words of its runs, and what its first replies come to."""

    def __init__(self, pieces, table=LARGE, words=()):
        self.name, self.stream, self.words = pieces.__name__, b"".join(pieces()), [*FEW, *words]
        self.prefixes = list(prefixes(Table(table.most_items, table.most_bytes), requests(self.stream)))

    def run(self, kilobytes, words=None):
        """How a run ends: "well", "unstarted", "wrong", or "refused" after some replies, which are returned too."""
        limited = ["sh", "-c", 'ulimit -v "$0" && exec "$@"', str(kilobytes), PROGRAM, *(words or self.words)]
        ended = subprocess.run(limited, input=self.stream, capture_output=True, timeout=120)
        if (ended.returncode, ended.stderr, ended.stdout) == (0, b"", self.prefixes[-1]):
            return "well", None
        if ended.returncode == 1 and ended.stderr == b"mc_stdin: out of memory\n" and ended.stdout.endswith(STARVED):
            before = ended.stdout[: -len(STARVED)]
            return ("refused", before) if before in self.prefixes else ("wrong", ended.stdout[-300:])
        if ended.returncode != 0 and not ended.stdout:
            return "unstarted", None
        return "wrong", (ended.returncode, len(ended.stdout), ended.stderr[:300])

    def sweep(self, limits):
        """Runs with each of these limits; the replies after which runs were refused."""
        ends = {kilobytes: self.run(kilobytes) for kilobytes in limits}
        for kilobytes, (end, what) in ends.items():
            results.check(f"{self.name}, {kilobytes} KB", end != "wrong", what)
        counts = {kind: sum(end == kind for end, _ in ends.values()) for kind in ("well", "refused", "unstarted")}
        print(f"{self.name}: {counts['well']} runs ended well, {counts['refused']} ran out of memory, {counts['unstarted']} didn't start", flush=True)
        results.check(f"{self.name}: runs of both kinds", counts["well"] and counts["refused"], counts)
        return {before for end, before in ends.values() if end == "refused"}


def check_opening(part, kilobytes, places):
    """With this much memory few places can be reserved, and this many can't."""
    results.check(f"64 places in {kilobytes} KB", part.run(kilobytes) == ("well", None))
    results.check(f"{places} places in {kilobytes} KB", part.run(kilobytes, ["--places", str(places)]) == ("refused", b""))


def main():
    repository.enter(PROGRAM)
    first = Part(growing)
    first.sweep(range(2_400, 5_601, 20))
    second = Part(queued)
    results.check("a run is refused after queued replies", second.prefixes[2] in second.sweep(range(2_400, 60_001, 600)))
    third = Part(refused, Table(1, 263_000), ["--items", "1", "--bytes", "263000"])
    # Two sets are done by then, and a quota has refused three.
    results.check("a run is refused after a quota refused", third.prefixes[5] in third.sweep(range(2_400, 5_601, 20)))
    check_opening(first, 8_000, 262_144)
    check_opening(first, 20_000, 1_048_576)
    results.finish()


main()
