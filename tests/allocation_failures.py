#!/usr/bin/env python3
"""Injects allocation failures: allocation_failures.py [CASE...] [--every N], with the cases mc_stdin, rows, mc_schedule, wfmc, generations,
calls, cells and workers.

A program is run over and over, each allocation refused in turn, alone and with all later ones (tests/refuse.c, which needs gcc); --every N
refuses one allocation in N, but in calls, cells and workers, which have few. How a run may end is said at the `judge` of its case. A hang, a signal
or a wrong byte is a failure. Prints how the runs ended, and a line for each failure; the last line is 'N passed, M failed'.
"""

import argparse
import collections
import concurrent.futures
import contextlib
import dataclasses
import functools
import os
import re
import select
import subprocess
import tempfile
import time

from harness import preload, repository
from harness.client import Exchange, connect, exchange
from harness.results import Results
from harness.servers import Server
from oracle import protocol
from oracle import refusals as scenes
from oracle.replies import Replies, prefixes
from oracle.schedule import expected
from oracle.table import Table

SECONDS = 60
MODES = {"one": {}, "all from one on": {"ONWARD": "1"}}
# The end of a run that has hung, which no `judge` lets pass.
HUNG = (None, b"", b"it didn't end")
results = Results()


def fed(words, stream, environment):
    """Runs a program over a stream, from a file, so that it comes in the same pieces in each run: status, output and standard error."""
    with tempfile.TemporaryFile() as file:
        file.write(stream)
        file.seek(0)
        try:
            ended = subprocess.run(words, stdin=file, capture_output=True, env=environment, timeout=SECONDS)
        except subprocess.TimeoutExpired:
            return HUNG
    return ended.returncode, ended.stdout, ended.stderr


def counts_of(errors):
    """How many allocations there were, and the number of the first large one, as the library prints them. Without them none can be refused."""
    counts = errors.split()[-2:]
    if len(counts) < 2 or not all(count.isdigit() for count in counts):
        results.check("a run in which nothing is refused", False, f"it doesn't count its allocations: {errors[-200:]!r}")
        results.finish()
    return [int(count) for count in counts]


def sweep(what, run, judge, environment, numbers, threads=4):
    """Runs with each of these allocations refused; for each mode how the runs ended, by the allocation's number.

    `judge` returns how a run ended, in a few words, and whether it may end so.
    """
    with concurrent.futures.ThreadPoolExecutor(threads) as pool, contextlib.ExitStack() as ending:
        # Where this is ended, what hasn't begun isn't waited for.
        ending.callback(pool.shutdown, cancel_futures=True)
        for mode, more in MODES.items():
            runs = {number: pool.submit(run, {**environment, "REFUSED": str(number), **more}) for number in numbers}
            ends = {}
            for number, ended in runs.items():
                ends[number], holds = judge(ended.result(), mode)
                results.check(f"{what}, allocation {number} refused, {mode}", holds, ends[number])
            kinds = collections.Counter(end.partition(":")[0] for end in ends.values())
            print(f"{what}, {mode} refused: " + ", ".join(f"{kinds[end]} {end}" for end in sorted(kinds)), flush=True)
            yield mode, ends


STDIN = [repository.program("mc_stdin"), "--items", "2", "--bytes", "3100"]
REQUESTS = [
    b"set a 5 0 3\r\nabc\r\n",
    b"get a b\r\n",
    b"add a 0 0 1\r\nx\r\n",
    b"add b 0 0 2\r\n10\r\n",
    b"replace c 0 0 1\r\nx\r\n",
    b"append a 9 60 2\r\nde\r\n",
    b"prepend a 9 0 1\r\n>\r\n",
    b"gets a\r\n",
    b"cas a 7 0 3 4\r\nnew\r\n",
    b"cas a 7 0 3 4\r\nold\r\n",
    b"cas c 7 0 1 4\r\nx\r\n",
    b"incr b 5\r\n",
    b"decr b 6\r\n",
    b"incr a 1\r\n",
    b"incr b x\r\n",
    b"set c 0 0 1\r\nx\r\n",
    b"add c 0 0 1\r\nx\r\n",
    b"append a 0 0 3095\r\n" + 3095 * b"z" + b"\r\n",
    b"cas a 0 0 3098 7\r\n" + 3098 * b"z" + b"\r\n",
    b"cas a 0 0 3098 5\r\n" + 3098 * b"z" + b"\r\n",
    b"set a 0 0 3097\r\n" + 3097 * b"n" + b"\r\n",
    b"incr b 1\r\n",
    b"gets b\r\n",
    b"set a 0 1 3\r\nget\r\n",
    b"set a 0 0 1 noreply\r\ny\r\n",
    b"delete a\r\n",
    b"delete a 0\r\n",
    b"set k 0 0 3000\r\n" + 3000 * b"z" + b"\r\n",
    b"get k k k\r\n",
    b"stats\r\n",
    b"flush_all\r\n",
    b"get b\r\n",
    b"version\r\n",
    b"quit\r\n",
]
REPLIES = list(prefixes(Table(2, 3100), protocol.requests(b"".join(REQUESTS))))


def at_once(environment):
    """All requests in one piece."""
    return fed(STDIN, b"".join(REQUESTS), environment)


def next_of(pipe, count, until):
    """The next bytes that a program writes, as many as these or fewer, where it ends; a `TimeoutError` where they don't come until then."""
    received, poll = b"", select.poll()
    poll.register(pipe, select.POLLIN)
    while len(received) < count:
        if not poll.poll(1000 * max(0.0, until - time.monotonic())):
            raise TimeoutError
        if not (piece := os.read(pipe.fileno(), count - len(received))):
            break
        received += piece
    return received


def by_turns(environment, words=STDIN):
    """Each request after the reply to the one before."""
    received, pipe, until = b"", subprocess.PIPE, time.monotonic() + SECONDS
    with subprocess.Popen(words, stdin=pipe, stdout=pipe, stderr=pipe, env=environment, bufsize=0) as program:
        try:
            for request, wanted in zip(REQUESTS, REPLIES[1:]):
                try:
                    program.stdin.write(request)
                except BrokenPipeError:
                    break
                received += next_of(program.stdout, len(wanted) - len(received), until)
                if received != wanted:
                    break
            output, errors = program.communicate(timeout=SECONDS)
        except (TimeoutError, subprocess.TimeoutExpired):
            program.kill()
            return HUNG
    return program.returncode, received + output, errors


def judge_stdin(ended, _mode, replies=tuple(REPLIES)):
    """A run ends well, with all replies; or it writes the first of them, complete and in order, then "SERVER_ERROR out of memory", reports
    the fault on standard error and ends with status 1; or it ends with status 1 and no reply, while it reads its words."""
    status, received, errors = ended
    if ended == (0, replies[-1], b""):
        return "ended well", True
    if status == 1 and errors == b"mc_stdin: out of memory\n" and received.endswith(protocol.STARVED):
        before = received[: -len(protocol.STARVED)]
        return ("refused after replies" if before else "refused before any reply"), before in replies
    if status == 1 and received == b"":
        return "refused in its words", True
    return f"another end: {status}, {received[-200:]!r}, {errors!r}", False


def try_stdin(environment, every):
    """From the allocation on that reserves the history, which is the first large one, the client has to be answered."""
    for what, run in (("mc_stdin at once", at_once), ("mc_stdin by turns", by_turns)):
        count, opening = counts_of(run({**environment, "COUNTED": "1"})[2])
        numbers = sorted({*range(1, count + 2, every), opening, count + 1})
        for mode, ends in sweep(what, run, judge_stdin, environment, numbers):
            results.check(f"{what}: the opening, {mode}", ends[opening] == "refused before any reply", ends[opening])
            later = {end for number, end in ends.items() if number >= opening}
            results.check(f"{what}: the client is answered from the opening on, {mode}", "refused in its words" not in later)
            results.check(f"{what}: a refusal after replies, {mode}", "refused after replies" in later)
            results.check(f"{what}: nothing refused, {mode}", ends[count + 1] == "ended well", ends[count + 1])


ROWS = ("arithmetic-wraps-and-stops-at-zero", "item-quota", "fragments-joined")
LARGE = b"set k 5 0 300000\r\n" + 300_000 * b"z" + b"\r\nget k k k k k\r\nappend k 0 0 1\r\n>\r\ngets k\r\nget k nothing k\r\n"

# Replies whose data the log lends: blocks that the queue shares, one long, and many short ones behind more bytes than may be queued.
LENT = b"set b 1 0 40000\r\n" + 40_000 * b"b" + b"\r\nset m 0 0 300\r\n" + 300 * b"m" + b"\r\nget b\r\nget" + 4_000 * b" m" + b"\r\ngets m b\r\n"


def try_stream(environment, every, name, words, stream, wanted):
    """A client whose stream comes whole: from the allocation on that reserves the history it is answered, and some run is refused after replies."""
    items = int(words[words.index("--items") + 1]) if "--items" in words else protocol.MOST_ITEMS
    replies = list(prefixes(Table(items, protocol.MOST_BYTES), protocol.requests(stream)))
    results.check(f"{name}: the oracle's replies", replies[-1] == wanted)

    def run(environment):
        return fed([STDIN[0], *words], stream, environment)

    count, opening = counts_of(run({**environment, "COUNTED": "1"})[2])
    numbers = sorted({*range(1, count + 2, every), opening, count + 1})
    for mode, ends in sweep(name, run, functools.partial(judge_stdin, replies=replies), environment, numbers):
        later = {end for number, end in ends.items() if number >= opening}
        results.check(f"{name}: the client is answered from the opening on, {mode}", "refused in its words" not in later)
        results.check(f"{name}: a refusal after replies, {mode}", "refused after replies" in later)
        results.check(f"{name}: nothing refused, {mode}", ends[count + 1] == "ended well", ends[count + 1])


def try_rows(environment, every):
    """Golden tests of mc_stdin, and replies that are larger than all before."""
    for name in ROWS:
        row = repository.ROOT / "tests/rows/mc_stdin" / name
        stream, wanted = (row / "input").read_bytes(), (row / "output").read_bytes()
        try_stream(environment, every, name, (row / "words").read_text(encoding="utf-8").split(), stream, wanted)
    for name, stream in (("large replies", LARGE), ("lent replies", LENT)):
        whole = list(prefixes(Table(protocol.MOST_ITEMS, protocol.MOST_BYTES), protocol.requests(stream)))[-1]
        try_stream(environment, every, name, [], stream, whole)


CALLS = repository.program("refusals")

# What some refused run of a word must print: a submit whose command wasn't announced, and one whose command took effect; two workers that don't
# meet, and meet then; a log that isn't followed, and is then.
TELLING = {
    "submit": [
        b"fault out of memory\nsettled\nplace 0\nEND\r\n\nsettled\n",
        b"fault out of memory\nunsettled 0 0\nplace 1\nVALUE a 0 1 1\r\nx\r\nEND\r\n\nsettled\n",
    ],
    "meet": [b"\nsettled\nfault out of memory\n0 0\n0 1\n"],
    "turn-over": [b"\nsettled\nfault out of memory\nplace 0\nSTORED\r\n\nsettled\nplace 1\nVALUE a 5 2 3\r\nxz\r\n"],
}


def judge_calls(word, ended, mode):
    """A run prints what tests/oracle/refusals.py allows, and ends with status 1 exactly if it says so."""
    status, output, errors = ended
    holds = output in scenes.allowed(word, mode != "one") and errors == b"" and status == (b"ended: " in output)
    if not holds:
        return f"another end: {status}, {output!r}, {errors!r}", False
    if output == scenes.wanted(word):
        return "ended well", True
    return ("ended" if b"ended: " in output else "reported") + ": " + output.decode(), True


def try_calls(environment, _every):
    """Submits, a meeting of two workers, and a log that is followed by another."""
    for word in TELLING:

        def run(environment, word=word):
            return fed([CALLS, word], b"", environment)

        count = counts_of(run({**environment, "COUNTED": "1"})[2])[0]
        what = f"calls, {word}"
        for mode, ends in sweep(what, run, functools.partial(judge_calls, word), environment, range(1, count + 2)):
            results.check(f"{what}: nothing refused, {mode}", ends[count + 1] == "ended well", ends[count + 1])
            if mode == "one":
                for telling in TELLING[word]:
                    results.check(f"{what}: some run prints {telling!r}", any(telling.decode() in end for end in ends.values()))


SCHEDULE = repository.program("mc_schedule")
LIST = b"""\
core 3 16
tenant 2 200
tenant 1 9
submit 2 1 set a 0 q
submit 1 0 set a 5 abc
announce 0 0 append a 0 de
stop 0
submit 1 0 gets a b
submit 2 1 set b 0 q
submit 2 1 incr a 1
announce 1 0 cas a 7 2 new
read 1
read 1
read 1
read 1
look 1
propose 1
replay 1
replay 1
replay 1
replay 1
submit 2 0 get a
submit 2 0 flush_all
"""
WELL = expected(LIST, collections.Counter())
REPORT = rb"((?:reply .*\n)*)fault (\d+) out of memory\nlog( \(\d+,\d+\))*\n(worker \d .*\n){3}"

# The lines, from 1, of which some event can need memory.
NEEDY = {number for number, line in enumerate(LIST.splitlines(), 1) if re.match(rb"submit|announce|replay", line)}


def without_picture(output):
    """The report alone: a picture comes first, and an empty line."""
    return output.partition(b"\n\n")[2] if output.startswith(b"   line ") else output


def judge_schedule(well, ended, _mode):
    """A run ends well, with the whole report; or it prints nothing and reports the fault on standard error, with status 1; or an event ran out
    of memory, and the report has the replies before it, that fault at a line that announces or replays, the log and the workers, with
    status 1 and nothing on standard error."""
    status, output, errors = ended
    if ended == (0, well, b""):
        return "ended well", True
    if ended == (1, b"", b"mc_schedule: out of memory\n"):
        return "refused, with nothing printed", True
    report = re.fullmatch(REPORT, without_picture(output))
    if status == 1 and errors == b"" and report and WELL.replies.startswith(report[1]) and int(report[2]) in NEEDY:
        return "refused at an event", True
    return f"another end: {status}, {output!r}, {errors!r}", False


def try_schedule(environment, every):
    for words in ([], ["--picture"]):

        def run(environment, words=words):
            return fed([SCHEDULE, *words], LIST, environment)

        what = " ".join(["mc_schedule", *words])
        status, well, counted = run({**environment, "COUNTED": "1"})
        count, _ = counts_of(counted)
        results.check(f"{what}: with all memory", status == 0 and without_picture(well) == WELL.replies + WELL.report, well)
        numbers = sorted({*range(1, count + 2, every), count + 1})
        for mode, ends in sweep(what, run, functools.partial(judge_schedule, well), environment, numbers):
            results.check(f"{what}: nothing refused, {mode}", ends[count + 1] == "ended well", ends[count + 1])
            # The report of a fault needs memory too.
            if not words and mode == "one":
                results.check(f"{what}: a refusal at an event", "refused at an event" in ends.values())


WFMC = repository.program("wfmc")
CLIENTS = 4
QUOTAS = (3, 60_000)
OPTIONS = ["--workers", "2", "--places", "300", "--connections", str(CLIENTS + 1)]


def stream_of(number):
    """A client's requests, over keys of its own, with some that are answered without the log."""
    key = b"key%d" % number
    block = b"z" * (3_000 + number)
    return [
        b"set %s 5 0 3\r\nabc\r\n" % key,
        b"get %s nothing\r\n" % key,
        b"append %s 0 0 2\r\nde\r\n" % key,
        b"set %s 0 0 %d\r\n%s\r\n" % (key, len(block), block),
        b"get %s %s %s\r\n" % (key, key, key),
        b"set %s 0 0 2\r\n10\r\n" % key,
        b"incr %s 5\r\n" % key,
        b"delete %s\r\n" % key,
        b"set %s 0 0 70000\r\n%s\r\n" % (key, b"q" * 70_000),
        b"stats\r\n",
        b"add %s 0 0 1\r\nx\r\n" % key,
        b"get %s\r\n" % key,
    ]


def replies_of(number):
    """What a client's whole replies come to, one after another."""
    return list(prefixes(Table(*QUOTAS), protocol.requests(b"".join(stream_of(number)))))


def client(port, number):
    """Sends each request after the reply to the one before; what was received, and how it ended."""
    try:
        exchange = Exchange(connect(port, SECONDS), SECONDS)
    except OSError as error:
        return b"", f"no connection: {error}"
    for piece, wanted in zip(stream_of(number), replies_of(number)[1:]):
        exchange.send(piece)
        exchange.wait_for(len(wanted))
        if exchange.ending:
            exchange.close()
            return bytes(exchange.received), exchange.ending
    return exchange.finish(), exchange.ending


def judge_client(number, received, ending):
    """How a client was served: "served", "refused", "closed", or what is wrong."""
    fronts = replies_of(number)
    if received == fronts[-1] and ending == "end":
        return "served"
    if received.endswith(protocol.STARVED) and received[: -len(protocol.STARVED)] in fronts:
        return "refused"
    if received in fronts and ending in ("end", "reset"):
        return "closed"
    return f"{ending}, {len(received)} bytes, the last {received[-80:]!r}"


def serve_clients(environment, options=OPTIONS, ask=client, judge=judge_client):
    """Two workers serve clients of two tenants at once, one connection each, until as many as --connections says have come and gone. Returns how
    wfmc ended, and how each of its clients was served; the last client comes when the others have left."""
    served = []
    try:
        with Server(WFMC, options, {"a": QUOTAS, "b": QUOTAS}, environment=environment) as server:
            if len(server.ports) == 2:
                with concurrent.futures.ThreadPoolExecutor(CLIENTS) as pool:
                    answers = list(pool.map(lambda number: ask(server.ports["ab"[number % 2]], number), range(CLIENTS)))
                answers.append(ask(server.ports["a"], CLIENTS))
                served = [judge(number, *answer) for number, answer in enumerate(answers)]
            return server.wait(SECONDS), served
    except (TimeoutError, subprocess.TimeoutExpired):
        return HUNG, served


def judge_wfmc(ended, mode):
    """Either wfmc ends by itself, with the one line `wfmc: out of memory` on standard error and status 1; or it goes on, and ends well: then
    each client received complete replies in order, up to its end or to `SERVER_ERROR out of memory`, or it was closed without a byte. Where
    one allocation was refused, at most one client was refused or closed. Where logs follow one another, a log that isn't followed may be full for
    any of them. Threads allocate in another order in each run, so no more is asked."""
    (status, output, errors), served = ended
    wrong = [one for one in served if one not in ("served", "full", "refused", "closed")]
    if status == 1 and errors == b"wfmc: out of memory\n":
        return "ended by itself", all(one.startswith(("no connection", "late", "reset", "end")) for one in wrong)
    if status == 0 and output.startswith(b"done ") and not errors:
        few = sum(one in ("refused", "closed") for one in served) <= 1 or mode != "one"
        ends = [end for end in ("refused", "closed", "full") if end in served]
        return ("ended well" if not ends else "told a client of a full log" if ends == ["full"] else "refused a client"), few and not wrong
    return f"another end: {status}, {output!r}, {errors!r}, {served}", False


def try_wfmc(environment, every):
    (status, _, counted), served = serve_clients({**environment, "COUNTED": "1"})
    count = counts_of(counted)[0]
    results.check("wfmc: all clients are served", status == 0 and count > 100 and served == ["served"] * (CLIENTS + 1), served)
    for _ in sweep("wfmc", serve_clients, judge_wfmc, environment, range(1, count + 20, every), threads=6):
        pass


# The log is followed by one more once its 32 places are taken, but for one that is kept for the other worker, and both have room for all commands.
TWO_LOGS = ["--workers", "2", "--places", "32", "--generations", "2", "--connections", str(CLIENTS + 1)]


def client_at_once(port, number):
    """Sends all requests at once; what was received, and how it ended."""
    try:
        return exchange(port, [b"".join(stream_of(number))], SECONDS)
    except OSError as error:
        return b"", f"no connection: {error}"


def answered(number, received):
    """How many of a client's requests these bytes are the whole replies to, in order; `None` where they are no such. From some command on, the log
    may be full."""
    requests = protocol.requests(b"".join(stream_of(number)))
    replies = Replies(Table(*QUOTAS), received)
    for index, request in enumerate(requests):
        if replies.at == len(received):
            return index
        if not replies.answers(request):
            return None
    return len(requests) if replies.at == len(received) else None


def judge_over_logs(number, received, ending):
    """As `judge_client`, or "full": from some command on, it was told that the log is full."""
    is_refused = received.endswith(protocol.STARVED)
    count = answered(number, received[: -len(protocol.STARVED)] if is_refused else received)
    if count is None or ending not in ("end", "reset"):
        return f"{ending}, {len(received)} bytes, the last {received[-80:]!r}"
    if is_refused:
        return "refused"
    if count < len(stream_of(number)):
        return "closed"
    return "full" if protocol.LOG_FULL in received else "served"


def try_generations(environment, every):
    """wfmc over two logs, the second of which is opened over the tables of the first while clients wait."""

    def run(environment):
        return serve_clients(environment, TWO_LOGS, client_at_once, judge_over_logs)

    (status, output, counted), served = run({**environment, "COUNTED": "1"})
    count = counts_of(counted)[0]
    length = int(output.split()[1]) if status == 0 else 0
    results.check("wfmc over two logs: all clients are served", served == ["served"] * (CLIENTS + 1), served)
    results.check("wfmc over two logs: both are used", 32 < length <= 64, output)
    for mode, ends in sweep("wfmc over two logs", run, judge_wfmc, environment, range(1, count + 20, every), threads=6):
        # Where all later ones are refused too, no thread can be started to serve on, and wfmc ends by itself.
        if mode == "one" and every == 1:
            results.check("wfmc over two logs: some turn over is refused", "told a client of a full log" in ends.values())


@dataclasses.dataclass
class Tests:
    """Tests of a crate on a call that runs out of memory. Each of them ends well, or runs out of memory before its call, or says that the call
    reported it and left all as it was (`reported`, a text in the crate's sources). Any other end is wrong.

    `asks` says how often each test's call allocates, and `first` the number of the first allocation to refuse: those before it are made by all
    tests before their calls.
    """

    crate: str
    module: str
    reported: str
    asks: dict[str, int]
    first: int = 1
    most: int = 120


# A row of cells is a list and its box, and the value has a box.
CELLS = Tests(
    crate="crates/uc_places_tests",
    module="cells::memory",
    reported="the call reported that memory ran out, and wrote nothing",
    asks={"cells::memory::a_put_reports_out_of_memory": 3, "cells::memory::a_sighting_reports_out_of_memory": 3},
)
WORKERS = Tests(
    crate="crates/uc_worker_tests",
    module="refused",
    reported="the turn over reported that memory ran out, and changed no worker",
    asks={"refused::a_turn_over_reports_out_of_memory": 20},
    first=46,
)


def ends_of(tests, refused):
    """How each test ended where the allocation of this number was refused."""
    words = ["rt", "try", "--test", "--fail-alloc", str(refused), "--", tests.module]
    try:
        ran = subprocess.run(words, cwd=tests.crate, capture_output=True, text=True, timeout=600)
    except subprocess.TimeoutExpired:
        return dict.fromkeys(tests.asks, "it didn't end")
    ends = {}
    for part in re.split(r"^test (?=\S+ \.\.\. )", ran.stdout + ran.stderr, flags=re.MULTILINE)[1:]:
        name = part.split()[0]
        error = re.search(r"^\s*error: (.*)$", part, re.MULTILINE)
        if name in tests.asks:
            ends[name] = "ok" if part.split()[2] == "ok" else error.group(1).strip('"') if error else part
    return ends


def try_tests(tests):
    """The tests, whose allocations `rt` refuses, each in turn: a wrong end is above all `Taken` in place of `Memory`, or a cell or a worker that has
    changed."""
    repository.require("rt")
    refusals = collections.Counter()
    for refused in range(tests.first, tests.first + tests.most):
        ends = ends_of(tests, refused)
        for name in tests.asks:
            end = ends.get(name, "it didn't run")
            refusals[name] += end == tests.reported
            results.check(f"{name}, allocation {refused} refused", end in ("ok", "Memory", tests.reported), end)
        if ends == dict.fromkeys(tests.asks, "ok"):
            break
    for name, asks in tests.asks.items():
        results.check(f"{name}: refused {refusals[name]} times, not {asks}", refusals[name] == asks)


def try_cells(_environment, _every):
    try_tests(CELLS)


def try_workers(_environment, _every):
    try_tests(WORKERS)


# Of these each allocation is tried, since there are few.
WHOLE = ("calls", "cells", "workers")
# Each case, and the program that it runs, if it is one that was built.
CASES = {
    "mc_stdin": (try_stdin, "mc_stdin"),
    "rows": (try_rows, "mc_stdin"),
    "mc_schedule": (try_schedule, "mc_schedule"),
    "wfmc": (try_wfmc, "wfmc"),
    "generations": (try_generations, "wfmc"),
    "calls": (try_calls, "refusals"),
    "cells": (try_cells, None),
    "workers": (try_workers, None),
}


def main():
    parser = argparse.ArgumentParser(description=__doc__.split("\n")[0])
    parser.add_argument("cases", nargs="*", metavar="CASE", help=", ".join(CASES))
    parser.add_argument("--every", type=int, default=1, metavar="N", help="refuse one allocation in N")
    asked = parser.parse_args()
    cases = asked.cases or list(CASES)
    if unknown := set(cases) - set(CASES):
        parser.error(f"no case {unknown.pop()}")
    if asked.every < 1 or asked.every > 1 and set(asked.cases) & set(WHOLE):
        parser.error("--every takes a number from 1 on, and isn't for " + ", ".join(WHOLE))
    repository.enter(*(repository.program(program) for _, program in map(CASES.get, cases) if program))
    with preload.library(preload.REFUSE) as environment:
        for case in cases:
            CASES[case][0](environment, asked.every)
    results.finish()


if __name__ == "__main__":
    main()
