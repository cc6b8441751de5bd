"""All that crates/refusals may print: each way in which one of its allocations, or all from one on, can be refused.

It is written from what docs/FAULTS.md says that a refused call leaves, and not from what the program printed.
"""

import dataclasses

from . import protocol
from .table import Table

REFUSED = b"fault out of memory\n"
ENDED = b"ended: out of memory\n"
NOT_DONE = b"fault log full\nended: log full\n"


@dataclasses.dataclass(frozen=True)
class State:
    """The log's tickets, what each worker has announced, replayed at least, and left unsettled; the table after the log; and whether an allocation
    can be refused: not yet, no more, or each from now on."""

    table: Table
    refusals: str = "next"
    log: tuple = ()
    announced: tuple = (0, 0)
    replayed: tuple = (0, 0)
    unsettled: tuple = (None, None)


def put(pair, worker, value):
    return (value, pair[1]) if worker == 0 else (pair[0], value)


def announced(state, worker, command):
    """The state once the worker's command stands in the log, and the reply to it."""
    table, reply = state.table.after(command)
    ticket = (worker, state.announced[worker])
    log = (*state.log, ticket)
    return dataclasses.replace(state, table=table, log=log, announced=put(state.announced, worker, ticket[1] + 1)), ticket, reply


def refused(state, onward):
    return dataclasses.replace(state, refusals="each" if onward else "none")


def settled_line(state, worker):
    ticket = state.unsettled[worker]
    return b"unsettled %d %d\n" % ticket if ticket else b"settled\n"


def asked(worker, text, onward):
    """A step: the worker submits the command of this text. Returns what may be printed, each with the state then; `None` where the run ends."""
    (request,) = protocol.requests(text)

    def step(state):
        if state.refusals != "none":
            yield ENDED, None
        if state.refusals == "each":
            return
        after, ticket, reply = announced(state, worker, request.command)
        done = dataclasses.replace(after, replayed=put(after.replayed, worker, len(after.log)), unsettled=put(after.unsettled, worker, None))
        yield b"place %d\n%s\n" % (len(state.log), reply) + settled_line(done, worker), done
        if state.refusals == "next":
            unannounced = refused(state, onward)
            yield REFUSED + settled_line(unannounced, worker), unannounced
            left = refused(dataclasses.replace(after, unsettled=put(after.unsettled, worker, ticket)), onward)
            yield REFUSED + settled_line(left, worker), left

    return step


def history(log):
    return b"".join(b"%d %d\n" % ticket for ticket in log)


def met(onward):
    """A step: both workers meet. Out of memory, each history goes on from what it was."""

    def step(state):
        whole = len(state.log)
        both = history(state.log) + b"and\n" + history(state.log)
        yield b"met\n" + both, dataclasses.replace(state, replayed=(whole, whole))
        if state.refusals != "none":
            for first in range(state.replayed[0], whole + 1):
                for second in range(state.replayed[1], whole + 1):
                    histories = history(state.log[:first]) + b"and\n" + history(state.log[:second])
                    yield REFUSED + histories, refused(dataclasses.replace(state, replayed=(first, second)), onward)

    return step


def turned_over(onward):
    """A step: the only worker's log of two places is followed by another over its table; a second time, if memory is refused."""

    def step(state):
        following = State(state.table, state.refusals)
        if state.replayed[0] < 2:
            yield NOT_DONE, None
            return
        yield b"", following
        if state.refusals != "none":
            yield ENDED, None
            yield REFUSED, refused(following, onward)
            yield REFUSED + ENDED, None

    return step


def endings(steps, state):
    """All that may be printed for these steps."""
    if not steps:
        yield b""
        return
    for printed, after in steps[0](state):
        for rest in endings(steps[1:], after) if after else (b"",):
            yield printed + rest


def scenes(onward):
    """The steps of each of the program's words."""

    def ask(worker, *texts):
        return [asked(worker, text, onward) for text in texts]

    first = ask(0, b"set a 0 0 1\r\nx\r\n", b"set b 0 0 1\r\nx\r\n")
    second = ask(1, b"set a 0 0 1\r\ny\r\n", b"append b 0 0 1\r\ny\r\n", b"set c 0 0 1\r\ny\r\n")
    fills = ask(0, b"set a 5 0 1\r\nx\r\n", b"set b 6 0 1\r\ny\r\n")
    return {
        "submit": ask(0, b"set a 0 0 1\r\nx\r\n", b"gets a\r\n"),
        "meet": [*first, *second, met(onward), met(onward)],
        "turn-over": [*fills, turned_over(onward), *ask(0, b"append a 0 0 1\r\nz\r\n", b"gets a b\r\n")],
    }


def allowed(word, onward):
    """All that the program may print for this word, or for none, where one allocation is refused, or all from one on."""
    return {ENDED, *endings(scenes(onward)[word], State(Table(100, 100_000)))}


def wanted(word):
    """What it prints if no allocation is refused."""
    (text,) = endings(scenes(False)[word], State(Table(100, 100_000), refusals="none"))
    return text
