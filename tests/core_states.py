#!/usr/bin/env python3
"""Counts the reachable states of a small core, apart from the core's code and definitions: core_states.py [WORKERS PLACES].

Without words it counts those of two workers and three places, in about a second, and holds the number against the constant `STATES` of
crates/uc_core_tests/src/states.rt; the last line is 'N passed, M failed' then. With words it prints the number alone.

On purpose it uses nothing of oracle/core.py: the number has to come from a second, shorter formulation of the transitions.

A state is what each worker shows (phase, places learned and replayed, mark, proposals, commands announced), how many places
were decided when it announced its latest command, how many commands the worker it has looked at had announced, and the decided
places. The test `every_state_of_a_small_core_is_sound` of uc_core_tests finds the same number.
"""

import re
import sys
from collections import deque

from harness import repository
from harness.results import Results

SOURCE = repository.ROOT / "crates/uc_core_tests/src/states.rt"
WORKERS, PLACES = 2, 3
IDLE, PENDING, LOOKED, STOPPED = range(4)


def moves(workers, log, places):
    """Every state that one transition leads to."""
    count = len(workers)
    for who, worker in enumerate(workers):
        phase, learned, replayed, mark, looked_at, proposals, announced, decided_then = worker

        def becomes(*fields, log=log):
            return workers[:who] + (fields,) + workers[who + 1 :], log

        turn = learned % count
        known = sum(1 for by, _ in log[:learned] if by == turn)
        if phase == IDLE and learned < places:
            yield becomes(PENDING, learned, replayed, None, looked_at, 0, announced + 1, len(log))
        if phase in (IDLE, PENDING) and learned < places:
            if learned < len(log):
                then = IDLE if log[learned] == (who, announced - 1) else phase
                yield becomes(then, learned + 1, replayed, mark, looked_at, proposals, announced, decided_then)
            else:
                marked = learned if phase == PENDING and mark is None else mark
                yield becomes(phase, learned, replayed, marked, looked_at, proposals, announced, decided_then)
        if phase == PENDING and learned < places and mark is not None:
            yield becomes(LOOKED, learned, replayed, mark, workers[turn][6], proposals, announced, decided_then)
        if phase == LOOKED:
            proposal = (turn, known) if known < looked_at else (who, announced - 1)
            then = log if learned < len(log) else log + (proposal,)
            after = IDLE if then[learned] == (who, announced - 1) else PENDING
            yield becomes(after, learned + 1, replayed, mark, 0, proposals + 1, announced, decided_then, log=then)
        if phase != STOPPED and replayed < learned:
            yield becomes(phase, learned, replayed + 1, mark, looked_at, proposals, announced, decided_then)
        if phase != STOPPED:
            yield becomes(STOPPED, learned, replayed, mark, looked_at, proposals, announced, decided_then)


def states(count, places):
    """How many states a core of this many workers and places has."""
    opening = ((IDLE, 0, 0, None, 0, 0, 0, 0),) * count, ()
    seen, waiting = {opening}, deque([opening])
    while waiting:
        for state in moves(*waiting.popleft(), places):
            if state not in seen:
                seen.add(state)
                waiting.append(state)
    return len(seen)


def constant(name):
    """A number that is typed in the sources of the test."""
    return int(re.search(rf"^const {name}: \w+ = ([0-9_]+);", SOURCE.read_text(encoding="utf-8"), re.MULTILINE)[1])


def main():
    words = sys.argv[1:]
    if len(words) not in (0, 2) or not all(word.isdecimal() and int(word) for word in words):
        sys.exit("usage: core_states.py [WORKERS PLACES]")
    workers, places = map(int, words or (WORKERS, PLACES))
    found = states(workers, places)
    print(f"{workers} workers and {places} places: {found} states")
    if not words:
        results = Results()
        wanted = constant("STATES") if constant("PLACES") == PLACES else "another number of places"
        results.check("the states of states.rt", found == wanted, f"{found} are found, and it has {wanted}")
        results.finish()


if __name__ == "__main__":
    main()
