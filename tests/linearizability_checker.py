"""A linearizability checker: looks for one order of a tenant's commands that explains all replies and keeps to the times of the calls.

A history is a list of `Call`s of several clients. The search is depth-first: each step takes one of the clients' next calls that was sent
before every reply still to come. It has to give its reply on the oracle's table, uniques and all. Paths that lead to a table already seen at
the same calls are dropped, and a change whose unique some reply shows has to be the change that this reply shows. After as many commands as
the log has places every command has to be answered that the log is full. How many logs there are makes no difference otherwise: it is one
order over all of them.

The last calls of a connection that was killed may be lost: each may come next as long as no call has come that was sent after the server
closed the connection, or be left out with those behind it.
"""

import dataclasses
import math
import re

from oracle.protocol import LOG_FULL
from oracle.table import Table

MOST_STEPS = 2_000_000
VALUE = re.compile(rb"VALUE (\S+) \d+ (\d+)(?: (\d+))?\r\n")


@dataclasses.dataclass(frozen=True)
class Call:
    """A command of a client: when it was sent and answered, and the reply; a quiet one has no reply.

    A lost one was sent over a connection that was killed before its reply came, and was executed before the time `answered`, or never."""

    client: int
    sent: float
    answered: float
    command: tuple
    reply: bytes
    is_quiet: bool = False
    is_lost: bool = False


def values(reply):
    """What a reply to `get` or `gets` shows: key, data and unique of each item, and where its line END begins."""
    shown, at = [], 0
    while found := VALUE.match(reply, at):
        data_end = found.end() + int(found[2])
        shown.append((found[1], reply[found.end() : data_end], int(found[3] or 0)))
        at = data_end + 2
    return shown, at


def reply_end(command, received, at):
    """Where the reply that begins here ends, or `None` where it isn't complete."""
    while command[0] in (b"get", b"gets") and (found := VALUE.match(received, at)):
        at = found.end() + int(found[2]) + 2
    end = received.find(b"\n", at)
    return end + 1 if end >= 0 else None


class Search:
    """The search for an order of one history, from a table, over a log with this many places that no other tenant uses."""

    def __init__(self, history, table, places=math.inf):
        self.table, self.places = table, places
        calls_of = {}
        for call in history:
            calls_of.setdefault(call.client, []).append(call)
        self.clients = [calls_of[client] for client in sorted(calls_of)]
        self.until = [times_of(calls) for calls in self.clients]
        # How many calls of each client have to be explained: those that aren't lost.
        self.owed = tuple(sum(not call.is_lost for call in calls) for calls in self.clients)
        self.loses = any(call.is_lost for call in history)
        # Which key and data the change of a unique made, by a reply that shows it.
        self.owners = {}
        self.is_torn = False
        self.watched = {call.command[4] for call in history if call.command[0] == b"cas"}
        for call in history:
            if call.command[0] == b"gets":
                self._note(call.reply)
        self.steps = 0
        self.most_taken = (0,) * len(self.clients)

    def _note(self, reply):
        for key, data, unique in values(reply)[0]:
            if self.owners.setdefault(unique, (key, data)) != (key, data):
                self.is_torn = True
        self.watched |= self.owners.keys()

    def _mark(self, taken, table):
        """What distinguishes two paths: the calls that may still come, and the table without uniques that no reply shows."""
        if self.loses:
            latest = self._latest(taken)
            taken = tuple(len(calls) if self._is_over(client, at, latest) else at for client, (calls, at) in enumerate(zip(self.clients, taken)))
        items = sorted((key, flags, data, unique if unique in self.watched else 0) for key, (flags, data, unique) in table.items.items())
        return taken, table.changes, table.most_items, table.most_bytes, tuple(items)

    def _latest(self, taken):
        """When the latest of these calls was sent."""
        return max((calls[at - 1].sent for calls, at in zip(self.clients, taken) if at), default=-math.inf)

    def _is_over(self, client, at, latest):
        """Whether a client's next call is a lost one that can't come any more, once a call of this time has come."""
        calls = self.clients[client]
        return at < len(calls) and calls[at].is_lost and calls[at].answered < latest

    def _open(self, taken):
        """The clients whose next call may come next, the one answered first at the front, and those at last whose next one may be lost."""
        times = [(until[at], client) for client, (until, at) in enumerate(zip(self.until, taken)) if at < len(until)]
        if not times:
            return []
        first = min(times)[0]
        latest = self._latest(taken) if self.loses else -math.inf
        return [client for _, client in sorted(times) if self.clients[client][taken[client]].sent <= first and not self._is_over(client, taken[client], latest)]

    def _after(self, call, table, is_full):
        """The table after a call, or `None` where it would give another reply."""
        if is_full:
            return table if call.is_quiet or call.reply == LOG_FULL else None
        after, reply = table.after(call.command)
        if not call.is_quiet and reply != call.reply:
            return None
        if after.changes > table.changes and after.changes in self.owners:
            key = call.command[1]
            if self.owners[after.changes] != (key, after.items[key][1]):
                return None
        return after

    def furthest(self):
        """How far the search got: the calls that may come next there."""
        if self.is_torn:
            return "a unique is shown with two items"
        calls = [self.clients[client][self.most_taken[client]] for client in self._open(self.most_taken)]
        return f"after {sum(self.most_taken)} of them, in {self.steps} steps, one of these has to come next: {calls}"

    def succeeds(self):
        """Whether there is such an order."""
        if self.is_torn:
            return False
        start = (0,) * len(self.clients)
        seen, paths = set(), [(start, self.table)]
        while paths and self.steps < MOST_STEPS:
            taken, table = paths.pop()
            if all(at >= owed for at, owed in zip(taken, self.owed)):
                return True
            mark = self._mark(taken, table)
            if mark in seen:
                continue
            seen.add(mark)
            if sum(taken) > sum(self.most_taken):
                self.most_taken = taken
            for client in reversed(self._open(taken)):
                self.steps += 1
                after = self._after(self.clients[client][taken[client]], table, sum(taken) >= self.places)
                if after is not None:
                    paths.append((taken[:client] + (taken[client] + 1,) + taken[client + 1 :], after))
        return False


def times_of(calls):
    """When each call was done at the latest: a quiet one by the next reply to its client. A quiet one that none follows, a lost one among
    them, has no such time."""
    times, last = [], math.inf
    for call in reversed(calls):
        last = last if call.is_quiet else call.answered
        times.append(last)
    return times[::-1]


def is_linearizable(history, places=math.inf):
    """Whether one order of the commands explains a tenant's history, from an empty table with large quotas."""
    return Search(history, Table(1_000_000, 1_000_000_000), places).succeeds()
