"""The shared log: workers announce commands, decide places of the log together, and replay what is decided.

`Definitions` has one method for each definition of the core, by its name in specs/, so that a script can replace one of them.
"""

from typing import NamedTuple

from .table import Table

IDLE, PENDING, LOOKED, STOPPED = "idle", "pending", "looked", "stopped"
FULL = "all places learned"
TRANSITIONS = ("announce", "read", "look", "propose", "replay", "stop")


class Worker(NamedTuple):
    phase: str = IDLE
    announced: int = 0
    learned: tuple = ()
    mark: object = None
    look: object = None
    proposals: int = 0


class Entry(NamedTuple):
    ticket: tuple
    tenant: int
    command: tuple


class Replay(NamedTuple):
    replayed: int
    tables: tuple


class Core(NamedTuple):
    places: int
    openings: tuple
    decided: tuple
    workers: tuple
    entries: tuple
    replays: tuple


class Event(NamedTuple):
    kind: str
    worker: int
    tenant: int = 0
    command: tuple = ()


def at(items, place):
    """The item at a place, or `None`."""
    return items[place] if 0 <= place < len(items) else None


def with_at(items, place, item):
    return items[:place] + (item,) + items[place + 1 :] if 0 <= place < len(items) else items


class Definitions:
    """The definitions, by the names that they have in specs/."""

    def count(self, number, tickets):
        return sum(1 for worker, _ in tickets if worker == number)

    def is_legal(self, tickets):
        return all(self.count(worker, tickets[:place]) == number for place, (worker, number) in enumerate(tickets))

    def stands_before(self, end, ticket, tickets):
        return ticket in tickets[:end]

    def announce(self, worker):
        return worker._replace(phase=PENDING, announced=worker.announced + 1, mark=None, proposals=0)

    def is_latest(self, number, worker, ticket):
        return ticket == (number, worker.announced - 1)

    def learn(self, number, phase, ticket, worker):
        phase = IDLE if self.is_latest(number, worker, ticket) else phase
        return worker._replace(phase=phase, learned=worker.learned + (ticket,))

    def marked(self, phase, mark, place):
        return place if phase == PENDING and mark is None else mark

    def read(self, number, found, worker):
        if found is not None:
            return self.learn(number, worker.phase, found, worker)
        return worker._replace(mark=self.marked(worker.phase, worker.mark, len(worker.learned)))

    def look(self, helped, announced, worker, core):
        known = self.count(helped, worker.learned)
        return worker._replace(phase=LOOKED, look=(helped, known) if known < announced else None)

    def proposal(self, number, worker):
        return worker.look if worker.look is not None else (number, max(0, worker.announced - 1))

    def propose(self, number, found, worker):
        ticket = found if found is not None else self.proposal(number, worker)
        return self.learn(number, PENDING, ticket, worker)._replace(look=None, proposals=worker.proposals + 1)

    def stop(self, worker):
        return worker._replace(phase=STOPPED)

    def turn(self, core, worker):
        return len(worker.learned) % len(core.workers)

    def decided_with(self, proposal, core, place):
        return core.decided if place < len(core.decided) else core.decided + (proposal,)

    def conditions(self, core, event, worker, replay):
        """The conditions of a transition in their order, each with what is wrong where it fails."""
        room = (len(worker.learned) < core.places, FULL)
        if event.kind == "announce":
            return [(worker.phase == IDLE, "not idle"), (event.tenant < len(core.openings), "no such tenant"), room]
        if event.kind == "read":
            return [(worker.phase in (IDLE, PENDING), "neither idle nor pending"), room]
        if event.kind == "look":
            return [(worker.phase == PENDING, "not pending"), room, (worker.mark is not None, "no mark")]
        if event.kind == "propose":
            return [(worker.phase == LOOKED, "not looked")]
        running = (worker.phase != STOPPED, "stopped")
        if event.kind == "replay":
            return [running, (replay.replayed < len(worker.learned), "all learned places replayed")]
        return [running]

    def refusal(self, core, event):
        """Why a transition isn't enabled, or `None`. The first reason decides."""
        worker, replay = at(core.workers, event.worker), at(core.replays, event.worker)
        if worker is None:
            return "no such worker"
        return next((why for is_met, why in self.conditions(core, event, worker, replay) if not is_met), None)

    def is_enabled(self, core, event):
        """Whether the transition leads on, which is defined apart from the fault."""
        return self.refusal(core, event) is None

    def announced_entry(self, core, event):
        return Entry((event.worker, core.workers[event.worker].announced), event.tenant, event.command)

    def with_entry(self, entries, entry):
        return with_at(entries, entry.ticket[0], entries[entry.ticket[0]] + (entry,))

    def step(self, core, event):
        """The next core and the reply, or `None`."""
        if not self.is_enabled(core, event):
            return None
        number, worker = event.worker, core.workers[event.worker]
        if event.kind == "replay":
            return self.replay(core, number)
        if event.kind == "announce":
            core = core._replace(entries=self.with_entry(core.entries, self.announced_entry(core, event)))
            is_now = self.announce(worker)
        elif event.kind == "read":
            is_now = self.read(number, at(core.decided, len(worker.learned)), worker)
        elif event.kind == "look":
            helped = self.turn(core, worker)
            is_now = self.look(helped, core.workers[helped].announced, worker, core)
        elif event.kind == "propose":
            is_now = self.propose(number, at(core.decided, len(worker.learned)), worker)
            core = core._replace(decided=self.decided_with(self.proposal(number, worker), core, len(worker.learned)))
        else:
            is_now = self.stop(worker)
        return core._replace(workers=with_at(core.workers, number, is_now)), None

    def replay(self, core, number):
        replay = core.replays[number]
        entry = self.entry_at(core, replay.replayed)
        tables = self.take_effect(number, entry, replay.tables)
        replays = with_at(core.replays, number, Replay(replay.replayed + 1, tables))
        return core._replace(replays=replays), self.reply_from(number, replay.tables, entry)

    def next_state(self, table, command):
        return table.after(command)[0]

    def state_after(self, quotas, commands):
        table = Table(*quotas)
        for command in commands:
            table = self.next_state(table, command)
        return table

    def answer(self, quotas, commands, command):
        return self.state_after(quotas, commands).after(command)[1]

    def own_command(self, tenant, entry):
        return entry.command if entry is not None and entry.tenant == tenant else None

    def own(self, tenant, log):
        found = (self.own_command(tenant, entry) for entry in log)
        return tuple(command for command in found if command is not None)

    def take_effect(self, number, entry, tables):
        taken = ((table, self.own_command(tenant, entry)) for tenant, table in enumerate(tables))
        return tuple(table if command is None else self.next_state(table, command) for table, command in taken)

    def reply_from(self, number, tables, entry):
        if entry is None or entry.ticket[0] != number or entry.tenant >= len(tables):
            return None
        return tables[entry.tenant].after(entry.command)[1]

    def new_core(self, workers, places, openings):
        opened = Replay(0, tuple(Table(*quotas) for quotas in openings))
        return Core(places, openings, (), (Worker(),) * workers, ((),) * workers, (opened,) * workers)

    def entry_under(self, core, ticket):
        announced = at(core.entries, ticket[0])
        return None if announced is None else at(announced, ticket[1])

    def entry_at(self, core, place):
        ticket = at(core.decided, place)
        return None if ticket is None else self.entry_under(core, ticket)

    def log_of(self, core):
        return tuple(self.entry_under(core, ticket) for ticket in core.decided)

    def given_by(self, core, event, reply):
        return () if reply is None else ((event.worker, core.replays[event.worker].replayed, reply),)
