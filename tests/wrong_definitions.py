#!/usr/bin/env python3
"""Which law each wrong definition of the shared log breaks: the table of docs/QUESTIONS.md.

The definitions are those of oracle/core.py, one method each, and the laws are tests of a run. A wrong definition replaces a method, so that
code and definition are wrong alike. It is taken through random runs of small cores, and the names of the laws that turn out false are
printed. That none is false on these runs proves nothing; that one is false shows that it can't be proved. The right definitions must break
no law, each of the `WRONG` ones at least one, and the `EQUAL` ones none. The last line is 'N passed, M failed'.
"""

import dataclasses
import random
import sys

from oracle.core import FULL, IDLE, LOOKED, PENDING, STOPPED, Definitions, Entry, Event, Worker, at, with_at
from oracle.protocol import NOT_STORED, OK, STORED
from oracle.table import Table

SET, ADD, GETS, FLUSH = (b"set", b"a", 0, b"x", 0), (b"add", b"a", 0, b"x", 0), (b"gets", (b"a",)), (b"flush_all",)
TIGHT, ROOMY = (b"limit", 1, 1), (b"limit", 2, 50)
COMMANDS = [SET, ADD, GETS, FLUSH, TIGHT, ROOMY]
QUOTAS = [(1, 100), (2, 100)]
RUNS, EVENTS = 60, 40


class Run:
    """A run of some definitions, with the laws that were false on it."""

    def __init__(self, definitions, settings):
        self.it, self.settings = definitions, settings
        self.core = definitions.new_core(*settings)
        self.events, self.given, self.stopped, self.waiting, self.broken = [], (), {}, [], set()

    def wants(self, holds, law):
        if not holds:
            self.broken.add(law)

    def take(self, event):
        """Takes the event, where it leads on."""
        stepped, free = self.it.step(self.core, event), self.it.refusal(self.core, event) is None
        self.wants(stepped is None or free, "events_lead_one_way: enabled")
        self.wants(stepped is not None or not free, "events_lead_one_way: on")
        if stepped is None:
            return False
        old, (self.core, reply) = self.core, stepped
        if event.kind == "announce":
            self.waiting.append(((event.worker, old.workers[event.worker].announced), len(old.decided)))
        self.wants(event.worker not in self.stopped, "laws: stopped")
        self.given += self.it.given_by(old, event, reply)
        self.events.append(event)
        self.look_at_step(old, event)
        if event.kind == "stop":
            self.stopped[event.worker] = self.replica(event.worker)
        for law in (self.look_at_log, self.look_at_replicas, self.look_at_replies, self.look_at_workers, self.look_at_events):
            law()
        return True

    def replica(self, number):
        return self.core.workers[number], self.core.replays[number]

    def look_at_step(self, old, event):
        for number in range(len(old.workers)):
            if number != event.worker:
                self.wants(self.replica(number) == (old.workers[number], old.replays[number]), "events_lead_one_way: alone")
        was, now = len(old.workers[event.worker].learned), len(self.core.workers[event.worker].learned)
        if event.kind == "propose" or event.kind == "read" and was < len(old.decided):
            self.wants(now == was + 1, "events_lead_one_way: learns")
        self.wants(all(self.replica(number) == kept for number, kept in self.stopped.items()), "laws: stopped")

    def look_at_free(self):
        """What a worker may do rests on itself alone."""
        for number, worker in enumerate(self.core.workers):
            room = len(worker.learned) < self.core.places
            may = {
                "announce": worker.phase == IDLE and room,
                "read": worker.phase in (IDLE, PENDING) and room,
                "look": worker.phase == PENDING and room and worker.mark is not None,
                "propose": worker.phase == LOOKED,
                "replay": worker.phase != STOPPED and self.core.replays[number].replayed < len(worker.learned),
                "stop": worker.phase != STOPPED,
            }
            for kind, free in may.items():
                refusal = self.it.refusal(self.core, Event(kind, number, 0, GETS))
                self.wants(not free or refusal is None, "events_lead_one_way: free")
                if kind == "announce" and worker.phase == IDLE and not room:
                    self.wants(refusal == FULL, "events_lead_one_way: free")

    def look_at_log(self):
        it, core = self.it, self.core
        self.wants(len(set(core.decided)) == len(core.decided), "laws: once")
        self.wants(it.is_legal(core.decided), "laws: once")
        for ticket in core.decided:
            entry = it.entry_under(core, ticket)
            self.wants(entry is not None and entry.ticket == ticket and entry.tenant < len(core.openings), "laws: once")
        for ticket, decided in self.waiting:
            end = decided + len(core.workers) + 1
            self.wants(len(core.decided) < end or it.stands_before(end, ticket, core.decided), "laws: helped")

    def seen(self, number, many):
        return [(ticket, self.it.entry_under(self.core, ticket)) for ticket in self.core.workers[number].learned][:many]

    def look_at_replicas(self):
        it, core = self.it, self.core
        for number, replay in enumerate(core.replays):
            self.wants(replay.replayed <= len(core.workers[number].learned), "laws: tables")
            log = [entry for _, entry in self.seen(number, replay.replayed)]
            for tenant, quota in enumerate(core.openings):
                self.wants(at(replay.tables, tenant) == it.state_after(quota, it.own(tenant, log)), "laws: tables")
            for other, others in enumerate(core.replays):
                if replay.replayed <= others.replayed:
                    self.wants(self.seen(number, replay.replayed) == self.seen(other, replay.replayed), "laws: replicas")
                if replay.replayed == others.replayed:
                    self.wants(replay.tables == others.tables, "laws: replicas")

    def look_at_replies(self):
        it, core, log = self.it, self.core, self.it.log_of(self.core)
        for worker, place, reply in self.given:
            entry = at(log, place)
            is_there = entry is not None and entry.ticket == core.decided[place] and entry.ticket[0] == worker
            self.wants(is_there and entry.tenant < len(core.openings), "laws: replies")
            if is_there and entry.tenant < len(core.openings):
                before = it.own(entry.tenant, log[:place])
                self.wants(reply == it.answer(core.openings[entry.tenant], before, entry.command), "laws: replies")
        answered = {(worker, place) for worker, place, _ in self.given}
        for number, replay in enumerate(core.replays):
            for place in range(min(replay.replayed, len(core.decided))):
                self.wants(core.decided[place][0] != number or (number, place) in answered, "laws: answered")

    def look_at_workers(self):
        it, core, count = self.it, self.core, len(self.core.workers)
        lawful, helping = "shown_states: lawful", "shown_states: helping"
        self.wants(len(core.decided) <= core.places, lawful)
        self.wants(all(number < core.workers[worker].announced for worker, number in core.decided), lawful)
        for number, worker in enumerate(core.workers):
            known, learned = it.count(number, worker.learned), len(worker.learned)
            self.wants(core.decided[:learned] == worker.learned, lawful)
            self.wants(worker.phase != IDLE or known == worker.announced, lawful)
            self.wants(worker.phase not in (PENDING, LOOKED) or known + 1 == worker.announced, lawful)
            self.wants(worker.phase != LOOKED or learned < core.places and worker.mark is not None, lawful)
            if worker.phase == LOOKED and worker.look is not None:
                helped, looked_up = worker.look
                self.wants(looked_up < core.workers[helped].announced and looked_up == it.count(helped, worker.learned), lawful)
            self.wants(worker.proposals <= count + 1, lawful)
            if known < worker.announced and worker.mark is None:
                self.wants(worker.proposals == 0, helping)
            elif known < worker.announced:
                self.wants(worker.proposals + worker.mark <= learned, helping)
                self.wants(self.is_helped((number, worker.announced - 1), worker.mark), helping)

    def is_helped(self, ticket, mark):
        it, core, count = self.it, self.core, len(self.core.workers)
        decided = all(
            it.stands_before(place + 1, ticket, core.decided)
            for place in range(mark + 1, len(core.decided))
            if place % count == ticket[0]
        )
        looks = all(
            worker.look == ticket or it.stands_before(len(worker.learned), ticket, core.decided)
            for worker in core.workers
            if worker.phase == LOOKED and len(worker.learned) > mark and len(worker.learned) % count == ticket[0]
        )
        return decided and looks

    def look_at_events(self):
        core, (count, places, openings) = self.core, self.settings
        self.look_at_free()
        self.wants((len(core.workers), core.places, core.openings) == (count, places, openings), "runs_do_what_is_asked: settings")
        for number in range(len(core.workers)):
            mine = [event for event in self.events if event.worker == number]
            asked = [(event.tenant, event.command) for event in mine if event.kind == "announce"]
            found = [self.it.entry_under(core, (number, k)) for k in range(len(asked) + 1)]
            stand = [entry and (entry.tenant, entry.command) for entry in found] == asked + [None]
            self.wants(stand and core.workers[number].announced == len(asked), "runs_do_what_is_asked: announced")
            replays = sum(event.kind == "replay" for event in mine)
            self.wants(core.replays[number].replayed == replays, "runs_do_what_is_asked: replayed")
            last = max((place for place, event in enumerate(mine) if event.kind == "announce"), default=0)
            proposals = sum(event.kind == "propose" for event in mine[last:])
            self.wants(proposals <= count + 1, "runs_do_what_is_asked: proposed")

    def note_replies(self, worlds):
        """Notes each reply under all that it may rest on; another run's must be the same."""
        it, core, log = self.it, self.core, self.it.log_of(self.core)
        for _, place, reply in self.given:
            entry = at(log, place)
            if entry is not None and entry.tenant < len(core.openings):
                upto = it.own(entry.tenant, log)[: len(it.own(entry.tenant, log[:place])) + 1]
                self.wants(worlds.setdefault((core.openings[entry.tenant], upto), reply) == reply, "two_worlds")


NAMED = {"": (), "get": GETS, "flush": FLUSH}


def row(definitions, settings, text):
    """The run of some events, or `None` where an event isn't enabled."""
    run = Run(definitions, settings)
    words = (line.split() for line in text.split(","))
    events = [Event(kind, int(worker), int((more + ["0"])[0]), NAMED[(more + ["", ""])[1]]) for kind, worker, *more in words]
    return run if all(run.take(event) for event in events) else None


def broken_rows(definitions):
    """The rows of uc_core/proofs."""
    broken = set()
    helped = row(definitions, (2, 8, tuple(QUOTAS[:1])), "announce 0 0 get,stop 0,announce 1 0 get,read 1,look 1,propose 1,look 1,propose 1")
    waiting = Worker(STOPPED, 1)
    done = Worker(IDLE, 1, ((0, 0), (1, 0)), 0, None, 2)
    if helped is None or helped.core.workers != (waiting, done):
        broken.add("row: helped_after_stop")
    text = "announce 0 0 flush,announce 1 1 get,read 1,look 1,propose 1,look 1,propose 1,replay 1,replay 1,read 0,replay 0,stop 0"
    both = row(definitions, (2, 4, tuple(QUOTAS)), text)
    if both is None or both.given != ((1, 1, b"END\r\n"), (0, 0, OK)) or both.core.decided != ((0, 0), (1, 0)):
        broken.add("row: two_are_answered")
    if definitions.is_legal(((0, 0), (0, 0))):
        broken.add("row: twice_is_not_legal")
    if definitions.stands_before(1, (0, 0), ((1, 0), (0, 0))):
        broken.add("row: not_before_its_own_place")
    return broken


def broken_logs(definitions, rng):
    """The laws of mc_laws on logs and on the order of commands."""
    broken = set()
    for _ in range(100):
        log = [rng.choice([None, Entry((0, 0), rng.randrange(3), rng.choice(COMMANDS))]) for _ in range(rng.randrange(6))]
        tenant, cut = rng.randrange(3), rng.randrange(len(log) + 1)
        entry = rng.choice([None, Entry((0, 0), rng.randrange(3), rng.choice(COMMANDS))])
        front, back = log[:cut], log[cut:]
        mine = (entry.command,) if entry is not None and entry.tenant == tenant else ()
        parts = definitions.own(tenant, front) + mine + definitions.own(tenant, back)
        if definitions.own(tenant, front + [entry] + back) != (parts if mine else definitions.own(tenant, front + back)):
            broken.add("mc_laws: own_entries_alone_count")
        commands = [rng.choice(COMMANDS) for _ in range(rng.randrange(5))]
        was, command = definitions.state_after(QUOTAS[0], commands), rng.choice(COMMANDS)
        then, reply = was.after(command)
        now = definitions.state_after(QUOTAS[0], commands + [command])
        if now != dataclasses.replace(then, changes=was.changes + (reply == STORED)):
            broken.add("mc_laws: commands_act_in_order")
        if command[0] == b"limit" and now != dataclasses.replace(was, most_items=command[1], most_bytes=command[2]):
            broken.add("mc_laws: quotas_are_those_set_last")
    return broken


def broken_by(definitions):
    """The laws and rows that are false of these definitions."""
    rng, worlds = random.Random(1991), {}
    broken = broken_rows(definitions) | broken_logs(definitions, rng)
    for _ in range(RUNS):
        tenants = tuple(rng.choice(QUOTAS) for _ in range(rng.randint(1, 2)))
        run = Run(definitions, (rng.randint(1, 3), rng.randint(2, 7), tenants))
        for _ in range(EVENTS):
            workers = range(len(run.core.workers) + 1)
            asked = [Event(kind, worker) for worker in workers for kind in ("read", "look", "propose", "replay")]
            asked += [Event("announce", worker, rng.randint(0, len(tenants)), rng.choice(COMMANDS)) for worker in workers]
            asked += [Event("stop", worker) for worker in workers if rng.random() < 0.05]
            rng.shuffle(asked)
            if not any(run.take(event) for event in asked):
                break
        run.note_replies(worlds)
        broken |= run.broken
    return broken


WRONG, EQUAL = {}, {}


def wrong(name, **methods):
    WRONG[name] = type("Wrong", (Definitions,), methods)


def equal(name, **methods):
    EQUAL[name] = type("Equal", (Definitions,), methods)


def allows(kind, condition):
    """The conditions, with another one for events of this kind."""

    def conditions(self, core, event, worker, replay):
        if event.kind == kind:
            return [(event.kind != "announce" or event.tenant < len(core.openings), "bad"), (condition(core, worker, replay), "bad")]
        return Definitions.conditions(self, core, event, worker, replay)

    return conditions


def forbids(condition):
    """The conditions, with one more for each event."""
    return lambda self, core, event, worker, replay: [(condition(event), "bad")] + Definitions.conditions(
        self, core, event, worker, replay
    )


def with_refused_changes(table, reply):
    return dataclasses.replace(table, changes=table.changes + (reply == NOT_STORED))


def after_limit(change):
    """A step of a table after which a command that sets quotas has this effect too, given the table before it."""

    def next_state(self, table, command):
        now = RIGHT.next_state(table, command)
        return change(table, now) if command[0] == b"limit" else now

    return next_state


def with_limits_at_once(self, core, event):
    """A step by which quotas are set at the announcement, in all workers' tables, and not by the log."""
    if event.kind != "announce" or event.command[0] != b"limit" or not self.is_enabled(core, event):
        return RIGHT.step(core, event)
    stepped, reply = RIGHT.step(core, event)
    quotas = dict(zip(("most_items", "most_bytes"), event.command[1:]))

    def limited(replay):
        tables = [dataclasses.replace(table, **quotas) if tenant == event.tenant else table for tenant, table in enumerate(replay.tables)]
        return replay._replace(tables=tuple(tables))

    return stepped._replace(replays=tuple(limited(replay) for replay in stepped.replays)), reply


def has_room(core, worker):
    return len(worker.learned) < core.places


def looks(places, found):
    """A look that counts the tickets of these places, and finds by how many are known there and how many are announced."""

    def look(self, helped, announced, worker, core):
        known = self.count(helped, places(core, worker))
        return worker._replace(phase=LOOKED, look=found(helped, known, announced))

    return look


def learned(core, worker):
    return worker.learned


def decided(core, worker):
    return core.decided


RIGHT = Definitions()

wrong("turn: the place and one", turn=lambda self, core, worker: (len(worker.learned) + 1) % len(core.workers))
wrong("turn: always worker 0", turn=lambda self, core, worker: 0)
wrong("look: nobody is found", look=looks(learned, lambda helped, known, announced: None))
wrong("look: counts the whole log", look=looks(decided, lambda helped, known, announced: (helped, known) if known < announced else None))
wrong("look: one too high", look=looks(learned, lambda helped, known, announced: (helped, known + 1) if known < announced else None))
wrong("look: what isn't announced", look=looks(learned, lambda helped, known, announced: (helped, known) if known <= announced else None))
wrong("mark: moves", marked=lambda self, phase, mark, place: place if phase == PENDING else mark)
wrong("mark: one too low", marked=lambda self, phase, mark, place: max(0, place - 1) if phase == PENDING and mark is None else mark)
wrong("announce: keeps the mark", announce=lambda self, worker: RIGHT.announce(worker)._replace(mark=worker.mark))
wrong("announce: keeps the proposals", announce=lambda self, worker: RIGHT.announce(worker)._replace(proposals=worker.proposals))
wrong("announce: counts two", announce=lambda self, worker: RIGHT.announce(worker)._replace(announced=worker.announced + 2))
wrong(
    "announce: while one waits",
    conditions=allows("announce", lambda core, worker, replay: worker.phase in (IDLE, PENDING) and has_room(core, worker)),
)
wrong("announce: at a full log", conditions=allows("announce", lambda core, worker, replay: worker.phase == IDLE))
wrong("read: after a look", conditions=allows("read", lambda core, worker, replay: worker.phase != STOPPED and has_room(core, worker)))
wrong(
    "read: by a stopped worker",
    conditions=allows("read", lambda core, worker, replay: worker.phase != LOOKED and has_room(core, worker)),
)
wrong("read: learns nothing", read=lambda self, number, found, worker: worker if found else RIGHT.read(number, found, worker))
wrong(
    "read: learns its own alone",
    read=lambda self, number, found, worker: worker if found and found[0] != number else RIGHT.read(number, found, worker),
)
wrong("look: without a mark", conditions=allows("look", lambda core, worker, replay: worker.phase == PENDING and has_room(core, worker)))
wrong("look: without room", conditions=allows("look", lambda core, worker, replay: worker.phase == PENDING and worker.mark is not None))
wrong("proposal: its own always", proposal=lambda self, number, worker: (number, max(0, worker.announced - 1)))
wrong(
    "propose: keeps the look",
    propose=lambda self, number, found, worker: RIGHT.propose(number, found, worker)._replace(look=worker.look),
)
wrong(
    "propose: isn't counted",
    propose=lambda self, number, found, worker: RIGHT.propose(number, found, worker)._replace(proposals=worker.proposals),
)
wrong(
    "propose: learns nothing",
    propose=lambda self, number, found, worker: RIGHT.propose(number, found, worker)._replace(phase=PENDING, learned=worker.learned),
)
wrong("decide: overwrites", decided_with=lambda self, proposal, core, place: core.decided[:place] + (proposal,) + core.decided[place + 1 :])
wrong("decide: drops", decided_with=lambda self, proposal, core, place: core.decided)
wrong("learn: never idle", is_latest=lambda self, number, worker, ticket: False)
wrong("stop: does nothing", stop=lambda self, worker: worker)
wrong("stop: is idle", stop=lambda self, worker: worker._replace(phase=IDLE))
wrong("stop: forgets what was learned", stop=lambda self, worker: worker._replace(phase=STOPPED, learned=()))
wrong("replay: by a stopped worker", conditions=allows("replay", lambda core, worker, replay: replay.replayed < len(worker.learned)))
wrong(
    "replay: beyond what is learned",
    conditions=allows("replay", lambda core, worker, replay: worker.phase != STOPPED and replay.replayed < len(core.decided)),
)
wrong("replay: does nothing", replay=lambda self, core, number: (core, None))
wrong("replay: the tables stay", take_effect=lambda self, number, entry, tables: tables)
wrong(
    "replay: two tenants' tables swapped for workers above 0",
    take_effect=lambda self, number, entry, tables: RIGHT.take_effect(
        number, entry and entry._replace(tenant=1 - entry.tenant) if number and len(tables) == 2 else entry, tables
    ),
)
wrong("reply: none", reply_from=lambda self, number, tables, entry: None)
wrong(
    "reply: to others' commands",
    reply_from=lambda self, number, tables, entry: entry and RIGHT.reply_from(entry.ticket[0], tables, entry),
)
wrong(
    "reply: after the command",
    reply_from=lambda self, number, tables, entry: RIGHT.reply_from(number, RIGHT.take_effect(number, entry, tables), entry),
)
wrong(
    "reply: from the opening tables",
    reply_from=lambda self, number, tables, entry: RIGHT.reply_from(number, tuple(Table(table.most_items, table.most_bytes) for table in tables), entry),
)
wrong("limit: drops the items", next_state=after_limit(lambda was, now: dataclasses.replace(now, items={}, size=0)))
wrong("limit: takes a unique", next_state=after_limit(lambda was, now: dataclasses.replace(now, changes=now.changes + 1)))
wrong("limit: keeps the old quotas", next_state=after_limit(lambda was, now: was))
wrong("limit: outside the log, for all workers at once", step=with_limits_at_once)
wrong(
    "reply: given under worker 0",
    given_by=lambda self, core, event, reply: tuple((0, place, it) for _, place, it in RIGHT.given_by(core, event, reply)),
)
wrong(
    "reply: given under the place after",
    given_by=lambda self, core, event, reply: tuple((who, place + 1, it) for who, place, it in RIGHT.given_by(core, event, reply)),
)
wrong("announced: under tenant 0 always", announced_entry=lambda self, core, event: RIGHT.announced_entry(core, event)._replace(tenant=0))
wrong("announced: a flush always", announced_entry=lambda self, core, event: RIGHT.announced_entry(core, event)._replace(command=FLUSH))
wrong(
    "announced: over the commands before",
    with_entry=lambda self, entries, entry: (
        with_at(entries, entry.ticket[0], tuple(was._replace(command=entry.command) for was in entries[entry.ticket[0]]) + (entry,))
    ),
)
wrong("announced: in front", with_entry=lambda self, entries, entry: with_at(entries, entry.ticket[0], (entry,) + entries[entry.ticket[0]]))
wrong("entry: of the number before", entry_under=lambda self, core, ticket: RIGHT.entry_under(core, (ticket[0], max(0, ticket[1] - 1))))
wrong("opening: one worker", new_core=lambda self, workers, places, openings: RIGHT.new_core(1, places, openings))
wrong("opening: one place", new_core=lambda self, workers, places, openings: RIGHT.new_core(workers, 1, openings))
wrong("opening: one tenant", new_core=lambda self, workers, places, openings: RIGHT.new_core(workers, places, openings[:1]))
wrong("events: of worker 0 alone", conditions=forbids(lambda event: event.worker == 0))
wrong("events: none", conditions=forbids(lambda event: False))
wrong("events: no replay", conditions=forbids(lambda event: event.kind != "replay"))
wrong("events: no proposal", conditions=forbids(lambda event: event.kind != "propose"))
wrong(
    "events: no proposal, and no fault",
    is_enabled=lambda self, core, event: event.kind != "propose" and self.refusal(core, event) is None,
)
wrong(
    "own: an absent entry is tenant 0's",
    own_command=lambda self, tenant, entry: FLUSH if entry is None and tenant == 0 else RIGHT.own_command(tenant, entry),
)
wrong("own: every tenant's", own_command=lambda self, tenant, entry: entry and entry.command)
wrong("own: backwards", own=lambda self, tenant, log: RIGHT.own(tenant, log)[::-1])
wrong("changes: of refused commands", next_state=lambda self, table, command: with_refused_changes(*table.after(command)))
wrong(
    "legal: at least the number",
    is_legal=lambda self, tickets: all(self.count(worker, tickets[:place]) >= number for place, (worker, number) in enumerate(tickets)),
)
wrong("before a place: up to it", stands_before=lambda self, end, ticket, tickets: ticket in tickets[: end + 1])

# Defined otherwise without a difference: what is changed is never looked at, or can't come.
equal("mark: of an idle worker", marked=lambda self, phase, mark, place: place if mark is None else mark)
equal("learn: idle at any ticket of its own", is_latest=lambda self, number, worker, ticket: ticket[0] == number)


def main():
    failed = 0
    everything = {"the definitions": Definitions, **EQUAL, **WRONG}
    for name, definitions in everything.items():
        broken = broken_by(definitions())
        failed += bool(broken) != (name in WRONG)
        print(f"{name}: {'; '.join(sorted(broken)) or 'nothing is false'}", flush=True)
    print(f"{len(everything) - failed} passed, {failed} failed")
    return 1 if failed else 0


if __name__ == "__main__":
    sys.exit(main())
