"""What mc_schedule must print for an event list: the replies, the log and the workers, or why the list is bad.

The replies come from one table for each tenant, changed in the order of the log, and have to be those of the workers' own replays too.
"""

from collections import namedtuple

from .core import FULL, IDLE, PENDING, TRANSITIONS, Definitions, Event
from .table import Table

LONGEST_INPUT = 1 << 20
HALF_WORD, WORD = (1 << 32) - 1, (1 << 64) - 1
RANGES = {"workers": 16, "places": 1 << 20, "items": 1 << 20, "bytes": 1 << 30}

STORES = (b"set", b"add", b"replace", b"append", b"prepend")
COUNTERS, READERS = (b"incr", b"decr"), (b"get", b"gets")
COMMANDS = STORES + COUNTERS + READERS + (b"cas", b"delete", b"flush_all", b"limit")
SINGLE = tuple(kind.encode() for kind in TRANSITIONS)

Line = namedtuple("Line", "number event")
Expected = namedtuple("Expected", "replies report errors status steps")


class BadLine(Exception):
    """A line of another form."""


def number(word, limit):
    """The value of one or more decimal digits."""
    digits = word.lstrip(b"0") or b"0"
    if not word.isdigit() or len(digits) > 20 or int(digits) > limit:
        raise BadLine("number too large" if word.isdigit() else "no number")
    return int(digits)


def key(word):
    """A key has 1 to 250 bytes, none of them a control byte."""
    if len(word) > 250 or any(byte <= 32 or byte == 127 for byte in word):
        raise BadLine("key too long" if len(word) > 250 else "byte in a key")
    return word


def quota(name):
    """A quota is a number from 1 to the greatest of its name."""

    def read(word):
        value = number(word, RANGES[name])
        if value < 1:
            raise BadLine("quota of 0")
        return value

    return read


def data(word):
    """Data are a word of printable bytes; a point means none."""
    if any(not 33 <= byte <= 126 for byte in word):
        raise BadLine("byte in data")
    return b"" if word == b"." else word


# The fields of a command: a key, flags, a number (unique or delta), data, or a quota of items or bytes. Readers have any number of keys.
FIELDS = {"k": key, "f": lambda word: number(word, HALF_WORD), "n": lambda word: number(word, WORD), "d": data}
FIELDS.update(i=quota("items"), b=quota("bytes"))
FORMS = {b"cas": "kfnd", b"incr": "kn", b"decr": "kn", b"delete": "k", b"flush_all": "", b"limit": "ib", **dict.fromkeys(STORES, "kfd")}


def form_of(name, count):
    """The letters of a command's fields, of which there are this many where it reads; `None` where there is no such command."""
    return "k" * max(count, 1) if name in READERS else FORMS.get(name)


def command(words):
    """The command of some words, as the table takes it."""
    name, form = words[0], form_of(words[0], len(words) - 1)
    if form is None or len(form) != len(words) - 1:
        raise BadLine("no such command" if form is None else "fields of a command")
    fields = [FIELDS[letter](word) for letter, word in zip(form, words[1:])]
    if name in READERS:
        return name, tuple(fields)
    if name in STORES:
        return name, *fields, 0
    if name == b"cas":
        word, flags, unique, content = fields
        return name, word, flags, content, unique
    return name, *fields


def event(words):
    """The event of a line, which may be a whole submit."""
    announces = words[0] in (b"submit", b"announce")
    if not announces and words[0] not in SINGLE:
        raise BadLine("no such event")
    if len(words) < 4 if announces else len(words) != 2:
        raise BadLine("fields of an event")
    kind, who = words[0].decode(), number(words[1], 255)
    return Event(kind, who, number(words[2], 255), command(words[3:])) if announces else Event(kind, who)


def take(opening, lines, at, words):
    """Reads a line that has words, after the numbers of the opening lines, the core's first, and the lines read so far."""
    if words[0] in (b"core", b"tenant") or not opening:
        if words[0] != (b"tenant" if opening else b"core") or lines or len(words) != 3:
            raise BadLine("words of an opening line" if len(words) != 3 else "opening line out of place")
        opening.append((number(words[1], WORD), number(words[2], WORD)))
        if len(opening) > 65:
            raise BadLine("65th tenant")
    elif len(opening) == 1:
        raise BadLine("event before the tenants")
    else:
        lines.append(Line(at, event(words)))


def out_of_range(opening):
    """The first number of the opening lines that is out of range, if any."""
    names = ("workers", "places") + ("items", "bytes") * (len(opening) - 1)
    values = (value for line in opening for value in line)
    return next((name for name, value in zip(names, values) if not 1 <= value <= RANGES[name]), None)


def read_list(text):
    """The numbers of the opening lines, the lines with events, and the number of a bad line with what is wrong with it."""
    opening, lines = [], []
    if len(text) > LONGEST_INPUT:
        return opening, lines, (0, "0, input too long")
    for at, content in enumerate(text.split(b"\n"), 1):
        words = [word for word in content.split(b" ") if word]
        if words and not content.startswith(b"#"):
            try:
                take(opening, lines, at, words)
            except BadLine as bad:
                return opening, lines, (at, str(bad))
    return opening, lines, None if len(opening) > 1 else (0, "0, no tenants")


# How each byte of a reply is printed.
PRINTED = [b"%c" % byte if 32 <= byte <= 126 else b"\\x%02x" % byte for byte in range(256)]
PRINTED[13], PRINTED[10], PRINTED[92] = b"\\r", b"\\n", b"\\\\"


class Machine:
    """A core that runs the events of a list, and the reply of each decided place. `counts` notes what the list reaches."""

    def __init__(self, opening, counts):
        (workers, places), *tenants = opening
        self.definitions = Definitions()
        self.core = self.definitions.new_core(workers, places, tuple(tenants))
        self.tables = [Table(*quotas) for quotas in tenants]
        self.answers, self.replies, self.steps, self.counts = [], [], 0, counts

    def refused(self, event):
        """Why a transition isn't enabled, or `None`."""
        return self.definitions.refusal(self.core, event)

    def step(self, event):
        """Takes one transition; the text of its fault if it isn't enabled."""
        why = self.refused(event)
        fault = b"log full" if why == FULL and event.kind != "read" else b"event not enabled"
        self.counts["event %s: %s" % (event.kind, fault.decode() + ", " + why if why else "enabled")] += 1
        if why:
            return fault
        self.steps += 1
        old, (self.core, reply) = self.core, self.definitions.step(self.core, event)
        if len(self.core.decided) > len(old.decided):
            entry = self.definitions.entry_at(self.core, len(old.decided))
            self.answers.append(self.tables[entry.tenant].answer(entry.command))
        self.note(old, event)
        if reply is not None:
            self.give(event.worker, old.replays[event.worker].replayed, reply)
        return None

    def note(self, old, event):
        """Counts what a transition reached."""
        was, now = old.workers[event.worker], self.core.workers[event.worker]
        if event.kind == "stop":
            self.counts["stop of a worker that is " + was.phase] += 1
        elif event.kind == "read" and was.phase == PENDING and now.phase == IDLE:
            self.counts["read of one's own command, placed by another"] += 1
        elif event.kind == "propose":
            ticket, placed = self.definitions.proposal(event.worker, was), self.core.decided[len(was.learned)]
            is_empty = len(was.learned) == len(old.decided)
            end = "placed" if is_empty else "was there already" if placed == ticket else "met another"
            is_own = ticket == (event.worker, was.announced - 1)
            whose = "own command" if is_own else "command of a worker that is " + self.core.workers[ticket[0]].phase
            self.counts["propose %s: %s" % (whose, end)] += 1

    def give(self, who, place, reply):
        """Notes the reply to a command of a worker's own."""
        assert reply == self.answers[place], "the oracle's replicas and its tables differ"
        self.replies.append(b"reply %d %d %s\n" % (who, place, b"".join(PRINTED[byte] for byte in reply)))
        first = reply.split(b"\r\n")[0].decode("latin-1")
        kind = "a number" if first.isdigit() else "values" if first.startswith("VALUE") else first
        name = self.definitions.entry_at(self.core, place).command[0].decode()
        self.counts["reply to %s: %s" % (name, kind)] += 1

    def run(self, event):
        """Runs the event of a line; the text of the fault if it meets one."""
        return self.submit(event) if event.kind == "submit" else self.step(event)

    def submit(self, event):
        """Announces a command, brings it into the log and replays it."""
        who = event.worker
        fault = self.step(event._replace(kind="announce"))
        while not fault and self.reads(who):
            fault = self.step(Event("read", who))
        while not fault and self.core.workers[who].phase != IDLE:
            fault = self.step(Event("look", who)) or self.step(Event("propose", who))
        while not fault and self.core.replays[who].replayed < len(self.core.workers[who].learned):
            fault = self.step(Event("replay", who))
        self.counts["event submit: %s" % (fault.decode() if fault else "done")] += 1
        return fault

    def reads(self, who):
        """Whether a submit has to read on: the worker has no mark yet, and there are places left."""
        worker = self.core.workers[who]
        return worker.phase == PENDING and worker.mark is None and len(worker.learned) < self.core.places

    def report(self, fault):
        """The fault if there is one, the log and the workers."""
        core = self.core
        lines = ([fault] if fault else []) + [b"log" + b"".join(b" (%d,%d)" % ticket for ticket in core.decided)]
        for who, (worker, replay) in enumerate(zip(core.workers, core.replays)):
            figures = who, worker.phase.encode(), len(worker.learned), replay.replayed, worker.proposals
            lines.append(b"worker %d %s learned %d replayed %d proposals %d" % figures)
            self.counts["phase at the end: " + worker.phase] += 1
        self.counts["log at the end: " + ("full" if len(core.decided) == core.places else "with room")] += 1
        return b"".join(line + b"\n" for line in lines)


def expected(text, counts):
    """What the program must print for a list; counts what the list reaches."""
    opening, lines, bad = read_list(text)
    settings = out_of_range(opening)
    if bad:
        counts["bad line%s: %s" % (" and bad settings" if settings else "", bad[1])] += 1
        return Expected(b"", b"", b"mc_schedule: line %d: bad line\n" % bad[0], 2, None)
    if settings:
        counts["bad settings: " + settings] += 1
        return Expected(b"", b"", b"mc_schedule: bad settings\n", 2, None)
    machine, fault = Machine(opening, counts), None
    for line in lines:
        fault = machine.run(line.event)
        if fault:
            counts["fault"] += 1
            fault = b"fault %d %s" % (line.number, fault)
            break
    return Expected(b"".join(machine.replies), machine.report(fault), b"", 1 if fault else 0, machine.steps)
