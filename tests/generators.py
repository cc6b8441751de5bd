"""Random input for the fuzzer and for the differential test: streams of requests, and event lists for mc_schedule."""

import random
from collections import Counter

from oracle import protocol
from oracle.core import Event
from oracle.schedule import COMMANDS, HALF_WORD, LONGEST_INPUT, RANGES, READERS, SINGLE, WORD, Machine, event, form_of

LARGE_SIZES = (4_096, 16_384, 65_536, 262_144, 1_048_575, 1_048_576, 1_048_577)
NUMBERS = (b"0", b"1", b"9", b"10", b"99", b"18446744073709551615", b"18446744073709551616", b"000007")
ODD_LINES = (
    b"", b"get", b"GET a", b"stats", b"touch a 0", b"quit now", b"version x", b"get a\tb", b"set a 0 0", b"set a 0 0 x", b"set a 0 0 -1", b"delete",
    b"delete a 1", b"delete a 0 0", b"delete a noreply 0", b"incr a", b"incr a x", b"incr a 1 quiet", b"decr a 18446744073709551616", b"flush_all x",
    b"flush_all 1", b"flush_all -1 noreply", b"flush_all 1 2", b"cas a 0 0 1", b"cas a 0 0 1 noreply", b"gets " + b"k" * 251, b"verbosity 1", b"\x00\x80",
    b"get " + b" ".join(b"k%d" % number for number in range(900)),
)  # fmt: skip


class StreamGenerator:
    """Generates requests over a few keys; with a prefix they belong to one connection, and none touches another's."""

    def __init__(self, chance, prefix=b""):
        self.random = chance
        self.prefix = prefix
        names = [b"a", b"b", b"n", b"counter", b"key-with-\x80\xff", b"long" + b"k" * (246 - len(prefix))]
        self.keys = [prefix + name for name in names]

    def key(self):
        return self.random.choice(self.keys)

    def data(self, most):
        """A block; those of one connection alone hold letters and digits alone, so that no line of theirs looks like a value's."""
        chance = self.random
        kind = chance.random()
        if kind < 0.3:
            return chance.choice(NUMBERS)
        if kind < 0.94 or most < 4_096:
            size = chance.randrange(0, 40)
        elif kind < 0.997:
            size = chance.randrange(0, min(most, 20_000))
        else:
            size = min(most, chance.choice(LARGE_SIZES))
        if self.prefix:
            return bytes(chance.choices(b"abcdefxyz0123456789", k=min(size, 64))) * (size // 64 + 1) if size else b""
        return chance.choice((b"\r\nEND\r\n", b"VALUE a 0 1\r\n", b"get a\r\n", b"")) + chance.randbytes(size)

    def quiet(self):
        return b" noreply" if self.random.random() < 0.15 else b""

    def storage(self, most):
        chance = self.random
        name = chance.choice((b"set", b"set", b"set", b"add", b"replace", b"append", b"prepend", b"cas"))
        if self.prefix and name == b"cas":
            name = b"set"  # uniques don't belong to one connection
        data = self.data(most)
        flags = chance.choice((b"0", b"7", b"4294967295", b"4294967296" if chance.random() < 0.1 else b"00"))
        expiry = chance.choice((b"0", b"0", b"0", b"0", b"-0", b"000", b"60" if chance.random() < 0.3 else b"0"))
        unique = b" %d" % chance.randrange(0, 40) if name == b"cas" else b""
        end = b"\r\n" if chance.random() < 0.98 else chance.choice((b"\n\n", b"xy", b"\r\r"))
        size = len(data) if chance.random() < 0.99 else max(0, len(data) + chance.choice((-1, 1, 2)))
        return b"%s %s %s %s %d%s%s\r\n%s%s" % (name, self.key(), flags, expiry, size, unique, self.quiet(), data, end)

    def reading(self):
        name = self.random.choice((b"get", b"gets"))
        count = self.random.choice((1, 1, 1, 2, 3, 8))
        return b"%s %s\r\n" % (name, b" ".join(self.key() for _ in range(count)))

    def other(self):
        chance = self.random
        kind = chance.random()
        if kind < 0.55:
            return b"%s %s %s%s\r\n" % (chance.choice((b"incr", b"decr")), self.key(), chance.choice(NUMBERS), self.quiet())
        if kind < 0.8:
            return b"delete %s%s%s\r\n" % (self.key(), chance.choice((b"", b" 0")), self.quiet())
        if kind < 0.9 and not self.prefix:
            return b"flush_all%s%s\r\n" % (chance.choice((b"", b" 0")), self.quiet())
        return b"version\r\n"

    def odd(self):
        line = self.random.choice(ODD_LINES)
        if self.prefix:
            line = self.random.choice((b"", b"stats", b"get", b"set a 0 0 x", b"incr a x", b"delete a 1", b"flush_all 1"))
        return line + self.random.choice((b"\r\n", b"\n"))

    def request(self, most):
        kind = self.random.random()
        if kind < 0.4:
            return self.storage(most)
        if kind < 0.75:
            return self.reading()
        return self.other() if kind < 0.94 else self.odd()

    def stream(self, count, most=protocol.MOST_OF_DATA):
        return b"".join(self.request(most) for _ in range(count))

    def show_all(self):
        return b"get %s\r\n" % b" ".join(self.keys)


def limit_lines(chance, name, count):
    """An administrator's lines, most of which set quotas of the tenant of this name."""

    def line():
        if chance.random() < 0.1:
            return chance.choice((b"", b"version", b"get a", b"limit", b"limit %s 1" % name, b"limit %s 1 1 1 1" % name, b"set a 0 0 1", b"limits a 1 1"))
        items = chance.choice((b"1", b"2", b"4", b"0005", b"1000", b"1048576") * 5 + (b"0", b"1048577", b"-1", b"x"))
        size = chance.choice((b"20", b"60", b"300", b"70000", b"1073741824") * 5 + (b"1073741825", b"0", b"1e3"))
        whose = name if chance.random() < 0.9 else chance.choice((b"nobody", b"A", b"", b"x" * 33, name + b"-"))
        return b"limit %s %s %s%s" % (whose, items, size, chance.choice((b"",) * 9 + (b" noreply",) * 3 + (b" quiet",)))

    return b"".join(line() + chance.choice((b"\r\n", b"\r\n", b"\n")) for _ in range(count))


def mutated(chance, stream):
    """The stream with some of its bytes changed, left out, repeated, moved or cut."""
    changed = bytearray(stream)
    for _ in range(chance.choice((1, 1, 2, 4, 8))):
        if not changed:
            break
        at, to = sorted((chance.randrange(len(changed)), chance.randrange(len(changed))))
        to = min(to, at + 200)
        kind = chance.randrange(7)
        if kind == 0:
            changed[at] = chance.choice((0, 10, 13, 32, 48, 57, 127, 255, chance.randrange(256)))
        elif kind == 1:
            del changed[at:to]
        elif kind == 2:
            changed[at:at] = changed[at:to]
        elif kind == 3:
            changed[at:at] = chance.choice((b"\r\n", b"\n", b" ", b"\x00", b" noreply", b"quit\r\n", b"0", b"get a\r\n", chance.randbytes(9)))
        elif kind == 4:
            changed += changed[at:to]
        elif kind == 5:
            del changed[at:]
        elif chance.random() < 0.1:
            changed[at:at] = b"x" * chance.choice((65_535, 65_536, 65_537, 70_000))
    return bytes(changed)


def pieces(chance, stream):
    """The stream in pieces, whole or by few bytes."""
    size = chance.choice((1, 7, 100, 1_460, 16_384, 1 << 20, 1 << 30))
    size = max(size, len(stream) // 3_000)
    at = 0
    while at < len(stream):
        step = size if chance.random() < 0.8 else chance.randrange(1, size + 1)
        yield stream[at : at + step]
        at += step


KEYS = (b"a", b"b", b"c", b"d", b"k" * 250, b"\x80\xff", b"k\\n", b"#", b".", b"0", b"!~")
FLAGS, DELTAS = (b"0", b"5", b"007", b"4294967295"), (b"0", b"1", b"9", b"90", b"18446744073709551615", b"018446744073709551606")
DIGITS = (b"0", b"9", b"10", b"99", b"007", b"18446744073709551615", b"00000000000000000001")
OTHERS = (b".", b"..", b"x", b"xyz", b"1a", b"-1", b"18446744073709551616", b"0" * 20 + b"1", b"a\\b\\", b"!~", b"\"%s'")
ITEMS, ROOMS = (1, 2, 2, 3, 4, 1 << 20), (1, 2, 3, 4, 6, 9, 22, 24, 40, 100, 530, 800, 1 << 30)
COMMENTS = (b"", b"", b"    ", b"#", b"# a comment", b"#core 1 1", b"#\r", b"#\x00\xff\x7f\t")
STRAY = (b"core 1 1", b"tenant 1 1", b"tenant 0 1", b"core 17 1", b"core", b"tenant", b"read 0", b" # no comment", b"\t# no comment")

# Words that fit few fields or none.
WORDS = (
    b"+0 -0 -1 1.0 0x1 1_0 . # \xd9\xa1 \xc2\xb2 \t \r \x00 \x0b 0\r \t0 \xc2\xa0 core tenant submit announce read Read READ look propose replay "
    b"stop jump get gets set SET Set cas delete incr decr flush_all limit version quit noreply add replace append prepend touch set\r a b 0 1 255 "
    b"256 000 0255 00000000000000000000000000255 36893488147419103232 99999999999999999999"
).split(b" ") + [b"9" * 5000, b"0" * 5000 + b"1", b"d" * 3000]


class ListGenerator:
    """Generates one event list, with a machine next to it, so that most events are enabled."""

    def __init__(self, seed):
        self.random = random.Random(seed)
        pick = self.pick = self.random.choice
        places = pick((1, 2, 3, 5, 8, 20, 40, 100, 300, 300)) if self.random.random() < 0.99 else 1 << 20
        self.opening = [(pick((1, 1, 2, 2, 2, 3, 3, 4, 5, 16)), places)]
        self.opening += [(pick(ITEMS), pick(ROOMS)) for _ in range(pick((1, 1, 1, 2, 2, 3) * 20 + (17, 40, 64)))]
        self.machine = Machine(self.opening, Counter())
        self.keys = self.random.sample(KEYS, pick((1, 1, 2, 3, 5)))
        self.commands = pick((COMMANDS, COMMANDS + (b"set",) * 4, self.random.sample(COMMANDS, 3) + [b"set"]))
        self.weights = [pick(choices) for choices in ((0, 1, 3), (1, 2, 6), (1, 2), (2, 4), (2, 4, 8), (0, 1, 4), (0, 0, 0.02, 0.2))]
        self.astray, self.loose = pick((0, 0, 0, 0.01, 0.05)), pick((0, 0, 0.05, 0.3))

    def draw_command(self, table):
        """The words of a command, for a table as it is."""
        pick, name = self.pick, self.pick(self.commands)
        likely = [b"%d" % unique for unique in [item[2] for item in table.items.values()] + [table.changes]]
        fields = {"k": self.keys, "f": FLAGS, "n": likely if name == b"cas" else DELTAS, "d": pick((DIGITS, DIGITS, OTHERS))}
        fields.update(i=[b"%d" % it for it in ITEMS], b=[b"%d" % it for it in ROOMS])
        return [name] + [pick(fields[letter]) for letter in form_of(name, pick((1, 2, 5)) if name in READERS else 0)]

    def draw_event(self):
        """The words of an event: an enabled one as a rule, else any."""
        astray, workers, tenants = self.random.random() < self.astray, len(self.machine.core.workers), len(self.machine.tables)
        for attempt in range(40):
            kind = self.random.choices((b"submit",) + SINGLE, self.weights)[0]
            who, tenant = self.random.randrange(workers), self.random.randrange(tenants)
            if (astray or attempt > 30) and self.random.random() < 0.3:
                who, tenant = self.pick(((workers, 0), (who, tenants), (255, 255), (who, 255)))
            announces = kind in (b"submit", b"announce")
            if astray or not self.machine.refused(Event("announce" if announces else kind.decode(), who, tenant)):
                break
        words = [b"%d" % tenant] + self.draw_command(self.machine.tables[tenant % tenants]) if announces else []
        return [kind, b"%d" % who] + words

    def lines(self):
        """The lines of a list without broken ones, each as its words."""
        made = [[b"tenant" if place else b"core", *(b"%d" % value for value in line)] for place, line in enumerate(self.opening)]
        left = self.pick((0, 3, 10, 40, 100, 200, 300))
        while left > 0:
            made.append(self.draw_event())
            left = min(left - 1, self.pick((0, 0, 3))) if self.machine.run(event(made[-1])) else left - 1
        return made

    def edge(self, letter):
        """A word at a border of a field: of a worker's or tenant's number w, or of a command's field."""
        limits = {"w": 255, "f": HALF_WORD, "n": WORD, "i": self.pick((0, RANGES["items"])), "b": self.pick((0, RANGES["bytes"]))}
        if letter in limits:
            return b"0" * self.pick((0, 0, 9)) + b"%d" % max(limits[letter] + self.pick((-1, 0, 1, 1)), 0)
        byte = b"%c" % self.pick((0, 1, 9, 11, 13, 31, 33, 126, 127, 127, 128, 255))
        return self.pick((b"k" * 250, b"k" * 251, byte, b"k" + byte))

    def change(self, lines):
        """Breaks a list in one way, or changes it so that it may be broken."""
        pick, at, way = self.pick, self.random.randrange(len(lines)), self.random.randrange(16)
        if way < 5:  # a new event with one word at a border
            line = [b"submit", b"0", b"0"] + self.draw_command(self.machine.tables[0])
            form = " ww " + form_of(line[3], len(line) - 4)
            place = pick([place for place, letter in enumerate(form) if letter != " "])
            line[place] = self.edge(form[place])
            lines.insert(self.random.randint(at, len(lines)), line)
        elif way < 11:  # a word in, in the stead of others, or a word out
            place = self.random.randrange(len(lines[at]) + 1)
            lines[at][place : place + pick((0, 1, 1, 1, 2))] = pick(([pick(WORDS)],) * 5 + ([],))
        elif way == 11:
            lines.insert(at, pick(STRAY).split(b" "))
        elif way == 12:
            lines.insert(self.random.randrange(len(lines)), lines.pop(at))
        elif way == 13:  # many tenants
            lines[1 : len(self.opening)] = [pick(STRAY[1:3]).split(b" ") for _ in range(pick((63, 64, 65)))]
        elif way == 14:  # no events, no tenants, or nothing
            del lines[pick((0, 1, len(self.opening))) :]
        else:
            row, place = pick((0, min(1, at))), pick((1, 2))
            border = pick((list(RANGES.values())[2 * row + place - 1],) * 3 + (1, WORD))
            lines[row][place : place + 1] = [b"%d" % (border + pick((-1, 0, 1, 1)))]

    def text(self):
        """The bytes of a list, with comments, blank lines and runs of spaces; in few lists with single bytes changed."""
        lines, dressed = self.lines(), []
        for _ in range(self.pick((0, 0, 0, 0, 0, 1, 1, 2))):
            self.change(lines or [[]])
        for words in lines:
            while self.random.random() < self.loose:
                dressed.append(self.pick(COMMENTS))
            gaps = [b" " * (self.pick((1, 2, 5)) if self.random.random() < self.loose else 1) for _ in words]
            line = b"".join(word + gap for word, gap in zip(words, gaps))[: None if self.random.random() < self.loose else -1]
            dressed.append(b" " * (self.random.random() < self.loose / 3) + line)
        text = b"\n".join(dressed) + self.pick((b"\n",) * 12 + (b"", b"", b"", b" ", b"\r\n", b"\n\n"))
        while text and self.random.random() < 0.05:
            at = self.random.randrange(len(text))
            byte = self.pick((b"", b"\n", b"\r", b" ", b"#", b"\x00", b"\xff", b"0", b"z"))
            text = text[:at] + byte + text[at + self.pick((0, 1, 1, 30)) :]
        return text if self.random.random() < 0.995 else self.sized(text)

    def sized(self, text):
        """A list of about the largest size: of a long comment, blank lines, spaces, a data word or keys."""
        opening = b"core 1 3\ntenant 9 1073741824\nsubmit 0 0 set a 0 "
        ways = ((text + b"\n#", b"x", b""), (b"#", b"x", b"\n" + text), (text + b"\n", b"\n", b""), (b"", b" ", text))
        ways += ((opening, b"x", b"\nsubmit 0 0 get a"), (opening + b"x\nsubmit 0 0 gets", b" a", b"\n"), (opening, b"7", b""))
        front, fill, back = self.pick(ways)
        missing = LONGEST_INPUT + self.pick((-1, 0, 0, 1, 1, 70000)) - len(front) - len(back)
        return front + (fill * missing)[: max(missing, 0)] + back
