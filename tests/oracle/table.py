"""One tenant's table, and the reply to each command.

A command is a tuple: `(name, key, flags, data, unique)` for those that store, where the unique counts for `cas` alone; `(name, keys)` for
`get` and `gets`; `(name, key, delta)` for `incr` and `decr`; `(b"delete", key)`; `(b"flush_all",)`; and `(b"limit", items, bytes)`, which
sets the quotas.
"""

import copy
import dataclasses

from .protocol import (
    DELETED, EXISTS, MOST_OF_DATA, NO_ROOM, NOT_FOUND, NOT_NUMERIC, NOT_STORED, OK, STORAGE, STORED, TOO_LARGE, number,
)  # fmt: skip


@dataclasses.dataclass
class Table:
    """The flags, data and unique under each key, the quotas, and how many changes there were."""

    most_items: int
    most_bytes: int
    items: dict = dataclasses.field(default_factory=dict)  # replaced at a change, so that a copy keeps what it had
    size: int = 0
    changes: int = 0

    def after(self, command):
        """The table after a command, and the reply. This table doesn't change."""
        table = copy.copy(self)
        return table, table.answer(command)

    def answer(self, command):
        """Executes a command, and returns the reply."""
        name = command[0]
        if name in STORAGE:
            return self._store(*command)
        if name in (b"get", b"gets"):
            return b"".join(self._value(key, name == b"gets") for key in command[1]) + b"END\r\n"
        if name == b"delete":
            return self._delete(command[1])
        if name == b"flush_all":
            self.items, self.size = {}, 0
            return OK
        if name == b"limit":
            self.most_items, self.most_bytes = command[1:]
            return OK
        return self._count(*command)

    def reply(self, request):
        """Executes a request of a stream, and returns the reply, a quiet one's too."""
        return self.answer(request.command) if request.command else request.reply

    def _value(self, key, with_unique):
        if key not in self.items:
            return b""
        flags, data, unique = self.items[key]
        tail = b" %d" % unique if with_unique else b""
        return b"VALUE %s %d %d%s\r\n%s\r\n" % (key, flags, len(data), tail, data)

    def _delete(self, key):
        if key not in self.items:
            return NOT_FOUND
        self.size -= len(key) + len(self.items[key][1])
        self.items = {name: item for name, item in self.items.items() if name != key}
        return DELETED

    def _store(self, name, key, flags, data, unique):
        held = self.items.get(key)
        if name == b"cas":
            if held is None:
                return NOT_FOUND
            if held[2] != unique:
                return EXISTS
        elif (held is not None) if name == b"add" else (held is None and name != b"set"):
            return NOT_STORED
        if name in (b"append", b"prepend"):
            flags = held[0]
            data = held[1] + data if name == b"append" else data + held[1]
            if len(data) > MOST_OF_DATA:
                return TOO_LARGE
        return STORED if self._put(key, flags, data) else NO_ROOM

    def _count(self, name, key, delta):
        held = self.items.get(key)
        if held is None:
            return NOT_FOUND
        value = number(held[1], (1 << 64) - 1) if len(held[1]) <= 20 else None
        if value is None:
            return NOT_NUMERIC
        value = (value + delta) % (1 << 64) if name == b"incr" else max(0, value - delta)
        text = b"%d" % value
        return text + b"\r\n" if self._put(key, held[0], text) else NO_ROOM

    def _put(self, key, flags, data):
        """Puts data under a key, unless that exceeds a quota."""
        held = self.items.get(key)
        size = self.size + len(data) - len(held[1]) if held else self.size + len(key) + len(data)
        if size > self.most_bytes or len(self.items) + (held is None) > self.most_items:
            return False
        self.size = size
        self.changes += 1
        self.items = {**self.items, key: (flags, data, self.changes)}
        return True
