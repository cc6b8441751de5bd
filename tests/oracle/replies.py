"""Compares the replies of a server with the requests that they answer."""

import re

from .protocol import LOG_FULL

NEVER_FULL = None

class Replies:
    """The bytes that a connection received, taken in reply by reply from a table; `is_cut` where the last of them may be missing, and
    `is_full` whether the log has no free place and never will, or `NEVER_FULL`."""

    def __init__(self, table, received, is_full=False, is_cut=False, masks_uniques=False):
        self.table, self.received = table, received
        self.is_full = is_full
        self.is_cut = is_cut
        self.masks_uniques = masks_uniques
        self.at = 0

    def _takes(self, wanted):
        """Whether the next bytes are these."""
        rest = self.received[self.at : self.at + len(wanted)]
        if rest == wanted or (self.is_cut and len(rest) < len(wanted) and self._begins(wanted, rest)):
            self.at += len(rest)
            return True
        return self.masks_uniques and self._takes_masked(wanted)

    def _begins(self, wanted, rest):
        """Whether cut bytes can be the first of these. After a unique that may be any number nothing is compared."""
        if self.masks_uniques and wanted.startswith(b"VALUE "):
            rest = rest[: wanted.find(b"\r\n")].rpartition(b" ")[0]
        return wanted.startswith(rest)

    def _takes_masked(self, wanted):
        """As `_takes`, where uniques may be any number; no line of the data may look like a value's."""
        form = b"".join(masked(line) + rb"\r\n" for line in wanted.split(b"\r\n")[:-1])
        found = re.compile(form, re.DOTALL).match(self.received, self.at)
        if found:
            self.at = found.end()
        return found is not None

    def answers(self, request):
        """Whether the next bytes are the reply to this request, which is executed."""
        if not request.command:
            return request.is_quiet or self._takes(request.reply)
        if self.is_full is False and self.received.startswith(LOG_FULL, self.at) and not request.is_quiet:
            self.is_full = True
        reply = LOG_FULL if self.is_full else self.table.answer(request.command)
        return request.is_quiet or self._takes(reply)

    def first_wrong(self, requests):
        """The index of the first request that isn't answered right; `None` where all are, and nothing else was received."""
        for index, request in enumerate(requests):
            if not self.answers(request):
                return index
        return None if self.at == len(self.received) else len(requests)


def prefixes(table, requests):
    """What the first 0, 1, 2 and more whole replies come to."""
    received = b""
    yield received
    for request in requests:
        reply = table.reply(request)
        received += b"" if request.is_quiet else reply
        yield received


def masked(line):
    """A pattern for a line of a reply, in which a unique may be any number."""
    if line.startswith(b"VALUE ") and line.count(b" ") == 4:
        return re.escape(line.rpartition(b" ")[0]) + rb" \d+"
    return re.escape(line)
