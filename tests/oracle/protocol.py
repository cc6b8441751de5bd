"""The requests of a stream, parsed by the rules of docs/PROTOCOL.md."""

import dataclasses
import re

MOST_OF_A_LINE = 65_536
MOST_OF_DATA = 1_048_576
MOST_TO_BE_READ = 2_147_483_645

ERROR = b"ERROR\r\n"
BAD_FORMAT = b"CLIENT_ERROR bad command line format\r\n"
BAD_CHUNK = b"CLIENT_ERROR bad data chunk\r\n"
BAD_DELTA = b"CLIENT_ERROR invalid numeric delta argument\r\n"
NOT_NUMERIC = b"CLIENT_ERROR cannot increment or decrement non-numeric value\r\n"
NO_EXPIRY = b"CLIENT_ERROR expiry is not supported\r\n"
TOO_LONG = b"CLIENT_ERROR line too long\r\n"
TOO_LARGE = b"SERVER_ERROR object too large for cache\r\n"
NO_ROOM = b"SERVER_ERROR out of memory storing object\r\n"
LOG_FULL = b"SERVER_ERROR log full\r\n"
STARVED = b"SERVER_ERROR out of memory\r\n"
VERSION = b"VERSION 1.0.0\r\n"
STORED, NOT_STORED, EXISTS, NOT_FOUND, DELETED, OK = (
    word + b"\r\n" for word in (b"STORED", b"NOT_STORED", b"EXISTS", b"NOT_FOUND", b"DELETED", b"OK")
)

MOST_ITEMS = 1_048_576
MOST_BYTES = 1_073_741_824

STORAGE = (b"set", b"add", b"replace", b"append", b"prepend", b"cas")


@dataclasses.dataclass(frozen=True)
class Request:
    """A request of a stream: a command for the table, or a reply that depends on the line alone; `end` is where it ends. An administrator's
    command is for the tenant of this name, and where there is none the request is answered as a bad line."""

    end: int
    command: tuple = ()
    reply: bytes = b""
    is_quiet: bool = False
    ends_stream: bool = False
    tenant: bytes = b""


def number(word, most):
    """The number that a word spells, or `None`."""
    if re.fullmatch(rb"[0-9]+", word):
        value = int(word.lstrip(b"0")[:20] or b"0") if len(word.lstrip(b"0")) <= 20 else most + 1
        return value if value <= most else None
    return None


def is_key(word):
    return 1 <= len(word) <= 250 and all(byte > 32 and byte != 127 for byte in word)


def is_expiry(word):
    return re.fullmatch(rb"-?[0-9]+", word) is not None


def is_zero(word):
    return word.strip(b"-").strip(b"0") == b""


def storage_request(stream, end, words):
    """The request of a storage line that ends before `end`, or `None` where its block isn't complete."""
    name, plain = words[0], 6 if words[0] == b"cas" else 5
    if len(words) not in (plain, plain + 1):
        return Request(end, reply=ERROR)
    size = number(words[4], MOST_TO_BE_READ)
    if size is None:
        return Request(end, reply=BAD_FORMAT)
    after = end + size + 2
    if len(stream) < after:
        return None
    quiet = len(words) == plain + 1
    if quiet and words[plain] != b"noreply":
        return Request(after, reply=BAD_FORMAT)
    key, flags = words[1], number(words[2], (1 << 32) - 1)
    unique = number(words[5], (1 << 64) - 1) if name == b"cas" else 0
    if not is_key(key) or flags is None or unique is None or not is_expiry(words[3]):
        return Request(after, reply=BAD_FORMAT)
    if not is_zero(words[3]) and name not in (b"append", b"prepend"):
        return Request(after, reply=NO_EXPIRY, is_quiet=quiet)
    if size > MOST_OF_DATA:
        return Request(after, reply=TOO_LARGE, is_quiet=quiet)
    if stream[after - 2 : after] != b"\r\n":
        return Request(after, reply=BAD_CHUNK, is_quiet=quiet)
    return Request(after, command=(name, key, flags, bytes(stream[end : after - 2]), unique), is_quiet=quiet)


def get_request(end, words):
    if len(words) < 2:
        return Request(end, reply=ERROR)
    if not all(is_key(key) for key in words[1:]):
        return Request(end, reply=BAD_FORMAT)
    return Request(end, command=(words[0], tuple(words[1:])))


def delete_request(end, words):
    if not 2 <= len(words) <= 4:
        return Request(end, reply=ERROR)
    if words[2:] not in ([], [b"0"], [b"noreply"], [b"0", b"noreply"]) or not is_key(words[1]):
        return Request(end, reply=BAD_FORMAT)
    return Request(end, command=(b"delete", words[1]), is_quiet=words[-1] == b"noreply" and len(words) > 2)


def arithmetic_request(end, words):
    if len(words) not in (3, 4):
        return Request(end, reply=ERROR)
    if words[3:] not in ([], [b"noreply"]) or not is_key(words[1]):
        return Request(end, reply=BAD_FORMAT)
    delta = number(words[2], (1 << 64) - 1)
    if delta is None:
        return Request(end, reply=BAD_DELTA)
    return Request(end, command=(words[0], words[1], delta), is_quiet=len(words) == 4)


def flush_request(end, words):
    if not 1 <= len(words) <= 3:
        return Request(end, reply=ERROR)
    rest = words[1:]
    quiet = rest[-1:] == [b"noreply"]
    times = rest[:-1] if quiet else rest
    if len(times) > 1 or not all(is_expiry(word) for word in times):
        return Request(end, reply=BAD_FORMAT)
    if not all(is_zero(word) for word in times):
        return Request(end, reply=NO_EXPIRY, is_quiet=quiet)
    return Request(end, command=(b"flush_all",), is_quiet=quiet)


def line_request(stream, end, words):
    name = words[0] if words else b""
    if name in STORAGE:
        return storage_request(stream, end, words)
    if name in (b"get", b"gets"):
        return get_request(end, words)
    if name == b"delete":
        return delete_request(end, words)
    if name in (b"incr", b"decr"):
        return arithmetic_request(end, words)
    if name == b"flush_all":
        return flush_request(end, words)
    if name == b"version" and len(words) == 1:
        return Request(end, reply=VERSION)
    if name == b"quit" and len(words) == 1:
        return Request(end, is_quiet=True, ends_stream=True)
    return Request(end, reply=ERROR)


def is_name(word):
    return re.fullmatch(rb"[a-z0-9_-]{1,32}", word) is not None


def admin_request(_stream, end, words):
    """The request of an administrator's line."""
    if words[:1] != [b"limit"]:
        known = words in ([b"version"], [b"quit"])
        return line_request(b"", end, words) if known else Request(end, reply=ERROR)
    if len(words) not in (4, 5):
        return Request(end, reply=ERROR)
    items, size = number(words[2], MOST_ITEMS), number(words[3], MOST_BYTES)
    if words[4:] not in ([], [b"noreply"]) or not is_name(words[1]) or not items or not size:
        return Request(end, reply=BAD_FORMAT)
    return Request(end, command=(b"limit", items, size), is_quiet=len(words) == 5, tenant=words[1])


def next_request(stream, start, of_line=line_request):
    """The request that begins here, or `None` where it isn't complete."""
    line_end = stream.find(b"\n", start, start + MOST_OF_A_LINE + 1)
    if line_end < 0:
        if len(stream) - start <= MOST_OF_A_LINE:
            return None
        return Request(start + MOST_OF_A_LINE + 1, reply=TOO_LONG, ends_stream=True)
    line = bytes(stream[start:line_end])
    line = line[:-1] if line.endswith(b"\r") else line
    return of_line(stream, line_end + 1, [word for word in line.split(b" ") if word])


def requests(stream, of_line=line_request):
    """The complete requests of a stream, up to one that ends it; an administrator's with `admin_request`."""
    found, start = [], 0
    while request := next_request(stream, start, of_line):
        found.append(request)
        start = request.end
        if request.ends_stream:
            break
    return found
