"""Lines over a plain socket, as `nc` sends them: what no library sends, but people and scripts may; calls.py says how it is run."""

import socket

from calls import SECONDS, case, main

FLUSH = b"flush_all noreply\r\n"


def talk(address, sent):
    """What comes back for these bytes behind a flush, up to the end; of a reset what came before it."""
    with socket.create_connection(address, timeout=SECONDS) as stream:
        replies = []
        try:
            stream.sendall(FLUSH + sent)
            stream.shutdown(socket.SHUT_WR)
            while piece := stream.recv(1 << 16):
                replies.append(piece)
        except OSError:
            replies.append(b"(reset)")  # the server has ended the stream, with bytes unread
        return b"".join(replies)


def lines(call, servers, texts):
    """Each text is what a client sends; in its name the line ends are left out."""
    for text in texts:
        name = text.replace("\r\r", "<13>").replace("\r", "").strip("\n").replace("\n", " / ").replace("\t", "<9>").replace("\0", "<0>").replace("k" * 251, "<251 bytes>")
        call(name or "no word", talk, servers["first"], text.encode())


@case()
def commands(call, servers):
    lines(
        call,
        servers,
        [
            "set a 5 0 3\r\nabc\r\nget a b a\r\n",
            "set k 0 0 7\r\n\r\nEND\r\n\r\nget k\r\n",
            "set a 007 -0 0\r\n\r\nget  b a a \r\n",
            "set a 0 0 1 noreply\r\nx\r\nget a\r\n",
            "set a 7 0 1\r\nx\r\nappend a 9 60 1\r\ny\r\nprepend a 9 60 1\r\nw\r\nget a\r\n",
            "cas b 0 0 1 1\r\nw\r\nset b 0 0 1\r\nx\r\ncas b 0 0 1 18446744073709551615\r\ny\r\n",
            "set n 0 0 2\r\n97\r\nincr n 5\r\nincr n x\r\ndecr n 200\r\n",
            "delete a\r\ndelete a 0\r\ndelete a 0 noreply\r\ndelete a noreply\r\n",
            "set a 0 0 1\r\nx\r\nflush_all\r\nget a\r\nflush_all 0\r\nflush_all 0 noreply\r\nflush_all noreply\r\n",
            "set a 0 0 3\r\nab",
            "set a 0 0 1\r\nx\r\nquit\r\nget a\r\n",
            "set n 0 0 3 noreply\r\nabc\r\nincr n 1\r\n",
        ],
    )


@case()
def mistakes(call, servers):
    lines(
        call,
        servers,
        [
            "nothing\r\n",
            "\r\n",
            "GET a\r\n",
            "set a 0 0 x\r\nabc\r\n",
            "set a 0 0 -1\r\n",
            "set a 0 0 2\r\nabcde\r\n",
            "set a x 0 1 noreply\r\ny\r\nget a\r\n",
            "set a 0 x 1\r\ny\r\nget a\r\n",
            "cas a 0 0 1 x\r\ny\r\nget a\r\n",
            "set a 0 0 1 quietly\r\ny\r\nget a\r\n",
            "get " + "k" * 251 + "\r\n",
            "set " + "k" * 251 + " 0 0 1\r\ny\r\nget a\r\n",
            "delete " + "k" * 251 + "\r\n",
            "incr " + "k" * 251 + " 1\r\n",
            "incr a -1\r\n",
            "flush_all x\r\n",
            "incr a 1 quietly\r\n",
            "decr a 1 quietly\r\n",
            "flush_all 0 quietly\r\n",
        ],
    )


@case()
def mistakes_without_a_reply(call, servers):
    lines(
        call,
        servers,
        [
            "delete " + "k" * 251 + " noreply\r\n",
            "delete a 1 noreply\r\n",
            "incr " + "k" * 251 + " 1 noreply\r\n",
            "incr a x noreply\r\n",
            "decr a x noreply\r\n",
            "flush_all x noreply\r\n",
            "set a 0 0 x noreply\r\n",
            "cas a 0 0 -1 1 noreply\r\n",
        ],
    )


@case()
def signs(call, servers):
    lines(
        call,
        servers,
        [
            "set a +5 0 1\r\nx\r\nget a\r\n",
            "set a -0 0 1\r\nx\r\nget a\r\n",
            "set a 0 +0 1\r\nx\r\nget a\r\n",
            "set a 0 0 +1\r\nx\r\nget a\r\n",
            "cas a 0 0 1 +1\r\nx\r\n",
            "incr a +1\r\n",
            "decr a -0\r\n",
            "flush_all +0\r\n",
        ],
    )


@case()
def data_of_numbers(call, servers):
    lines(
        call,
        servers,
        [
            "set n 0 0 2\r\n10\r\ndecr n 1\r\nget n\r\n",
            "set n 0 0 3\r\n007\r\nincr n 1\r\nget n\r\n",
            "set n 0 0 20\r\n18446744073709551615\r\nincr n 1\r\nget n\r\n",
            "set n 0 0 2\r\n9 \r\nincr n 1\r\n",
            "set n 0 0 2\r\n 9\r\nincr n 1\r\n",
            "set n 0 0 2\r\n+9\r\ndecr n 1\r\n",
            "set n 0 0 3\r\n9 x\r\nincr n 1\r\n",
            "set n 0 0 3\r\n9\0x\r\nincr n 1\r\n",
            "set n 0 0 2\r\n-0\r\nincr n 1\r\n",
            "set n 0 0 21\r\n000000000000000000009\r\nincr n 1\r\n",
            "set n 0 0 2\r\n9x\r\nincr n 1\r\n",
            "set n 0 0 2\r\n-9\r\nincr n 1\r\n",
        ],
    )


@case()
def wrong_numbers_of_words(call, servers):
    lines(call, servers, ["get\r\n", "set\r\n", "set a 0 0\r\n", "delete\r\n", "delete a 0 noreply x\r\n", "incr a\r\n", "cas a 0 0 1\r\n", "version now\r\n", "quit now\r\nversion\r\n"])


@case()
def spaces_and_line_ends(call, servers):
    lines(call, servers, ["get a\tb\r\n", "get a\0b\r\n", "version\0now\r\n", "set a 0 0 1\nx\r\nget a\n", "set\ta 0 0 1\r\n", "get a\r\r\n"])


@case()
def times(call, servers):
    lines(
        call,
        servers,
        [
            "set a 0 60 3\r\nget\r\nget a\r\n",
            "set a 0 -1 1\r\nx\r\nget a\r\n",
            "set a 0 9 1 noreply\r\nx\r\nget a\r\n",
            "add a 0 9 1 noreply\r\nx\r\nget a\r\n",
            "set a 0 0 1\r\nx\r\nreplace a 0 9 1 noreply\r\ny\r\nget a\r\n",
            "cas a 0 60 1 1 noreply\r\ny\r\nget a\r\n",
            "delete a 1\r\n",
            "flush_all 10\r\n",
            "flush_all 10 noreply\r\n",
        ],
    )


@case()
def other_commands(call, servers):
    names = ["stats", "touch a 0", "gat 0 a", "gats 0 a", "verbosity 1", "cache_memlimit 64", "mn", "mg a v", "ms a 1\r\nx", "md a"]
    lines(call, servers, [f"{name}\r\n" for name in names])


@case()
def http_requests(call, servers):
    lines(call, servers, ["POST / HTTP/1.1\r\n\r\nversion\r\n", "nothing HTTP/\r\n"])


def half(name):
    """A line of this command with more than half of the largest data."""
    return name + b" a 0 0 600000\r\n" + b"x" * 600000 + b"\r\n"


def too_large(name):
    """A line of this command without a reply, with a byte more than the largest data."""
    return name + b" a 0 0 1048577" + b" 1" * (name == b"cas") + b" noreply\r\n" + b"x" * 1048577 + b"\r\n"


@case()
def limits(call, servers):
    first = servers["first"]
    call("a line without an end", talk, first, b"a" * 65537)
    call("flags above 32 bits", talk, first, b"set a 4294967296 0 1\r\nx\r\nget a\r\n")
    call("1 MiB", talk, first, b"set a 0 0 1048576\r\n" + b"x" * 1048576 + b"\r\n")
    call("1 MiB and a byte", talk, first, b"set a 0 0 1048577\r\n" + b"x" * 1048577 + b"\r\nget b\r\n")
    for name in ("append", "prepend"):
        call(f"{'an' if name == 'append' else 'a'} {name} that grows too large", talk, first, half(b"set") + half(name.encode()))
    for name in ("set", "add", "replace", "append", "prepend", "cas"):
        call(f"{name} of 1 MiB and a byte without a reply", talk, first, too_large(name.encode()) + b"get a\r\n")
    call("a length above 32 bits", talk, first, b"set a 0 0 99999999999\r\nget b\r\n")
    call("a get of 100 keys", talk, first, b"set k7 0 0 1\r\nx\r\nget " + b" ".join(b"k%d" % at for at in range(100)) + b"\r\n")
    call("version", talk, first, b"version\r\n")


@case("shared")
def long_lines(call, servers):
    """Left out where a server for each connection, as mc_stdin, ends before it has read what is behind the line."""
    call("a get of 300 keys of 250 bytes", talk, servers["first"], b"get " + b" ".join(b"%0250d" % at for at in range(300)) + b"\r\n")


main("plain lines")
