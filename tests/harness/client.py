"""Connections to a server."""

import selectors
import socket
import struct
import time

from .processes import SECONDS


def connect(port, seconds=SECONDS, receive_buffer=None):
    """A connection to a port of loopback, whose calls take no longer than this."""
    connection = socket.socket()
    connection.settimeout(seconds)
    if receive_buffer:
        connection.setsockopt(socket.SOL_SOCKET, socket.SO_RCVBUF, receive_buffer)
    connection.connect(("127.0.0.1", port))
    connection.setsockopt(socket.IPPROTO_TCP, socket.TCP_NODELAY, 1)
    return connection


def reset(connection):
    """Closes a connection by a reset."""
    connection.setsockopt(socket.SOL_SOCKET, socket.SO_LINGER, struct.pack("ii", 1, 0))
    connection.close()


def peer_sockets(connections):
    """The kernel's numbers of the sockets at the other ends of connections over loopback, of those that were accepted."""
    numbers = {}
    with open("/proc/net/tcp", encoding="ascii") as table:
        for line in table:
            _, here, there, *fields = line.split()
            numbers[here[-5:], there[-5:]] = fields[6]
    ends = ((connection.getpeername(), connection.getsockname()) for connection in connections)
    return [numbers.get((f":{there[1]:04X}", f":{here[1]:04X}")) for there, here in ends]


def peer_socket(connection):
    """The kernel's number of the socket at the other end of a connection over loopback, if that was accepted."""
    return peer_sockets([connection])[0]


def exchange(port, pieces, seconds=SECONDS):
    """Sends these pieces and the end of the stream; the replies, and how they ended."""
    both_ways = Exchange(connect(port, seconds), seconds)
    for piece in pieces:
        both_ways.send(piece)
    return both_ways.finish(), both_ways.ending


def late_reply(port, request, behind, seconds=SECONDS, pause=0.0):
    """What a client receives, and whether its end follows, that sends more this long after the reply has begun, and reads slowly."""
    received = bytearray()
    with connect(port, seconds, receive_buffer=4096) as client:
        try:
            client.sendall(request)
            received += client.recv(1)
            time.sleep(pause)
            client.sendall(behind)
            time.sleep(0.05)
            while piece := client.recv(8192):
                received += piece
                time.sleep(0.0005)
        except OSError:
            return bytes(received), False
    return bytes(received), True


class Client:
    """A connection that waits for the reply to each request, whose last bytes are known."""

    def __init__(self, port, receive_buffer=None, seconds=120):
        self.socket = connect(port, seconds, receive_buffer)

    def send(self, request):
        self.socket.sendall(request)

    def ask(self, request, end):
        """The reply to a request, which ends with these bytes."""
        self.send(request)
        reply = bytearray()
        while not reply.endswith(end) and (piece := self.socket.recv(1 << 20)):
            reply += piece
        return bytes(reply)

    def line(self, request):
        """The one line of a reply without its end, or what became of the connection."""
        try:
            return self.ask(request, b"\r\n").decode().rstrip("\r\n") or "(closed)"
        except ConnectionResetError:
            return "(reset)"

    def stream(self, pieces, lines):
        """Sends pieces with their numbers of requests, each piece once all lines of replies to the one before are there."""
        for piece, count in pieces:
            self.send(piece)
            wanted = count * lines
            while wanted > 0:
                received = self.socket.recv(1 << 18)
                if not received:
                    raise ConnectionError("closed before all requests were answered")
                wanted -= received.count(b"\r\n")

    def drain(self):
        """How many bytes come before the end or a reset, and the last of them."""
        total, last = 0, b""
        try:
            while piece := self.socket.recv(1 << 20):
                total += len(piece)
                last = (last + piece)[-64:]
        except ConnectionResetError:
            pass
        return total, last

    def close(self):
        self.socket.close()

    def __enter__(self):
        return self

    def __exit__(self, *_):
        self.close()


class Exchange:
    """Bytes sent over a connection in pieces, while the replies are received."""

    def __init__(self, connection, seconds=SECONDS):
        self.connection = connection
        self.received = bytearray()
        self.ending = None  # "end", "reset" or "late", once it is one of them
        self.until = time.monotonic() + seconds
        connection.setblocking(False)
        self.selector = selectors.DefaultSelector()
        self.selector.register(connection, selectors.EVENT_READ)

    def _wait(self, wanted):
        """Waits for one of these events; which of them there are."""
        if self.selector.get_key(self.connection).events != wanted:
            self.selector.modify(self.connection, wanted)
        ready = self.selector.select(max(0.0, self.until - time.monotonic()))
        if not ready:
            self.ending = "late"
            return 0
        return ready[0][1]

    def _receive(self):
        try:
            piece = self.connection.recv(1 << 18)
        except BlockingIOError:
            return
        except OSError:
            self.ending = "reset"
            return
        if not piece:
            self.ending = "end"
        self.received += piece

    def send(self, data):
        """Sends all of it, unless the other side ends the stream."""
        view = memoryview(data)
        while view and self.ending is None:
            events = self._wait(selectors.EVENT_READ | selectors.EVENT_WRITE)
            if events & selectors.EVENT_READ:
                self._receive()
            elif events & selectors.EVENT_WRITE:
                try:
                    view = view[self.connection.send(view) :]
                except BlockingIOError:
                    pass
                except OSError:
                    self._drain()
                    self.ending = "reset"

    def _drain(self):
        """Receives what has come before a reset."""
        while self.ending is None:
            before = len(self.received)
            self._receive()
            if self.ending is None and len(self.received) == before:
                return

    def wait_for(self, count):
        """Receives until there are this many bytes in total."""
        while len(self.received) < count and self.ending is None:
            if self._wait(selectors.EVENT_READ):
                self._receive()

    def finish(self):
        """Ends the stream, and receives the rest."""
        if self.ending is None:
            try:
                self.connection.shutdown(socket.SHUT_WR)
            except OSError:
                pass
        while self.ending is None:
            if self._wait(selectors.EVENT_READ):
                self._receive()
        self.close()
        return bytes(self.received)

    def close(self):
        self.selector.close()
        self.connection.close()
