"""Clients that have asked, and whether they are answered."""

from oracle.protocol import VERSION

from .client import exchange

PATIENCE = 20


def answer(server, tenant, sent):
    """The replies to these bytes, up to the end of the stream; `None` where it ends another way."""
    replies, ending = exchange(server.ports[tenant], [sent])
    return replies if ending == "end" else None


def ask(server, name, request=b"version\r\n"):
    """A client that has sent a request."""
    client = server.connect(name, PATIENCE)
    client.sendall(request)
    return client


def is_answered(client, wanted=VERSION):
    """Whether these bytes come next."""
    received = bytearray()
    try:
        while len(received) < len(wanted) and (piece := client.recv(len(wanted) - len(received))):
            received += piece
    except OSError:
        pass
    return received == wanted


def are_answered(clients, wanted=VERSION):
    return all(is_answered(client, wanted) for client in clients)


def is_answered_again(client):
    """Whether one more request is answered, by which time the worker has noticed who closed before it."""
    client.sendall(b"version\r\n")
    return is_answered(client)


def is_ended(client):
    """Whether the end comes next."""
    try:
        return client.recv(1) == b""
    except OSError:
        return False


def is_closed(client):
    """Whether the stream ends or is reset without another byte."""
    try:
        return client.recv(1) == b""
    except ConnectionResetError:
        return True
