"""The checks of network.py on places: who has one where a tenant takes all that it can, who one is kept for, and who is passed on to another worker.

Thousands of connections are made at a time, each of which needs a descriptor here: network.py raises the limit.
"""

import contextlib
import pathlib
import resource
import select
import time

from harness.answers import PATIENCE, answer, are_answered, ask, is_answered, is_answered_again, is_closed
from harness.client import reset
from harness.servers import ADMIN, Server, behind, ending_of
from oracle.protocol import NO_ROOM

LARGE = (1000, 100_000_000)
# Within how many seconds a new client is answered whom nobody else's may hold up.
SOON = 1.0


def waiting_room():
    """How many connections may wait for a listener to accept them."""
    return int(pathlib.Path("/proc/sys/net/core/somaxconn").read_text())


def has_descriptors(count, what):
    """Whether as many connections are allowed here, where this would be tried with them."""
    if resource.getrlimit(resource.RLIMIT_NOFILE)[0] < count + 100:
        print(f"{what}: not tried, since too few connections are allowed here")
        return False
    return True


def held_places(server, tenant, most):
    """Clients of a tenant who were answered, one after another, until one wasn't or there were as many."""
    clients = []
    for _ in range(most):
        client = server.connect(tenant, PATIENCE)
        with contextlib.suppress(ConnectionError):
            client.sendall(b"version\r\n")
        if not is_answered(client):
            client.close()
            break
        clients.append(client)
    return clients


def check_admins_places(program, check):
    """A tenant who holds all 1,024 places of the one worker locks no administrator out, of whom 16 have places, nor do these take a tenant's."""
    if min(resource.getrlimit(resource.RLIMIT_NOFILE)[0], waiting_room()) < 1_100:
        print("all places aren't tried: too few connections are allowed here")
        return
    with Server(program, [*ADMIN, "--workers", "1"], {"a": LARGE}) as server:
        first = [ask(server, "admin") for _ in range(4)]
        check("four administrators before", are_answered(first))
        clients = [ask(server, "a") for _ in range(1_024)]
        check("a tenant takes all places", are_answered(clients))
        check("and no more", is_closed(server.connect("a", PATIENCE)))
        later = [ask(server, "admin", b"limit a 1 100\r\n") for _ in range(12)]
        check("an administrator has a place", are_answered(later, b"OK\r\n"))
        check("16 have", is_closed(server.connect("admin", PATIENCE)))
        clients[0].sendall(b"set k 0 0 1\r\nx\r\nset l 0 0 1\r\nx\r\n")
        check("the quota is in force", is_answered(clients[0], b"STORED\r\n" + NO_ROOM))
        for client in first:
            client.close()
        check("those who stay go on", is_answered_again(clients[2]))
        check("places of administrators alone are free", is_answered(ask(server, "admin")) and is_closed(server.connect("a", PATIENCE)))
        clients[1].close()
        check("and on", is_answered_again(clients[2]))
        check("a tenant's place is free again", is_answered(ask(server, "a")))
        for client in clients + later:
            client.close()


def check_reserve(program, check):
    """With --reserve a tenant who takes all that it can leaves each other its reserve, at each worker."""
    if not has_descriptors(2_048, "reserves"):
        return
    with Server(program, [*ADMIN, "--workers", "1", "--reserve", "100"], {"a": LARGE, "b": LARGE, "c": LARGE}) as server:
        first = held_places(server, "a", 1_024)
        check("a tenant takes what isn't kept for others", len(first) == 824, len(first))
        second = held_places(server, "b", 1_024)
        check("another has its reserve, and no more", len(second) == 100, len(second))
        check("an administrator has a place", is_answered(ask(server, "admin", b"limit a 1000 1000\r\n"), b"OK\r\n"))
        first.pop().close()
        check("those who stay go on", is_answered_again(first[0]))
        second += held_places(server, "b", 2)
        check("a place that nobody is owed is anybody's", len(second) == 101, len(second))
        third = held_places(server, "c", 1_024)
        check("the third has its reserve still", len(third) == 100, len(third))
        for client in first + second + third:
            client.close()
    with Server(program, ["--workers", "2", "--reserve", "512"], {"a": LARGE, "b": LARGE}) as server:
        first = held_places(server, "a", 1_100)
        check("a tenant takes what isn't kept at two workers", len(first) == 1_024, len(first))
        second = held_places(server, "b", 1_100)
        check("another has its reserve at both", len(second) == 1_024, len(second))
        for client in first + second:
            client.close()
    with Server(program, ["--workers", "1", "--reserve", "51"], behind(18, {"a": LARGE, "b": LARGE})) as server:
        first = held_places(server, "a", 100)
        check("the 19th tenant of 20 takes its reserve and what is left", len(first) == 55, len(first))
        second = held_places(server, "b", 100)
        check("the 20th has its reserve, and no more", len(second) == 51, len(second))
        for client in first + second:
            client.close()
    two = ("a=127.0.0.1:0,1,1", "b=127.0.0.1:0,1,1")
    check("more is kept than there is", ending_of(program, "--reserve", "513", *two) == (2, b"", b"wfmc: bad settings\n"))
    why = b"wfmc: --reserve 513: 2 times that is not from 0 to 1024\n"
    check("why", ending_of(program, "--check", "--reserve", "513", *two) == (2, b"", why))
    twenty = [f"t{number}=127.0.0.1:0,1,1" for number in range(20)]
    why_twenty = b"wfmc: --reserve 52: 20 times that is not from 0 to 1024\n"
    check("more is kept for 20 than there is", ending_of(program, "--check", "--reserve", "52", *twenty) == (2, b"", why_twenty))
    check("all is kept", ending_of(program, "--check", "--reserve", "512", *two) == (0, b"wfmc: the settings can be served\n", b""))
    most = ending_of(program, "--check", "--reserve", str(2**64 - 1), *two)
    check("far more", most == (2, b"", why.replace(b"513", b"%d" % (2**64 - 1))), most)


def get_of(count):
    """A line that asks for this many keys, of none of which there is an item."""
    return b"get" + b" k" * count + b"\r\n"


def send_what_fits(client, requests):
    """Sends of these requests as much as the system holds, and doesn't wait."""
    client.setblocking(False)
    with contextlib.suppress(BlockingIOError):
        client.sendall(requests)
    client.settimeout(PATIENCE)


def is_answered_soon(server, name):
    """Whether a client that comes now has its first reply within a second."""
    begun = time.monotonic()
    with server.connect(name, SOON) as client:
        client.sendall(b"version\r\n")
        return is_answered(client) and time.monotonic() - begun < SOON


def has_accepted(server, count):
    """Whether the server comes to have as many descriptors."""
    until = time.monotonic() + PATIENCE
    while server.descriptors() < count and time.monotonic() < until:
        time.sleep(0.001)
    return server.descriptors() >= count


def check_next_to_crowd(program, check):
    """All places are kept for two tenants. One has 200 clients who keep the worker busy, and 400 more come, of whom 88 have no place and none has a turn
    soon. New clients of the other, and administrators, have a place and are answered soon."""
    if min(resource.getrlimit(resource.RLIMIT_NOFILE)[0], waiting_room()) < 700:
        print("new clients next to a crowd aren't tried: too few connections are allowed here")
        return
    with Server(program, [*ADMIN, "--workers", "1", "--reserve", "512"], {"a": LARGE, "b": LARGE}) as server:
        busy = held_places(server, "a", 200)
        before = server.descriptors()
        with server.stopped():
            for client in busy:
                send_what_fits(client, b"\n" * 100_000)
            crowd = [ask(server, "a") for _ in range(400)]
        # The 88 without a place are closed once each of the others has had a first turn, some 20 ms later: those who have one stay.
        check("a crowd is accepted", has_accepted(server, before + 312))
        for name in ("b", "admin", "b", "admin", "b"):
            check(f"a new client of {name} next to a crowd", is_answered_soon(server, name))
        for client in busy:
            reset(client)
        answered = sum(is_answered(client) for client in crowd)
        check("those of a crowd who have places", answered >= 312, answered)
        for client in crowd:
            client.close()


def is_answered_before(server, name):
    """Whether a client that comes now is answered before one of the first tenant's that has come a little earlier."""
    with ask(server, "a") as earlier:
        # By then the worker has it.
        time.sleep(0.005)
        with ask(server, name) as later:
            first = select.select([earlier, later], [], [], PATIENCE)[0]
            return are_answered([later, earlier]) and first == [later]


def check_next_to_busy(program, check):
    """A tenant has 200 clients who keep the worker busy, so that another of its own waits until each of them has had a turn. A new client of another
    tenant, and an administrator, waits neither behind those nor behind that one."""
    with Server(program, [*ADMIN, "--workers", "1", "--reserve", "512"], {"a": LARGE, "b": LARGE}) as server:
        busy = held_places(server, "a", 200)
        # One long line lets the worker read much of each at a time from then on.
        for client in busy:
            client.sendall(get_of(8_000))
        check("clients before they are busy", len(busy) == 200 and are_answered(busy, b"END\r\n"))
        with server.stopped():
            for client in busy:
                send_what_fits(client, get_of(500) * 500)
        for name in ("b", "admin"):
            check(f"a new client of {name} before one of a busy tenant", any(is_answered_before(server, name) for _ in range(5)))
        for client in busy:
            reset(client)


def check_passing_on(program, check):
    """A client whose worker has no place is served by another that has one; where none has, its connection is closed."""
    if not has_descriptors(2_048, "passing on"):
        return
    check_both_taken(program, check)
    check_passed_on_tenants(program, check)
    check_last_passed_on(program, check)


def check_both_taken(program, check):
    """The places of both workers are taken; then all but one of the clients of one leave, and others come."""
    with Server(program, ["--workers", "2"], {"a": LARGE}) as server:
        clients = held_places(server, "a", 2_048)
        check("two workers' places", len(clients) == 2_048, len(clients))
        check("one more than both have", is_closed(server.connect("a", PATIENCE)))
        # Clients were handed to the workers in turn: all but the first of the second worker's leave.
        staying, leaving = clients[::2] + clients[1:2], clients[3::2]
        for client in leaving:
            client.close()
        check("those who stay go on", is_answered_again(staying[-1]))
        later = held_places(server, "a", 1_023)
        check("the other worker takes those for which one has no place", len(later) == 1_023, len(later))
        check("again one more than both have", is_closed(server.connect("a", PATIENCE)))
        check("all are served", all(is_answered_again(client) for client in staying + later))
        for client in staying + later:
            client.close()


def check_passed_on_tenants(program, check):
    """Who is passed on is still a client of its own tenant."""
    with Server(program, ["--workers", "2"], {"a": LARGE, "b": LARGE}) as server:
        for tenant in "ab":
            answer(server, tenant, b"set k 0 0 1\r\n%b\r\n" % tenant.encode())
        clients = held_places(server, "a", 2_048)
        staying, leaving = clients[::2] + clients[1:2], clients[3::2]
        for client in leaving:
            client.close()
        check("the second worker has places again", is_answered_again(staying[-1]))
        others = held_places(server, "b", 4)
        for client in others:
            client.sendall(b"get k\r\n")
        said = [client.recv(64) for client in others]
        check("who is passed on is served as its own tenant's", said == [b"VALUE k 0 1\r\nb\r\nEND\r\n"] * 4, said)
        for client in staying + others:
            client.close()


def check_last_passed_on(program, check):
    """The last that is to be served comes to a worker without a place, when the other may have ended: it is served or closed, and isn't left."""
    with Server(program, ["--workers", "2", "--connections", "2049"], {"a": LARGE}) as server:
        clients = held_places(server, "a", 2_048)
        for client in clients[1::2]:
            client.close()
        started = time.monotonic()
        held_places(server, "a", 1)
        check("the last is served or closed soon", time.monotonic() - started < PATIENCE / 2)
        for client in clients[::2]:
            client.close()
        check("the end after all", server.wait() == (0, b"done 0\n", b""))
