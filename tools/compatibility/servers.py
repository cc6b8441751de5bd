"""The servers that the calls are run against: memcached, wfmc, and mc_stdin behind a relay. Each ends with the block that starts it."""

import contextlib
import pathlib
import shutil
import sys

sys.path.insert(0, str(pathlib.Path(__file__).parents[2] / "tests"))
from harness.servers import Memcached, Relay, Server, behind

STORE = (1_000_000, 500_000_000)
SMALL = (100, 8 * 1024 * 1024)
SHORT = "8"


@contextlib.contextmanager
def all_of_memcached():
    """It has no tenants: both are one server; and none of its logs ends."""
    with Memcached("-t", "2") as first, Memcached("-t", "2", "-m", "8") as small:
        first, small = (f"127.0.0.1:{server.port}" for server in (first, small))
        yield [f"first={first}", f"second={first}", f"small={small}", f"short={first}", "shared"]


@contextlib.contextmanager
def all_of_wfmc(program, workers):
    """The tenants stand behind 16 idle ones."""
    options = ["--workers", workers, "--places"]
    tenants = {"first": STORE, "second": STORE, "small": SMALL}
    with Server(program, [*options, "1048576"], behind(16, tenants)) as server, Server(program, [*options, SHORT], behind(16, {"short": STORE})) as short:
        yield [*server.addresses(), *short.addresses(), "shared"]


@contextlib.contextmanager
def all_of_stdin(program):
    """A table for each connection: connections share nothing."""
    program = shutil.which(program)
    options = {"first": "", "second": "", "small": f" --items {SMALL[0]} --bytes {SMALL[1]}", "short": f" --places {SHORT}"}
    with contextlib.ExitStack() as stack:
        relays = {name: stack.enter_context(Relay(f"EXEC:{program}{words}")) for name, words in options.items()}
        yield [f"{name}=127.0.0.1:{relay.port}" for name, relay in relays.items()]
