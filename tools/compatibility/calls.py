"""What the scripts of the clients share: cases, each some calls of a client over connections of its own, whose answers are printed.

Each script is run as `SCRIPT NAME=HOST:PORT... [shared]`. NAME is what the server there is for: `first` and `second` are two tenants,
`small` has room for 100 items and 8 MiB, `short` has a log of 8 places. `shared` says that connections of one tenant see one table. A
case that needs what isn't there is left out. Prints a line for each call: its name, a tab, and the answer.
"""

import re
import sys

SECONDS = 60
cases = []


def case(*needs):
    """Makes a function of `call` and of the servers' addresses a case, which needs these servers beside the first, or `shared`."""

    def keep(function):
        cases.append((function, needs))
        return function

    return keep


def plain(text):
    """The text without what differs from run to run: places in memory and ports."""
    return re.sub(r"0x[0-9a-f]+|\d+\.\d+\.\d+\.\d+:\d+", "N", text)


def answer_of(function, words, named):
    """The answer as text, or the exception with its text."""
    try:
        return repr(function(*words, **named))
    except Exception as fault:
        text = fault.args[0] if fault.args else ""
        return plain(f"{type(fault).__name__}: {text.decode() if isinstance(text, bytes) else text}")


def main(client):
    """Runs the cases of the script; `client` is the name that the lines begin with."""
    given = set(sys.argv[1:])
    servers = {}
    for word in given - {"shared"}:
        name, _, address = word.partition("=")
        host, _, port = address.rpartition(":")
        servers[name] = (host, int(port))
    for function, needs in cases:
        name = function.__name__.replace("_", " ")
        if not all(it in servers or it in given for it in needs):
            print(f"left out: {client}, {name}\t", flush=True)
            continue

        def call(what, function, *words, **named):
            print(f"{client}, {name}: {what}\t{answer_of(function, words, named)}", flush=True)

        function(call, servers)
