"""The bytes of address space that wfmc takes at most: the number of docs/OPERATING.md, "One number"."""

MEBIBYTE = 1 << 20
# What a log's commands may have where no --log-bytes is said.
LOG_BYTES = 1 << 30
# What a reply takes for each name of its line, besides the data that it shares.
NAME_BYTES = 600
MOST_NAMES = 32_766


def held(names=MOST_NAMES, data=MEBIBYTE):
    """What a connection takes at most where a line asks for this many names, and the items among them have this much data."""
    return 2 * MEBIBYTE + data + 2 * (MEBIBYTE + NAME_BYTES * names)


def number(workers, places, quotas, connections, log_bytes=LOG_BYTES):
    """What wfmc takes at most over logs that follow one another, of so many places each and closed after this many bytes of commands, where the
    tenants have these quotas, as pairs of items and bytes, and its connections take this many bytes."""
    logs = 2 * (places * (273 + 60 * workers) + log_bytes)
    tables = (workers + 2) * sum(size + 170 * items for items, size in quotas)
    return (4 + 140 * workers) * MEBIBYTE + logs + tables + connections
