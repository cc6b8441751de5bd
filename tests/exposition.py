#!/usr/bin/env python3
"""Holds what mc_scrape prints against an oracle that shares no code with it, against the grammar of
Prometheus' text format, and against `promtool check metrics` where that is installed (Debian's
package prometheus; PROMTOOL names another). The kit's logic that the metrics name has to be the one
that `rt version` prints, and README.md names too.

mc_scrape answers crates/mc_scrape/stdin with the metrics of an example. Without an argument the
program is run as `make test` or tools/prove.sh built it; `--stored` reads crates/mc_scrape/stdout,
and `--write` writes there what the oracle expects. Prints a line for each failure; the last line is
'N passed, M failed'.
"""
import os
import pathlib
import re
import shutil
import subprocess
import sys

from harness import repository
from harness.results import Results

CRATE = pathlib.Path("crates/mc_scrape")
PROGRAM = repository.program("mc_scrape")
SECONDS = 60
COMMANDS = "get gets set add replace append prepend cas delete incr decr flush_all".split()
REFUSALS = ("unknown_command bad_format bad_block no_expiry line_too_long too_large no_room "
            "not_a_number bad_delta log_full out_of_memory").split()
# Tenants and workers by their units, from 1 on: more of both than a server under test mostly has.
TENANTS = ["shop", "b-2_x", *(f"t{unit}" for unit in range(3, 21))]
WORKERS = range(16)
LARGEST = 2 ** 64 - 1
results = Results()
check = results.check


def logic():
    """The kit's logic that the metrics name, as it is typed in the sources."""
    source = pathlib.Path("crates/mc_metrics/src/metric.rt").read_text(encoding="utf-8")
    return re.search(r'const LOGIC: &\[u8\] = b"([^"]*)";', source)[1]


def times(unit, count):
    """This many times a unit, or for every third unit a number as far below the largest."""
    return unit * count if unit % 3 else LARGEST - unit * count


def metric(name, help_text, kind, samples):
    """One metric; each sample is a list of labels, its value and what is put after the name."""
    lines = [f"# HELP {name} {help_text}", f"# TYPE {name} {kind}"]
    for labels, value, *suffix in samples:
        inner = ",".join(f'{label}="{text}"' for label, text in labels)
        lines.append(f"{name}{suffix[0] if suffix else ''}{'{' + inner + '}' if inner else ''} {value}")
    return "".join(line + "\n" for line in lines)


def of_tenants(name, help_text, kind, count):
    return metric(name, help_text, kind, [([("tenant", tenant)], times(unit, count)) for unit, tenant in enumerate(TENANTS, 1)])


def by_kind(name, help_text, label, kinds, first):
    """Counts of each tenant by kinds: of the first kind this many times its unit, of the second once more, and so on."""
    samples = [([("tenant", tenant), (label, kind)], times(unit, count))
               for unit, tenant in enumerate(TENANTS, 1) for count, kind in enumerate(kinds, first)]
    return metric(name, help_text, "counter", samples)


def of_workers(name, help_text, count):
    return metric(name, help_text, "gauge", [([("worker", number)], times(number + 1, count)) for number in WORKERS])


def plain(name, help_text, value):
    return metric(name, help_text, "gauge", [([], value)])


def metrics():
    return "".join([
        of_tenants("wfmc_tenant_items", "Items that the tenant holds.", "gauge", 5),
        of_tenants("wfmc_tenant_bytes", "Bytes of keys and data that the tenant holds.", "gauge", 600),
        of_tenants("wfmc_tenant_quota_items", "Items that the tenant may hold.", "gauge", 7000),
        of_tenants("wfmc_tenant_quota_bytes", "Bytes of keys and data that the tenant may hold.", "gauge", 80000),
        by_kind("wfmc_tenant_commands_total", "Commands that were answered.", "command", COMMANDS, 1),
        of_tenants("wfmc_tenant_hits_total", "Items that retrievals found.", "counter", 3),
        of_tenants("wfmc_tenant_misses_total", "Keys of retrievals that had no item.", "counter", 4),
        by_kind("wfmc_tenant_refusals_total", "Requests that were refused.", "refusal", REFUSALS, 20),
        of_tenants("wfmc_tenant_connections", "Connections of the tenant.", "gauge", 9),
        of_workers("wfmc_worker_lag_places", "Used places of the log that the worker has yet to replay.", 42),
        of_workers("wfmc_worker_connections", "Connections that the worker serves.", 13),
        plain("wfmc_log_places", "Places of the log.", LARGEST - 1234),
        plain("wfmc_log_used_places", "Places of the log that are used.", LARGEST - 65536),
        plain("wfmc_log_bytes", "Bytes that the commands in the log keep.", LARGEST - 567890),
        plain("wfmc_log_generation", "Which log is served, counted from 1.", LARGEST - 2),
        metric("wfmc_turn_over_seconds", "Time from the end of a log to the beginning of the next.", "summary",
               [([], "9223372036854.098765", "_sum"), ([], LARGEST - 3, "_count")]),
        plain("process_resident_memory_bytes", "Resident memory of the process in bytes.", LARGEST),
        metric("wfmc_build_info", "The version that runs, and the logic that it is proved in.", "gauge",
               [([("version", "1.0.0"), ("logic", logic())], 1)]),
    ])


def page():
    rows = "".join(
        f"<tr><th>{tenant}" + "".join(f"<td>{times(unit, count)}" for count in (5, 7000, 600, 80000, 9)) + "\n"
        for unit, tenant in enumerate(TENANTS, 1))
    log = "".join(f"<td>{LARGEST - below}" for below in (2, 65536, 1234, 567890, 3))
    return (
        '<!DOCTYPE html>\n<html lang="en">\n<meta charset="utf-8">\n<title>wfmc</title>\n'
        "<style>body{font:1em sans-serif;margin:2em}td,th{padding:.2em .8em;text-align:right}</style>\n"
        '<h1>wfmc</h1>\n<p>For Prometheus: <a href="/metrics">/metrics</a></p>\n<table>\n'
        "<tr><th>tenant<th>items<th>of<th>bytes<th>of<th>connections\n"
        + rows + "</table>\n<table>\n<tr><th>log<th>places used<th>of<th>bytes<th>turn overs\n<tr>"
        + log + "\n</table>\n</html>\n")


def response(status, fields, body=b"", version="1.1", shown=True):
    lines = [f"HTTP/{version} {status}"] + [f"{name}: {value}" for name, value in fields]
    lines.append(f"content-length: {len(body)}")
    if version == "1.0":
        # A client of HTTP/1.0 reads on only if it is told so.
        lines.append("connection: keep-alive")
    return "".join(line + "\r\n" for line in lines).encode() + b"\r\n" + (body if shown else b"")


def expected():
    """What the requests of crates/mc_scrape/stdin are answered, one after another."""
    scrape = [("content-type", "text/plain; version=0.0.4; charset=utf-8")]
    text, html = metrics().encode(), page().encode()
    refused = b"HTTP/1.1 400 Bad Request\r\nconnection: close\r\ncontent-length: 0\r\n\r\n"
    return b"".join([
        response("200 OK", scrape, text),
        response("200 OK", scrape, text, shown=False),
        response("200 OK", [("content-type", "text/html; charset=utf-8")], html),
        response("200 OK", scrape, text, version="1.0"),
        response("404 Not Found", []),
        response("405 Method Not Allowed", [("allow", "GET, HEAD")]),
        response("405 Method Not Allowed", [("allow", "GET, HEAD")]),
        refused,
    ])


NAME = r"[a-zA-Z_:][a-zA-Z0-9_:]*"
SAMPLE = re.compile(rf'({NAME})(?:\{{((?:[a-zA-Z_][a-zA-Z0-9_]*="[^"\\\n]*"(?:,(?!\}}))?)*)\}})? ([0-9]+(?:\.[0-9]+)?)')


def samples_of(text):
    """The samples of a text, by name and labels; a `ValueError` where a line isn't of the format, a metric has its head twice or not before
    its samples, or a sample comes twice."""
    def want(holds, what):
        if not holds:
            raise ValueError(what)

    want(text.endswith("\n"), "the last line has no end")
    seen, current, types = set(), None, {}
    for line in text.splitlines():
        head = re.fullmatch(rf"# (HELP|TYPE) ({NAME}) (.+)", line)
        if head:
            kind, current, rest = head.groups()
            if kind == "TYPE":
                want(current not in types and rest in ("counter", "gauge", "summary"), line)
                types[current] = rest
            continue
        sample = SAMPLE.fullmatch(line)
        want(sample, f"no sample: {line}")
        name = sample[1]
        base = re.sub(r"_(sum|count)$", "", name) if types.get(current) == "summary" else name
        want(base == current and current in types, f"a sample of another metric: {line}")
        want((types[current] == "counter") == name.endswith("_total"), line)
        want((name, sample[2]) not in seen, f"twice: {line}")
        seen.add((name, sample[2]))
    return seen


def check_grammar(text):
    try:
        print(f"{len(samples_of(text))} samples")
        wrong = ""
    except ValueError as error:
        wrong = str(error)
    check("the grammar of the text format", not wrong, wrong)


def check_by_promtool(text):
    tool = os.environ.get("PROMTOOL") or shutil.which("promtool")
    if not tool:
        print("promtool isn't installed, so it wasn't asked")
        return
    ran = subprocess.run([tool, "check", "metrics"], input=text, capture_output=True, text=True, timeout=SECONDS)
    check("promtool check metrics", ran.returncode == 0 and not ran.stdout and not ran.stderr, (ran.stdout + ran.stderr).strip())


def check_logic():
    """The kit that proves, the metrics and README.md name one logic."""
    named = re.findall(r"\blogic ([0-9a-f]{16})\b", pathlib.Path("README.md").read_text(encoding="utf-8"))
    check("README.md names the logic", named == [logic()], f"{named}, and the metrics {logic()}")
    if not shutil.which("rt"):
        print("rt isn't installed, so it isn't asked for its logic")
        return
    told = subprocess.run(["rt", "version"], capture_output=True, text=True, timeout=SECONDS).stdout
    check("rt version prints the logic", told.split()[-1:] == [logic()], f"{told.strip()}, and the metrics {logic()}")


def check_output(got):
    """What is printed, byte for byte."""
    want = expected()
    at = next((i for i, (a, b) in enumerate(zip(got, want)) if a != b), min(len(got), len(want)))
    before = max(0, at - 60)
    check("the output", got == want, f"it differs at byte {at}: {got[before:at + 60]!r} instead of {want[before:at + 60]!r}")
    return got == want


def output():
    with open(CRATE / "stdin", "rb") as file:
        ran = subprocess.run([PROGRAM], stdin=file, capture_output=True, timeout=SECONDS)
    check("mc_scrape ends well", ran.returncode == 0, ran)
    return ran.stdout


def main():
    words = sys.argv[1:]
    if words not in ([], ["--stored"], ["--write"]):
        sys.exit("usage: exposition.py [--stored | --write]")
    repository.enter(*([] if words else [PROGRAM]))
    if words == ["--write"]:
        (CRATE / "stdout").write_bytes(expected())
        return
    got = (CRATE / "stdout").read_bytes() if words else output()
    if check_output(got):
        text = got.split(b"\r\n\r\n", 1)[1][:len(metrics())].decode()
        check_grammar(text)
        check_by_promtool(text)
    check_logic()
    results.finish()


if __name__ == "__main__":
    main()
