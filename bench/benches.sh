#!/usr/bin/env bash
# Runs crates/benches, as built, on the reader, the cells or the places: bench/benches.sh reader|cells|places [RUNS]. Prints the median, the
# least and the greatest of each measurement, each as a line of its name, its value and its unit with tabs between them.
#
# The reader: the fastest of 7 passes over streams in pieces and byte by byte, next to a scan of the same bytes for line feeds. The cells: 7
# passes over 50,000 entries, each a put into a cell and four sightings, next to a push to a plain vector and four reads. The places: the
# opening of the greatest log, reads, submits by one, two and four threads, and their steps by kind, each timed by itself; steps of 10
# microseconds and more are left out, since the system had stopped their thread.
set -euo pipefail
cd "$(dirname "$0")/.."

[ -x crates/benches/out/benches ] || { echo "crates/benches/out/benches isn't built: make bench builds it" >&2; exit 1; }
for ((run = 0; run < ${2:-1}; run++)); do crates/benches/out/benches "$1" --time; done | bench/report.py
