#!/usr/bin/env bash
# The fuzzer, the histories of clients and noisy neighbours side by side, against wfmc as built, with each of 1, 2 and 4 workers: over logs that
# follow one another, each server with no more memory than docs/OPERATING.md says, and killed once its round is over. Each of the three goes on
# for MINUTES (20) with each number of workers, so an hour in all; the neighbours end at what fails first.
# Prints the last lines of each; the last line is 'N passed, M failed', of the three together. What they print in full stays in out/soak/. An
# interrupt ends all three, with their servers. The servers take their memory by the C library's allocator, or by the one that LD_PRELOAD names, as the
# defaults file does.
#
# Usage: tests/soak.sh [MINUTES]
set -euo pipefail
cd "$(dirname "$0")/.."

seconds=$((${1:-20} * 60))
folder=out/soak
mkdir -p "$folder"

# Each of the three is in a process group of its own, with the servers that it starts: so they are ended from here.
set -m
end() {
    local group
    for group in $(jobs -p); do kill -- "-$group" 2>/dev/null || true; done
}
trap end EXIT
trap 'exit 130' INT
trap 'exit 143' TERM HUP

# Measures the neighbours again and again; each server that ends early, or replies something else, ends it.
neighbours() {
    local end=$((SECONDS + seconds)) rounds=0
    while [ "$SECONDS" -lt "$end" ]; do
        python3 bench/neighbours.py --workers "$1" --seconds 10 --no-memcached --preload "${LD_PRELOAD:-none}" || { echo "$rounds passed, 1 failed"; return 1; }
        rounds=$((rounds + 1))
    done
    echo "$rounds passed, 0 failed"
}

passed=0
failed=0
for workers in 1 2 4; do
    python3 tests/fuzz.py "$seconds" --generations --within --workers "$workers" >"$folder/fuzz.$workers" 2>&1 &
    python3 tests/linearizability.py "$seconds" --generations --within --workers "$workers" --log-bytes 4000 >"$folder/linearizability.$workers" 2>&1 &
    neighbours "$workers" >"$folder/neighbours.$workers" 2>&1 &
    wait
    for checker in fuzz linearizability neighbours; do
        echo "$checker, $workers workers:"
        tail -n 3 "$folder/$checker.$workers"
        sum=$(tail -n 1 "$folder/$checker.$workers")
        if [[ $sum =~ ^([0-9]+)\ passed,\ ([0-9]+)\ failed$ ]]; then
            passed=$((passed + BASH_REMATCH[1]))
            failed=$((failed + BASH_REMATCH[2]))
        else
            echo "no sum"
            failed=$((failed + 1))
        fi
    done
done

echo "$passed passed, $failed failed"
[ "$failed" -eq 0 ] && [ "$passed" -gt 0 ]
