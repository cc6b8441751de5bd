#!/usr/bin/env bash
# The gate: the kit's own (every proof and every mutant of must-fail/ that hasn't passed on this machine as it stands, the tests, the programs
# on their stored runs), and then the built programs on their golden tests, wfmc over sockets, whether its clients' histories are
# linearizable, a round of the fuzzer (these two over one log, and over one after another), calls of workers with each allocation refused, the
# metrics of an example by an oracle and those of wfmc by what its clients know, the manual pages by the programs' --help, installing and
# packages under temporary folders, the states of a small core and its wrong definitions, that no crate cites another's proofs but those of a
# crate of lemmas, that the picture of the crates and the generated documents are up to date, and that the compatibility suite has the rows of
# docs/PROTOCOL.md; and the self tests of scripts which need neither a proof nor a compiler. Needs gcc. The last line is 'N passed, M failed',
# in total; the steps that failed stand before it once more.
set -euo pipefail
cd "$(dirname "$0")/.."

folder=$(mktemp -d)
trap 'rm -rf "$folder"' EXIT

# Passes on all lines but the last, which is kept for the total, as those are that say what failed, for the end.
all_but_last() {
    awk -v last="$1" '/^(wrong|FAILED): / { print >(last ".failures") } NR > 1 { print held; fflush() } { held = $0 } END { print held >last }'
}

failed=0
sums=()
steps=()
# Runs a command, whose last line is kept for the total. One that counts no failure and ends as if there were some has failed too.
count() {
    local sum=$folder/${#sums[@]} status=0
    sums+=("$sum")
    steps+=("$*")
    "$@" 2>&1 | all_but_last "$sum" || status=$?
    [ "$status" -ne 0 ] || return 0
    failed=1
    ! counts_no_failure "$sum" || sed -i "s/.*/status $status behind '&'/" "$sum"
}

counts_no_failure() { grep -qxE '[0-9]+ passed, 0 failed' "$1"; }

# Says again at the end, where a reader of a long log looks first, which steps failed, and in what.
say_failures() {
    local step
    for step in "${!steps[@]}"; do
        counts_no_failure "${sums[step]}" || { echo "failed: ${steps[step]}" && cat "${sums[step]}.failures" 2>/dev/null || true; }
    done
}

passes() {
    if "$@"; then echo "1 passed, 0 failed"; else echo "0 passed, 1 failed" && return 1; fi
}

# A run of tools/prove.sh that was killed leaves its rooms, which rt would take for crates; one that is at work ends first.
mkdir -p out
flock out/prove.lock rm -rf out/rooms
# The longest chain of crates begins with mc_model, to which the kit gives one processor where others could begin: so it is proved first. What
# fails here fails below.
rt ci mc_model || true
count rt ci
echo "the golden tests of the built programs"
count tests/programs.sh
for binary in wfmc wfmc.by-rattle; do
    echo "$binary over sockets"
    count python3 tests/network.py "crates/wfmc/out/$binary"
done
echo "the histories of wfmc's clients are linearizable"
count python3 tests/linearizability.py --self-test
count python3 tests/linearizability.py 20
count python3 tests/linearizability.py 5 --generations
count python3 tests/linearizability.py 5 --generations --within --workers 2 --log-bytes 4000
echo "a round of the fuzzer on wfmc"
count python3 tests/fuzz.py --seed 77 --round 3
count python3 tests/fuzz.py --seed 77 --round 2 --generations
count python3 tests/fuzz.py --seed 77 --round 1 --generations --within --log-bytes 4000
echo "calls of workers, with each allocation refused in turn"
count python3 tests/allocation_failures.py calls
echo "the metrics of an example, as Prometheus reads them"
count python3 tests/exposition.py
echo "the metrics of wfmc, while it serves"
count python3 tests/metrics.py
echo "the manual pages, installing, and packages"
count tests/manual.sh
count tests/install_selftest.sh
count tests/package_selftest.sh
echo "the states of a small core, and wrong definitions of it"
count python3 tests/core_states.py
count python3 tests/wrong_definitions.py
echo "the scripts that prove and that try, and what tests share"
count tests/prove_selftest.sh
count tests/try_selftest.sh refusals
count python3 tests/harness_selftest.py
echo "names, layers, the picture of the crates, the generated documents, and the rows of what differs from memcached"
count passes python3 tools/layers.py
count passes tools/picture.py --check
count passes python3 tools/promises.py --check
count passes python3 tools/reading.py --check
count passes python3 tools/compatibility/differences.py --check

say_failures
awk '/^[0-9]+ passed, [0-9]+ failed$/ { passed += $1; failed += $3; next } { print; failed++ }
     END { print passed + 0 " passed, " failed + 0 " failed"; exit (failed > 0) }' "${sums[@]}" || failed=1
exit "$failed"
