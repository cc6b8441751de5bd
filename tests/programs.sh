#!/usr/bin/env bash
# Golden tests: runs the built programs, as both compilers built them, on the transcripts of tests/rows/PROGRAM/NAME. Each has the words of
# the command line (one a line), the input (or the name of one of examples/), and the wanted output, errors and status, byte for byte.
# Prints a line for each test that fails; the last line is 'N passed, M failed'.
set -euo pipefail
cd "$(dirname "$0")/.."

folder=$(mktemp -d)
trap 'rm -rf "$folder"' EXIT
seconds=120
passed=0
failed=0

# Prints what is wrong with a run of this binary on this transcript.
wrong_with() {
    local binary=$1 test=$2 status=0 words input=$2/input
    mapfile -t words <"$test/words"
    [ ! -e "$test/example" ] || input=examples/$(cat "$test/example")
    timeout "$seconds" "$binary" "${words[@]}" <"$input" >"$folder/output" 2>"$folder/errors" || status=$?
    [ "$status" -eq "$(cat "$test/status")" ] || echo "status $status in place of $(cat "$test/status")"
    cmp "$test/output" "$folder/output" 2>&1 || true
    cmp "$test/errors" "$folder/errors" 2>&1 || true
}

for golden in tests/rows/*/; do
    program=$(basename "$golden")
    for binary in "crates/$program/out/$program" "crates/$program/out/$program.by-rattle"; do
        if [ ! -x "$binary" ]; then
            echo "wrong: $binary isn't built: make test builds it"
            failed=$((failed + 1))
            continue
        fi
        for test in "$golden"*/; do
            wrong=$(wrong_with "$binary" "${test%/}" | tr '\n' ';')
            if [ -z "$wrong" ]; then
                passed=$((passed + 1))
            else
                failed=$((failed + 1))
                echo "wrong: $binary on ${test%/}: $wrong"
            fi
        done
    done
done

echo "$passed passed, $failed failed"
[ "$failed" -eq 0 ] && [ "$passed" -gt 0 ]
