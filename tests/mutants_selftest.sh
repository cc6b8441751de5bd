#!/usr/bin/env bash
# Tests tools/mutants.py itself on a small repository: a mutant that breaks a function is refused, in either set, also where it is one of a
# clause that breaks a caller alone, and one that changes nothing, or only what nobody needs, is reported as not refused, also where it is
# tried next to one that breaks a function which its own calls.
set -euo pipefail
tools=$(cd "$(dirname "$0")/../tools" && pwd)

folder=$(mktemp -d)
trap 'rm -rf "$folder"' EXIT
mkdir -p "$folder/crates/half/src" "$folder/crates/half/must-fail" "$folder/crates/half/more-edits"
cd "$folder"
echo 'half:' >crates.txt
echo 'Handles allowed: none.' >HANDLES
cat >crates/half/src/lib.rt <<'END'
//! Functions that a mutant can break.
#![tactic(auto)]

ghost use Rattle.std.specs.Prelude.{◌≡◌, ◌/◌};

/// Half of a number.
pub fn half(number: u8) -> u8
    ensures { result ≡ number / 2 }
{
    number / 2
}

/// Half of a number's half.
pub fn quarter(number: u8) -> u8
    ensures { result ≡ (number / 2) / 2 }
{
    half(half(number))
}
END
mutant() { printf 'file: src/lib.rt\nold:     %s\nnew:     %s\n' "$2" "$3" >"crates/half/$1.edit"; }
mutant must-fail/half_is_a_third 'number / 2' 'number / 3'
mutant more-edits/half_is_a_fourth 'number / 2' 'number / 4'
mutant more-edits/half_unchanged 'number / 2' 'number / 2'
mutant more-edits/quarter_unchanged 'half(half(number))' 'half(half(number))'
# Clauses: refused by the function itself, by its caller alone, and by nobody.
mutant more-edits/quarter_promises_half 'ensures { result ≡ (number / 2) / 2 }' 'ensures { result ≡ number / 2 }'
mutant more-edits/half_promises_nothing 'ensures { result ≡ number / 2 }' 'ensures { result ≡ result }'
mutant more-edits/quarter_promises_nothing 'ensures { result ≡ (number / 2) / 2 }' 'ensures { result ≡ result }'

status=0
REPOSITORY=$folder "$tools/mutants.py" half >log 2>&1 || status=$?
wanted='NOT REFUSED: half/half_unchanged.edit
NOT REFUSED: half/quarter_promises_nothing.edit
NOT REFUSED: half/quarter_unchanged.edit
4 passed, 3 failed'
if [ "$status" -ne 1 ] || [ "$(tail -n 4 log)" != "$wanted" ]; then
    cat log
    echo "tools/mutants.py ended with status $status, and its last lines aren't: $wanted" >&2
    exit 1
fi
echo 'tools/mutants.py reports mutants that change nothing, and clauses that nobody needs, as not refused'
