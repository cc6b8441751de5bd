#!/usr/bin/env bash
# Checks the manual pages against the built programs: each page is set without a warning, has the expected sections, names each option of
# the program's --help with its bounds and default and no other, names its version, and points to pages that exist; and the examples of the
# programs over standard input print what the page says. Options and numbers are checked without man, too. And wfmc is tried on the words
# of the table in docs/OPERATING.md that says which word is bad.
# Prints a line for each failure; the last line is 'N passed, M failed'.
set -euo pipefail
cd "$(dirname "$0")/.."

. tests/harness/checks.sh
trap 'rm -rf "$folder"' EXIT

# The page as plain text, without breaks of words and of lines.
text_of() { MANWIDTH=400 man -E ascii --nh --nj -l "$1" 2>/dev/null | col -bx; }

is_set_without_warnings() {
    LC_ALL=C.UTF-8 MANWIDTH=80 man --warnings -E UTF-8 -l "$1" >/dev/null 2>"$folder/warnings" || return 1
    [ ! -s "$folder/warnings" ] || { cat "$folder/warnings"; return 1; }
}

# The sections of the page in their order; a page may have more between them.
has_sections() {
    local wanted
    wanted=$(sed -n 's/^\.SH //p' "$1" | tr '\n' ' ')
    for section in NAME SYNOPSIS DESCRIPTION OPTIONS OUTPUT "EXIT STATUS" SIGNALS LIMITS EXAMPLES "SEE ALSO"; do
        [[ "$wanted" == *"$section "* ]] || { echo "no section $section" >&2; return 1; }
        wanted=${wanted#*"$section "}
    done
}

# The options, long and short, in the page's list of options; and those of the program's help.
options_of_page() { sed -n '/^\.SH OPTIONS/,/^\.SH OUTPUT/p' "$1" | grep -A1 '^\.TP' | sed 's/\\-/-/g' | grep -oE -- '(^|[ "])--?[a-zA-Z][a-zA-Z-]*' | tr -d ' "' | sort -u; }
options_of_help() { "$1" --help | sed -n '/^Options:/,/^$/p' | grep -oE -- '(^|[ ,])--?[a-zA-Z][a-zA-Z-]*' | tr -d ' ,' | sort -u; }
has_the_options() {
    options_of_page "$1" >"$folder/page"
    options_of_help "$2" >"$folder/help"
    [ -s "$folder/help" ] && diff "$folder/page" "$folder/help"
}

# Every option with its dashes in the page is one of the help, be it in the running text.
has_no_other_option() {
    ! sed 's/\\-/-/g' "$1" | grep -oE -- '--[a-z][a-z-]*' | sort -u | grep -vxF -f <(options_of_help "$2"; echo --now; echo --as)
}

# The page has under each option the numbers that the help says of it.
has_the_bounds() {
    local line option number said
    while IFS= read -r line; do
        option=$(grep -oE -- '--[a-z][a-z-]*' <<<"$line" | head -n 1)
        said=$(sed 's/\\-/-/g' "$1" | awk -v option="$option" '/^\.TP/ { inside = 0 } inside; index($0, ".BI " option) == 1 { inside = 1 }')
        for number in $(sed "s/.*$option//" <<<"$line" | grep -oE '[0-9]+'); do
            grep -qwF -- "$number" <<<"$said" || { echo "$option: $number" >&2; return 1; }
        done
    done < <("$2" --help | grep -E -- '--[a-z][a-z-]* <?N>?')
}

has_the_version() { grep -qF "\"wfmc ${2#* }\"" <<<"$(grep '^\.TH ' "$1")"; }

# Those of this repository have a page here, and the others are well known.
points_to_pages() {
    local page
    for page in $(sed -n '/^\.SH SEE ALSO/,$p' "$1" | sed -nE 's/^\.BR ([a-z_.]+) \(([1-8])\),?$/\1.\2/p'); do
        [ -e "man/$page" ] || [[ " memcached.1 socat.1 prlimit.1 systemd.exec.5 " == *" $page "* ]] || { echo "no page $page" >&2; return 1; }
    done
}

# Runs what follows '$ ' in the first example, and compares its output with the lines below.
example_is_true() {
    local path=$PATH:$PWD/crates/mc_stdin/out:$PWD/crates/mc_schedule/out
    sed -n '/^\.EX/,/^\.EE/p;/^\.EE/q' "$1" | grep -v '^\.E' | sed 's/\\e/\\/g; s/\\-/-/g' >"$folder/example"
    if grep -q "<<'" "$folder/example"; then
        awk 'NR == 1 { sub(/^\$ /, ""); end = $NF; gsub(/[<'"'"']/, "", end) } { print } $0 == end { exit }' "$folder/example" >"$folder/command"
    else
        sed -n '1s/^\$ //p' "$folder/example" >"$folder/command"
    fi
    tail -n +"$(($(wc -l <"$folder/command") + 1))" "$folder/example" >"$folder/wanted"
    PATH=$path timeout 20 bash "$folder/command" | tr -d '\r' >"$folder/output"
    [ -s "$folder/wanted" ] && diff "$folder/output" "$folder/wanted"
}

# Runs wfmc with a word in the place of one of its own: what it says, and its status. No address of 192.0.2.0/24 can be bound, so that words
# that are right are followed by that failure. A third argument comes before these words.
said_of() {
    local name=shop address=192.0.2.1:11211 items=1000 bytes=1048576 status=0 words=()
    case $1 in
        --*) words=("${1% *}" "$2") ;;
        NAME) name=$2 ;;
        ADDR) address=$2 ;;
        ITEMS) items=$2 ;;
        BYTES) bytes=$2 ;;
    esac
    words+=("$name=$address,$items,$bytes")
    [ "$1" != TENANT ] || words=("$2")
    timeout 20 crates/wfmc/out/wfmc ${3:-} "${words[@]}" >"$folder/output" 2>&1 || status=$?
    echo "$(head -n 1 "$folder/output") $status"
}

# The words of a table's column, which stand between backquotes.
words_of() { grep -o '`[^`]*`' <<<"$1" | tr -d '`'; }

# Tries the words of the table of docs/OPERATING.md that says which word is bad.
try_words() {
    local word right wrong it rows=0
    while IFS='|' read -r _ word _ right wrong _; do
        word=$(words_of "$word")
        right=$(words_of "$right" || true)
        wrong=$(words_of "$wrong" || true)
        check "$word has words that it may be, and words that it may not" test -n "$right" -a -n "$wrong"
        rows=$((rows + 1))
        while IFS= read -r it; do
            check "$word may be $it: $(said_of "$word" "$it")" eval '[[ "$(said_of "$word" "$it")" == "wfmc: cannot listen "*" 1" ]]'
            check "$word may be $it, says --check" test "$(said_of "$word" "$it" --check)" = "wfmc: the settings can be served 0"
        done <<<"$right"
        while IFS= read -r it; do
            check "$word may not be $it: $(said_of "$word" "$it")" test "$(said_of "$word" "$it")" = "wfmc: bad settings 2"
            check "$word may not be $it, says --check" eval '[[ "$(said_of "$word" "$it" --check)" == "wfmc: "*"$it"*": "*"not "*" 2" ]]'
        done <<<"$wrong"
    done < <(sed -n '/^### Which word is bad/,/^Numbers are/p' docs/OPERATING.md | grep '^| `')
    check "docs/OPERATING.md has the table of words" test "$rows" -gt 0
}

[ ! -x crates/wfmc/out/wfmc ] || try_words
for page in man/*.[1-8]; do
    name=$(basename "${page%.*}")
    program=crates/$name/out/$name
    if [ ! -x "$program" ]; then
        check "$program isn't built: make build" false
        continue
    fi
    if command -v man >/dev/null; then
        check "$page: warnings" is_set_without_warnings "$page"
        check "$page: its name" grep -q "^ *$name - " <<<"$(text_of "$page")"
    else
        echo "man isn't there: the setting of $page isn't checked"
    fi
    check "$page: its sections" has_sections "$page"
    check "$page: the options of --help" has_the_options "$page" "$program"
    check "$page: another option" has_no_other_option "$page" "$program"
    check "$page: bounds and defaults" has_the_bounds "$page" "$program"
    check "$page: its version" has_the_version "$page" "$("$program" --version)"
    check "$page: pages that it points to" points_to_pages "$page"
    [ "$name" = wfmc ] || check "$page: its example" example_is_true "$page"
done

finish
