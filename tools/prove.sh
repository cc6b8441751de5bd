#!/usr/bin/env bash
# Proves and builds the named crates with the libraries that they stand on, those that don't wait for each other side by side. A
# program is run on its stored words and input, and on none where it has none.
# Prints a line as each crate begins and one as it ends; where one fails, its log stays and the last line says where.
# rt keeps others out of a crate's folder and of all below it while it works, so each crate is proved in a room of its own, made of
# hard links; what it has made comes back when it ends. One run of this script waits for another, since they would share the rooms.
set -euo pipefail
cd "${REPOSITORY:-$(dirname "$0")/..}"
[ $# -gt 0 ] || { echo "which crates?" >&2; exit 2; }

# Each crate's libraries of this repository, by crates.txt.
declare -A below
while IFS=: read -r crate libraries; do
    below[${crate%% *}]=$libraries
done < <(grep -v '^ *\(#\|$\)' crates.txt)
for crate in "${!below[@]}"; do
    ours=
    for library in ${below[$crate]}; do [ -z "${below[$library]+ours}" ] || ours+=" $library"; done
    below[$crate]=$ours
done

for crate in "$@"; do
    [[ -n "$crate" && -n "${below[$crate]+listed}" ]] || { echo "tools/prove.sh: crates.txt has no crate '$crate'" >&2; exit 2; }
done

mkdir -p out
exec {lock}>out/prove.lock
flock -n "$lock" || { echo "waiting for another run of tools/prove.sh"; flock "$lock"; }

# The crates to prove, each after its libraries.
order=()
add() {
    local crate
    for crate in ${below[$1]}; do add "$crate"; done
    [[ " ${order[*]} " == *" $1 "* ]] || order+=("$1")
}
for crate in "$@"; do add "$crate"; done

# How much text waits for a crate with its own: the longest chain begins first, and gets the processors that are left over.
declare -A chain
for crate in "${order[@]}"; do chain[$crate]=0; done
for ((at = ${#order[@]} - 1; at >= 0; at--)); do
    crate=${order[at]}
    ((chain[$crate] += $(find "crates/$crate" -path '*/out' -prune -o \( -name '*.rt' -o -name '*.antt' \) -print0 | xargs -0 cat | wc -l))) || true
    for library in ${below[$crate]}; do
        ((chain[$library] >= chain[$crate])) || chain[$library]=${chain[$crate]}
    done
done
mapfile -t order < <(for crate in "${order[@]}"; do echo "${chain[$crate]} $crate"; done | sort -rn | cut -d' ' -f2)

# The libraries of this repository at and below a crate.
closure() {
    local library
    echo "$1"
    for library in ${below[$1]}; do closure "$library"; done
}

# A room for one crate: its folder, those of the libraries below it, and a list of these alone.
rooms=$PWD/out/rooms
make_room() {
    local crate=$1 room=$rooms/$1 it
    rm -rf "$room"
    mkdir -p "$room/crates"
    cp HANDLES "$room"
    for it in $(closure "$crate" | sort -u); do
        cp -al "crates/$it" "$room/crates/"
        grep "^${it}[ :]" crates.txt >>"$room/crates.txt"
    done
}

# Proves one crate with the given number of jobs, in the background.
logs=$(mktemp -d)
declare -A state jobs_of process_of
begun=0
begin() {
    local crate=$1 jobs=$2 input words=()
    begun=$((begun + 1))
    echo "proving $crate ($begun of ${#order[@]})"
    touch "$logs/$crate.begun"
    make_room "$crate"
    input=/dev/null
    [ ! -e "crates/$crate/stdin" ] || input=stdin
    [ ! -e "crates/$crate/args" ] || mapfile -t words <"crates/$crate/args"
    if [ -e "crates/$crate/src/main.rt" ]; then
        (cd "$rooms/$crate/crates/$crate" && exec rt run --jobs "$jobs" ${words:+-- "${words[@]}"} <"$input") >"$logs/$crate" 2>&1 {lock}>&- &
    else
        (cd "$rooms/$crate/crates/$crate" && exec rt lib --jobs "$jobs") >"$logs/$crate" 2>&1 {lock}>&- &
    fi
    state[$crate]=$SECONDS jobs_of[$crate]=$jobs process_of[$!]=$crate
}

# What was made for a crate, proved or not, is kept with its text.
leave_room() {
    local crate=$1
    [ -d "$rooms/$crate/crates/$crate/out" ] || return 0
    rm -rf "crates/$crate/out"
    mv "$rooms/$crate/crates/$crate/out" "crates/$crate/out"
}

is_ready() {
    local library
    [ -z "${state[$1]-}" ] || return 1
    for library in ${below[$1]}; do [ "${state[$library]-}" = proved ] || return 1; done
}

idle=$(nproc)
left=${#order[@]}
trap 'kill $(jobs -p) 2>/dev/null || true; wait; rm -rf "$rooms"' EXIT
while [ "$left" -gt 0 ]; do
    ready=()
    for crate in "${order[@]}"; do ! is_ready "$crate" || ready+=("$crate"); done
    for ((at = 0; at < ${#ready[@]} && idle > 0; at++)); do
        waiting=$((${#ready[@]} - at))
        jobs=$(((idle + waiting - 1) / waiting))
        [ "$jobs" -le 4 ] || jobs=4
        begin "${ready[at]}" "$jobs"
        idle=$((idle - jobs))
    done
    status=0
    wait -n -p ended "${!process_of[@]}" || status=$?
    crate=${process_of[$ended]}
    unset "process_of[$ended]"
    leave_room "$crate"
    if [ "$status" -ne 0 ]; then
        tail -n 20 "$logs/$crate" | cut -c1-300
        echo "$crate isn't proved; its whole log is $logs/$crate" >&2
        exit 1
    fi
    # A program that rt found to be of these texts, and left as it was, is to be newer than they are, as one that it has built: tools/package.sh
    # asks for that.
    [ ! -e "crates/$crate/out/$crate" ] || touch -r "$logs/$crate.begun" "crates/$crate/out/$crate"
    echo "        $crate is proved ... $((SECONDS - state[$crate])) s"
    state[$crate]=proved idle=$((idle + jobs_of[$crate])) left=$((left - 1))
done
rm -r "$logs"
