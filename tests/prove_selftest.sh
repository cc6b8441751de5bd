#!/usr/bin/env bash
# Tests tools/prove.sh on a small repository with a stand-in for rt, which proves nothing and notes when it begins and ends: each crate once,
# after its libraries; unknown and failing crates; that a run which is killed leaves no process, no room and no lock; that one run waits for
# another; and that a program which rt left as it was is newer than its texts. Some seconds. The last line is 'N passed, M failed'.
set -euo pipefail
cd "$(dirname "$0")/.."

. tests/harness/checks.sh
run=
trap '[ -z "$run" ] || kill "$run" 2>/dev/null || true; wait; rm -rf "$folder"' EXIT
tools=$PWD/tools
cd "$folder"
mkdir -p bin repository/crates/{low,left,right,top}/src temporary
echo 'Handles allowed: none.' >repository/HANDLES
printf '%s\n' '# A comment.' 'low: std' 'left: low' 'right: low' 'top: left right' >repository/crates.txt
touch repository/crates/{low,left,right}/src/lib.rt repository/crates/top/src/main.rt
# What it does with a crate, files say that lie in the folder of this test under the crate's name.
cat >bin/rt <<'END'
#!/usr/bin/env bash
crate=${PWD##*/}
echo $$ >"$NOTES/$crate.process"
echo "begin $crate" >>"$NOTES/notes"
mkdir -p out
if [ -e "$NOTES/$crate.hangs" ]; then exec sleep 300; fi
until [ ! -e "$NOTES/$crate.waits" ]; do sleep 0.05; done
if [ -e "$NOTES/$crate.fails" ]; then echo "it fails"; exit 1; fi
[ "$1" != run ] || [ -e "out/$crate" ] || echo program >"out/$crate"
echo "end $crate" >>"$NOTES/notes"
END
# Two are at work at a time on a machine of one processor too.
printf '%s\n' '#!/bin/sh' 'echo 4' >bin/nproc
chmod +x bin/rt bin/nproc
export NOTES=$folder REPOSITORY=$folder/repository PATH=$folder/bin:$PATH TMPDIR=$folder/temporary

proves() {
    local status=0 wanted=$1
    shift
    : >notes
    timeout 60 "$tools/prove.sh" "$@" >said 2>&1 || status=$?
    [ "$status" -eq "$wanted" ] || { cat said; echo "status $status"; return 1; }
}
notes_are() { [ "$(paste -sd, notes)" = "$1" ] || { cat notes; return 1; }; }
is_in_order() {
    [ "$(sort notes)" = "$(printf '%s\n' {begin,end}' '{left,low,right,top})" ] && [ "$(head -n 2 notes | paste -sd,)" = 'begin low,end low' ] &&
        [ "$(tail -n 2 notes | paste -sd,)" = 'begin top,end top' ] || { cat notes; return 1; }
}
leaves_no_room() { [ ! -e repository/out/rooms ]; }
is_newer_than_its_texts() { [ ! repository/crates/low/src/lib.rt -nt repository/crates/top/out/top ]; }

check "a crate and all below it" proves 0 top
check "each once, after its libraries" is_in_order
check "what was made comes back" test -e repository/crates/low/out -a -e repository/crates/top/out/top
check "no room is left" leaves_no_room
touch -d yesterday repository/crates/top/out/top
check "once more" proves 0 top
check "the program, which rt left as it was, is newer than its texts" is_newer_than_its_texts
touch -d tomorrow repository/crates/low/src/lib.rt
check "a text that was changed after it began" proves 0 top
check "is newer than the program" eval '! is_newer_than_its_texts'
touch repository/crates/low/src/lib.rt

check "no crate of that name" proves 2 tip
check "is said" says said "crates.txt has no crate 'tip'"
check "a library of the kit isn't one" proves 2 low std
touch low.fails
check "a crate that isn't proved" proves 1 left
check "is said, with its last lines" says said "it fails"
check "and where its log is" says said "low isn't proved; its whole log is $folder/temporary/"
check "nothing above it was begun" notes_are 'begin low'
rm low.fails

touch left.hangs right.waits
: >notes
"$tools/prove.sh" top >said 2>&1 &
run=$!
check "two are at work" await 60 eval 'grep -q "begin left" notes && grep -q "begin right" notes'
kill "$run"
wait "$run" 2>/dev/null || true
run=
for crate in left right; do
    check "a run that is killed leaves no rt at $crate" eval '! kill -0 "$(cat "$crate.process")" 2>/dev/null'
done
check "no room" leaves_no_room
check "and no lock" flock -n repository/out/prove.lock true
rm left.hangs right.waits

touch low.waits
: >notes
"$tools/prove.sh" low >first 2>&1 &
run=$!
check "one run" await 60 grep -q 'begin low' notes
"$tools/prove.sh" low >second 2>&1 &
other=$!
check "another one waits for it" await 60 grep -q '^waiting for another run' second
rm low.waits
check "the first one's end" wait "$run"
run=$other
check "the other one's" wait "$run"
run=
check "one was after the other" notes_are 'begin low,end low,begin low,end low'

finish
