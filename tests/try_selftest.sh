#!/usr/bin/env bash
# Tests make try and make run: a port that is taken is refused at once, as for make serve too; that wfmc has died is an error; wfmc serves
# two tenants apart, says that nothing was proved and how long that took, and leaves neither a process nor a file when it is interrupted; and
# mc_stdin prints what its first run must print. Some minutes, most of them compiling. The last line is 'N passed, M failed'.
# Usage: tests/try_selftest.sh [refusals]. With the word only what needs no compiling, in some seconds.
set -euo pipefail
cd "$(dirname "$0")/.."

. tests/harness/checks.sh
tried=
trap '[ -z "$tried" ] || kill "$tried" 2>/dev/null || true; rm -rf "$folder"' EXIT
mkdir "$folder/temporary"

# A port of loopback that is free, with the next one.
free_ports() {
    python3 - <<'END'
import random, socket
least = int(open("/proc/sys/net/ipv4/ip_local_port_range").read().split()[0])
# Below the ports that the system gives to clients, if it leaves any: no client gets one of these meanwhile, and none that connects reaches itself.
ports = range(1_024, least - 1) or range(1_024, 65_535)
while True:
    port = random.choice(ports)
    with socket.socket() as first, socket.socket() as second:
        try:
            first.bind(("127.0.0.1", port))
            second.bind(("127.0.0.1", port + 1))
        except OSError:
            continue
        print(port)
        break
END
}

is_refused() { (exec 3<>"/dev/tcp/127.0.0.1/$1") 2>/dev/null && return 1 || return 0; }

refuses_a_taken_port() {
    local status=0 taken=$1
    rm -f "$folder/listens"
    python3 -c 'import socket, sys, time
with socket.create_server(("127.0.0.1", int(sys.argv[1]))): print(flush=True); time.sleep(60)' "$taken" >"$folder/listens" &
    tried=$!
    until [ -s "$folder/listens" ]; do kill -0 "$tried" 2>/dev/null || { tried=; return 1; }; sleep 0.1; done
    # Where the port isn't found to be taken, wfmc would be compiled, and serve for an hour.
    timeout 60 tools/try.sh "$3" "$2" >"$folder/output" 2>"$folder/errors" || status=$?
    kill "$tried" && { wait "$tried" || true; } 2>/dev/null
    tried=
    [ "$status" -eq 1 ] && [ ! -s "$folder/output" ] && says "$folder/errors" "127.0.0.1:$taken is taken"
}

# With a stand-in for rt, which compiles nothing, answers once at the second port, and dies.
reports_a_death() {
    local status=0
    mkdir -p "$folder/bin"
    cat >"$folder/bin/rt" <<'END'
#!/usr/bin/env python3
import re, socket, sys
with socket.create_server(("127.0.0.1", int(re.search(r"blog=127.0.0.1:(\d+)", " ".join(sys.argv))[1]))) as listener:
    with listener.accept()[0] as stream, stream.makefile("rb") as lines:
        # All of what is asked first: the system would answer the rest with a reset.
        next(line for line in lines if line == b"quit\r\n")
        stream.sendall(b"VERSION 1\r\n")
sys.exit("it died")
END
    chmod +x "$folder/bin/rt"
    TMPDIR=$folder/temporary PATH=$folder/bin:$PATH timeout 60 tools/try.sh wfmc "$1" >"$folder/output" 2>"$folder/errors" || status=$?
    [ "$status" -eq 1 ] && says "$folder/output" "ready after" && says "$folder/errors" "it died" && says "$folder/errors" "wfmc has ended before its hour"
}

starts() {
    # What another check has left there says that it is ready.
    : >"$folder/output"
    # In a session of its own, so that an interrupt reaches all that it started, as at a terminal; the shell has it ignored in the background.
    TMPDIR=$folder/temporary setsid env --default-signal=INT make -s try PORT="$1" >"$folder/output" 2>"$folder/errors" &
    tried=$!
    until grep -q 'ends after an hour' "$folder/output"; do
        kill -0 "$tried" 2>/dev/null || { cat "$folder/output" "$folder/errors"; return 1; }
        sleep 0.5
    done
}

is_interrupted() {
    kill -INT -- "-$tried"
    wait "$tried" 2>/dev/null || true
    tried=
    # What it had started ends a moment later.
    await 60 leaves_no_process || true
    await 60 leaves_nothing || true
}

# Nothing that was compiled for this port runs on.
leaves_no_process() { ! pgrep -af -- "shop=127.0.0.1:$shop,"; }

leaves_nothing() { [ -z "$(ls -A "$folder/temporary")" ] || { ls "$folder/temporary"; return 1; }; }

shop=$(free_ports)
blog=$((shop + 1))
check "the first port is taken" refuses_a_taken_port "$shop" "$shop" wfmc
check "the second port is taken" refuses_a_taken_port "$blog" "$shop" wfmc
check "the first port is taken, for make serve" refuses_a_taken_port "$shop" "$shop" ports
check "the second port is taken, for make serve" refuses_a_taken_port "$blog" "$shop" ports
check "both are free" tools/try.sh ports "$shop"
check "no port" eval '! tools/try.sh wfmc many >/dev/null 2>&1'
check "no program" eval '! tools/try.sh wfmd >/dev/null 2>&1'

check "a wfmc that dies is an error" reports_a_death "$shop"
check "no file is left then" leaves_nothing
if [ "${1:-}" = refusals ]; then
    finish
    exit
fi

check "make try" starts "$shop"
grep 'ready after' "$folder/output" || true
check "it says what wasn't proved" says "$folder/output" "Nothing was proved: make serve proves wfmc"
check "a set" test "$(asks "$shop" $'set a 0 0 1\r\nx')" = "STORED "
check "the tenant's get" test "$(asks "$shop" 'get a')" = "VALUE a 0 1 x END "
check "the other tenant's" test "$(asks "$blog" 'get a')" = "END "
is_interrupted
check "the first port is free again" is_refused "$shop"
check "the second port is free again" is_refused "$blog"
check "no process is left" leaves_no_process
check "no file is left" leaves_nothing

TMPDIR=$folder/temporary make -s run >"$folder/output" 2>"$folder/errors" || cat "$folder/errors"
check "make run prints what the first run must" diff crates/mc_stdin/stdout <(head -n -1 "$folder/output")
check "and says what wasn't proved" says "$folder/output" "Nothing was proved: make stdin proves mc_stdin"
check "no file is left by it" leaves_nothing

finish
