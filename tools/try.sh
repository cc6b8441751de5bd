#!/usr/bin/env bash
# Compiles wfmc or mc_stdin by rt try, which proves nothing, and runs it: wfmc for two tenants on loopback, until it is interrupted or an
# hour has passed; mc_stdin on its first run. rt try adds checks at run time, which make the program some 100 times slower, and passes on what it
# prints only when it has ended, so this script says what wfmc listens to.
# Usage: tools/try.sh wfmc [PORT] | ports [PORT] | mc_stdin. The tenants are at PORT (11211) and the next one; `ports` looks whether these
# are free, and nothing else.
set -euo pipefail
cd "$(dirname "$0")/.."

seconds=3600
folder=$(mktemp -d)
process=
# rt removes its files and ends the program at a signal, unless a second one comes meanwhile: so it is in a session of its own, where an
# interrupt at the terminal doesn't reach it, and gets one from here.
end() {
    trap '' INT TERM HUP
    [ -z "$process" ] || { kill "$process" && wait "$process"; } 2>/dev/null || true
    rm -rf "$folder"
}
trap end EXIT
trap 'exit 130' INT
trap 'exit 143' TERM HUP

refuse() {
    echo "tools/try.sh: $1" >&2
    exit "$2"
}

# What a memcached answers to version at this port of loopback, or nothing.
version_at() {
    local answer
    {
        exec 3<>"/dev/tcp/127.0.0.1/$1" && printf 'version\r\nquit\r\n' >&3 && read -t 5 -r answer <&3 && echo "${answer%$'\r'}"
        exec 3>&-
    } 2>/dev/null || true
}

is_taken() { (exec 3<>"/dev/tcp/127.0.0.1/$1") 2>/dev/null; }

need_ports() {
    local port
    [[ "$1" =~ ^[1-9][0-9]{0,4}$ ]] && [ "$1" -lt 65535 ] || refuse "a port is a number from 1 to 65534" 2
    for port in "$1" $(($1 + 1)); do
        ! is_taken "$port" || refuse "127.0.0.1:$port is taken, perhaps by a memcached: choose another by PORT=21211" 1
    done
}

try_wfmc() {
    local shop=$1 blog=$(($1 + 1)) status=0
    (cd crates/wfmc && exec setsid rt try --seconds "$seconds" -- --places 1048576 --generations 0 \
        "shop=127.0.0.1:$shop,1000000,64000000" "blog=127.0.0.1:$blog,1000000,64000000") </dev/null >"$folder/said" 2>&1 &
    process=$!
    until [[ "$(version_at "$blog")" == VERSION* ]]; do
        if ! kill -0 "$process" 2>/dev/null; then
            wait "$process" || true
            process=
            cat "$folder/said" >&2
            refuse "wfmc didn't start" 1
        fi
        sleep 0.5
    done
    cat <<END
listening shop 127.0.0.1:$shop
listening blog 127.0.0.1:$blog
ready after $SECONDS seconds. Nothing was proved: make serve proves wfmc, and serves the same tenants.
With its checks at run time it is some 100 times slower: not for measuring.
In another terminal: printf 'set a 0 0 1\\r\\nx\\r\\nget a\\r\\nquit\\r\\n' | nc 127.0.0.1 $shop
An interrupt (Ctrl-C) ends it; else it ends after an hour.
END
    wait "$process" || status=$?
    process=
    cat "$folder/said" >&2
    # A server doesn't end by itself; an interrupt ends this script, and doesn't come here.
    [ "$SECONDS" -ge "$seconds" ] || refuse "wfmc has ended before its hour was over: rt try ended with status $status" 1
}

try_stdin() {
    local status=0
    (cd crates/mc_stdin && exec setsid rt try <stdin) >"$folder/output" 2>"$folder/said" &
    process=$!
    wait "$process" || status=$?
    process=
    cat "$folder/output"
    [ "$status" -eq 0 ] || { cat "$folder/said" >&2; refuse "mc_stdin failed" 1; }
    echo "Nothing was proved: make stdin proves mc_stdin, and runs it on the same input, crates/mc_stdin/stdin."
}

case ${1:-} in
    wfmc)
        port=${2:-11211}
        need_ports "$port"
        echo "Compiling wfmc without a proof: a minute or two ..." >&2
        try_wfmc "$port"
        ;;
    ports) need_ports "${2:-11211}" ;;
    mc_stdin)
        echo "Compiling mc_stdin without a proof ..." >&2
        try_stdin
        ;;
    *) refuse "wfmc, ports or mc_stdin?" 2 ;;
esac
