# For scripts that check, which source it: a temporary folder, which they remove at their end, `check` and `finish`, and what several of them
# ask of a file or a server.
folder=$(mktemp -d)
passed=0
failed=0
# What the next checks are of, where a script says so.
where=

# Counts a check by the status of the command after its name.
check() {
    local what=$1
    shift
    if "$@"; then
        passed=$((passed + 1))
    else
        failed=$((failed + 1))
        echo "wrong: ${where:+$where: }$what"
    fi
}

# Whether a file has this text; prints the file where it doesn't.
says() { grep -qF -- "$2" "$1" || { cat "$1"; return 1; }; }

# Tries a command until it succeeds, for so many seconds at most.
await() {
    local until=$((SECONDS + $1))
    shift
    until "$@" >/dev/null 2>&1; do
        [ "$SECONDS" -lt "$until" ] || return 1
        sleep 0.05
    done
}

# Waits until a wfmc whose output goes to this file is ready, for so many seconds at most and while its process lives; else prints the file.
await_ready() { await "$2" is_ready_or_gone "$1" "$3" && grep -q '^ready' "$1" || { cat "$1"; return 1; }; }
is_ready_or_gone() { grep -q '^ready' "$1" || ! kill -0 "$2"; }

# The port of the first tenant, by the output of its wfmc in this file.
port_in() { sed -nE '1s/.*:([0-9]+)$/\1/p' "$1"; }

# What the server at this port of loopback answers to a request, its lines in one.
asks() {
    exec 3<>"/dev/tcp/127.0.0.1/$1"
    printf '%s\r\nquit\r\n' "$2" >&3
    timeout 60 cat <&3 | tr -d '\r' | tr '\n' ' '
    exec 3>&-
}

# Prints the last line, 'N passed, M failed'; its status is the script's.
finish() {
    echo "$passed passed, $failed failed"
    [ "$failed" -eq 0 ] && [ "$passed" -gt 0 ]
}
