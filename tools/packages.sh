# To be sourced: a script's packages of Debian.

# What Debian asks whether a service may be started; by its status 101 it may not.
policy=/usr/sbin/policy-rc.d

# Installs packages and starts none of their services, since memcached's would keep port 11211. The machine's own answer comes back then.
install_packages() (
    [ ! -e "$policy" ] || [ -e "$policy.before" ] || mv "$policy" "$policy.before"
    trap 'rm -f "$policy"; [ ! -e "$policy.before" ] || mv "$policy.before" "$policy"' EXIT
    trap 'exit 130' INT
    trap 'exit 143' TERM HUP
    printf '#!/bin/sh\nexit 101\n' >"$policy"
    chmod 755 "$policy"
    export DEBIAN_FRONTEND=noninteractive
    apt-get update -qq && apt-get install -qq -y --no-install-recommends "$@" >/dev/null
)

# Installs the packages that are named where it may; elsewhere it says what is missing, and ends the script.
require_packages() {
    [ $# -gt 0 ] || return 0
    if [ "$(id -u)" = 0 ]; then
        install_packages "$@"
    else
        echo "Missing: $*. Install with: apt-get install $*" >&2
        exit 1
    fi
}
