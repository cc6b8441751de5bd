#!/usr/bin/env bash
# Tests twemproxy over three instances of wfmc for two tenants, by tools/proxy.yml on free ports: keys go to all three, tenants are isolated,
# one instance is stopped and started again, with auto_eject_hosts off and on (tools/compatibility/proxied.py).
# Usage: tools/proxy.sh [WFMC]. Installs nutcracker and python3-pymemcache where it may. The last line is 'N passed, M failed'.
set -euo pipefail
cd "$(dirname "$0")/.."
. tools/packages.sh

missing=()
command -v nutcracker >/dev/null || missing+=(nutcracker)
/usr/bin/python3 -c 'import pymemcache' 2>/dev/null || missing+=(python3-pymemcache)
require_packages "${missing[@]}"
program=${1:-crates/wfmc/out/wfmc}
[ -x "$program" ] || { echo "$program isn't built: make serve builds it" >&2; exit 1; }
exec /usr/bin/python3 -B tools/compatibility/proxied.py "$program"
