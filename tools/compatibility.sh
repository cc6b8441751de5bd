#!/usr/bin/env bash
# The compatibility suite: runs the clients that Debian has against a server: pymemcache, pylibmc, python3-memcache, libmemcached's tools,
# and lines over a plain socket. Each answer has to be that of a memcached which is started next to it, or one of the differences that
# docs/PROTOCOL.md lists (tools/compatibility/differences.py). Usage: tools/compatibility.sh [WFMC | mc_stdin | HOST:PORT [HOST:PORT]]
#
#   (nothing)   crates/wfmc/out/wfmc, with 1 and with 4 workers
#   WFMC        the program at this path, in the same way
#   mc_stdin    crates/mc_stdin/out/mc_stdin, or one at another path, behind a relay, which starts one, with a table, for each connection
#   HOST:PORT   the server there, which is FLUSHED, with quotas as make serve gives; a second address is that of another tenant
#
# Installs what is missing where it may, or says what that is. The last line is 'N passed, M failed'.
set -euo pipefail
cd "$(dirname "$0")/.."
. tools/packages.sh

server=${1:-crates/wfmc/out/wfmc}
missing=()
command -v memcached >/dev/null || missing+=(memcached)
command -v memccat >/dev/null || missing+=(libmemcached-tools)
command -v nc >/dev/null || missing+=(netcat-openbsd)
[ "${server##*/}" != mc_stdin ] || command -v socat >/dev/null || missing+=(socat)
for library in pymemcache pylibmc memcache; do
    /usr/bin/python3 -c "import $library" 2>/dev/null || missing+=("python3-$library")
done
require_packages "${missing[@]}"

case $server in
    *:*) program=bash ;;
    mc_stdin) program=crates/mc_stdin/out/mc_stdin ;;
    *) program=$server ;;
esac
command -v "$program" >/dev/null || { echo "$program isn't built: make serve builds wfmc, make stdin mc_stdin" >&2; exit 1; }
exec /usr/bin/python3 -B tools/compatibility/compare.py "$@"
