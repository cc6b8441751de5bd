#!/usr/bin/env bash
# Tests how a tenant is moved from a running memcached to wfmc (tests/moving.py). Usage: tools/moving.sh [WFMC].
# Installs memcached and nutcracker where it may. The last line is 'N passed, M failed'.
set -euo pipefail
cd "$(dirname "$0")/.."
. tools/packages.sh

missing=()
command -v memcached >/dev/null || missing+=(memcached)
command -v nutcracker >/dev/null || missing+=(nutcracker)
require_packages "${missing[@]}"
exec python3 tests/moving.py "$@"
