#!/usr/bin/env bash
# Tests tools/package.sh on the programs as built: the same bytes twice; the Debian package and the tar file have one tree, and no more than it
# should have; the checksums of the sources hold; lintian, where installed, finds no error. A program that is older than a text is refused, and
# one that asks for a later C library than the image has; the commit is one with changes where a document was changed. The package is installed
# by dpkg under a temporary root, with a database of its own; wfmc serves from there by the words of its defaults file and under the limits of its
# unit, with as many descriptors as the machine grants; an upgrade keeps a defaults file that was changed, and a running wfmc; purging leaves
# nothing. The image's files are put together as etc/Containerfile has them, with Debian's bash and prlimit, and its command and health check run
# there, in namespaces of their own, where the kernel grants them.
# Nothing is written elsewhere. The last line is 'N passed, M failed'.
set -euo pipefail
cd "$(dirname "$0")/.."

. tests/harness/checks.sh
server=
trap 'kill $server 2>/dev/null || true; rm -rf "$folder"' EXIT
chmod 755 "$folder"
root=$folder/root
programs=(wfmc mc_stdin mc_schedule)

nobody=()
[ "$(id -u)" != 0 ] || nobody=(--reuid 65534 --regid 65534 --clear-groups --bounding-set=-all --inh-caps=-all)
command -v dpkg-deb >/dev/null && command -v dpkg >/dev/null || { echo "dpkg is missing: only Debian has it" >&2; exit 1; }
for program in "${programs[@]}"; do
    [ -x "crates/$program/out/$program" ] || { echo "crates/$program/out/$program isn't built: make build" >&2; exit 1; }
done

expected() {
    local it
    for it in "${programs[@]}"; do echo "/usr/bin/$it"; done
    for it in man1/mc_stdin.1 man1/mc_schedule.1 man8/wfmc.8; do echo "/usr/share/man/$it.gz"; done
    for it in README.md built-from changelog.Debian.gz copyright sources.sha256.gz $(find docs examples -type f) etc/grafana-wfmc.json \
        etc/prometheus-wfmc.rules.yml tools/move_tenant.py tools/proxy.yml; do
        echo "/usr/share/doc/wfmc/$it"
    done
    echo /usr/share/lintian/overrides/wfmc
    echo /usr/lib/systemd/system/wfmc.service
    echo /etc/default/wfmc
}

files() { (cd "$1" && find . -path ./var -prune -o ! -type d -print | sed 's/^\.//' | sort); }
has_the_files_alone() { diff <(expected | sort) <(files "$1"); }
programs_are_as_built() { for it in "${programs[@]}"; do cmp "crates/$it/out/$it" "$1/usr/bin/$it" || return 1; done; }

make_packages() {
    tools/package.sh "$folder/first" >/dev/null && tools/package.sh "$folder/second" >/dev/null && diff -r "$folder/first" "$folder/second"
}

# On a repository of its own, whose programs were made before its one text, or ask for a C library that the image doesn't have.
make_another() {
    mkdir -p "$folder/another/crates/wfmc/src"
    cp -r --parents README.md LICENSE HANDLES crates.txt docs etc examples man tools "$folder/another"
    for it in "${programs[@]}"; do cp --parents "crates/$it/out/$it" "$folder/another"; done
    touch -d tomorrow "$folder/another/crates/wfmc/src/main.rt"
}
refuses_another() {
    ! "$folder/another/tools/package.sh" "$folder/another/out" >"$folder/said" 2>&1 && says "$folder/said" "$1" && [ ! -e "$folder/another/out" ]
}

# What it says of the commit, once this is one of git.
in_another() { git -C "$folder/another" -c user.name=a -c user.email=a -c commit.gpgsign=false "$@"; }
commits_another() {
    echo out/ >"$folder/another/.gitignore"
    { in_another init && in_another add . && in_another commit -m First; } >"$folder/said" 2>&1 || { cat "$folder/said"; return 1; }
}
another_is_of() {
    "$folder/another/tools/package.sh" "$folder/another/out" >"$folder/said" 2>&1 || { cat "$folder/said"; return 1; }
    grep -qx "commit: $(in_another rev-parse HEAD)$1" "$folder/another/out/tree/usr/share/doc/wfmc/built-from"
}

has_one_tree() {
    mkdir "$folder/deb" "$folder/tar"
    dpkg-deb -x "$package" "$folder/deb"
    tar -C "$folder/tar" -xf "$folder"/first/wfmc-*.tar.gz
    diff -r "$folder/deb" "$folder/tar" && diff -r "$folder/deb" "$folder/first/tree" &&
        diff <(cd "$folder/deb" && find . -type f -printf '%P %m %T@\n' | sort) <(cd "$folder/tar" && find . -type f -printf '%P %m %T@\n' | sort)
}

has_no_folder() { ! tar -tf "$folder"/first/wfmc-*.tar.gz | grep '/$'; }
sums_hold() { zcat "$folder/deb/usr/share/doc/wfmc/sources.sha256.gz" | sha256sum -c --quiet; }
built_from_has() { grep -qxF -- "$1" "$folder/deb/usr/share/doc/wfmc/built-from" || { cat "$folder/deb/usr/share/doc/wfmc/built-from"; return 1; }; }
sum_of_sources() { zcat "$folder/deb/usr/share/doc/wfmc/sources.sha256.gz" | sha256sum | cut -d' ' -f1; }
unit_verifies() { diff <(sed 's|@PROGRAM@|/usr/bin/wfmc|; s|@DEFAULTS@|/etc/default/wfmc|' etc/wfmc.service) "$folder/deb/usr/lib/systemd/system/wfmc.service"; }

lintian_finds_no_error() {
    lintian --allow-root --fail-on error "$package" >"$folder/said" 2>&1 || { cat "$folder/said"; return 1; }
}

# Maintainer scripts run outside of the root, with DPKG_ROOT; there is no C library in its database to depend on.
debian() { dpkg --root="$root" --force-not-root --force-depends --force-script-chrootless --force-confold "$@" >"$folder/said" 2>&1 || { cat "$folder/said"; return 1; }; }

# The package again, of a later version, with a defaults file that has one line more.
make_later() {
    dpkg-deb -R "$package" "$folder/later"
    sed -i 's/^Version: .*/Version: 9.0-1/' "$folder/later/DEBIAN/control"
    echo "# A line more." >>"$folder/later/etc/default/wfmc"
    dpkg-deb --root-owner-group --build "$folder/later" "$folder/later.deb" >/dev/null
}

# The unit's command with the words of its defaults file, but that each port is a free one, under the unit's limits.
start_installed() {
    local unit=$root/usr/lib/systemd/system/wfmc.service command words space files
    command=$(sed -n 's/^ExecStart=\(.*\) \$WFMC_WORDS$/\1/p' "$unit")
    # shellcheck disable=SC1090
    words=$(. "$root$(sed -n 's/^EnvironmentFile=-//p' "$unit")" && sed -E 's/:[0-9]+,/:0,/g' <<<"$WFMC_WORDS")
    space=$(sed -n 's/^LimitAS=//p' "$unit" | numfmt --from=iec)
    files=$(sed -n 's/^LimitNOFILE=//p' "$unit")
    [ -n "$files" ] || return 1
    # As many descriptors as this machine grants, where these are fewer.
    prlimit --nofile="$files" true 2>/dev/null || files=$(ulimit -Hn)
    # A user without rights, where this is root; and the words are cut at blanks, as systemd does.
    # shellcheck disable=SC2086
    prlimit --as="$space" --nofile="$files" --core=0 setpriv --no-new-privs "${nobody[@]}" "$root$command" $words >"$folder/ready" 2>&1 &
    server=$!
    await_ready "$folder/ready" 60 "$server"
}

is_as_before() { diff "$folder/mine" "$root/etc/default/wfmc"; }
is_the_later() { diff "$folder/later/etc/default/wfmc" "$root/etc/default/wfmc"; }
nothing_is_left() { [ -z "$(files "$root")" ] && [ -z "$(cd "$root" && find . -mindepth 1 -maxdepth 1 ! -name var)" ] || { find "$root" -path "$root/var" -prune -o -print; return 1; }; }

# A program of this machine with the libraries that it needs.
borrow() {
    local it
    for it in "$1" $(ldd "$1" | grep -o '/[^ ]*'); do install -D "$it" "$folder/image$it"; done
}

# The files of the image: what the file of its making copies, and what the image below it has.
make_image() {
    local words
    while read -r -a words; do
        mkdir -p "$folder/image$(dirname "${words[-1]}x")"
        (cd "$folder/first/tree" && cp "${words[@]:1:${#words[@]}-2}" "$folder/image${words[-1]}")
    done < <(grep '^COPY ' etc/Containerfile)
    borrow "$(command -v bash)"
    borrow "$(command -v prlimit)"
    mkdir -p "$folder/image/bin" "$folder/image/dev" "$folder/image/proc"
    [ -e "$folder/image/bin/bash" ] || cp "$(command -v bash)" "$folder/image/bin/bash"
    [ -e "$folder/image/usr/bin/prlimit" ] || install -D "$(command -v prlimit)" "$folder/image/usr/bin/prlimit"
}

# Runs the image's command, and its health check before and after wfmc serves; in namespaces of their own, as a container's. By Python, since the
# words are JSON. The image's user is left out where this isn't root.
image_serves() {
    cat >"$folder/run.py" <<'END'
import json, os, re, subprocess, sys, time
image, text = sys.argv[1], open("etc/Containerfile").read()
subprocess.run(["ip", "link", "set", "lo", "up"], check=True)
words = {name: json.loads(re.search(rf"^{name} .*?(\[.*\])$", text, re.M)[1]) for name in ("ENTRYPOINT", "CMD", "HEALTHCHECK")}
port = re.search(r"^ENV HEALTH_PORT=(\d+)$", text, re.M)[1]
user = re.search(r"^USER (\S+)$", text, re.M)[1]
within = {"env": {"HEALTH_PORT": port}, "stdin": subprocess.DEVNULL, "stderr": subprocess.DEVNULL}
chroot = ["/usr/sbin/chroot", *([f"--userspec={user}"] if sys.argv[2] == "root" else []), image]
healthy = lambda: subprocess.run([*chroot, *words["HEALTHCHECK"]], **within).returncode == 0
if healthy():
    sys.exit("healthy before it was started")
with subprocess.Popen([*chroot, *words["ENTRYPOINT"], *words["CMD"]], stdout=subprocess.PIPE, **within) as server:
    until = time.monotonic() + 60
    while not healthy() and server.poll() is None and time.monotonic() < until:
        time.sleep(0.1)
    good, limit = healthy(), re.search(r"Max address space +(\d+)", open(f"/proc/{server.pid}/limits").read())[1]
    owner = os.stat(f"/proc/{server.pid}").st_uid
    server.kill()
    said = server.stdout.read().decode().split("\n")
print(good, limit, owner if sys.argv[2] == "root" else 65534, said[-2])
END
    local as=root
    [ "$(id -u)" = 0 ] || as=other
    [ "$(unshare "${namespaces[@]}" python3 "$folder/run.py" "$folder/image" $as 2>"$folder/said")" = "True 4294967296 65534 ready" ] || { cat "$folder/said"; return 1; }
}

check "the same bytes twice" make_packages
package=$(echo "$folder"/first/wfmc_*.deb)
make_another
check "a program that is older than a text" refuses_another "crates/wfmc/src/main.rt is newer than crates/wfmc/out/wfmc: make build"
touch -d yesterday "$folder/another/crates/wfmc/src/main.rt" "$folder/another/HANDLES" "$folder/another/crates.txt"
echo GLIBC_9.9 >>"$folder/another/crates/mc_stdin/out/mc_stdin"
check "a program that asks for a later C library" refuses_another "the programs ask for version 9.9 of the C library"
cp "crates/mc_stdin/out/mc_stdin" "$folder/another/crates/mc_stdin/out/mc_stdin"
if command -v git >/dev/null; then
    check "a commit" commits_another
    check "it is named" another_is_of ""
    echo "A line more." >>"$folder/another/docs/CLIENTS.md"
    check "and that a document was changed" another_is_of ", with changes"
else
    echo "git isn't there: what is said of a commit isn't looked at"
fi
check "one tree" has_one_tree
check "no folder in the tar file, which would take the place of a link" has_no_folder
check "its files" has_the_files_alone "$folder/deb"
check "the programs' bytes" programs_are_as_built "$folder/deb"
check "the checksums of the sources" sums_hold
check "their checksum" built_from_has "sources: $(sum_of_sources) (SHA-256 of sources.sha256)"
if command -v rt >/dev/null; then check "the kit" built_from_has "kit: $(rt version)"; else echo "rt isn't there: the kit isn't compared"; fi
check "the unit" unit_verifies
check "the conffile" test "$(dpkg-deb --ctrl-tarfile "$package" | tar -xO ./conffiles)" = /etc/default/wfmc
if command -v lintian >/dev/null; then
    check "lintian" lintian_finds_no_error
else
    echo "lintian isn't there: apt-get install lintian"
fi

mkdir -p "$root/var/lib/dpkg/updates" "$root/var/lib/dpkg/info"
touch "$root/var/lib/dpkg/status" "$root/var/lib/dpkg/available"
make_later
check "dpkg -i" debian -i "$package"
check "its files, installed" has_the_files_alone "$root"
check "the installed wfmc serves under its unit's limits" start_installed
port=$(port_in "$folder/ready")
check "a set" test "$(asks "$port" $'set a 5 0 3\r\nabc')" = "STORED "
check "an upgrade" debian -i "$folder/later.deb"
check "a defaults file that wasn't changed is the new one" is_the_later
check "the running wfmc goes on" test "$(asks "$port" 'get a')" = "VALUE a 5 3 abc END "
kill "$server" && { wait "$server" || true; } 2>/dev/null
server=
check "back to the earlier" debian -i "$package"
sed -i 's/^WFMC_WORDS=.*/WFMC_WORDS="mine=127.0.0.1:0,1,1"/' "$root/etc/default/wfmc"
cp "$root/etc/default/wfmc" "$folder/mine"
check "the same version again" debian -i "$package"
check "a defaults file that was changed is kept" is_as_before
check "an upgrade whose defaults file is another" debian -i "$folder/later.deb"
check "a defaults file that was changed is kept then too" is_as_before
check "removing" debian -r wfmc
check "the defaults file is left" test -e "$root/etc/default/wfmc"
check "the program isn't" test ! -e "$root/usr/bin/wfmc"
check "purging" debian -P wfmc
check "nothing is left" nothing_is_left

make_image
namespaces=(--mount --pid --net --fork --mount-proc)
[ "$(id -u)" = 0 ] || namespaces=(--user --map-root-user "${namespaces[@]}")
if unshare "${namespaces[@]}" ip link set lo up 2>/dev/null; then
    check "the image serves and is healthy" image_serves
else
    echo "no namespaces are granted, or ip is missing: the image's command isn't run"
fi

finish
