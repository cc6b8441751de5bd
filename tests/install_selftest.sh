#!/usr/bin/env bash
# Tests tools/install.sh: installs into temporary folders with the prefix /usr/local, with another, and without DESTDIR and with a blank and a
# percent sign in the prefix, where the installed wfmc serves then. For each it checks the files and that there are no others, their modes and
# bytes, the unit (by systemd-analyze, where installed), the pages (by man, where installed), that a later one's defaults file takes the place
# of one that wasn't changed, and that uninstalling leaves no file but one that was, and no folder of documents. Nothing is written elsewhere.
# The last line is 'N passed, M failed'.
set -euo pipefail
cd "$(dirname "$0")/.."

. tests/harness/checks.sh
server=
trap 'kill $server 2>/dev/null || true; rm -rf "$folder"' EXIT
programs=(wfmc mc_stdin mc_schedule)

# The next checks are of this installation.
where= dest= prefix= sysconf= root=
place_at() {
    where=$1 root=$folder/$2 prefix=$3 sysconf=$4 dest=
    if [[ "$prefix" == "$root"* ]]; then dest=; else dest=$root; fi
    mkdir -p "$root"
}

succeeds() { env PREFIX="$prefix" SYSCONFDIR="$sysconf" DESTDIR="$dest" make -s "$1" >"$folder/said" 2>&1 || { cat "$folder/said"; return 1; }; }
fails() { ! succeeds "$1" >/dev/null; }

# What an installation consists of: mode, source or a dash, and place, with tabs between them.
expected() {
    local it
    {
        for it in "${programs[@]}"; do echo "755 crates/$it/out/$it $prefix/bin/$it"; done
        for it in mc_stdin.1 mc_schedule.1; do echo "644 man/$it $prefix/share/man/man1/$it"; done
        echo "644 man/wfmc.8 $prefix/share/man/man8/wfmc.8"
        echo "644 - $prefix/lib/systemd/system/wfmc.service"
        echo "644 etc/wfmc.default $sysconf/default/wfmc"
        echo "644 etc/wfmc.default $prefix/share/doc/wfmc/wfmc.default"
        echo "644 - $prefix/share/doc/wfmc/installed"
        for it in README.md LICENSE $(find docs examples -type f) etc/grafana-wfmc.json etc/prometheus-wfmc.rules.yml tools/move_tenant.py tools/proxy.yml; do
            echo "644 $it $prefix/share/doc/wfmc/$it"
        done
    } | sed 's/ /\t/; s/ /\t/'
}

files() { (cd "$root" && find . ! -type d | sed 's/^\.//' | sort); }
has_the_files_alone() { diff <(expected | cut -f3 | sed "s|^$root||" | sort) <(files); }
has_no_documents() { [ ! -e "$dest$prefix/share/doc/wfmc" ] || { find "$dest$prefix/share/doc/wfmc"; return 1; }; }
has_no_file_but() { diff <(printf '%s' "${1:+$1$'\n'}") <(files); }

has_modes_and_bytes() {
    local mode source place
    while IFS=$'\t' read -r mode source place; do
        [ "$(stat -c %a "$dest$place")" = "$mode" ] || { echo "mode of $place"; return 1; }
        [ "$source" = - ] || cmp "$source" "$dest$place" || return 1
    done < <(expected)
}

# The unit starts the program of this prefix, by the words of this defaults file.
unit_has() { grep -qxF -- "$1" "$dest$prefix/lib/systemd/system/wfmc.service"; }
unit_has_no_mark() { ! grep -nE '@[A-Z]+@' "$dest$prefix/lib/systemd/system/wfmc.service"; }

# The unit with DESTDIR before the program, which systemd-analyze looks for.
unit_verifies() {
    mkdir -p "$folder/units"
    sed "s|^ExecStart=\"\?/\(.*\)/wfmc\"\? |ExecStart=\"$dest/\1/wfmc\" |" "$dest$prefix/lib/systemd/system/wfmc.service" >"$folder/units/wfmc.service"
    systemd-analyze --man=no verify "$folder/units/wfmc.service" >"$folder/said" 2>&1 && [ ! -s "$folder/said" ] || { cat "$folder/said"; return 1; }
}

# By systemd's own measure of what a service leaves open: 1.5 of 10 at most.
sandbox_is_tight() {
    systemd-analyze security --offline=yes --threshold=15 --no-pager "$folder/units/wfmc.service" >"$folder/said" 2>&1 || { tail -n 3 "$folder/said"; return 1; }
}

page_is_found() { MANPATH=$dest$prefix/share/man LC_ALL=C.UTF-8 man "$2" "$1" 2>/dev/null | col -b | grep "$1" >/dev/null; }

look_at_the_unit() {
    check "a word between @ signs is left in the unit" unit_has_no_mark
    check "the unit's program" unit_has "ExecStart=$1 \$WFMC_WORDS"
    check "the unit's defaults file" unit_has "EnvironmentFile=-$2"
    if command -v systemd-analyze >/dev/null; then
        check "the unit verifies" unit_verifies
        check "the unit's sandbox" sandbox_is_tight
    else
        echo "systemd-analyze isn't there: the unit isn't verified"
    fi
}

look_at_the_pages() {
    if command -v man >/dev/null; then
        for page in 'wfmc 8' 'mc_stdin 1' 'mc_schedule 1'; do
            # shellcheck disable=SC2086
            check "the page $page" page_is_found $page
        done
    else
        echo "man isn't there: the pages aren't looked at"
    fi
}

look_at_all() {
    check "make install" succeeds install
    check "its files" has_the_files_alone
    check "modes and bytes" has_modes_and_bytes
    look_at_the_unit "$1" "$2"
    look_at_the_pages
}

# The defaults file is the operator's: it is neither written over nor taken out once it was changed.
look_at_changed_defaults() {
    echo 'WFMC_WORDS="mine=127.0.0.1:0,1,1"' >"$dest$sysconf/default/wfmc"
    check "installing over a changed defaults file" succeeds install
    check "that it is kept is said" says "$folder/said" "kept: $sysconf/default/wfmc"
    check "it is kept" grep -q mine "$dest$sysconf/default/wfmc"
    check "make uninstall" succeeds uninstall
    check "that it is left is said" says "$folder/said" "kept: $sysconf/default/wfmc"
    check "the changed defaults file alone is left" has_no_file_but "$sysconf/default/wfmc"
    check "no folder of documents is left" has_no_documents
    rm "$dest$sysconf/default/wfmc"
}

# Starts the installed wfmc by these words and under the unit's limit on its addresses, and waits for its first tenant's port.
start_installed() {
    local limit
    limit=$(sed -n 's/^LimitAS=//p' "$prefix/lib/systemd/system/wfmc.service" | numfmt --from=iec)
    # The words are cut at blanks, as systemd does.
    # shellcheck disable=SC2086
    (ulimit -v $((limit / 1024)) && exec "$prefix/bin/wfmc" $1) >"$folder/ready" 2>&1 &
    server=$!
    await_ready "$folder/ready" 60 "$server"
}

# The words of the installed defaults file, but that each port is a free one.
words_at_free_ports() { (. "$sysconf/default/wfmc" && sed -E 's/:[0-9]+,/:0,/g' <<<"$WFMC_WORDS"); }

serves_a_get() {
    local port
    start_installed "$(words_at_free_ports)" || return 1
    port=$(port_in "$folder/ready")
    exec 3<>"/dev/tcp/127.0.0.1/$port"
    printf 'set a 5 0 3\r\nabc\r\nget a\r\nquit\r\n' >&3
    diff <(printf 'STORED\r\nVALUE a 5 3\r\nabc\r\nEND\r\n') <(timeout 60 cat <&3)
}

for program in "${programs[@]}"; do
    [ -x "crates/$program/out/$program" ] || { echo "crates/$program/out/$program isn't built: make build" >&2; exit 1; }
done

place_at "/usr/local under DESTDIR" "a root" "" ""
prefix=/usr/local sysconf=/etc
env -u PREFIX -u SYSCONFDIR DESTDIR="$dest" make -s install >/dev/null
check "the prefix is /usr/local where none is given" test -x "$dest/usr/local/bin/wfmc"
look_at_all /usr/local/bin/wfmc /etc/default/wfmc
look_at_changed_defaults
check "uninstalling what isn't there is refused" fails uninstall
check "and why" says "$folder/said" "tools/install.sh: nothing is installed under "

place_at "/opt/wfmc under DESTDIR" opt /opt/wfmc /opt/wfmc/etc
mkdir -p "$dest/opt/wfmc/bin"
echo theirs >"$dest/opt/wfmc/bin/other"
check "make install" succeeds install
check "that systemd doesn't look there is said" says "$folder/said" "systemctl link"
look_at_the_unit /opt/wfmc/bin/wfmc /opt/wfmc/etc/default/wfmc
touch "$dest/opt/wfmc/share/doc/wfmc/docs/gone.md"
echo /opt/wfmc/share/doc/wfmc/docs/gone.md >>"$dest/opt/wfmc/share/doc/wfmc/installed"
check "installing once more" succeeds install
check "what an earlier one had more is gone" test ! -e "$dest/opt/wfmc/share/doc/wfmc/docs/gone.md"
echo 'WFMC_WORDS="earlier=127.0.0.1:0,1,1"' | tee "$dest/opt/wfmc/share/doc/wfmc/wfmc.default" >"$dest/opt/wfmc/etc/default/wfmc"
check "installing over an earlier one, whose defaults file is another" succeeds install
check "one that wasn't changed is the new one" cmp etc/wfmc.default "$dest/opt/wfmc/etc/default/wfmc"
check "and so is its copy" cmp etc/wfmc.default "$dest/opt/wfmc/share/doc/wfmc/wfmc.default"
check "make uninstall" succeeds uninstall
check "another's file alone is left" has_no_file_but /opt/wfmc/bin/other
check "no folder of documents is left" has_no_documents

place_at "a blank in the prefix, no DESTDIR" live "$folder/live/two words, 100%" "$folder/live/etc"
look_at_all "\"${prefix//%/%%}/bin/wfmc\"" "$sysconf/default/wfmc"
check "the installed wfmc serves by the words of its defaults file" serves_a_get
check "make uninstall" succeeds uninstall
check "no file is left" has_no_file_but ""

for prefix in relative "/a'quote" '/a$dollar'; do
    where=$prefix dest=$folder/refused
    check "such a prefix is refused" fails install
    check "and why" says "$folder/said" "tools/install.sh: PREFIX and SYSCONFDIR "
    check "nothing was installed" test ! -e "$dest"
done

finish
