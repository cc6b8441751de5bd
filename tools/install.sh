#!/usr/bin/env bash
# Installs the built programs, their manual pages, the unit of systemd with its defaults file, and the documents; or takes exactly
# these out again, by the list that the installing left among the documents.
# Usage: tools/install.sh install|uninstall, with PREFIX (/usr/local), SYSCONFDIR (/etc) and DESTDIR (none) in the environment.
# A defaults file that was changed is kept, and isn't removed either; both are reported.
set -euo pipefail
cd "$(dirname "$0")/.."

prefix=${PREFIX:-/usr/local}
sysconf=${SYSCONFDIR:-/etc}
dest=${DESTDIR:-}
documents=$prefix/share/doc/wfmc
defaults=$sysconf/default/wfmc
list=$documents/installed
programs=(wfmc mc_stdin mc_schedule)

refuse() {
    echo "tools/install.sh: $1" >&2
    exit 2
}

unwanted=$'"\'\\$\n'
for path in "$prefix" "$sysconf"; do
    [[ "$path" == /* ]] || refuse "PREFIX and SYSCONFDIR begin with a slash"
    [[ "$path" != *["$unwanted"]* ]] || refuse "PREFIX and SYSCONFDIR have no quotes, backslashes, dollar signs and line ends"
done
[[ -z "$dest" || "$dest" == /* ]] || refuse "DESTDIR begins with a slash"

# Copies a file to its place with this mode, and notes the place.
put() {
    local mode=$1 source=$2 place=$3
    install -D -m "$mode" "$source" "$dest$place"
    echo "$place" >>"$notes"
}

# A path as systemd reads it, where a percent sign begins a specifier; in a command line a blank ends a word.
specified() { echo "${1//%/%%}"; }
quoted() {
    case $1 in
        *[[:blank:]]*) echo "\"$(specified "$1")\"" ;;
        *) specified "$1" ;;
    esac
}

# The unit, with the folders of this installation in it.
unit() {
    local text
    text=$(<etc/wfmc.service)
    text=${text//@PROGRAM@/"$(quoted "$prefix/bin/wfmc")"}
    echo "${text//@DEFAULTS@/"$(specified "$defaults")"}"
}

# The defaults file is the operator's once it was changed, which the earlier installation's copy tells.
put_defaults() {
    if [ ! -e "$dest$defaults" ]; then
        install -D -m 644 etc/wfmc.default "$dest$defaults"
    elif cmp -s "$dest$documents/wfmc.default" "$dest$defaults"; then
        cp etc/wfmc.default "$dest$defaults"
    elif ! cmp -s etc/wfmc.default "$dest$defaults"; then
        echo "kept: $defaults, which isn't as etc/wfmc.default"
    fi
}

# What an earlier installation put there, and this one doesn't.
take_what_is_old() {
    local place
    [ -e "$dest$list" ] || return 0
    while IFS= read -r place; do rm -f "$dest$place"; done < <(grep -vxFf "$notes" "$dest$list")
}

install_all() {
    local program page document
    for program in "${programs[@]}"; do
        [ -x "crates/$program/out/$program" ] || refuse "crates/$program/out/$program isn't built: make build"
    done
    for program in "${programs[@]}"; do put 755 "crates/$program/out/$program" "$prefix/bin/$program"; done
    for page in man/*.[1-8]; do put 644 "$page" "$prefix/share/man/man${page##*.}/${page#man/}"; done
    unit >"$folder/unit"
    put 644 "$folder/unit" "$prefix/lib/systemd/system/wfmc.service"
    while IFS= read -r document; do put 644 "$document" "$documents/$document"; done < <(echo README.md; echo LICENSE; find docs -type f | sort)
    # What the documents link to or name, but the sources.
    for document in etc/grafana-wfmc.json etc/prometheus-wfmc.rules.yml examples/* tools/move_tenant.py tools/proxy.yml; do
        put 644 "$document" "$documents/$document"
    done
    put_defaults
    put 644 etc/wfmc.default "$documents/wfmc.default"
    echo "$list" >>"$notes"
    take_what_is_old
    install -m 644 "$notes" "$dest$list"
    echo "installed under $dest$prefix; the service's command line is in $dest$defaults"
    case $prefix in
        /usr | /usr/local) ;;
        *) echo "systemd doesn't look there for units: systemctl link $(printf %q "$prefix/lib/systemd/system/wfmc.service")" ;;
    esac
}

# The defaults file, unless somebody changed it.
take_defaults() {
    if [ ! -e "$dest$defaults" ]; then
        return
    elif cmp -s "$dest$documents/wfmc.default" "$dest$defaults"; then
        rm "$dest$defaults"
    else
        echo "kept: $defaults, which was changed"
    fi
}

uninstall_all() {
    local place
    [ -e "$dest$list" ] || refuse "nothing is installed under $dest$prefix"
    cp "$dest$list" "$notes"
    take_defaults
    while IFS= read -r place; do rm -f "$dest$place"; done <"$notes"
    find "$dest$documents" -depth -type d -empty -delete
    echo "uninstalled under $dest$prefix"
}

folder=$(mktemp -d)
trap 'rm -rf "$folder"' EXIT
notes=$folder/notes
umask 022
case ${1:-} in
    install) install_all ;;
    uninstall) uninstall_all ;;
    *) refuse "install or uninstall?" ;;
esac
