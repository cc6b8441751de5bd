#!/usr/bin/env bash
# Makes of the programs as built, in out/package/: a Debian package, a tar file with the same tree, and that tree, from which
# etc/Containerfile makes an image. make package proves and builds them first. The same sources and programs give the same bytes.
# Usage: tools/package.sh [FOLDER]. The version is that of etc/package/changelog. A program that is older than a text that is proved is
# refused, and one that asks for a later C library than the image has.
set -euo pipefail
cd "$(dirname "$0")/.."

place=${1:-out/package}
programs=(wfmc mc_stdin mc_schedule)
umask 022

refuse() {
    echo "tools/package.sh: $1" >&2
    exit 1
}

command -v dpkg-deb >/dev/null || refuse "dpkg-deb is missing; Debian's package dpkg has it"
read -r _ version _ <etc/package/changelog
version=${version#(}
version=${version%)}
maintainer=$(sed -nE '/^ -- /{s/^ -- (.*>)  .*/\1/p;q}' etc/package/changelog)
moment=$(date -d "$(sed -nE '/^ -- /{s/^ -- .*>  //p;q}' etc/package/changelog)" +%s)
architecture=$(dpkg --print-architecture)
for program in "${programs[@]}"; do
    [ -x "crates/$program/out/$program" ] || refuse "crates/$program/out/$program isn't built: make build"
done
[ "$(crates/wfmc/out/wfmc --version)" = "wfmc ${version%-*}" ] || refuse "etc/package/changelog is of version $version, but the program is another"

# The first text that is newer than a program, from which it may not have been built.
newer_than() {
    find HANDLES crates.txt crates -path 'crates/*/out' -prune -o -type f \( -name '*.rt' -o -name '*.antt' -o -name HANDLES -o -name crates.txt \) -newer "$1" -print -quit
}
for program in "${programs[@]}"; do
    text=$(newer_than "crates/$program/out/$program")
    [ -z "$text" ] || refuse "$text is newer than crates/$program/out/$program: make build"
done

# What the programs ask for: versions of the C library, and gcc's library. And the highest of the versions, which the image must have.
asked=$(for program in "${programs[@]}"; do grep -aoE 'GLIBC_[0-9.]+|libgcc_s\.so\.1' "crates/$program/out/$program" || true; done)
libc=$(sed -n 's/GLIBC_//p' <<<"$asked" | sort -V | tail -n 1)
image=$(sed -nE 's/^# .* has version ([0-9.]+) of the C library.*/\1/p' etc/Containerfile)
[ "$(printf '%s\n' "$libc" "$image" | sort -V | tail -n 1)" = "$image" ] ||
    refuse "the programs ask for version $libc of the C library, and the image of etc/Containerfile has $image: name a later one there"

# What the kit reads of this repository: every text that is proved, with what it is run on.
sources() {
    {
        printf '%s\0' HANDLES crates.txt
        find crates -path 'crates/*/out' -prune -o -type f -print0
    } | LC_ALL=C sort -z | xargs -0 sha256sum --
}

kit() { rt version 2>/dev/null || echo "unknown: rt is missing"; }

commit() {
    local found
    found=$(git rev-parse HEAD 2>/dev/null) || { echo "unknown: no checkout of git"; return; }
    [ -z "$(git status --porcelain 2>/dev/null)" ] || found+=", with changes"
    echo "$found"
}

described() {
    cat <<END
What this package was built from. Only a program whose contracts are all
proved is built; docs/PROVED.md says what that is.

version: $version
kit: $(kit)
commit: $(commit)
sources: $1 (SHA-256 of sources.sha256)
END
    for program in "${programs[@]}"; do
        echo "$program: $(sha256sum <"crates/$program/out/$program" | cut -d' ' -f1) (SHA-256 of the program as it was proved and built)"
    done
    cat <<'END'

sources.sha256 has the checksum of each file that the kit read. In a checkout
of these sources, at its top:

    zcat /usr/share/doc/wfmc/sources.sha256.gz | sha256sum -c --quiet
END
}

# The tree, as make install makes it for /usr, with what Debian wants otherwise.
make_tree() {
    local tree=$1 documents=$1/usr/share/doc/wfmc list
    DESTDIR=$tree PREFIX=/usr SYSCONFDIR=/etc tools/install.sh install >/dev/null
    rm "$documents/installed" "$documents/wfmc.default" "$documents/LICENSE"
    list=$(sources)
    printf '%s\n' "$list" | gzip -9n >"$documents/sources.sha256.gz"
    described "$(printf '%s\n' "$list" | sha256sum | cut -d' ' -f1)" >"$documents/built-from"
    install -m 644 etc/package/copyright "$documents/copyright"
    install -D -m 644 etc/package/lintian-overrides "$tree/usr/share/lintian/overrides/wfmc"
    gzip -9n <etc/package/changelog >"$documents/changelog.Debian.gz"
    find "$tree/usr/share/man" -type f -exec gzip -9n {} +
    find "$tree" -exec touch -h -d "@$moment" {} +
}

# The packages with the libraries that the programs ask for.
libraries() { echo "libc6 (>= $libc)$(grep -q libgcc_s <<<"$asked" && echo ', libgcc-s1' || true)"; }

make_control() {
    local tree=$1 it
    mkdir "$tree/DEBIAN"
    sed -e "s/@VERSION@/$version/; s/@ARCHITECTURE@/$architecture/; s/@LIBRARIES@/$(libraries)/" \
        -e "s/@SIZE@/$(du -k --apparent-size -s --exclude=DEBIAN "$tree" | cut -f1)/; s/@MAINTAINER@/$maintainer/" etc/package/control >"$tree/DEBIAN/control"
    echo /etc/default/wfmc >"$tree/DEBIAN/conffiles"
    (cd "$tree" && find . -path ./DEBIAN -prune -o -path ./etc -prune -o -type f -printf '%P\0' | LC_ALL=C sort -z | xargs -0 md5sum) >"$tree/DEBIAN/md5sums"
    for it in postinst prerm postrm; do install -m 755 "etc/package/$it" "$tree/DEBIAN/$it"; done
    find "$tree/DEBIAN" -exec touch -d "@$moment" {} +
}

folder=$(mktemp -d)
trap 'rm -rf "$folder"' EXIT
chmod 755 "$folder"
make_tree "$folder/tree"
mkdir -p "$place"
rm -rf "$place"/tree "$place"/wfmc[-_]*
# Files alone: a folder in a tar file takes the place of a link to a folder, as /lib is one.
(cd "$folder/tree" && find . -type f -printf '%P\0' | LC_ALL=C sort -z | tar --null -T - --mtime="@$moment" --owner=0 --group=0 --numeric-owner -c) |
    gzip -9n >"$place/wfmc-$version-$architecture.tar.gz"
cp -a "$folder/tree" "$place/tree"
make_control "$folder/tree"
SOURCE_DATE_EPOCH=$moment dpkg-deb --root-owner-group -Zxz --build "$folder/tree" "$place/wfmc_${version}_$architecture.deb" >/dev/null
(cd "$place" && sha256sum "wfmc_${version}_$architecture.deb" "wfmc-$version-$architecture.tar.gz") >"$folder/sums"
install -m 644 "$folder/sums" "$place/wfmc-$version.sha256"
cat "$folder/sums"
