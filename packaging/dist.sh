#!/usr/bin/env bash
# Lays out or packs the source of a release: everything in C and Rust beside the archives of all processors that there are.
#
#     dist.sh OUT            packs it as OUT/kupaldiz-VERSION.tar.xz
#     dist.sh --lay FOLDER   lays it out as that folder, which isn't there yet
#
# It works in the repository and in the source of a release alike. The time of every file is SOURCE_DATE_EPOCH, else that of packaging/VERSIONS.md: so the same files
# make the same bytes.
set -euo pipefail
cd "$(dirname "$0")/.."

refuse() {
    echo "dist: $1" >&2
    exit 2
}

# first NAME..: the first of these that is there, or nothing.
first() {
    local name
    for name; do
        if [ -e "$name" ]; then
            echo "$name"
            return
        fi
    done
}

# The archive of a processor, if there is one.
archive_of() {
    if [ "$1" = x86_64 ]; then
        first "archive/$1/libkupaldiz_proved.a" out/libkupaldiz_proved.a
    else
        first "archive/$1/libkupaldiz_proved.a" "out/$1/libkupaldiz_proved.a"
    fi
}

# remedy PROCESSOR: what makes its archive.
remedy() {
    case $1 in
    x86_64) echo tools/build-archive.sh ;;
    *) echo "tools/build-archive.sh --for $1" ;;
    esac
}

# lay_archive PROCESSOR TO: its archive with the record, and the program.
lay_archive() {
    local archive record to=$2/archive/$1 program
    archive=$(archive_of "$1")
    [ -n "$archive" ] || return 0
    record=${archive%_proved.a}.proved
    [ -f "$record" ] || refuse "there is no $record, the record of the archive's proof: $(remedy "$1") writes it"
    mkdir -p "$to"
    cp "$archive" "$record" "$to"
    cp "$(first "${archive%/*}"/kupaldiz_limits.h {include,crates/registry_c/include}/kupaldiz_limits.h)" "$to"
    program=$(first archive/x86_64/registry_run crates/registry_run/out/registry_run)
    if [ "$1" = x86_64 ] && [ -n "$program" ]; then
        cp "$program" "$to/registry_run"
    fi
}

# fill FILE: writes FILE from FILE.in, with the version, the time and the licence.
fill() {
    local licence text
    licence=$(make -s licence)
    text="The licence that SPDX names $licence."
    if [ -z "$licence" ]; then
        licence=none-chosen text="No licence is chosen yet: that is the owner's to do, and until then nobody else may copy or pass on what is here."
    fi
    sed -e "s|@VERSION@|$(make -s version)|" -e "s|@DATE@|$(LC_ALL=C date -u -R -d "@$SOURCE_DATE_EPOCH")|" \
        -e "s|@LICENCE@|$licence|" -e "s|@LICENCE_TEXT@|$text|" "$1.in" >"$1"
    rm "$1.in"
}

# mend_links FOLDER: the headers lie in another folder there, and a link to what isn't there becomes its text.
mend_links() {
    local page link
    find "$1" -name '*.md' | while read -r page; do
        sed -i -E 's|\]\(((\.\./)*)crates/registry_c/include|](\1include|g' "$page"
        { grep -oE '\]\([^):#]+[)#]' "$page" || true; } | sed 's/^..//; s/.$//' | sort -u | while read -r link; do
            [ -e "$(dirname "$page")/$link" ] || sed -z -i -E "s|\[([^]]*)\]\($link(#[^)]*)?\)|\1|g" "$page"
        done
    done
}

# lay TO: the whole source.
lay() {
    local to=$1
    mkdir -p "$to/docs"
    make -s pages
    cp -r Makefile c man netbsd explorer packaging "$to"
    if [ -e tools/call-headers.py ]; then
        cp out/made/c/*.h "$to/c/include"
        cp out/made/man/*.3 "$to/man"
    fi
    rm -rf "$to/packaging/debian"
    cp -r "$(first debian packaging/debian)" "$to/debian"
    cp packaging/INSTALL.md "$to/README.md"
    cp -r docs/C.md docs/ERRORS.md docs/HOWTO-RUST.md docs/TUTORIAL-C.md docs/tutorial "$to/docs"
    cp -r "$(first include crates/registry_c/include)" "$to/include"
    mkdir "$to/rust"
    cp -rL rust/Cargo.toml rust/README.md rust/build.rs rust/kupaldiz_limits.h rust/src rust/examples rust/tests "$to/rust"
    lay_archive x86_64 "$to"
    lay_archive aarch64 "$to"
    [ ! -f "$to/debian/changelog.in" ] || fill "$to/debian/changelog"
    [ ! -f "$to/debian/copyright.in" ] || fill "$to/debian/copyright"
    if [ -n "$(make -s licence)" ]; then
        sed -i "s|^# tools/make-release.sh writes the licence.*|license = \"$(make -s licence)\"|" "$to/rust/Cargo.toml"
    fi
    mend_links "$to"
    find "$to" -name __pycache__ -prune -exec rm -rf {} +
}

need_archive() {
    [ -n "$(archive_of x86_64)" ] || refuse "there is no out/libkupaldiz_proved.a: $(remedy x86_64) proves and builds it, with the Rattle kit"
}

# In one step: whoever looks finds the whole source, or the whole package.
lay_out() {
    [ ! -e "$1" ] || refuse "there is a $1 already"
    lay "$room/$name"
    mkdir -p "$(dirname "$1")"
    mv "$room/$name" "$1"
}

pack() {
    command -v xz >/dev/null || refuse "there is no xz: apt-get install xz-utils"
    lay "$room/$name"
    packaging/pack.sh "$room" "$name" "$SOURCE_DATE_EPOCH" >"$room/packed"
    mkdir -p "$1"
    mv "$room/packed" "$1/$name.tar.xz"
    echo "$1/$name.tar.xz"
}

case "$#,${1-}" in
2,--lay) action=lay_out to=$2 ;;
1,--*|0,*|[2-9],*) refuse "it takes OUT, or --lay FOLDER" ;;
*) action=pack to=$1 ;;
esac
need_archive
: "${SOURCE_DATE_EPOCH:=$(stat -c %Y packaging/VERSIONS.md)}"
name=kupaldiz-$(make -s version)
room=$(mktemp -d)
trap 'rm -rf "$room"' EXIT
"$action" "$to"
