#!/usr/bin/env bash
# Makes a release for C and Rust out of what is proved, in release/: archives to unpack, the source around them, a crate, Debian packages, PROVED and
# SHA256SUMS. docs/RELEASING.md says how it is laid out. The same commit and the same archives make the same bytes.
#
#     tools/make-release.sh                  takes the archives in out and the program, as tools/build-archive.sh and tools/prove-program.sh left them
#     tools/make-release.sh --prove          proves and builds all three first
#     tools/make-release.sh --to FOLDER      writes there; `--prove` may come before it
#
# The archive for x86_64 and the program are needed, that for aarch64 is taken where it is there. Where something is missing, one line says what and how to get
# it, the status is 2, and nothing is written.
set -euo pipefail
root=$(cd "$(dirname "$0")/.." && pwd)
to=$root/release
prove=

refuse() {
    echo "make-release: $1" >&2
    exit 2
}

if [ "${1-}" = --prove ]; then
    prove=yes
    shift
fi
case "$#,${1-}" in
0,) ;;
2,--to) to=$(realpath -m "$2") ;;
*) refuse "it takes --prove, --to FOLDER, or nothing" ;;
esac
cd "$root"

# The release is of a commit.
need_commit() {
    git rev-parse -q --verify HEAD >/dev/null 2>&1 || refuse "there is no commit here: a release is made in a clone of the repository"
    [ -z "$(git status --porcelain)" ] || refuse "the tree has changes that are in no commit: git status names them, git commit takes them in"
}

# What the folder has is taken away in the end: so it isn't there yet, or is empty, or has an older release.
need_place() {
    local above=$to
    if [ -n "$(ls -A "$to" 2>/dev/null)" ] && ! { [ -f "$to/SHA256SUMS" ] && [ -f "$to/PROVED" ]; }; then
        refuse "there is a $to already, and it is no release: --to names another folder"
    fi
    while [ ! -e "$above" ]; do
        above=$(dirname "$above")
    done
    if ! [ -d "$above" ] || ! [ -w "$above" ]; then
        refuse "nothing can be written to $above: --to names another folder"
    fi
}

prove_all() {
    command -v rt >/dev/null || refuse "there is no rt, the command of the Rattle kit: the kit comes from whoever gives you Rattle"
    tools/build-archive.sh
    tools/build-archive.sh --for aarch64
    tools/prove-program.sh
}

need_proved() {
    grep -qx "version = \"$version\"" rust/Cargo.toml || refuse "rust/Cargo.toml has another version than kupaldiz.h, which has $version"
    tools/proof-record.py check out/libkupaldiz_proved.a || exit 2
    ./registry_run --proved >/dev/null || refuse "there is no proved registry_run of the sources that stand: tools/prove-program.sh proves and builds it"
    if [ -e out/aarch64/libkupaldiz_proved.a ]; then
        tools/proof-record.py check out/aarch64/libkupaldiz_proved.a || exit 2
        tools/packages.py release-aarch64 >&2 || exit 2
    else
        echo "kupaldiz-$version-linux-aarch64.tar.xz is left out: tools/build-archive.sh --for aarch64 proves and builds its archive"
    fi
}

# quietly COMMAND..: runs the command, and prints nothing unless it fails.
quietly() {
    if ! "$@" >"$room/log" 2>&1; then
        tail -n 40 "$room/log" >&2
        echo "make-release: this failed: $*" >&2
        exit 1
    fi
}

# binaries PROCESSOR: what is unpacked and used, for a processor; it is built from a copy of the source.
binaries() {
    local name=kupaldiz-$version-linux-$1 source=$room/build-$1 words=() compiler=gcc
    [ "$1" = x86_64 ] || compiler=$1-linux-gnu-gcc
    cp -r "$room/$source_name" "$source"
    words=(CC="$compiler" CFLAGS=-O2 WERROR= PREFIX="/$name" DESTDIR="$room/tree" DOCDIR="/$name/share/doc/kupaldiz" EXAMPLESDIR="/$name/examples")
    # shellcheck disable=SC2016
    words+=(PC_PREFIX='$${pcfiledir}/../..')
    quietly make -C "$source" symbols install install-examples "${words[@]}"
    cp packaging/INSTALL.md "$room/tree/$name/README.md"
    cp "$source/archive/$1/libkupaldiz.proved" "$room/tree/$name/PROVED"
    if [ -f "$source/archive/$1/registry_run" ]; then
        install -D -m 755 "$source/archive/$1/registry_run" "$room/tree/$name/bin/registry_run"
        install -D -m 644 "$source/man/registry_run.1" "$room/tree/$name/share/man/man1/registry_run.1"
    fi
    packaging/pack.sh "$room/tree" "$name" "$SOURCE_DATE_EPOCH" >"$made/$name.tar.xz"
}

# The crate, with the archives within. It is built outside of any repository, so that it says nothing of one.
crate() {
    local processor
    cp -r "$room/$source_name/rust" "$room/crate"
    for processor in x86_64 aarch64; do
        if [ -d "$room/$source_name/archive/$processor" ]; then
            mkdir -p "$room/crate/archive/$processor"
            cp "$room/$source_name/archive/$processor"/{libkupaldiz_proved.*,kupaldiz_limits.h} "$room/crate/archive/$processor"
        fi
    done
    (cd "$room/crate" && CARGO_TARGET_DIR=$room/target quietly cargo package --offline --no-verify --allow-dirty)
    cp "$room/target/package/kupaldiz-$version.crate" "$made"
}

# packages ARCHITECTURE WORDS..: the Debian packages that dpkg-buildpackage makes with these words, in which lintian finds no error.
packages() {
    local at=$room/$1
    mkdir "$at"
    cp -r "$room/$source_name" "$at/source"
    (cd "$at/source" && quietly dpkg-buildpackage -us -uc "${@:2}")
    quietly lintian --allow-root --fail-on error "$at"/*.changes
    grep -hE '^[EW]: ' "$room/log" | sed "s/^/lintian, $1: /" || true
    cp "$at"/*.deb "$made"
}

# What each archive is proved to be: the records, one after another.
proved() {
    local record
    echo "kupaldiz $version, of commit $(git rev-parse HEAD)"
    for record in "$room/$source_name"/archive/*/libkupaldiz.proved; do
        echo
        cat "$record"
    done
    echo
    record=$(sha256sum <"$room/$source_name/archive/x86_64/registry_run")
    echo "registry_run for x86_64, proved and built by tools/prove-program.sh: SHA-256 ${record%% *}"
}

tools/packages.py release >&2 || exit 2
need_commit
need_place
[ -z "$prove" ] || prove_all
version=$(make -s version)
need_proved
SOURCE_DATE_EPOCH=$(git log -1 --format=%ct)
export SOURCE_DATE_EPOCH
umask 022
room=$(mktemp -d)
trap 'rm -rf "$room"' EXIT
made=$room/made
source_name=kupaldiz-$version
mkdir "$made"
quietly packaging/dist.sh --lay "$room/$source_name"
packaging/pack.sh "$room" "$source_name" "$SOURCE_DATE_EPOCH" >"$made/$source_name.tar.xz"
binaries x86_64
packages amd64 -b
if [ -e out/aarch64/libkupaldiz_proved.a ]; then
    binaries aarch64
    # By the cross compiler, whose packages aren't those that dpkg-buildpackage looks for.
    packages arm64 -B -aarm64 -d
fi
crate
proved >"$made/PROVED"
(cd "$made" && sha256sum -- * >"$room/sums" && mv "$room/sums" SHA256SUMS)
# In one step: whoever looks finds a whole release.
mkdir -p "$(dirname "$to")"
new=$(mktemp -d "$to.XXXXXX")
trap 'rm -rf "$room" "$new"' EXIT
chmod 755 "$new"
cp "$made"/* "$new"
[ ! -e "$to" ] || mv "$to" "$room/older"
mv "$new" "$to"
(cd "$to" && sed 's/^/made    /' SHA256SUMS)
if [ -z "$(make -s licence)" ]; then
    echo "no licence is chosen: LICENCE in packaging/install.mk is empty, and nobody but the owner may copy or pass on what is in ${to##*/}/"
fi
