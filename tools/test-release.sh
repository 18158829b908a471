#!/usr/bin/env bash
# Tries a release where nothing of ours is: in fresh Debian roots, without the kit, without the repository and without a network. It isn't part of the gate.
#
#     tools/test-release.sh             all parts, over release/ as tools/make-release.sh made it
#     tools/test-release.sh PART..      some of them: twice packet c cmake cargo apt arm64
#
#     twice    the release made twice, in two clones, is the same to the byte
#     packet   gcc and make alone: how long after unpacking the first packet is looked up, which is one minute at most
#     c        gcc, make and pkg-config: the examples; the source is built, checked, installed and packed
#     cmake    find_package(kupaldiz)
#     cargo    the crate as a path dependency, its tests and examples, with Debian's cargo
#     apt      the Debian packages are installed, programs in C and Rust are built, and all is removed to nothing
#     arm64    those for arm64 are installed beside those for amd64, and programs are built over them and run under qemu
#
# It runs as root, and needs mmdebstrap, and a mirror while a root is made. RELEASE names another folder than release/, ROOTS where the roots are kept from run
# to run. The last line is 'N passed, M failed'.
. "$(dirname "$0")/tests/common.sh"
. packaging/scenario.sh
release=$(realpath -m "${RELEASE:-release}")

refuse() {
    echo "test-release: $1" >&2
    exit 2
}

# What each part has in its root, and nothing else.
c="gcc libc6-dev make"
declare -A has=([packet]="$c xz-utils" [c]="$c pkg-config xz-utils diffutils" [cmake]="$c cmake xz-utils" [cargo]="cargo xz-utils" [apt]="$c pkg-config cargo"
    [arm64]="gcc-aarch64-linux-gnu libc6-dev:arm64 make pkg-config qemu-user-static")
[ $# -gt 0 ] || set -- twice packet c cmake cargo apt arm64
for part; do
    [ "$part" = twice ] || [ "${has[$part]-}" ] || refuse "there is no part $part: twice ${!has[*]}"
done
need "$release/SHA256SUMS" "tools/make-release.sh makes it"
[ "$(id -u)" -eq 0 ] || refuse "it makes roots, and so it runs as root"
tools/packages.py roots >&2 || exit 2
version=$(sed -nE 's/^.*  kupaldiz-([0-9.]+)\.crate$/\1/p' "$release/SHA256SUMS")
[ -n "$version" ] || refuse "$release/SHA256SUMS names no crate: tools/make-release.sh makes it"
roots=${ROOTS:-$room/roots}
mkdir -p "$roots"

# again FOLDER: a release made in a clone in that folder, of the same commit and the same archives.
again() {
    git clone -q . "$1" && cp --parents out/libkupaldiz{_proved.a,.proved} crates/registry_run/out/registry_run "$1" || return
    [ ! -e out/aarch64/libkupaldiz.proved ] || cp --parents out/aarch64/libkupaldiz{_proved.a,.proved} "$1" || return
    touch "$1/crates/registry_run/out/registry_run"
    "$1/tools/make-release.sh"
}

same_twice() {
    again "$room/one" && again "$room/another folder" && diff -r "$room/one/release" "$room/another folder/release"
}

# has_root PART: a fresh Debian root with what the part has, as roots/PART.tar. One that isn't made leaves nothing.
has_root() {
    local made=$roots/$1.tar architectures=amd64
    [ "$1" != arm64 ] || architectures=amd64,arm64
    [ -f "$made" ] || { mmdebstrap --mode=root --format=tar --variant=minbase --architectures="$architectures" --include="${has[$1]// /,}" bookworm "$made.new" &&
        mv "$made.new" "$made"; } || { rm -f "$made.new"; return 1; }
}

# inside PART: a copy of its root, with the release in /release, in which the function in_PART is run: without a network, without anything else of this machine.
inside() {
    local at=$room/$1 status
    mkdir -p "$at/release" && tar -C "$at" -xf "$roots/$1.tar" && cp "$release"/* "$at/release" || return
    declare -f unpack try_examples "in_$1" >"$at/try"
    # shellcheck disable=SC2016
    timeout 6000 unshare --net --mount --pid --fork sh -c 'mount -t proc proc "$1/proc" && exec chroot "$1" env -i PATH=/usr/sbin:/usr/bin:/sbin:/bin LC_ALL=C.UTF-8 \
        version="$2" linux="kupaldiz-$2-linux-x86_64" DEBIAN_FRONTEND=noninteractive bash -eux -o pipefail -c "mkdir /room; cd /room; . /try; ! command -v rt || exit 1; in_$3"' \
        sh "$at" "$version" "$1"
    status=$?
    rm -rf --one-file-system "$at"
    return "$status"
}

# What runs in a root, in /room; its lines `done: ..` say what it shows.

unpack() {
    tar -xf "/release/$1"
}

# Builds and runs the examples of libkupaldiz-dev, shared and static.
try_examples() {
    cp -r /usr/share/doc/libkupaldiz-dev/examples examples
    find examples -name '*.gz' -exec gunzip {} +
    make -C examples check
    make -C examples clean
    make -C examples check LINK=-static
    echo "done: the examples by pkg-config, shared and static"
}

in_packet() {
    local began took
    ! command -v pkg-config || exit 1
    began=$(date +%s%N)
    unpack "$linux.tar.xz"
    make -C "$linux/examples" out/packet
    "$linux/examples/out/packet" | grep 'nobody sent by wm0 once it was taken out'
    took=$((($(date +%s%N) - began) / 1000000))
    [ "$took" -lt 60000 ]
    echo "done: the first packet is looked up $took ms after unpacking began"
}

in_c() {
    [ "$(grep -c : /proc/net/dev)" -eq 1 ]
    unpack "$linux.tar.xz"
    make -C "$linux/examples" check
    "$linux/bin/registry_run" storm 4 1000 | grep -x 'wrong 0'
    echo "done: make -C examples check, and registry_run"
    unpack "kupaldiz-$version.tar.xz"
    cd "kupaldiz-$version"
    make check
    make install
    make installcheck
    echo "done: make check, make install and make installcheck in the source"
    make dist
    diff <(tar -tf "out/kupaldiz-$version.tar.xz" | sort) <(tar -tf "/release/kupaldiz-$version.tar.xz" | sort)
    echo "done: make dist packs the same files again"
}

in_cmake() {
    unpack "$linux.tar.xz"
    cmake -S "$linux/examples" -B out -DCMAKE_PREFIX_PATH="$PWD/$linux"
    cmake --build out
    ctest --test-dir out --output-on-failure
    echo "done: find_package(kupaldiz): all examples are built and run, shared and static"
}

in_cargo() {
    local passed
    export CARGO_HOME=/room/cargo
    unpack "kupaldiz-$version.crate"
    cargo new --vcs none mine
    echo "kupaldiz = { path = \"../kupaldiz-$version\" }" >>mine/Cargo.toml
    cp "kupaldiz-$version/examples/packet.rs" mine/src/main.rs
    (cd mine && cargo run --offline)
    echo "done: $(cargo --version): a path dependency"
    cd "kupaldiz-$version"
    cargo test --offline --no-fail-fast 2>&1 | tee /room/said
    passed=$(awk '/^test result/ { n += $4 } END { print n }' /room/said)
    [ "$passed" -gt 0 ]
    echo "done: its tests: $passed passed"
    cargo build --offline --release --examples
    for example in packet tasks plugins; do
        "target/release/examples/$example"
    done
    echo "done: its examples"
}

in_apt() {
    # Everything but what is written here, and what dpkg and apt keep for themselves.
    files() {
        find / -xdev \( -path /proc -o -path /room -o -path /var/lib/dpkg -o -path /var/lib/apt -o -path /var/cache -o -path /var/log \) -prune -o -print |
            grep -v '^/etc/ld.so.cache$' | sort
    }
    files >before
    apt-get install -y --no-install-recommends /release/*_{amd64,all}.deb
    echo "done: apt installs $(dpkg -l | grep -c '^ii.*kupaldiz') packages"
    try_examples
    registry_run storm 4 1000 | grep -x 'wrong 0'
    echo "done: registry_run"
    export CARGO_HOME=/room/cargo
    mkdir "$CARGO_HOME"
    cargo new --vcs none mine
    printf '[source.crates-io]\nreplace-with = "debian"\n[source.debian]\ndirectory = "/usr/share/cargo/registry"\n' >"$CARGO_HOME/config.toml"
    echo 'kupaldiz = "0.1"' >>mine/Cargo.toml
    cp "/usr/share/cargo/registry/kupaldiz-$version/examples/packet.rs" mine/src/main.rs
    (cd mine && cargo run --offline)
    echo "done: a program over librust-kupaldiz-dev"
    apt-get purge -y libkupaldiz0.1 libkupaldiz-dev kupaldiz-tools librust-kupaldiz-dev
    files | diff before -
    ! dpkg -l | grep kupaldiz || exit 1
    echo "done: apt removes them to nothing"
}

in_arm64() {
    apt-get install -y --no-install-recommends /release/libkupaldiz{0.1,-dev}_*_{amd64,arm64}.deb
    echo "done: apt installs $(dpkg -l | grep -c '^ii.*kupaldiz.*arm64') packages beside those for amd64"
    export PKG_CONFIG_LIBDIR=/usr/lib/aarch64-linux-gnu/pkgconfig RUN=qemu-aarch64-static CC=aarch64-linux-gnu-gcc
    try_examples
    apt-get purge -y libkupaldiz{0.1,-dev}:{amd64,arm64}
    ! dpkg -l | grep kupaldiz || exit 1
    echo "done: apt removes them"
}

check "SHA256SUMS holds" env -C "$release" sha256sum -c SHA256SUMS
for part; do
    if [ "$part" = twice ]; then
        check "made twice, in two folders: the same to the byte" same_twice
        continue
    fi
    check "a root with ${has[$part]}" has_root "$part"
    check "the part $part" inside "$part"
    sed -n 's/^done: /        /p' "$log"
done
finish
