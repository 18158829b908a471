#!/usr/bin/env bash
# The tests of aarch64.cmake that take more than one command.
. "$(dirname "$0")/common.sh"
out=out/aarch64
cross=aarch64-linux-gnu-
emulator=qemu-aarch64-static

# Of a library that is proved from the sources as they stand, or else it proves one.
build_archive() {
    tools/build-archive.sh --for aarch64 "$out/libregistry_c.a" "$out/proof.log" || tools/build-archive.sh --for aarch64
}

# A step that isn't sequentially consistent is seen.
sees_weaker_step() {
    echo 'unsigned long word; unsigned long add(void) { return __atomic_fetch_add(&word, 1, __ATOMIC_RELAXED); }' |
        "${cross}gcc" -O1 -mno-outline-atomics -c -o "$room/weaker.o" -xc - || return 1
    catches '^another instruction: ldxr' tools/atomics.py "$room/weaker.o" "$out/ordered-misuse"
}

# The crate's tests over the archive for the processor, each program under the emulator: but not those that call the compiler, nor what is seen of a
# program that ends by a signal. The stress makes fewer changes.
rust_tests() (
    cd rust || return
    local -x KUPALDIZ_CHANGES=1 CARGO_TARGET_DIR=$PWD/../out/aarch64/rust RUSTFLAGS='-C target-feature=+crt-static'
    local -x CARGO_TARGET_AARCH64_UNKNOWN_LINUX_GNU_LINKER=${cross}gcc CARGO_TARGET_AARCH64_UNKNOWN_LINUX_GNU_RUNNER=$emulator
    local words=(cargo test --offline --no-fail-fast --target aarch64-unknown-linux-gnu)
    "${words[@]}" --lib || return 1
    RUSTFLAGS+=" $(tests/watching.sh)"
    # shellcheck disable=SC2046
    "${words[@]}" $(find tests -maxdepth 1 -name '*.rs' ! -name compile_fail.rs ! -name watching.rs -printf '--test %f ' | sed 's/\.rs / /g')
)

"$@"
