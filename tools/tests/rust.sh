#!/usr/bin/env bash
# The tests of rust.cmake that take more than one command.
. "$(dirname "$0")/common.sh"
out=$PWD/out
limits=${header%.h}_limits.h

# cargo_watched WORD..: the crate's tests, where each call is watched, in a folder of their own: so
# no test of cargo's with other flags builds anew what runs.
cargo_watched() {
    cd rust && CARGO_TARGET_DIR=$CARGO_TARGET_DIR/watched RUSTFLAGS=$(tests/watching.sh) cargo test --offline --test '*' "$@"
}

watched_tests() {
    cargo_watched --no-fail-fast
}

# The programs of the crate's tests, as cargo names them where it isn't told to be quiet; except those that run the compiler or themselves, or look at types.
rust_tests() {
    (CARGO_TERM_QUIET=false cargo_watched --no-run 2>&1) | grep -oE '/[^ ()]*/(carried|face|foreign|leaving|loans|memory|model|table|together)-[0-9a-f]+'
}

# guarded_tests COMMAND..: each of them by this command, except what forgets on purpose; the stress with fewer changes.
guarded_tests() {
    local program programs
    programs=$(rust_tests)
    [ "$(wc -w <<<"$programs")" -eq 9 ] || return 1
    for program in $programs; do
        "$@" "$program" --test-threads=1 --skip forgotten --skip had_again --skip static || return 1
    done
}

# The stress ends also on a system where a yield lets nobody on: so nothing of it grows while one waits for another.
ends_without_yields() {
    echo 'int sched_yield(void) { return 0; }' | gcc -shared -fPIC -o "$room/no_yield.so" -xc - || return 1
    LD_PRELOAD="$room/no_yield.so" "$(rust_tests | grep /together-)"
}

# It prints the line that the page shows.
who_holds_says() {
    "$1" | diff - <(grep '^the entry is still held: ' rust/README.md)
}

# refused_over FOLDER TEXT: over the archive in that folder of out no example of the crate is run, and it says why.
refused_over() {
    cd rust && KUPALDIZ_LIB_DIR=$out/$1 CARGO_TARGET_DIR=$out/$1/target catches "$2" cargo run -q --offline --example smallest
}

# A program over the crate that is compiled for other limits than the archive's opens nothing.
refuses_other_limits() {
    mkdir -p "$out/other-limits" && cp "$out/libkupaldiz_proved.a" "$out/other-limits" &&
        sed -E 's/^(#define KUPALDIZ_MOST_CHANGES[[:blank:]]+)(.*)/\1(\2 + 1)/' "$limits" >"$out/other-limits/kupaldiz_limits.h" &&
        refused_over other-limits OtherLimits
}

# Over an archive of another version the crate doesn't compile, and says which.
refuses_other_version() {
    local to=$out/other-version name other
    name=$(sed -nE 's/^#define KUPALDIZ_BUILT_FOR[[:blank:]]+//p' "$limits")
    other=${name%_v*}_v0_99
    mkdir -p "$to" && objcopy --redefine-sym "$name=$other" "$out/libkupaldiz_proved.a" "$to/libkupaldiz_proved.a" &&
        sed "s/$name/$other/" "$limits" >"$to/kupaldiz_limits.h" && refused_over other-version "$other, of another version than this crate"
}

"$@"
