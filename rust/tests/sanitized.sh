#!/usr/bin/env bash
# Runs the crate's tests under the address sanitizer and the thread sanitizer, over the archive in
# the folder that KUPALDIZ_LIB_DIR names. KUPALDIZ_CHANGES has how much of them, in percent.
#
# The thread sanitizer sees no atomic step of the archive, so tests/common/watched.rs tells it of
# the two edges of the memory order. Without either of them it reports a race: so it would see a value
# that is read before its attach, or after it was freed. It doesn't see how the standard library's
# locks wait, so the crate tries them again and again; nor its channels and conditions, so the other
# tests run under the address sanitizer alone.
#
# It takes options of rustc that aren't stable, and so RUSTC_BOOTSTRAP; and a compiler that has the
# sanitizers, as rustup's has.
#
#     sanitized.sh has          says by its status whether this one has
#     sanitized.sh quiet        no race is reported
#     sanitized.sh find         a race is reported where a find isn't after its attach
#     sanitized.sh freed        a race is reported where a value isn't freed after its last use
#     sanitized.sh table        no race is reported of the threads of a table
#     sanitized.sh table-find   one is reported there where a find isn't after its attach
#     sanitized.sh address      no access out of bounds, or of what was freed
set -u
cd "$(dirname "$0")/.." || exit
export KUPALDIZ_LIB_DIR="${KUPALDIZ_LIB_DIR:-$PWD/../out}" RUSTC_BOOTSTRAP=1
export CARGO_TARGET_DIR="${CARGO_TARGET_DIR:-$PWD/target}/sanitized"
target=x86_64-unknown-linux-gnu
libraries=$(rustc --print sysroot)/lib/rustlib/$target/lib
if ! ls "$libraries"/librustc-*_rt.tsan.a >/dev/null 2>&1; then
    echo "this rustc has no sanitizers"
    exit 1
fi
flags="$(tests/watching.sh) -Cunsafe-allow-abi-mismatch=sanitizer"
mkdir -p "$CARGO_TARGET_DIR"
said=$CARGO_TARGET_DIR/said
# What the sanitizer can't see of libtest, and of the fence that ends the last share of an Arc.
printf 'race:CompletedTest\nrace:drop_slow\n' >"$CARGO_TARGET_DIR/suppressed"
# Some tests forget on purpose.
export TSAN_OPTIONS="suppressions=$CARGO_TARGET_DIR/suppressed" ASAN_OPTIONS=detect_leaks=0

# run SANITIZER FLAGS TEST..: runs these tests under it.
run() {
    RUSTFLAGS="$flags -Zsanitizer=$1 $2" cargo test -q --offline --target $target "${@:3}" >"$said" 2>&1
}

# run_without EDGE: a run without this edge. Four threads are enough: 64 that try a lock again and
# again take minutes.
run_without() {
    KUPALDIZ_WITHOUT="$1" run thread "--cfg kupaldiz_edges" --test together -- --skip all_cpus
}

# comes_to_race TEXT COMMAND..: whether runs come to a race that is told so: with few changes not
# each does.
comes_to_race() {
    until "${@:2}"; grep -q "data race$1" "$said"; do
        grep -qE 'data race|test result: ok' "$said" || return 1
    done
}

# in_a_table EDGE: the random calls of a table's threads, without this edge.
in_a_table() {
    KUPALDIZ_WITHOUT="$1" run thread "--cfg kupaldiz_edges" --test table -- random_calls
}

case ${1-} in
has) exit ;;
quiet) run_without none ;;
find | freed) comes_to_race '.*Tracked' run_without "$1" ;;
table) in_a_table none ;;
table-find) comes_to_race '' in_a_table find ;;
address)
    run address "" --test carried --test face --test foreign --test leaving --test loans --test model \
        --test table --test together ;;
*) echo "usage: sanitized.sh has|quiet|find|freed|table|table-find|address" >"$said" && false ;;
esac || { tail -n 30 "$said"; exit 1; }
