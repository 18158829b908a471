#!/usr/bin/env bash
# Proves and builds the static library of the C face, gives it unwind tables, and joins it with what is C of the archive into one object: the three functions
# of the heap, and the calls that return constants. Only the calls of kupaldiz.h are seen from outside. That object alone is the
# archive libkupaldiz_proved.a. Beside it lie libkupaldiz.proved, the record of the proof, and the two headers that it was compiled with, kupaldiz.h and
# kupaldiz_limits.h, which has its limits. A C program needs these, the archive and nothing else of the repository.
#
#     tools/build-archive.sh                  proves and builds the library first: out/libkupaldiz_proved.a
#     tools/build-archive.sh LIBRARY LOG      takes libregistry_c.a as tools/archive-beside.py has proved and built it, and what the proof said
#     tools/build-archive.sh --for PROCESSOR [LIBRARY LOG]     the same for that processor: out/PROCESSOR/libkupaldiz_proved.a
#     tools/build-archive.sh [--cpus N] [--slots N] [..]      with so many of them, in digits or as 2^5: out/NAME/libkupaldiz_proved.a, where NAME says
#                                             them, as cpus-16-slots-64
#
# With other limits than the default's, all crates of the library are proved in a copy. A number out of its range ends in one line, and nothing is built.
set -euo pipefail
processor=x86_64 out=out tools='' library='' log=''

refuse() {
    echo "build-archive: $1" >&2
    exit 2
}

chosen=()
while [[ ${1-} = --* ]]; do
    case $1 in
    --for)
        [ $# -gt 1 ] || refuse "--for has no processor"
        [[ $2 =~ ^[a-z0-9_]+$ ]] || refuse "'$2' is no processor: x86_64 or aarch64"
        processor=$2
        shift 2 ;;
    --cpus | --slots)
        chosen+=("${@:1:2}")
        shift $(($# > 1 ? 2 : 1)) ;;
    *) refuse "it takes no $1: --for PROCESSOR, --cpus N, --slots N" ;;
    esac
done
case $# in
0) ;;
2) [ -f "$1" ] || refuse "there is no library $1"
   [ -f "$2" ] || refuse "there is no log $2"
   library=$(realpath "$1") log=$(realpath "$2") ;;
*) refuse "behind its flags it takes nothing, or LIBRARY LOG" ;;
esac
cd "$(dirname "$0")/.."
name=$(tools/limits.py name "${chosen[@]}")
if [ "$processor" != x86_64 ]; then
    out=out/$processor tools=$processor-linux-gnu-
fi
out=$out${name:+/$name}
command -v rt >/dev/null || refuse "there is no rt, the command of the Rattle kit: the kit comes from whoever gives you Rattle"
command -v "${tools}ld" >/dev/null || refuse "there is no ${tools}ld: apt-get install binutils${tools:+-$processor-linux-gnu}"
room=$(mktemp -d)
trap 'rm -rf "$room"' EXIT

# Proves the library for the processor and the limits, where it wasn't given: with other limits in a copy of the crates that has them.
prove() {
    local target=() tree=$PWD
    [ "$processor" = x86_64 ] || target=(--target "$processor-unknown-linux-gnu")
    if [ -n "$name" ]; then
        tree=$room/tree
        mkdir "$tree"
        tar -c --exclude=out crates crates.txt HANDLES | tar -x -C "$tree"
        cp "$room/limits.rt" "$tree/crates/registry_values/src"
    fi
    log=$room/log library=$tree/crates/registry_c/out/libregistry_c.a
    tools/proof-record.py begin "$room/limits.rt" >"$log"
    (cd "$tree/crates/registry_c" && rt lib "${target[@]}") 2>&1 | tee -a "$log"
}

tools/limits.py file "${chosen[@]}" >"$room/limits.rt"
# The headers that a client of this archive includes, in one folder.
mkdir "$room/include"
cp crates/registry_c/include/*.h "$room/include"
tools/limits.py header "${chosen[@]}" >"$room/include/kupaldiz_limits.h"
[ -n "$library" ] || prove
(cd "$room" && ar x "$library")
cp "$room/registry_c.o" "$room/compiled.o"
tools/unwind-tables.py "$room/registry_c.o"
# What is C of the archive, as objects: the functions of the heap, and the constants. What is made of the calls is made first, also for whoever compiles by hand.
tools/call-headers.py make
parts=$(tools/proof-record.py parts)
for part in $parts; do
    "${tools}gcc" -std=c11 -O2 -fPIC -ffunction-sections -ffile-prefix-map="$PWD"=. -I"$room/include" -Iout/made/c -c -o "$room/$part.o" "c/src/$part.c"
done
# shellcheck disable=SC2086
(cd "$room" && "${tools}ld" -r -o whole.o registry_c.o ${parts// /.o }.o)
packaging/calls-of.sh "$room"/include/kupaldiz{,_limits}.h >"$room/calls"
[ -s "$room/calls" ] || refuse "kupaldiz.h declares no call"
"${tools}objcopy" --keep-global-symbols="$room/calls" "$room/whole.o" "$room/kupaldiz.o"
(cd "$room" && "${tools}ar" rcsD libkupaldiz_proved.a kupaldiz.o)
tools/proof-record.py write "$processor" "$room/limits.rt" "$log" "$room/compiled.o" "$room/kupaldiz.o" >"$room/libkupaldiz.proved"
# The archive comes last, in one step: whoever looks finds a whole archive with its record.
mkdir -p "$out"
rm -f "$out/libkupaldiz_proved.a"
cp "$room"/include/*.h "$out"
mv "$room/libkupaldiz.proved" "$out/libkupaldiz.proved"
mv "$room/libkupaldiz_proved.a" "$out/libkupaldiz_proved.a.new"
mv "$out/libkupaldiz_proved.a.new" "$out/libkupaldiz_proved.a"
echo "$out/libkupaldiz_proved.a, proved with $(sed -n 's/^limits: //p' "$out/libkupaldiz.proved")"
