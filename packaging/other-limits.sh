#!/usr/bin/env bash
# Compiles a program for other limits than the archive was built for, one limit after the other, and for another version: other-limits.sh HEADERS ARCHIVE.
# With other CPUs or slots, or another version, it doesn't link, and doesn't start with a shared library of the archive: what is said then names these. With
# another of the rest kupaldiz_open refuses it. CC is
# the compiler, RUN what runs a program of another processor. `make check` calls it. The last line is 'N passed, M failed'.
if [ $# -ne 2 ]; then
    echo "usage: other-limits.sh HEADERS ARCHIVE" >&2
    exit 2
fi
headers=$(realpath "$1") archive=$(realpath "$2")
cd "$(dirname "$0")/.." || exit
. packaging/scenario.sh
refused="78: the program was compiled for other limits than the library's"

# What the header says of a limit.
limit() {
    sed -nE "s/^#define KUPALDIZ_MOST_$1[[:blank:]]+//p" "$headers/kupaldiz_limits.h"
}

# The name of the symbol of a build: so many CPUs and slots, and a version.
named() {
    echo "kupaldiz_for_$1_cpus_$2_slots_v${3:-$version}"
}

# change FOLDER WORD TEXT: the text is what the header there says of the word.
change() {
    sed -i -E "s/^(#define KUPALDIZ_$2[[:blank:]]+).*/\\1$3/" "$1/kupaldiz_limits.h"
}

# Headers of another build, as tools/limits.py would make them: the limit, one more.
other_headers() {
    local folder=$room/$1 more
    mkdir -p "$folder" && cp "$headers"/kupaldiz{,_limits}.h "$folder" || return
    case $1 in
    same) return ;;
    VERSION) change "$folder" BUILT_FOR "$(named "$(limit CPUS)" "$(limit SLOTS)" 0_99)"; return ;;
    CPUS | SLOTS) more=$(($(limit "$1") + 1)) ;;
    *) more="($(limit "$1") + 1)" ;;
    esac
    change "$folder" "MOST_$1" "$more"
    [ "$1" != CPUS ] || { change "$folder" BUILT_FOR "$(named "$more" "$(limit SLOTS)")" && change "$folder" BUILD "\"-${more}x$(limit SLOTS)\""; }
    [ "$1" != SLOTS ] || change "$folder" BUILT_FOR "$(named "$(limit CPUS)" "$more")"
}

# The name that a program compiled with these headers asks for.
asked_for() {
    sed -nE 's/^#define KUPALDIZ_BUILT_FOR[[:blank:]]+//p' "$room/$1/kupaldiz_limits.h"
}

program=$(cat <<'PROGRAM'
#include "example.h"

int main(void)
{
	const struct kupaldiz_settings settings = {1, 1, 1, 1, 1, 1};
	struct kupaldiz_keeper keeper = {0};
	struct kupaldiz_cpu cpu = {0};
	enum kupaldiz_result result = kupaldiz_open(&settings, &keeper, &cpu, 1);
	printf("%u: %s\n", (unsigned)result, kupaldiz_strerror(result));
	check("close", kupaldiz_close(&keeper, &cpu, 1));
	expect("nothing is open", keeper.at == NULL && cpu.at == NULL);
	return 0;
}
PROGRAM
)

# built NAME WORDS..: the program, which opens a registry and says what that returns, compiled with the headers of that name and linked with these words.
built() {
    local name=$1
    shift
    $CC -std=c11 -D_POSIX_C_SOURCE=200809L ${RUN:+-static} -I"$room/$name" -o "$room/$name/program" -Ic/examples -xc - -xnone "$@" -pthread <<<"$program"
}

# says NAME LINE: it links with the archive and says the line.
says() {
    other_headers "$1" && built "$1" "$archive" && [ "$($RUN "$room/$1/program")" = "$2" ]
}

# It doesn't link with the archive, and the linker names the limits that the program was compiled for.
no_link() {
    other_headers "$1" && [ "$(asked_for "$1")" != "$(asked_for same)" ] && ! built "$1" "$archive" >"$room/linked" 2>&1 &&
        grep "undefined reference to .$(asked_for "$1")'" "$room/linked"
}

# A program whose headers have other CPUs and yet the name of this build: it links, and is refused.
forged() {
    other_headers CPUS && change "$room/CPUS" BUILT_FOR "$(asked_for same)" && built CPUS "$archive" && [ "$($RUN "$room/CPUS/program")" = "$refused" ]
}

# The shared libraries of another build have its limits in their names.
has_soname() {
    other_headers CPUS && make -s version soname HEADER="$room/CPUS" | grep -x "libkupaldiz-$(($(limit CPUS) + 1))x$(limit SLOTS)\.so\.[0-9.]*"
}

# library FOLDER WORDS..: a shared library of the archive, with these words too.
library() {
    local folder=$1
    shift
    mkdir -p "$folder" && $CC -shared -fPIC -o "$folder/libkupaldiz_proved.so" -Wl,-soname,libkupaldiz_proved.so "$@" \
        -Wl,--whole-archive "$archive" -Wl,--no-whole-archive -pthread
}

# A program that was linked with a library of another build doesn't start with this one in its place: the loader names the limits.
no_start() {
    local stub='#include "kupaldiz.h"\nenum kupaldiz_result KUPALDIZ_BUILT_FOR(const struct kupaldiz_limits *limits) { return limits == NULL ? KUPALDIZ_NULL : KUPALDIZ_DONE; }\n'
    # shellcheck disable=SC2059
    other_headers "$1" && printf "$stub" >"$room/stub.c" && library "$room/$1/lib" -I"$room/$1" "$room/stub.c" && library "$room/lib" &&
        built "$1" -Wl,-z,now -L"$room/$1/lib" -lkupaldiz_proved && LD_LIBRARY_PATH=$room/$1/lib "$room/$1/program" >/dev/null &&
        ! LD_LIBRARY_PATH=$room/lib "$room/$1/program" >"$room/started" 2>&1 && grep "undefined symbol: $(asked_for "$1")" "$room/started"
}

: "${CC:=gcc}" "${RUN:=}"
# The major and the minor version of the header, or from 1 on the major one.
version=$(sed -nE 's/^#define KUPALDIZ_VERSION_(MAJOR|MINOR)[[:blank:]]+//p' "$headers/kupaldiz.h" | paste -sd_ | sed -E 's/^([1-9][0-9]*)_.*/\1/')
check "the same limits: a registry is opened" says same '0: done'
check "the symbol of this build is named by its limits and its version" [ "$(asked_for same)" = "$(named "$(limit CPUS)" "$(limit SLOTS)")" ]
for limit in CHANGES SECTIONS COUNT DEPTH; do
    check "other $limit: kupaldiz_open refuses it" says "$limit" "$refused"
done
for limit in CPUS SLOTS VERSION; do
    check "other $limit: it doesn't link, and the linker names both limits and the version" no_link "$limit"
    # No shared library of another processor is there to start with.
    [ -n "$RUN" ] || check "other $limit: it doesn't start, and the loader names both limits and the version" no_start "$limit"
done
check "other CPUS: the shared library has another name" has_soname
check "other CPUS under the name of this build: kupaldiz_open refuses it" forged
finish
