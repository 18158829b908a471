#!/usr/bin/env bash
# The tests of builds.cmake: what users build over the archive.
. "$(dirname "$0")/common.sh"
archive=out/libkupaldiz_proved.a
include=$PWD/crates/registry_c/include

# built NAME COMMAND..: the program of that name, compiled with the modules of kupaldiz_waiting.h by this command, over the archive.
built() {
    local name=$1 source=c/tests/$1.c
    shift
    [ -e "$source" ] || source=c/examples/$name.c
    "$@" -D_POSIX_C_SOURCE=200809L -Wall -Wextra -Werror -I"$include" -Ic/include -Iout/made/c -Ic/examples -o "$room/$name" "$source" \
        c/src/waiting/*.c "$archive" -pthread
}

# runs COMMAND..: the smallest program, and threads that wait together, built by this command.
runs() {
    built smallest "$@" && "$room/smallest" | grep -x 'wm0 has value 1500' && built together "$@" && "$room/together" 2
}

# The same over musl, and waits that are interrupted: their deadlines and cancellations are the C library's. (The checking build stops such a wait.)
runs_over_musl() {
    runs musl-gcc "$@" && built interrupted musl-gcc "$@" -Wl,--wrap=nanosleep,--wrap=pthread_cond_wait,--wrap=pthread_cond_timedwait,--wrap=pthread_join && "$room/interrupted"
}

# runs_as_cxx COMMAND..: the headers, in C++20. The modules are compiled in a folder of this test's
# own, as that of another compiler may run beside it.
runs_as_cxx() {
    local waiting=$PWD/c/src/waiting
    (cd "$room" && gcc -O2 -std=c11 -D_POSIX_C_SOURCE=200809L -I"$include" -I"$waiting/../../include" -c "$waiting"/*.c) &&
        "$@" -std=c++20 -Wall -Wextra -Wpedantic -Werror -I"$include" -Ic/include -x c++ c/tests/installed.c -x none "$room"/{waits,deferred,reclaimer,pool}.o "$archive" -pthread -o "$room/cxx" &&
        "$room/cxx" | grep '^C++, version'
}

# The header as a header unit: its macros come with it.
runs_as_unit() {
    cat >"$room/unit.cpp" <<'PROGRAM'
import "kupaldiz.h";
int main() {
	const struct kupaldiz_settings settings = {1, KUPALDIZ_MOST_SLOTS, 100, 100, 10, 10};
	struct kupaldiz_keeper keeper = {nullptr};
	struct kupaldiz_cpu cpu = {nullptr};
	return kupaldiz_open(&settings, &keeper, &cpu, 1) != KUPALDIZ_DONE || kupaldiz_close(&keeper, &cpu, 1) != KUPALDIZ_DONE;
}
PROGRAM
    (cd "$room" && g++ -std=c++20 -fmodules-ts -I"$include" -x c++-header "$include/kupaldiz.h" &&
        g++ -std=c++20 -fmodules-ts -I"$include" -c unit.cpp) && g++ -o "$room/unit" "$room/unit.o" "$archive" -pthread && "$room/unit"
}

# refused TEXT COMMAND..: the header isn't compiled by this command, and the error says this.
refused() {
    echo '#include "kupaldiz.h"' >"$room/header.c"
    catches "$1" "${@:2}" -I"$include" -fsyntax-only "$room/header.c"
}

# The archive has no landing pads. A linker that is asked to require them names it.
landing_pads_are_refused() {
    catches 'kupaldiz.o.*missing IBT property' built smallest gcc -std=c11 -fcf-protection=full -Wl,-z,shstk,-z,cet-report=error
}

"$@"
