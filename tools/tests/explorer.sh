#!/usr/bin/env bash
# The tests of explorer.cmake that take more than one command.
. "$(dirname "$0")/common.sh"
folder=explorer
built=$PWD/out/explorer/plain
# The example of the README as it is compiled, and what it printed: the tests after it go on from there.
example=$PWD/out/explorer/example

# The picture of the README, made again: an XML parser takes it.
is_picture() {
    "$built/finds" "$room/picture.svg" >/dev/null
    diff "$folder/deadlock.svg" "$room/picture.svg" && python3 -c 'import sys, xml.dom.minidom; xml.dom.minidom.parse(sys.argv[1])' "$room/picture.svg"
}

# It prints how much was tried, and what was left out.
prints_what_was_tried() {
    "$built/counts" >"$said"
    grep -qx 'bounds: 14 schedules, 0 cut short, [0-9]* states, [0-9]* points, [0-9]* switches' "$said" &&
        grep -qx 'bounds: left out: schedules with more than 1 preemptions, except 5 by random priorities, seed 1' "$said" &&
        grep -qx 'steps: other outcomes: 668' "$said" && grep -qx 'change: no outcome: 1' "$said" &&
        grep -qx "cut bound: left out: schedules that weren't reached, except 5 by random priorities, seed 1" "$said" &&
        grep -qx 'bridge: every schedule of its points was tried, or one that is the same as it' <("$built/drivers" bridge)
}

# So many runs are enough with the reduction, and no fewer: each touch of a step counts (tests/rules.py).
compares_outcomes() {
    "$built/outcomes" 1 20 | tee "$said"
    grep -q ' have the same outcomes by 2954 schedules as by 297101; ' "$said"
}

# The table of CASES.md says what was printed.
drivers_as_told() {
    "$built/drivers" | "$folder/tests/told.py" drivers
}

run_example() {
    gcc -c -g -fsanitize=thread -fmacro-prefix-map="$example/=" -DKUPALDIZ_EXPLORER -I$folder -Iout/made/netbsd -o "$example/test.o" "$example/test.c" &&
        gcc -o "$example/a.out" "$example/test.o" "$built/libexplorer.a" -pthread && (cd "$example" && ./a.out)
}

# The example of the README prints what is there, as it is and without its perform.
example_as_told() {
    rm -rf "$example" && mkdir "$example" || return
    sed -n '/^```c$/,/^```$/p' "$folder/README.md" | sed '/^```/d' >"$example/test.c"
    run_example >"$example/right" || return
    sed -i '/pserialize_perform/d' "$example/test.c"
    run_example >"$example/wrong"
    diff <(cat "$example/right" "$example/wrong") <(sed -n '/^explorer: /,/^```$/p' "$folder/README.md" | sed '/^```/d')
}

# The line that is printed runs the schedule of the fault alone, and no other search of the program.
replays_as_printed() {
    cd "$example" || return
    bash -c "$(sed -n 's/^explorer: again: //p' wrong)" >"$room/again"
    EXPLORER_REPLAY=other:b2c2b ./a.out >"$room/other"
    diff <(grep -v ' schedules, \|: found by ' wrong) <(grep -v ' schedules, \|: found by ' "$room/again") && [ ! -s "$room/other" ]
}

# It has the program's words, too, as a shell reads them.
repeats_words() {
    cd "$example" || return
    ./a.out one "two words" >"$said"
    grep -Fx "explorer: again: EXPLORER_REPLAY='explorer:b2c2b' ./a.out one two\\ words" "$said"
}

# gdb shows the last step of that schedule by the manual page's commands.
stops_in_debugger() {
    sed -n '/^set follow-fork-mode child$/,/^\.Ed$/p' man/kupaldiz_explorer.7 | sed '/^\.Ed$/d' >"$room/commands" && grep -q . "$room/commands" &&
        (cd "$example" && EXPLORER_REPLAY=explorer:b2c2b gdb -batch -nx -x "$room/commands" a.out) | tee "$said" &&
        grep -q 'psref_acquire (' "$said" && grep -q 'input (arg=' "$said"
}

# The explorer by clang, with what it compiles of the layer, and two of its small programs.
with_clang() {
    make -s -C $folder CC=clang OUT="$room/clang" "$room/clang/plain/counts" "$room/clang/plain/finds" &&
        "$room/clang/plain/counts" && "$room/clang/plain/finds"
}

# On another processor the compiler says what the explorer is for.
is_for_one_processor() {
    catches 'error.*the explorer is for x86-64 alone' gcc -U__x86_64__ -fsyntax-only "$folder/src/routine.c"
}

# plain_program WORD..: compiles and links a program of one thread by these words, and runs it.
plain_program() {
    cat >"$room/plain.c" <<'C'
#include "explorer.h"
static void go(void *arg) { (void)arg; explorer_point(); }
static void begin(void) { explorer_thread("one", go, NULL); }
int main(void) { return explorer_run(begin, NULL); }
C
    { gcc "$@" -Iout/made/netbsd -I$folder -o "$room/plain" "$room/plain.c" "$built/libexplorer.a" -pthread && "$room/plain"; } 2>&1
}

refuses_other_file() {
    catches 'undefined reference to .kupaldiz_for_7_cpus' plain_program -O1
}

names_unseen_file() {
    plain_program -DKUPALDIZ_EXPLORER -O1 | grep -xF "explorer: plain accesses weren't seen in plain.c: compiled without -fsanitize=thread"
}

refuses_linked_sanitizer() {
    plain_program -DKUPALDIZ_EXPLORER -fsanitize=thread >"$said"
    [ $? -eq 2 ] && grep -F "the program is linked with -fsanitize=thread" "$said"
}

"$@"
