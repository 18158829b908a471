#!/usr/bin/env bash
# The tests of page.cmake that take more than one command.
. "$(dirname "$0")/common.sh"

# names HEADER PAGE: the page names each call of the header, and no other.
names() {
    diff <(packaging/calls-of.sh "$1") <(grep -E '^\.Nm kupaldiz_' "$2" | awk '{ print $2 }' | sort)
}

page_lints() {
    mandoc -T lint man/*.[17] out/made/man/*.3 >"$said" 2>&1 && [ ! -s "$said" ] || { cat "$said"; return 1; }
}

# A header fits a window beside another one.
header_is_narrow() {
    ! expand "$header" c/include/*.h* out/made/c/kupaldiz_*.h | grep -nE '.{101}'
}

strict_alone() {
    header_alone "$1" "${warnings[@]}" "${@:2}"
}

# compiles STATEMENT: gcc takes it, in a function that has a CPU and an entry.
compiles() {
    printf '#include "kupaldiz.h"\nvoid f(struct kupaldiz_cpu *cpu, struct kupaldiz_entry *entry);\nvoid f(struct kupaldiz_cpu *cpu, struct kupaldiz_entry *entry) { %s }\n' "$1" |
        gcc -O1 "${warnings[@]}" -Icrates/registry_c/include -c -o /dev/null -xc -
}

# warned WARNING STATEMENT: the compiler warns of the statement, as it does of none that is right.
warned() {
    compiles '(void)entry; kupaldiz_exit(cpu);' && catches "Werror=$1" compiles "$2"
}

"$@"
