#!/bin/bash
# Refuses each allocation of the memory tests in turn, the 1st, the 2nd and so on. The call must say that memory ran out, and change
# nothing; made again, it must return what it would have returned at first.
#
# The gate refuses memory to the program and to callers in C: run this by hand after a change of what allocates. Without arguments it goes over each crate
# that has memory tests; else over the crates named. An allocation takes half a minute: FROM=45 goes on from the 45th. Each test runs in a process of its own,
# with a count of its own, and notes a refusal that it met. A list that is refused room for as many as it expects asks again, for one, and notes nothing. Such
# refusals come few in a row.
set -u
cd "$(dirname "$0")/../crates" || exit 2
[[ $# -gt 0 ]] || set -- core_tests call_tests

# More than the refusals in a row that meet nobody.
many=16

# One crate, in whose folder this runs.
refuse() {
    local from=${FROM:-1} met=0 n output notes last=$((${FROM:-1} - 1))
    for ((n = from; n <= last + many; n++)); do
        if ! output=$(rt try --test --fail-alloc "$n" -- memory_tests 2>&1) || [[ $output != *"test result: ok"* ]]; then
            printf '%s\n%s, allocation %s: a test failed\n' "$output" "$1" "$n"
            return 1
        fi
        notes=$(grep -B 1 'refused memory: ' <<<"$output" | grep -v '^--$')
        if [[ -n $notes ]]; then
            last=$n
            met=$((met + 1))
            printf '%s, allocation %s\n%s\n' "$1" "$n" "$notes"
        fi
    done
    [[ $met -gt 0 ]] || { echo "$1: no allocation was refused, from the ${from}th on"; return 1; }
    echo "$1: allocations refused, from the ${from}th on: $met, the last the ${last}th, and every test passed"
}

for crate in "$@"; do
    (cd "$crate" && refuse "$crate") || exit 1
done
