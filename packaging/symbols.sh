#!/usr/bin/env bash
# Compares the public names of the libraries: symbols.sh HEADERS MADE OUT BUILD VERSION. The calls that the headers declare are those that the maps name, those that
# the shared libraries show, in the same nodes, and those that the static ones do. Else it prints the difference, and its status is 1. `make symbols` calls it.
# MADE is the folder of kupaldiz_check.h, BUILD what libkupaldiz.so has in its name for the limits of its build, or nothing.
set -uo pipefail
cd "$(dirname "$0")/.." || exit
if [ $# -ne 5 ]; then
    echo "usage: symbols.sh HEADERS MADE OUT BUILD VERSION" >&2
    exit 2
fi
headers=$1 made=$2 out=$3 suffix=$4.so.$5 layer_suffix=.so.$5
for needed in "$headers/kupaldiz.h" "$out"/libkupaldiz{{,_netbsd}.a,{"$suffix",_netbsd"$layer_suffix"},_check.a}; do
    if [ ! -f "$needed" ]; then
        echo "symbols: there is no $needed: make library builds the libraries, make symbols calls this" >&2
        exit 2
    fi
done
wrong=0

# As the linker knows the calls of the pages' names.
with_prefix() {
    sed '/^kupaldiz_/!s/^/kupaldiz_/' | sort -u
}

# The names in the nodes of a map.
mapped() {
    sed -nE 's/^\t\t([a-z][a-z0-9_]*\*?);$/\1/p' "$1" | sort
}

# The same, each with its node, as a library names both.
in_nodes() {
    awk '/^[A-Z][A-Z_0-9.]* \{/ { node = $1 } /^\t\t[a-z]/ { sub(/;.*/, ""); print $1 "@@" node }' "$1" | sort
}

# What a shared library shows with its node, by the names of a map.
shown_in_nodes() {
    ${NM:-nm} -D --defined-only "$1" | awk '$2 != "A" { sub(/_for_[0-9][^@]*/, "_for_*", $3); print $3 }' | sort
}

# What a shared library shows, without its versions' own names, and without the number of the layer's CPUs, which one name has.
shared() {
    ${NM:-nm} -D --defined-only "$1" | awk '$2 != "A" { sub(/@.*$/, "", $3); sub(/^kupaldiz_for_[0-9]+_cpus(_of_explorer)?$/, "kupaldiz_for_*", $3); print $3 }' | sort
}

# What other objects see of a static library.
static() {
    ${NM:-nm} -g --defined-only "$1" 2>/dev/null | awk 'NF == 3 { sub(/^kupaldiz_for_[0-9]+_cpus(_of_explorer)?$/, "kupaldiz_for_*", $3); print $3 }' | sort
}

# same WHAT NAMES OTHERS: two lists of names, as texts.
same() {
    local difference
    if ! difference=$(diff <(echo "$2") <(echo "$3")); then
        printf '%s: other names than those of the headers\n%s\n' "$1" "$(grep '^[<>]' <<<"$difference")"
        wrong=1
    fi
}

# A map has one name for what the limits of the build are in the name of.
in_maps() {
    sed -E 's/kupaldiz_for_[0-9].*/kupaldiz_for_*/'
}

calls=$(packaging/calls-of.sh "$headers"/kupaldiz{,_limits}.h c/include/kupaldiz_{waiting,table}.h)
same kupaldiz.map "$(in_maps <<<"$calls")" "$(mapped packaging/kupaldiz.map)"
same libkupaldiz.so "$calls" "$(shared "$out/libkupaldiz$suffix")"
same "the nodes of libkupaldiz.so" "$(in_nodes packaging/kupaldiz.map)" "$(shown_in_nodes "$out/libkupaldiz$suffix")"
same libkupaldiz.a "$calls" "$(static "$out/libkupaldiz.a")"
# The checking build has each call that takes a handle of a registry, and all of kupaldiz_waiting.h and kupaldiz_table.h; of these it has what is within by other names.
others='kupaldiz_(for_.*|name_.*|id_of_name|strerror|version|limits)'
same kupaldiz_check.h "$(grep -vxE "$others" <<<"$calls")" "$(sed -nE 's/^#define (kupaldiz_[a-z_]+)\(.*/\1/p' "$made/kupaldiz_check.h" | grep -vx kupaldiz_check_interlock | sort)"
inner=$(packaging/calls-of.sh c/include/kupaldiz_{waiting,table}.h | sed 's/^kupaldiz_/kupaldiz_inner_/')
same libkupaldiz_check.a "$({ packaging/calls-of.sh "$made/kupaldiz_check.h"; echo "$inner"; } | sort)" "$(static "$out/libkupaldiz_check.a")"
# With the pages' names the explorer has three calls more, its own, and those that the compiler makes with -fsanitize=thread.
pages=$({ packaging/calls-of.sh netbsd/include/kupaldiz/*.h; echo 'kupaldiz_for_*'; } | with_prefix)
calls=$(grep -vxE 'kupaldiz_(point|from|unseen)' <<<"$pages")
same netbsd.map "$calls" "$(mapped netbsd/netbsd.map)"
same libkupaldiz_netbsd.so "$calls" "$(shared "$out/libkupaldiz_netbsd$layer_suffix")"
same "the nodes of libkupaldiz_netbsd.so" "$(in_nodes netbsd/netbsd.map)" "$(shown_in_nodes "$out/libkupaldiz_netbsd$layer_suffix")"
# Two words of each thread, hidden, which the layer's parts share.
same libkupaldiz_netbsd.a "$calls" "$(static "$out/libkupaldiz_netbsd.a" | grep -vxE 'kupaldiz_(self|places)')"
if [ -f "$out/libkupaldiz_explorer.a" ]; then
    calls=$(sort <<<"$pages"$'\n'"$(packaging/calls-of.sh explorer/explorer.h)")
    same "explorer.map and netbsd.map" "$calls" "$({ mapped explorer/explorer.map; mapped netbsd/netbsd.map; } | sort)"
    same libkupaldiz_explorer.so "$calls" "$(shared "$out/libkupaldiz_explorer$layer_suffix" | grep -v '^__tsan_')"
    same libkupaldiz_explorer.a "$calls" "$(static "$out/libkupaldiz_explorer.a" | grep -v '^__tsan_')"
fi
exit "$wrong"
