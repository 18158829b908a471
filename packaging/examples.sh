#!/usr/bin/env bash
# Lays the examples out as a user of the installed libraries has them: examples.sh FOLDER. They include <kupaldiz.h>, and the folder has a Makefile
# and a CMakeLists.txt of its own. examples.sh --remove FOLDER takes them away, and the folder, unless something else is in it.
set -euo pipefail
put=put
if [ "${1-}" = --remove ]; then
    put=remove
    shift
fi
if [ $# -ne 1 ]; then
    echo "usage: examples.sh [--remove] FOLDER" >&2
    exit 2
fi
to=$(realpath -m "$1")
cd "$(dirname "$0")/.."
umask 022

# put FILE AS: the file with the names under which the headers are installed.
put() {
    sed -E -e 's|#include "kupaldiz\.h"|#include <kupaldiz.h>|' -e 's|#include "kupaldiz_waiting\.h"|#include <kupaldiz_waiting.h>|' \
        -e 's|#include "kupaldiz_table\.h"|#include <kupaldiz_table.h>|' \
        -e 's,#include "\.\./\.\./(c|netbsd)/(examples|tests)/,#include ",' -e 's|#include "\.\./explorer\.h"|#include "explorer.h"|' "$1" >"$to/$2"
}

remove() {
    rm -f "$to/$2"
}

[ "$put" = remove ] || mkdir -p "$to/netbsd"
for name in Makefile CMakeLists.txt; do
    "$put" "c/examples/$name" "$name"
done
for name in smallest walk packet shared forwarder device_switch table; do
    "$put" "c/examples/$name.c" "$name.c"
done
for name in example expect workers; do
    "$put" "c/examples/$name.h" "$name.h"
done
for path in netbsd/examples/*.[ch] netbsd/tests/bodies.h explorer/explorer.h explorer/tests/{drivers.c,cases.h} explorer/threads/threads.c; do
    "$put" "$path" "netbsd/$(basename "$path")"
done
if [ "$put" = remove ]; then
    rmdir "$to/netbsd" "$to" 2>/dev/null || true
fi
