#!/usr/bin/env bash
# The tests of c.cmake that take more than one command.
. "$(dirname "$0")/common.sh"

has_archive() {
    [ -e out/libkupaldiz_proved.a ] || { echo "there is no out/libkupaldiz_proved.a: tools/build-archive.sh proves and builds it"; return 1; }
}

# Each script of examples has its report at its end.
scripts_report() {
    local script
    for script in examples/*.txt; do
        out/script "$script" | diff - <(sed '1,/^# It prints:/d; s/^# //' "$script") || return 1
    done
}

"$@"
