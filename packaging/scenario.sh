# Counts the steps of a scenario. Each goes on from where the one before ended. A script reads this by `.`, and ends with `finish`.
# shellcheck shell=bash
set -uo pipefail
: "${room:=$(mktemp -d)}"
trap 'rm -rf "$room"' EXIT
passed=0 failed=0
log=$room/log

# need FILE WORDS: the file is there; the words say how to get it.
need() {
    [ -e "$1" ] || { echo "${0##*/}: there is no $1: $2" >&2; exit 2; }
}

# check NAME COMMAND..: the command ends with status 0; else what it said is shown.
check() {
    if "${@:2}" >"$log" 2>&1; then
        passed=$((passed + 1))
        echo "ok      $1"
    else
        failed=$((failed + 1))
        echo "FAILED  $1"
        tail -n 40 "$log"
    fi
}

# Ends with the count. No check at all is a failure.
finish() {
    [ "$((passed + failed))" -gt 0 ] || failed=1
    echo "$passed passed, $failed failed"
    [ "$failed" -eq 0 ]
    exit
}
