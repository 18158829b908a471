#!/usr/bin/env bash
# counted.sh COMMAND..: runs a test that counts its own checks, in lines with 'N passed, M failed' or
# 'N passed; M failed'. It fails if the command does, if a check failed, or if there was none.
set -uo pipefail
said=$(mktemp)
trap 'rm -f "$said"' EXIT
"$@" 2>&1 | tee "$said"
status=$?
sum() {
    grep -oE "[0-9]+ $1" "$said" | awk '{ n += $1 } END { print n + 0 }'
}
good=$(sum passed)
bad=$(sum failed)
if [ "$bad" -eq 0 ] && { [ "$status" -ne 0 ] || [ "$good" -eq 0 ]; }; then
    bad=1
fi
echo "checks: $good passed, $bad failed"
[ "$bad" -eq 0 ]
