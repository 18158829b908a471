#!/usr/bin/env bash
# Proves the program with all crates below it, and builds it: from then on ./registry_run runs what was proved.
# From nothing it takes about ten minutes on four processors; over kept work, what has changed.
set -euo pipefail
command -v rt >/dev/null || { echo "prove-program: there is no rt, the command of the Rattle kit: the kit comes from whoever gives you Rattle" >&2; exit 2; }
cd "$(dirname "${BASH_SOURCE[0]}")/../crates/registry_run"
program=out/registry_run
log=$(mktemp)
trap 'rm -f "$log"' EXIT
rm -f "$program"
# The program is run on an empty script once it is built: a script fault, whose status says nothing here.
rt run -- core </dev/null >"$log" 2>&1 || true
if [ ! -x "$program" ]; then
    tail -n 20 "$log" >&2
    exit 1
fi
touch "$program"
echo "crates/registry_run/$program is proved and built"
