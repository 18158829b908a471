#!/usr/bin/env bash
# Prints the calls that headers declare, sorted, one a line: packaging/calls-of.sh HEADER..
# A declaration begins a line, and what it returns is one or more words: `uint32_t kupaldiz_enter(..`, `const char *kupaldiz_strerror(..`. A call whose name
# follows the limits is printed where kupaldiz_limits.h is given too, which has that name as KUPALDIZ_BUILT_FOR.
set -euo pipefail
if [ $# -eq 0 ]; then
    echo "usage: calls-of.sh HEADER.." >&2
    exit 2
fi
built_for=$(cat -- "$@" | sed -nE 's/^#define KUPALDIZ_BUILT_FOR[[:blank:]]+//p')
cat -- "$@" | sed -E -e '/^(static|typedef|return|extern|#)/d' -e "s/ KUPALDIZ_BUILT_FOR\(/ ${built_for:-KUPALDIZ_BUILT_FOR}(/" |
    sed -nE 's/^([a-z][A-Za-z0-9_ ]*[ *])([a-z][a-z0-9_]*)\(.*$/\2/p' | sort -u
