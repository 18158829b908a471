# What the functions of the tests share. A file of them reads this by `.`, and ends with "$@": each test
# of it is one function with its words, at the top of the tree, with a folder for what it writes.
# shellcheck shell=bash
set -uo pipefail
cd "$(dirname "${BASH_SOURCE[0]}")/../.." || exit
room=$(mktemp -d)
trap 'rm -rf "$room"' EXIT
said=$room/said
header=crates/registry_c/include/kupaldiz.h
warnings=(-Wall -Wextra -Werror -Wpedantic -Wconversion -Wcast-qual -Wwrite-strings)

# prints TEXT COMMAND..: the command ends well, and prints this alone.
prints() {
    local text
    text=$("${@:2}") && [ "$text" = "$1" ] || { echo "$text"; return 1; }
}

# prints_last TEXT COMMAND..: the command ends well, and its last line is this.
prints_last() {
    "${@:2}" >"$said" && [ "$(tail -n 1 "$said")" = "$1" ] || { tail -n 5 "$said"; return 1; }
}

# catches TEXT COMMAND..: the command fails, and says this.
catches() {
    ! "${@:2}" >"$said" 2>&1 && grep -q "$1" "$said" || { tail -n 5 "$said"; return 1; }
}

# archive_names FOLDER [PREFIX]: other objects see each call of the headers in the archive there, and no other name.
archive_names() {
    diff <(packaging/calls-of.sh crates/registry_c/include/kupaldiz{,_limits}.h) <("${2-}nm" -g --defined-only "$1/libkupaldiz_proved.a" 2>/dev/null | awk 'NF == 3 { print $3 }' | sort)
}

# header_alone HEADER WORD..: C takes the header alone, without a warning, and so does C++ where it is there.
header_alone() {
    local text="#include <$1>"$'\nint one_thing;' words=(-Wall -Wextra -Wpedantic -Werror "${@:2}" -fsyntax-only) standard
    for standard in c11 c17 gnu17 c2x; do
        gcc -std=$standard -D_POSIX_C_SOURCE=200809L "${words[@]}" -xc - <<<"$text" || return 1
    done
    ! command -v g++ >/dev/null || g++ -std=c++11 "${words[@]}" -xc++ - <<<"$text"
}
