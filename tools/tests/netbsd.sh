#!/usr/bin/env bash
# The tests of netbsd.cmake that take more than one command.
. "$(dirname "$0")/common.sh"

with_clang() {
    make -s -C netbsd CC=clang OUT="$room" "$room/plain/liblayer.a"
}

"$@"
