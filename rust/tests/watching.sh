#!/bin/sh
# Prints what RUSTFLAGS has for the programs of the tests: the linker leads each call of the archive
# that common/watched.rs wraps there.
sed -nE '/^calls/,/^}/s/^ *fn (kupaldiz_[a-z_]+)\(.*/-Clink-arg=-Wl,--wrap=\1/p' "$(dirname "$0")/../src/calls.rs" | xargs echo --cfg kupaldiz_watched
