#!/usr/bin/env bash
# Writes a folder to standard output as a .tar.xz whose bytes depend on names, bytes and execute bits of its files alone: pack.sh WHERE NAME TIME packs
# WHERE/NAME, each file of that time (seconds since 1970), owned by root.
set -euo pipefail
if [ $# -ne 3 ]; then
    echo "usage: pack.sh WHERE NAME TIME" >&2
    exit 2
fi
if [ ! -d "$1/$2" ]; then
    echo "pack: there is no folder $1/$2" >&2
    exit 2
fi
if ! command -v xz >/dev/null; then
    echo "pack: there is no xz: apt-get install xz-utils" >&2
    exit 2
fi
tar -C "$1" --sort=name --format=gnu --owner=root:0 --group=root:0 --mtime="@$3" --mode='u+rw,go+r,go-w,a+X' -cf - "$2" | xz -6 -T1 -c
