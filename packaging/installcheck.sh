#!/usr/bin/env bash
# Builds programs over the libraries as they are installed, shared and static, in C and, if there is g++ beside gcc, in C++, with the words of pkg-config alone,
# and runs them. `make installcheck` calls it: installcheck.sh DESTDIR LIBDIR VERSION. CC is the compiler, RUN what runs a program of another processor. The
# last line is 'N passed, M failed'.
if [ $# -eq 2 ]; then
    set -- "" "$@"
fi
if [ $# -ne 3 ]; then
    echo "usage: installcheck.sh DESTDIR LIBDIR VERSION" >&2
    exit 2
fi
stage=$1 libdir=$2 version=$3
cd "$(dirname "$0")/.." || exit
. packaging/scenario.sh
for needed in "${CC%% *}" pkg-config; do
    if ! command -v "$needed" >/dev/null; then
        echo "installcheck: there is no $needed: apt-get install ${needed/%gcc/gcc make}" >&2
        exit 2
    fi
done
need "$stage$libdir/pkgconfig/kupaldiz.pc" "make install with the same words puts it there"
export PKG_CONFIG_PATH=$stage$libdir/pkgconfig${PKG_CONFIG_PATH:+:$PKG_CONFIG_PATH} PKG_CONFIG_SYSROOT_DIR=$stage
export LD_LIBRARY_PATH=$stage$libdir${LD_LIBRARY_PATH:+:$LD_LIBRARY_PATH}

# says COMPILER MODULE PROGRAM LINE LINK WORDS..: the program is built with what pkg-config says for these words, and prints the line.
says() {
    local words said
    words=$(pkg-config --cflags "$2") && words+=" $(pkg-config "${@:6}" "$2")" &&
        eval "$1 -Wall -Wextra c/tests/$3.c -x none -o \"\$room/$3\" $5 $words" && said=$($RUN "$room/$3") && [ "$said" = "$4" ] ||
        { echo "it says: ${said-not built}"; return 1; }
}

try() {
    check "$2, ${*:6}: $4" says "$@"
}

# try_all MODULE PROGRAM LINE: each program in both languages, over the shared library and the static one.
try_all() {
    local link
    for link in "" "-static --static"; do
        # shellcheck disable=SC2086
        try "$CC -std=c11 -x c" "$1" "$2" "C, $3" "${link% *}" ${link#-static} --libs
        if [ "$CC" = gcc ] && command -v g++ >/dev/null; then
            # shellcheck disable=SC2086
            try "g++ -std=c++11 -x c++" "$1" "$2" "C++, $3" "${link% *}" ${link#-static} --libs
        fi
    done
}

try_all kupaldiz installed "version $version"
# The checking build, with its library before and behind the other one.
for link in "" -static; do
    # shellcheck disable=SC2086
    try "$CC -std=c11 -x c" kupaldiz-check installed "C, version $version" "$link" ${link:+--static} --libs
    # shellcheck disable=SC2086
    try "$CC -std=c11 -DKUPALDIZ_CHECK -x c" kupaldiz installed "C, version $version" "$link -lkupaldiz -lkupaldiz_check" ${link:+--static} --libs
done
try_all kupaldiz-netbsd installed_netbsd "by the pages' names"
if [ -f "$stage$libdir/pkgconfig/kupaldiz-explorer.pc" ]; then
    try_all kupaldiz-explorer installed_explorer "in every order"
fi
finish
