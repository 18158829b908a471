#!/usr/bin/env bash
# Installs libkupaldiz, libkupaldiz_netbsd and libkupaldiz_explorer into scratch folders, looks at each file that is there, builds and runs programs over them,
# and uninstalls them: under a folder of its own, as Debian has it, in a path with blanks, and over an older version.
# It needs out/libkupaldiz_proved.a; the last line is 'N passed, M failed'.
. "$(dirname "$0")/tests/common.sh"
. packaging/scenario.sh
need out/libkupaldiz_proved.a "tools/build-archive.sh proves and builds it"
# What is installed from, and where to.
top=. stage=$room/root prefix=/kupaldiz libdir=/kupaldiz/lib
libraries=(libkupaldiz libkupaldiz_netbsd libkupaldiz_explorer)

# Whoever installs may have a umask that shuts others out.
made() {
    (umask 077 && make -s -C "$top" "$@" DESTDIR="$stage" PREFIX="$prefix" LIBDIR="$libdir")
}

# What the header says.
version() {
    sed -nE 's/^#define KUPALDIZ_VERSION_(MAJOR|MINOR|PATCH)[[:blank:]]+//p' "$header" | paste -sd .
}

# What the sonames have of it: below 1.0 the minor version too.
abi() {
    version | sed -E 's/^(0\.[0-9]+|[1-9][0-9]*)\..*/\1/'
}

has_soname() {
    readelf -d "$stage$libdir/$1.so" | grep -F "Library soname: [$1.so.$(abi)]"
}

# is_hardened LIBRARY: its relocations are done and read-only from the start on, its stack isn't run, and it stays loaded.
is_hardened() {
    local text found
    text=$(readelf -dlW "$stage$libdir/$1.so")
    for found in GNU_RELRO 'FLAGS_1.*NOW' 'FLAGS_1.*NODELETE' 'GNU_STACK .* RW +0x'; do
        grep -E "$found" <<<"$text" || { echo "no $found"; return 1; }
    done
    ! grep TEXTREL <<<"$text"
}

# takes_shadow_stack LIBRARY: it is marked so: returns lead where calls came from.
takes_shadow_stack() {
    readelf -nW "$stage$libdir/$1.so" | grep SHSTK
}

# An #include of a plain name, as <cpu.h>, finds nothing of these libraries: what the folders for the compiler offer has the library's name, or a folder's.
offers_no_plain_name() {
    prints "" find "$stage$prefix/include" "$stage$prefix/include/kupaldiz/netbsd" -maxdepth 1 -type f -not -name 'kupaldiz*.h'
}

# A program of the pages' names that is compiled for other CPUs than the library has doesn't link, and the linker names them.
refused_by_linker() {
    catches 'undefined reference to .kupaldiz_for_15_cpus' gcc -DKUPALDIZ_CPUS=15 -o "$room/for_other" -I"$stage$prefix/include/kupaldiz/netbsd" \
        c/tests/installed_netbsd.c -L"$stage$libdir" -lkupaldiz_netbsd -pthread
}

# The examples' project, and programs of the explorer's, find each library by find_package, shared and static.
found_by_cmake() {
    cp -r "$stage$prefix/share/doc/kupaldiz/examples" "$room/cmake" && cp c/tests/installed_explorer.c "$room/cmake" && cat >>"$room/cmake/CMakeLists.txt" <<'CMAKE' || return
find_package(kupaldiz 0.1 REQUIRED)
foreach(kind explorer explorer_static)
  add_executable(of-${kind} installed_explorer.c)
  target_link_libraries(of-${kind} PRIVATE kupaldiz::${kind})
  add_test(NAME of-${kind} COMMAND of-${kind})
endforeach()
CMAKE
    cmake -S "$room/cmake" -B "$room/cmake/out" -DCMAKE_PREFIX_PATH="$stage$prefix" -DCMAKE_C_FLAGS="-Wall -Wextra -Werror" &&
        cmake --build "$room/cmake/out" && ctest --test-dir "$room/cmake/out" --output-on-failure --no-tests=error
}

# What is installed with a .pc file that names no place, and moved: a program is built where it is now.
moved() {
    # shellcheck disable=SC2016
    made install PC_PREFIX='$${pcfiledir}/../..' && mv "$stage$prefix" "$room/moved" || return
    # shellcheck disable=SC2046
    gcc -o "$room/in_place" c/tests/installed.c $(PKG_CONFIG_PATH=$room/moved/lib/pkgconfig pkg-config --cflags --libs kupaldiz) &&
        LD_LIBRARY_PATH=$room/moved/lib prints "C, version $(version)" "$room/in_place"
}

# The words that a distribution gives reach the compiler and the linker.
flags_are_taken() {
    local library
    rm -rf "$top"/out/installed-{netbsd,explorer,waiting,table,check} "$top"/out/libkupaldiz{,_check,_netbsd,_explorer}.{a,so.*}
    echo 'static const char of_cppflags[] __attribute__((used, section("seen"))) = "CPPFLAGS";' >"$room/seen.h"
    made library CPPFLAGS="-include $room/seen.h" CFLAGS='-O1 -frecord-gcc-switches' LDFLAGS=-Wl,--build-id=0xfeedfeed || return
    for library in "${libraries[@]/%/.so.$(version)}"; do
        readelf -p seen -p .GCC.command.line -n "$top/out/$library" >"$said" && grep CPPFLAGS "$said" && grep -e -O1 "$said" && grep feedfeed "$said" || return
    done
}

# What is installed, except the manual pages: kind, mode, owner and path of each file, and where a link leads.
wanted() {
    local me library
    me=$(id -un)
    for library in "${libraries[@]/#/$libdir/}"; do
        echo "f 755 $me $library.so.$(version)"
        echo "l 777 $me $library.so.$(abi) -> ${library##*/}.so.$(version)"
        echo "l 777 $me $library.so -> ${library##*/}.so.$(abi)"
    done
    printf "f 644 $me %s\n" "$libdir"/libkupaldiz{,_netbsd,_explorer,_check}.a "$libdir"/pkgconfig/kupaldiz{,-check,-netbsd,-explorer}.pc \
        "$libdir"/cmake/kupaldiz/kupaldizConfig{,Version}.cmake "$prefix"/include/kupaldiz{{,_limits,_waiting,_table,_check,_tsan}.h,/explorer.h} \
        "$prefix/share/doc/kupaldiz/VERSIONS.md"
    find "$top/out/made/netbsd" -name '*.h' -printf "f 644 $me $prefix/include/kupaldiz/netbsd/%P\n"
    find "$room/examples" -type f -printf "f 644 $me $prefix/share/doc/kupaldiz/examples/%P\n"
}

holds_files() {
    diff <(wanted | sort) <(find "$stage" -path '*/share/man' -prune -o -type f -printf '%y %m %u /%P\n' -o -type l -printf '%y %m %u /%P -> %l\n' | sort)
}

# Each page is there as it was made, each name at the head of one of section 3 leads to it, and there is no other file.
holds_pages() {
    local man=$stage$prefix/share/man page name count=0
    while read -r page; do
        cmp "$page" "$man/man${page: -1}/${page##*/}" || return
        count=$((count + 1))
        [[ $page = *.3 ]] || continue
        for name in $(sed -nE '/^\.Sh NAME/,/^\.Nd/s/^\.Nm ([A-Za-z_0-9]+).*/\1/p' "$page" | grep -vx "$(basename "$page" .3)"); do
            prints ".so man3/${page##*/}" cat "$man/man3/$name.3kupaldiz" || return
            count=$((count + 1))
        done
    done < <(find "$top/man" "$top/out/made/man" -name 'kupaldiz*.[37]')
    prints "$count" eval 'find "$man" -type f | wc -l'
}

page_is_found() {
    man -M "$stage$prefix/share/man" -w 3 kupaldiz_enter | grep -x '.*/man3/kupaldiz\.3'
}

# The examples are built and run over what is installed, where they lie.
examples_run() {
    cp -r "$stage$prefix/share/doc/kupaldiz/examples" "$room/run" &&
        PKG_CONFIG_PATH=$stage$libdir/pkgconfig PKG_CONFIG_SYSROOT_DIR=$stage LD_LIBRARY_PATH=$stage$libdir make -s -C "$room/run" check
}

# A program whose other file is compiled without the checking build ends at its first open, with a line that says so.
mixed_build_is_told() {
    local include=-I$stage$prefix/include
    printf '#include <kupaldiz.h>\nint other;\n' >"$room/other.c"
    gcc -c -o "$room/other.o" "$include" "$room/other.c" && gcc -c -o "$room/own.o" -DKUPALDIZ_CHECK "$include" c/tests/installed.c &&
        gcc -o "$room/mixed" "$room"/{own,other}.o -L"$stage$libdir" -lkupaldiz_check -lkupaldiz -pthread &&
        LD_LIBRARY_PATH=$stage$libdir catches ': kupaldiz_open: a file of the program is compiled without -DKUPALDIZ_CHECK$' "$room/mixed"
}

# Some programs are built and run, and none fails.
programs_run() {
    made installcheck | tee "$said" && grep -xE '[1-9][0-9]* passed, 0 failed' "$said"
}

# Pages and folders can be read by everyone.
open_to_all() {
    prints "" find "$stage$prefix" \( -type d -not -perm 755 \) -o \( -type f -path '*/share/man/*' -not -perm 644 \)
}

# Nothing that is read names the scratch folder or the repository.
names_no_place() {
    ! grep -rlF -e "$stage" -e "$PWD" "$stage$prefix" --include='*.pc' --include='*.cmake' --include='*.3' --include='*.h'
}

# pc_says MODULE LIBS STATIC: its .pc file names its version, its folders and, for a shared and for a static program, these libraries. As this test has both
# libraries in one folder, that folder comes once.
pc_says() {
    local words
    diff <(printf '%s\n' "$(version)" "$libdir" "$prefix/include" "-L$libdir $2" "-L$libdir $3") \
        <(for words in --modversion --variable={libdir,includedir} --libs "--static --libs"; do
            # shellcheck disable=SC2086
            PKG_CONFIG_PATH=$stage$libdir/pkgconfig pkg-config $words "$1" | sed -E 's/ -L[^ ]+//g; s/ *$//'
        done) && PKG_CONFIG_PATH=$stage$libdir/pkgconfig pkg-config --validate "$1"
}

leaves_nothing() {
    prints "" find "$stage" \( -type f -o -type l \) -o -type d -path '*/include/kupaldiz*' -o -type d -path '*/cmake/kupaldiz*' -o -type d -path '*/doc/kupaldiz*'
}

# A copy of what is installed, which is changed as the work on it goes on: from here on it is what is installed from.
copy_top() {
    local copy=$room/a\ copy
    mkdir -p "$copy/out/made/man" "$copy/crates/registry_c"
    cp -r Makefile packaging c man netbsd explorer "$copy" && cp out/made/c/*.h "$copy/c/include" && cp out/made/man/*.3 "$copy/man" &&
        cp out/libkupaldiz_proved.a "$copy/out" && cp -r crates/registry_c/include "$copy/crates/registry_c" || return
    top=$copy header=$copy/$header
}

# The licence goes into each .pc file, and none is named as long as none is chosen.
licence_is_told() {
    ! grep -H License "$stage$libdir"/pkgconfig/*.pc || return
    made install LICENCE=MIT && [ "$(grep -lx 'License: MIT' "$stage$libdir"/pkgconfig/*.pc | wc -l)" -eq 4 ]
}

# A call that the header declares, and that neither a map nor a library has. Nothing is built anew, as the header looks old.
unnamed_call_is_told() {
    sed -i 's/^const char \*kupaldiz_version(/uint32_t kupaldiz_unnamed(void);\n&/' "$header" && touch -d @0 "$header" && catches '^< kupaldiz_unnamed$' made symbols
}

# comes NAME: it is installed there, and goes NAME: it is uninstalled.
comes() {
    check "$1install" made install
    check "$1each file, with its mode, owner and link" holds_files
    check "$1each manual page, and each name that leads to one" holds_pages
}

goes() {
    check "$1uninstall" made uninstall
    check "$1uninstall leaves nothing" leaves_nothing
}

check "the examples are laid out" packaging/examples.sh "$room/examples"
comes ""
check "pages and folders are open to all" open_to_all
check "nothing names the place that it was built in" names_no_place
for module in kupaldiz kupaldiz-netbsd kupaldiz-explorer; do
    check "what $module.pc says" pc_says $module "-l${module/-/_}" "-l${module/-/_} -pthread"
done
check "what kupaldiz-check.pc says" pc_says kupaldiz-check "-lkupaldiz_check -lkupaldiz" "-lkupaldiz_check -pthread -lkupaldiz -pthread"
check "the examples are built and run" examples_run
check "a program that is checked in part is told so" mixed_build_is_told
check "headers, maps and libraries have the same names" made symbols
check "no folder of headers offers a plain name" offers_no_plain_name
for library in "${libraries[@]}"; do
    check "$library names its soname" has_soname "$library"
    check "$library is hardened" is_hardened "$library"
done
check "libkupaldiz takes a shadow stack" takes_shadow_stack libkupaldiz
check "libkupaldiz_netbsd takes a shadow stack" takes_shadow_stack libkupaldiz_netbsd
check "libkupaldiz_explorer, which switches stacks, takes none" eval '! takes_shadow_stack libkupaldiz_explorer'
check "a program of the pages' names for other CPUs doesn't link" refused_by_linker
check "programs over what is installed" programs_run
check "CMake: find_package finds the libraries" found_by_cmake
check "the page of a call is found" page_is_found
check "the change log names the version" grep -q "^## $(version)\$" "$stage$prefix/share/doc/kupaldiz/VERSIONS.md"
goes ""

# place NAME PREFIX LIBDIR ROOT: it is installed there, found and used, and uninstalled. pkg-config takes no root with a blank, but a package may be made in one.
place() {
    prefix=$2 libdir=$3 stage=$room/$4
    comes "$1: "
    [[ $stage = *\ * ]] || check "$1: programs" programs_run
    goes "$1: "
}

place "a folder of Debian's" /usr /usr/lib/x86_64-linux-gnu debian
place "a path with blanks" "/usr/a place" "/usr/a place/lib" "a root"

prefix=/usr libdir=/usr/lib stage=$room/later
older=$(version)
check "an upgrade: the older version" copy_top
check "the words of a distribution are taken" flags_are_taken
comes "an upgrade: "
check "the licence is told once it is chosen" licence_is_told
check "an upgrade: the later version" sed -i -E 's/^(#define KUPALDIZ_VERSION_PATCH[[:blank:]]+).*/\17/' "$header"
check "an upgrade: the later version's number" test "$(version)" = "${older%.*}.7"
comes "an upgrade, over the older one: "
goes "an upgrade: "
check "a call that no map names is told" unnamed_call_is_told

top=. header=crates/registry_c/include/kupaldiz.h prefix=/somewhere libdir=/somewhere/lib stage=$room/before
check "an installation that is moved" moved
finish
