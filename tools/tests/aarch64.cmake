# The archive for aarch64, and over it the clients in C and the manual pages' own names, under qemu.
#
# qemu runs on this machine's processor, whose memory order is a stronger one: no run here can show an
# order that is too weak. Two things can be shown. In runs of one thread each instruction that comes to a
# registry's table is one of the four that aarch64 has for sequentially consistent steps
# (c/tests/ordered.c). And the archive has no other atomic instruction (tools/atomics.py). A plain load
# or store of the table on a path that no run takes would go unseen.
group(aarch64)
list(APPEND NEEDED made)
set(ARM out/aarch64)
set(EMULATED qemu-aarch64-static)
# What makes it so that the emulator needs no library of the processor.
set(CROSS make -s CC=aarch64-linux-gnu-gcc)
# It takes the library that tools/archive-beside.py has proved, or proves it.
test("the archive for aarch64, built" SETS_UP aarch64 CALLS build_archive)
list(APPEND NEEDED aarch64)
test("it has the header's calls" CALLS archive_names ${ARM} aarch64-linux-gnu-)
test("no call takes more stack there than the page says" RUNS tools/frames.py ${ARM}/libkupaldiz_proved.a 4096)
# It counts what the library asks for. Where all is one program, it would count what the C library asks
# for as well: so it takes that as a shared one.
test("history is built over a shared C library" SETS_UP aarch64-history LOCKS aarch64-make RUNS ${CROSS} ${ARM}/history)
test("the clients in C are built for aarch64, no warning" NEEDS aarch64-history SETS_UP aarch64-built LOCKS aarch64-make PROCESSORS 2
    RUNS ${CROSS} -j 2 LDFLAGS=-static all)
test("each answer is the model's" NEEDS aarch64-built RUNS ${EMULATED} -L /usr/aarch64-linux-gnu ${ARM}/history 1000 1 small)
programs(C: " for aarch64" aarch64-built "${EMULATED};${ARM}/" smallest packet shared misuse built names "turns emulated" "deferred 200 1"
    "forwarder 200" "device_switch 20" "together 20")
test("programs compiled for other limits, for aarch64" WITH CC=aarch64-linux-gnu-gcc RUN=${EMULATED}
    COUNTED packaging/other-limits.sh crates/registry_c/include ${ARM}/libkupaldiz_proved.a)

test("the manual pages' own names are built for aarch64, no warning" SETS_UP aarch64-netbsd LOCKS aarch64-make PROCESSORS 2
    RUNS ${CROSS} -j 2 LDFLAGS=-static -C netbsd plain)
programs_of(plain)
foreach(program ${PROGRAMS})
    # Where a program ends by a signal, the emulator says a line of its own: so not those that compare all that is said there.
    set(compares)
    if(EXISTS ${TOP}/netbsd/tests/${program}.c)
        file(STRINGS ${TOP}/netbsd/tests/${program}.c compares REGEX "\"stops.h\"")
    endif()
    if(NOT compares)
        # Each driver runs so often on threads. One run takes up to a second here.
        test("${program}, of the manual pages' names, for aarch64" NEEDS aarch64-netbsd WITH EXPLORER_RUNS=10 EXPLORER_SECONDS=3600 RUNS ${EMULATED} ${ARM}/netbsd/plain/${program})
    endif()
endforeach()

test("the tests of one thread are built to be looked at" NEEDS aarch64-built SETS_UP aarch64-ordered LOCKS aarch64-make RUNS ${CROSS} LDFLAGS=-static ordered)
foreach(program misuse "history 200 1")
    separate_arguments(words UNIX_COMMAND "${program}")
    list(GET words 0 name)
    test("${name} comes to tables by sequentially consistent steps" NEEDS aarch64-ordered SETS_UP aarch64-sites
        WITH ORDERED_SITES=${OUT}/aarch64/ordered-${name}.sites RUNS ${EMULATED} ${ARM}/ordered-${words})
endforeach()
test("a plain load is seen" NEEDS aarch64-ordered WITH ORDERED_PLANT=1
    CALLS catches "comes to byte 0 of a table" ${EMULATED} ${ARM}/ordered-misuse)
test("a weaker step is seen" NEEDS aarch64-sites CALLS sees_weaker_step)
test("the archive's atomic instructions are these four, and most were met" NEEDS aarch64-sites
    RUNS tools/atomics.py ${ARM}/libkupaldiz_proved.a ${ARM}/ordered-misuse ${ARM}/ordered-history)

# By hand, as it needs Rust's standard library for aarch64: `rustup target add aarch64-unknown-linux-gnu`,
# or Debian's libstd-rust-dev:arm64.
set(GROUP aarch64-rust)
test("the Rust crate's tests, for aarch64" COUNTED ${FUNCTIONS} rust_tests)
