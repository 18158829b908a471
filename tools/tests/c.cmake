# The clients in C over the archive: plain, in the checking build, as users build and install them;
# watched by valgrind and by the compiler's sanitizers; and memory behind entries, under three checkers.
group(build c)
test("there is an archive" SETS_UP archive CALLS has_archive)
list(APPEND NEEDED archive made)
test("the archive has the header's calls" CALLS archive_names out)
test("no call takes more stack than the page says" RUNS tools/frames.py out/libkupaldiz_proved.a 4096)
test("the clients in C are built, no warning" SETS_UP built LOCKS make PROCESSORS 2 RUNS make -s -j 2 all)
test("C: all of them are built with sanitizers" SETS_UP sanitized LOCKS make PROCESSORS 2 RUNS make -s -j 2 sanitized)
test("C: together is built nine times" SETS_UP stresses LOCKS make PROCESSORS 2 RUNS make -s -j 2 stresses)

group(c)
programs(C: "" built out/ smallest walk packet "shared 2000" misuse allocs built turns deferred together interrupted reclaims lent replaces
    table table_calls table_choice "table_model 5000" history "history 30000 1 largest" names recalls forwarder device_switch
    "speed 2 8 1000" "changes 20" "changes 20 2 4" "changes 20 64 255" checked)
programs(C: " in the checking build" built out/checked-
    smallest walk packet "shared 500" "forwarder 200" "device_switch 20" "together 20" "table 500" "table_model 300")
test("C: each script of examples prints its report" NEEDS built CALLS scripts_report)
test("C: programs compiled for other limits" NEEDS archive
    COUNTED packaging/other-limits.sh crates/registry_c/include out/libkupaldiz_proved.a)
test("C: installed, used by pkg-config alone, and uninstalled" NEEDS archive pages LOCKS make COUNTED tools/test-install.sh)

group(watched c)
programs(C: " under valgrind" built "${WATCHED};${ALL_LEAKS};out/" smallest walk packet "shared 20" misuse built interrupted reclaims lent
    "replaces 500" "history 1000 1 small" names "script examples/travelling-count.txt")
programs(C: " with sanitizers" sanitized out/sanitized- smallest walk misuse packet "shared 500" built reclaims lent "replaces 5000"
    "table 2000" table_calls table_choice "table_model 2000" "history 100000" names forwarder device_switch)

group(heap c)
list(APPEND NEEDED stresses)
test("C: together with the address sanitizer" RUNS out/together-address-right 200)
test("C: together with the thread sanitizer" RUNS out/together-thread-right 100)
test("C: reclaims with the thread sanitizer" RUNS out/raced-reclaims)
test("C: interrupted with the thread sanitizer" RUNS out/raced-interrupted)
test("C: replaces with the thread sanitizer" RUNS out/raced-replaces 5000)
test("C: table_model with the thread sanitizer" RUNS out/raced-table_model 2000)
test("C: together under valgrind" RUNS ${WATCHED} ${ALL_LEAKS} out/together-none-right 5)
# Each checker catches what frees a turn too early: the program goes on until then.
set(EVER 1000000000)
foreach(when early unperformed)
    test("C: freed ${when}: the address sanitizer sees it" CALLS catches heap-use-after-free out/together-address-${when} ${EVER})
    test("C: freed ${when}: the thread sanitizer sees it" WITH TSAN_OPTIONS=halt_on_error=1 CALLS catches "data race" out/together-thread-${when} ${EVER})
    test("C: freed ${when}: valgrind sees it" CALLS catches "Invalid read" ${WATCHED} --exit-on-first-error=yes out/together-none-${when} ${EVER})
endforeach()
