# Documents; the proved program, and both engines; the crates, compiled and run unproved; and the tools
# that judge others.
set(NEEDED)
set(GROUP documents)
test("layout and edits" COUNTED tools/check-forms.py)
test("documents" COUNTED tools/check-docs.py)
test("limits" COUNTED tools/limits.py check)
test("imports" COUNTED tools/check-imports.py)
test("table of the events" COUNTED tools/event-table.py check)
test("pages of the headers" COUNTED tools/header-pages.py check)
test("pictures" COUNTED tools/check-pictures.py)

set(GROUP tools)
test("the tools themselves" PROCESSORS 2 COUNTED tools/test-tools.py)

set(GROUP tutorial)
test("tutorial" NEEDS built COUNTED tools/run-examples.py --steps docs/TUTORIAL-C.md)

# Over the program that `rt ci` or tools/prove-program.sh has proved.
set(GROUP program)
test("program" COUNTED tools/test-program.py)
test("examples" COUNTED tools/run-examples.py --program crates/registry_run/out/registry_run)
test("conformance kit" PROCESSORS 2 NEEDS built rust-examples COUNTED tools/conformance.py test out/script out/rust/release/examples/script)

# Compiled by `rt try` and run, which stops at an index out of bounds, an overflow or a failed unwrap.
set(GROUP unproved)
test("scripts of the documents" COUNTED tools/run-examples.py --try)
test("worked rows" COUNTED tools/test-program.py --try)
test("conformance kit, unproved" COUNTED tools/conformance.py test)
execute_process(COMMAND tools/try-crate.py list WORKING_DIRECTORY ${TOP} OUTPUT_VARIABLE lines COMMAND_ERROR_IS_FATAL ANY)
string(REGEX MATCHALL "[^\n]+" lines "${lines}")
foreach(line ${lines})
    separate_arguments(words UNIX_COMMAND "${line}")
    list(GET words 0 kind)
    list(GET words 1 crate)
    if(kind STREQUAL tests)
        test("tests of ${crate}" COUNTED tools/try-crate.py ${words})
    else()
        test("${crate} ${kind}" RUNS tools/try-crate.py ${words})
    endif()
endforeach()
