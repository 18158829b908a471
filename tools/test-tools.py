#!/usr/bin/env -S python3 -B
"""Tries the tools that judge others: the gate, the runner of tests, the sampler of wrong bodies, and the conformance kit.

    tools/test-tools.py [WORD]..    the cases whose names have one of the words, or all

A case is a small tree on which a tool passes, and the same tree with one planted fault of each kind that the tool must find: it then ends with another status
than 0, and says what the fault names. The last line is 'N passed, M failed'.
"""
import collections
import os
import pathlib
import shutil
import subprocess
import sys
import tempfile
from concurrent.futures import ThreadPoolExecutor

from checks import ROOT, counted, processors

# A fault: its name, what the tool must say of it, and its changes: of each a path with an old text, which the file has once, and a new one. `command`
# replaces that of the case.
Fault = collections.namedtuple("Fault", "name said changes command", defaults=((), None))
Case = collections.namedtuple("Case", "name tools tree command faults")


def of(path, *rows):
    """The faults of one file: of each its name, what the tool must say, the old text and the new one."""
    return [Fault(name, said, ((path, old, new),)) for name, said, old, new in rows]


PASSES = "#!/bin/sh\necho begun\necho 3 passed, 0 failed\n"


def wrong_counts(path, told, told_none):
    """What a command may do that ends with a count: what the tool says if a check of it fails, and if nothing of it counts."""
    return of(path, (f"{path}: a failure", told, "3 passed, 0", "2 passed, 1"), (f"{path}: no check", told_none, "3 passed, 0", "0 passed, 0"),
              (f"{path}: no count", told_none, "echo 3 passed, 0 failed\n", ""), (f"{path}: it is killed", told_none, "echo 3", "kill -KILL $$; echo 3"))


# The gate over steps of one kind: those of tests come twice.
STEPS = {f"tools/{it}": PASSES for it in ("packages.py", "run-tests.py", "archive-beside.py", "edits.py")}
GATE = Case("gate", ["gate.py", "checks.py"], STEPS, ["tools/gate.py"], [
    *wrong_counts("tools/edits.py", "14 passed, 1 failed", "12 passed, 1 failed"),
    *of("tools/edits.py", ("a count that isn't last", "12 passed, 1 failed", "0 failed\n", "0 failed\necho more\n"),
        ("another status", "15 passed, 1 failed", "0 failed\n", "0 failed\nexit 2\n"))])

LIST = """cmake_minimum_required(VERSION 3.21)
project(small NONE)
enable_testing()
add_test(NAME first COMMAND ${CMAKE_SOURCE_DIR}/counted.sh ../../one)
add_test(NAME second COMMAND ${CMAKE_SOURCE_DIR}/../../two)
set_tests_properties(first PROPERTIES LABELS some FIXTURES_SETUP one)
set_tests_properties(second PROPERTIES LABELS some FIXTURES_REQUIRED one)
"""
ALL = "tools/tests/CMakeLists.txt"
RUNS = Case("run-tests", ["run-tests.py", "checks.py", "packages.py", "tests/counted.sh"], {ALL: LIST, "one": PASSES, "two": "#!/bin/sh\nexit 0\n"},
            ["tools/run-tests.py", "some"], [
    # The second test isn't run then, and that is a failure, too.
    *wrong_counts("one", "2 passed, 2 failed", "0 passed, 2 failed"),
    *of("one", ("another status", "3 passed, 2 failed", "0 failed\n", "0 failed\nexit 2\n")),
    *of("two", ("a test that fails", "3 passed, 1 failed", "exit 0", "exit 1")),
    # This one alone has a limit in time: a busy machine lets no other test meet it.
    Fault("a test that waits for ever", "3 passed, 1 failed", (("two", "exit 0", "sleep 600"), (ALL, "REQUIRED one)", "REQUIRED one TIMEOUT 2)"))),
    *of(ALL, ("a program that is missing", "3 passed, 1 failed", "../../two", "../../three"), ("no tests", "0 passed, 1 failed", LIST, LIST.replace("LABELS some", "LABELS other")),
        ("a list that can't be read", "0 passed, 1 failed", "enable_testing()", "enable_nothing()"))])

# A crate of functions which the prover takes for proved unless they are wrong. That of `caller` needs that of `two`. It takes what a check kept, if there is any.
SOURCE = "".join(f"pub fn {it}() {{\n    right {it};\n}}\n" for it in ("one", "two", "three", "caller"))
RATTLE = r"""#!/bin/sh
said() { echo "$*" | grep -o "[-]-$word [^ ]*" | cut -d' ' -f2; }
status=0 names=$(word=only said "$@") kept=$(word=incremental said "$@")
echo checked: $names >>"$TOP/checks"
[ ! -d "$TOP/$KEPT" ] || [ "$(cat "$kept/module")" = kept ] || exit 1
if at=$(grep -n unknown src/lib.rt); then echo "src/lib.rt:${at%%:*}:5: error[unknown-name]: what?"; exit 1; fi
for name in $names; do
    state=proved
    grep -q "wrong $name;" src/lib.rt && [ "$(cat "$LOW")" = low ] && state="no proof: \`search\` did not prove it" status=1
    [ $name = caller ] && grep -q "wrong two;" src/lib.rt && [ "$state" = proved ] && state="no proof: it calls \`two\`, which is not proved" status=1
    echo "fn crate::$name: $state"
done
echo only=1
exit $status
"""
RT = """#!/bin/sh
case $1 in
    doc) echo "$TOP/kit/START-HERE.md" ;;
    try) echo "tests: 1"; grep -q "right three" src/lib.rt || { echo "test t::three FAILED"; exit 1; } ;;
esac
"""
LOW, KEPT = "crates/low/out/rlib/low.rlib/format", "crates/crate/out/incremental"
EDITS = "crates/crate/wrong.edits"
ENTRIES = "".join(f"{kind} wrong_{it} in {file}: It is wrong.\n    right {it}; ==> wrong {it};\n" for kind, it, file in (
    ("gate", "one", "src/lib.rt"), ("gate", "two", "src/lib.rt"), ("prover", "caller", "src/lib.rt"), ("tests", "three", "crates/crate/src/lib.rt")))
# Of as many others as three gates try, each is tried by one of three trees whose hashes follow one another.
MANY = "".join(f"prover more_{it} in src/lib.rt: It is wrong.\n    right caller; ==> wrong caller; // {it}\n" for it in range(50))
SETS = f"export PATH=$PWD/bin:$PATH TOP=$PWD LOW=$PWD/{LOW} KEPT={KEPT}\n"
TREE = {
    "crates.txt": "low: std\ncrate: low std\n", "crates/crate/src/lib.rt": SOURCE, EDITS: ENTRIES, LOW: "low\n", "bin/rt": RT, "kit/KIT-ID": "kit\n",
    "kit/bin/rattle": RATTLE, "bin/git": '#!/bin/sh\necho "${HASH:-00000000}"\n', "try": f"#!/bin/sh\n{SETS}tools/edits.py \"$@\"; status=$?; cat checks; echo ended; exit $status\n",
    "gates": "#!/bin/sh\nfor it in 0 1 2; do\n    HASH=0000000$it ./try gate || exit 1\ndone\n",
}
TRY = ["./try", "crate"]


ONE = "right one; ==> wrong one;"
SAMPLER = Case("edits", ["edits.py", "wrong.py", "contracts.py", "kit.py", "checks.py"], TREE, TRY, [
    *of(EDITS, ("a wrong body that is proved", "wrong_one: NOT REFUSED", ONE, "right one; ==> right one; // still"),
        ("one that is proved beside a wrong one that it calls", "wrong_caller: NOT REFUSED", "==> wrong caller;", "==> right caller; // still"),
        ("a wrong body that no test refuses", "NOT REFUSED: all tests pass", "==> wrong three;", "==> right three; // still"),
        ("an edit that doesn't fit", "stands 0 times in", ONE, "gone ==> wrong one;"), ("others beside one that fits twice", "checked: caller two\n", ONE, "right ==> wrong"),
        ("one that can't be compiled", "wrong_one: NOT TRIED: src/lib.rt:2:5: error", ONE, "right one; ==> unknown one;"),
        ("others beside that", "checked: caller two\n", ONE, "right one; ==> unknown one;"), ("an edit that changes nothing", "it changes nothing", ONE, "right one; ==> right one;"),
        ("an edit without its name", "neither a line KIND NAME in FILE: REASON", "gate wrong_one in", "gate in")),
    *of("kit/bin/rattle", ("code that the prover can't read", "NOT TRIED: src/lib.rt:1:1: error", "echo only=1", "echo src/lib.rt:1:1: error: what?; echo only=1"),
        ("a check that is killed", "NOT TRIED", "echo only=1", "kill -KILL $$"),
        ("a search that is cut off", "because a search was cut off", 'state="no proof: \\`search\\` did not prove it"', 'echo "src/lib.rt:2:5: not proved: it gave up at one of its limits" && state="no proof"'),
        ("a proof that names what is gone", "only because a proof names", 'state="no proof: \\`search\\` did not prove it"', 'state="not proved"'),
        ("a proof that can't be read", "only because a proof names", 'state="no proof: \\`search\\` did not prove it"', 'state="no proof: expected answers in ./proofs/one"')),
    # A goal in the file of its function's proof refuses an edit beside others; the tests' one fails, so that the tool ends with another status.
    Fault("goals in files of proofs", "checked: caller one two\nended", (
        ("kit/bin/rattle", 'state="no proof: \\`search\\` did not prove it" status=1', 'state="not proved" status=1 && echo "proofs/$name/Answers.antt:1:1: error"'),
        (EDITS, "==> wrong three;", "==> right three; // still"))),
    *of("bin/rt", ("tests that are cut off", "NOT TRIED", "test t::three FAILED", "cut off")),
    Fault("no edits", "0 passed, 1 failed", ((EDITS, ENTRIES, ""),), ["./try", "gate"])])
# Of each library that it is given, what reads `unknown` can't be compiled, nor can what is planted in the program.
COMPILER = r"""#!/bin/sh
grep -q planted src/main.rt && echo "src/main.rt:2:5: error[moved]: \`twice\`"
for word; do
    file=${word##*=}
    case $word in
        *=*/lib.rt) at=$(grep -n unknown "$file") && echo "$file:${at%%:*}:5: error[unknown-name]: what?" ;;
    esac
done
exit 1
"""
SECOND = "prover second in src/lib.rt: It is wrong, too.\n    right one; ==> unknown one;\n"
FORMS = Case("check-forms", ["check-forms.py", *SAMPLER.tools], {
    **TREE, "kit/bin/rattle": COMPILER, "crates.txt": "low: std\ncrate: low std\nprogram: crate std\n", "crates/low/src/lib.rt": "", "crates/program/src/main.rt": "",
    "forms": f"#!/bin/sh\n{SETS}exec tools/check-forms.py\n"}, ["./forms"], [
    *of(EDITS, ("an edit that doesn't fit", "wrong_one: stands 0 times in", ONE, "gone ==> wrong one;"), ("no reason", "wrong_one: it has no reason", "src/lib.rt: It is wrong.\n    right one", "src/lib.rt:\n    right one"),
        ("one that can't be compiled", "crate/wrong_one: it can't be compiled: error", ONE, "right one; ==> unknown one;"),
        ("another one of its function", "crate/second: it can't be compiled: error", ENTRIES, ENTRIES + SECOND),
        ("one of a head", "crate/wrong_one: it can't be compiled: error", ONE, "pub fn one ==> pub fn unknown"), ("one name twice", "two edits are called second", ENTRIES, ENTRIES + SECOND * 2)),
    *of("crates/crate/src/lib.rt", ("a file that can't be compiled", "crates/crate/src/lib.rt: it can't be compiled: error", "right caller", "right caller; unknown")),
    *of("kit/bin/rattle", ("a compiler that ends too early", "crates/program/src/main.rt: it can't be compiled: ", "grep -q planted", "grep -q gone"))])
BEGUN = Case("edits over what a check kept", SAMPLER.tools, {**TREE, f"{KEPT}/module": "kept\n"}, TRY, of(f"{KEPT}/module", ("another's", "NOT TRIED", "kept", "spoilt")))
SAMPLES = Case("samples of edits", SAMPLER.tools, {**TREE, EDITS: MANY}, ["./gates"], [
    *of(EDITS, *((f"other {it}, proved", f"more_{it}: NOT REFUSED", f"==> wrong caller; // {it}\n", f"==> right caller; // {it}\n") for it in (0, 20, 49)))])

FOREIGN = "#!/bin/sh\nexec tools/other_registry.py\n"
# A driver gets a script as a file, the last of its words.
DRIVER = '#!/bin/sh\nfor path; do :; done\nexec tools/other_registry.py <"$path"\n'
KIT = {"program": FOREIGN, "driver": DRIVER, "crates/registry_run/out/registry_run": FOREIGN, "empty/none": "",
       "run": "#!/bin/sh\ntools/conformance.py write kit --scripts 4 --lines 40 >/dev/null && exec tools/conformance.py run \"${1:-kit}\" ./program\n",
       "without": "#!/bin/sh\ntools/conformance.py write kit --scripts 4 --lines 40 >/dev/null; rm kit/0002.report; exec tools/conformance.py run kit ./program\n"}
TOOLS = ["conformance.py", "engines.py", "other_registry.py", "checks.py"]
CONFORMANCE = Case("conformance run", TOOLS, KIT, ["./run"], [
    *of("program", ("a program that stops in the middle of a report", "0000.txt: line 21 is '(the end)'", "exec tools/other_registry.py", "tools/other_registry.py | head -n 20"),
        ("one with a wrong status", "0000.txt: status 3", "exec tools/other_registry.py", "tools/other_registry.py; exit 3")),
    Fault("a script without its report", "0002.report", command=["./without"]), Fault("an empty folder", "0 passed, 1 failed", command=["./run", "empty"])])
# A few scripts, and none with a byte changed: that other registry knows no faults.
FEW = "s/^SCRIPTS = .*/SCRIPTS = 8/; s/if never or strange/if strange/; s/ in FAULTS)$/ in ())/; s/if PROGRAM.exists() else/if False else/"
DRIVEN = Case("conformance test", TOOLS, KIT, ["sh", "-c", f"sed -i '{FEW}' tools/conformance.py; exec tools/conformance.py test ./driver './driver more'"], [
    *of("driver", ("a driver that is wrong", "FAILED  ./driver prints each report", "exec tools/other_registry.py", "tools/other_registry.py newest-slot"),
        ("one that ends with another status", "FAILED  ./driver prints each report", "exec tools/other_registry.py <\"$path\"", "tools/other_registry.py <\"$path\"; exit 1")),
    *of("tools/conformance.py", ("a rule that leaves out all scripts", "FAILED  ./driver runs most scripts", "if driver and (driver.ended or", "if True or (driver.ended or"))])
CASES = (GATE, RUNS, SAMPLER, BEGUN, SAMPLES, FORMS, CONFORMANCE, DRIVEN)


def write(tree, path, text):
    """Writes a file; one that begins as a script can be run."""
    file = tree / path
    file.parent.mkdir(parents=True, exist_ok=True)
    file.write_text(text)
    if text.startswith("#!"):
        file.chmod(0o755)


def laid_out(case, fault, tree):
    """Writes the good tree, or that with the fault; what is wrong with the fault's changes, if anything is."""
    for name in case.tools:
        write(tree, f"tools/{name}", (ROOT / "tools" / name).read_text())
    for path, text in case.tree.items():
        write(tree, path, text)
    for path, old, new in fault.changes if fault else ():
        text = (tree / path).read_text()
        if text.count(old) != 1:
            return f"{path} has {text.count(old)} times: {old}"
        write(tree, path, text.replace(old, new))
    return ""


def wrong_with(case, fault, tree):
    """What is wrong with what the tool says of the good tree, or of the fault, if anything is."""
    ran = subprocess.run(fault and fault.command or case.command, cwd=tree, stdin=subprocess.DEVNULL, stdout=subprocess.PIPE, stderr=subprocess.STDOUT, text=True)
    if fault is None:
        return "" if ran.returncode == 0 else f"status {ran.returncode}: {ran.stdout}"
    return "" if ran.returncode and fault.said in ran.stdout else f"it should say '{fault.said}', with status {ran.returncode} it says: {ran.stdout}"


def run(job):
    case, fault, tree, unfit = job
    wrong = unfit or wrong_with(case, fault, tree)
    return wrong and f"{case.name}: {fault.name if fault else 'the good tree'}: {wrong}"


def jobs(cases, room):
    """Each good tree and each fault, laid out in a folder of its own."""
    for number, (case, fault) in enumerate((case, fault) for case in cases for fault in [None, *case.faults]):
        tree = room / str(number)
        yield case, fault, tree, laid_out(case, fault, tree)


def main():
    words = sys.argv[1:]
    chosen = [it for it in CASES if not words or any(word in it.name for word in words)]
    with tempfile.TemporaryDirectory() as folder, ThreadPoolExecutor(processors()) as pool:
        # All is written before anything runs. What is open for writing can't be run, and a process
        # that another thread starts meanwhile has it open, too, until it is another program.
        return counted(pool.map(run, list(jobs(chosen, pathlib.Path(folder)))))


if __name__ == "__main__":
    sys.exit(main())
