#!/usr/bin/env -S python3 -B
"""Runs the built program and compares its status, standard output and standard error with what they must be.

    tools/test-program.py [PROGRAM]..    crates/registry_run/out/registry_run, which tools/prove-program.sh makes; beside it what Rattle's own compiler made,
                                         where the gate has just built both; and ./registry_run, which runs the first
    tools/test-program.py --try          scripts, a storm and the usage, by the sources as they stand, which `rt try` compiles

Scripts with and without faults (rows.py of registry_run), storms, wrong arguments, a standard output that is full, closed or gone, a standard input that
can't be read, no room for a thread, and memory that runs out at each allocation in turn. The last line counts the runs.
"""
import itertools
import os
import pathlib
import subprocess
import sys
import tempfile

from engines import MOST_SECONDS, said_when_tried
from checks import ROOT, counted

sys.path.append(str(ROOT / "crates/registry_run"))
from rows import Row, rows

COMMAND = str(ROOT / "registry_run")
USAGE = b"usage: registry_run core | live | storm C T\n"
SCRIPT = b"domain 2 2\nattach 0 driver wm 7\nenter 0\nfind 0 driver wm\n"
REPORT = b"domain 2 2\nattached 1 slot 0\ninside\nfound 1 slot 0 value 7\n"
READ, WRITE, MEMORY, THREAD = (it + b"\n" for it in (b"read fault", b"write fault", b"out of memory", b"no thread"))
ENGINES = ("core", "live")
# `rt try` makes the runs of RUNS with these words, beside the scripts.
TRIED = (["storm", "2", "3"], ["Core"])


def storm(cpus, turns):
    """What a storm prints: two lookups and one reference for each turn of each CPU."""
    return f"storm {cpus} {turns}\nlookups {2 * cpus * turns}\nreferences {cpus * turns}\nwrong 0\nheld 0\n".encode()


def script_fault(line, cause):
    return f"script fault: line {line}: {cause}\n".encode()


# The arguments, the input, the status, standard output and standard error.
RUNS = [
    *(([engine], SCRIPT, 0, REPORT, b"") for engine in ENGINES),
    *(([engine], b"domain 2 2\nenter 2\n", 2, b"", script_fault(2, "BadCpu")) for engine in ENGINES),
    *((["storm", cpus, turns], b"", 0, storm(int(cpus), int(turns)), b"")
      for cpus, turns in (("1", "1"), ("2", "3"), ("8", "1000"), ("1", "100000"), ("03", "0007"))),
    *((words, SCRIPT, 2, b"", USAGE) for words in (
        [], ["Core"], ["core", "live"], ["live", "1", "1"], ["storm"], ["storm", "2"], ["storm", "9", "1"], ["storm", "0", "1"], ["storm", "1", "0"],
        ["storm", "1", "100001"], ["storm", "258", "1"], ["storm", "1", "4294967297"], ["storm", "1", "000000000000000000001"], ["storm", "+1", "1"],
        ["storm", "1", ""], ["storm", "2", "3", "4"], [""], ["core", ""], ["core\n"], [b"core\xff"])),
]
# What a shell does first, the arguments, the input, the status, standard output and standard error, if that is read. A stream may be closed, full, a folder, or
# open for reading alone; or there is room for the program, and none for the stack of a thread, whose size is set, too.
CHANGED = [
    *((f"exec {to}", words, SCRIPT, 3, b"", WRITE) for to in (">/dev/full", "1</dev/null", ">&-") for words in (["core"], ["live"], ["storm", "1", "1"])),
    *((f"exec {of}", [engine], b"", 3, b"", READ) for of in ("</", "<&-") for engine in ENGINES),
    ("exec <&-", ["storm", "1", "1"], b"", 0, storm(1, 1), b""),
    ("exec 2>/dev/full", ["core"], b"att", 2, b"", b""),
    ("exec 2>&-", ["live"], b"domain 2 2\nenter 2\n", 2, b"", b""),
    ("exec 2>&-", ["core"], SCRIPT, 0, REPORT, b""),
    ("exec 2>&-", ["never"], SCRIPT, 2, b"", b""),
    ("ulimit -s 8192; ulimit -v 10000", ["storm", "2", "1"], b"", 4, b"", THREAD),
]


def said(words, script=b"", **streams):
    """The status of a command, and what it prints on both streams."""
    ran = subprocess.run(words, input=script, timeout=MOST_SECONDS, stderr=subprocess.PIPE, **{"stdout": subprocess.PIPE, **streams})
    return ran.returncode, ran.stdout, ran.stderr


def fault(name, wanted, found):
    return "" if found == wanted else f"{name}:\n  wanted {wanted}\n  found  {found}"


def usual(program):
    for words, script, *wanted in RUNS:
        yield fault(words, tuple(wanted), said([program, *words], script))


def by_rows(program):
    for row, engine in itertools.product(rows(), ENGINES):
        yield fault(f"{engine}, {row.name}", (row.status, row.report, row.error), said([program, engine], row.script))


def tried():
    """What `rt try` says of the rows, of a storm and of wrong words. It takes half a second for each, so the cuts are left out, and faults of scripts are tried
    by the core alone."""
    whole = [row for row in rows() if not row.name.startswith("cut ")]
    runs = [(["core"], whole), (["live"], [row for row in whole if row.status == 0])]
    runs += [(words, [Row(words[0], script, *wanted)]) for words, script, *wanted in RUNS if words in TRIED]
    for words, wanted in runs:
        answers = said_when_tried(words, {f"r{place}": it.script for place, it in enumerate(wanted)})
        for row, (status, report, error) in zip(wanted, answers):
            yield fault(f"{' '.join(words)}, {row.name}", (row.status, row.report, row.error), (status, report.encode(), error.encode()))


def changed(program):
    for change, words, script, *wanted in CHANGED:
        yield fault(f"{words}, {change}", tuple(wanted), said(["sh", "-c", f'{change}; exec "$@"', "sh", program, *words], script))


def with_closed_pipe(program):
    for words in (["core"], ["live"], ["storm", "1", "1"]):
        reader, writer = os.pipe()
        os.close(reader)
        yield fault(f"{words}, a closed pipe", (3, None, WRITE), said([program, *words], SCRIPT, stdout=writer))
        os.close(writer)


def part_of_report(program):
    """A reader of the report that leaves after a few bytes: the program ends by itself, and its status is 3. The report is longer than what a pipe
    holds, so that the program can't be done before the reader has left."""
    with tempfile.TemporaryFile() as script:
        script.write(b"domain 8 32\nattach 0 driver wm 7\n" + b"audit\n" * 9000)
        script.seek(0)
        ran = subprocess.Popen([program, "core"], stdin=script, stdout=subprocess.PIPE, stderr=subprocess.PIPE)
        begin = ran.stdout.read(11)
        ran.stdout.close()
        yield fault("core, a reader that leaves", (b"domain 8 32", WRITE, 3), (begin, ran.stderr.read(), ran.wait()))


# No memory for the call of this number, or from it on where the number is negative; a shell that runs the program gets all.
REFUSES = b"""#define _GNU_SOURCE
#include <errno.h>
#include <stdlib.h>
#include <string.h>
extern void *__libc_malloc(size_t), *__libc_realloc(void *, size_t);
static long refused, calls;
__attribute__((constructor)) static void begin(void) { refused = strcmp(program_invocation_short_name, "sh") ? atol(getenv("REFUSED")) : 0; }
static int refuses(void)
{
	long call = __atomic_add_fetch(&calls, 1, __ATOMIC_RELAXED);
	return refused < 0 ? call >= -refused : call == refused;
}
void *malloc(size_t size) { return refuses() ? NULL : __libc_malloc(size); }
void *realloc(void *block, size_t size) { return refuses() ? NULL : __libc_realloc(block, size); }
"""
# A list that is refused room for as many as it expects asks for one more alone, so not each refusal ends a run. No more in a row don't. No run makes so many.
UNMET, MOST = 16, 1000


def refused(command, library, sign, script, report, errors):
    """Where in the report each refusal in turn ended the run with one of these errors, until none does; and the answers that are neither that nor right."""
    fronts, odd, unmet = [], [], 0
    for number in itertools.takewhile(lambda _: unmet < UNMET, range(1, MOST)):
        status, text, error = said(command, script, env={**os.environ, "LD_PRELOAD": library, "REFUSED": str(sign * number)})
        unmet = 0 if status else unmet + 1
        if status == 4 and report.startswith(text) and error in errors:
            fronts.append(len(text))
        elif (status, text, error) != (0, report, b""):
            odd.append((number, status, text, error))
    return fronts, odd if unmet == UNMET else [*odd, "a refusal ended each run"]


def with_refused_memory(program):
    """Each allocation of a run is refused in turn, and then also all that follow: of scripts with every command that makes something grow, and of a storm."""
    grow = [row for row in rows() if row.name in ("all-limits", "given-up")]
    runs = [([engine], row.script, row.report, [MEMORY]) for row in grow for engine in ENGINES]
    with tempfile.TemporaryDirectory() as room:
        library = f"{room}/refuses.so"
        subprocess.run(["cc", "-shared", "-fPIC", "-o", library, "-xc", "-"], input=REFUSES, check=True)
        for (words, *wanted), sign in itertools.product([*runs, (["storm", "1", "1"], b"", storm(1, 1), [MEMORY, THREAD])], (1, -1)):
            fronts, odd = refused([program, *words], library, sign, *wanted)
            # A storm prints once it is over. A script is refused as it is read, and at several of its commands.
            met = fronts and (words[0] == "storm" or 0 in fronts and len(set(fronts)) > 2)
            yield fault(f"{words}, {len(fronts)} refusals of memory{'' if sign > 0 else ' and of all that follows'}", (True, []), (bool(met), odd))


def by_command():
    """What ./registry_run does beside running the program: help, a version, scripts in files, a word on CRLF."""
    files = [str(ROOT / "examples" / name) for name in ("retire-under-section.txt", "kept-driver.txt")]
    first, second = (said([COMMAND, "core"], pathlib.Path(file).read_bytes())[1] for file in files)
    together = b"== %s\n%s== %s\n%s" % (files[0].encode(), first, files[1].encode(), second)
    crlf = script_fault(1, "BadByte") + b"registry_run: line 1 ends with a carriage return (CRLF); lines end with a line feed alone\n"
    for words, script, *wanted in [
        (["core", files[0]], b"", 0, first, b""),
        (["live", *files], b"", 0, together, b""),
        (["core", files[0], "no file"], b"", 2, b"", USAGE),
        (["core"], SCRIPT.replace(b"\n", b"\r\n"), 2, b"", crlf),
    ]:
        yield fault(f"registry_run {words}", tuple(wanted), said([COMMAND, *words], script))
    for word, begin in (("--help", b"Runs scripts"), ("--version", b"registry_run 0.")):
        status, text, error = said([COMMAND, word])
        yield fault(f"registry_run {word}", (0, begin, b""), (status, text[:len(begin)], error))


def built():
    """What the gate or tools/prove-program.sh built, and ./registry_run."""
    proved = ROOT / "crates/registry_run/out/registry_run"
    other = proved.with_name("registry_run.by-rattle")
    # The gate builds it after the other one; else it is of an earlier run.
    is_of_gate = proved.is_file() and other.is_file() and other.stat().st_mtime >= proved.stat().st_mtime
    runs_proved = said([COMMAND, "--proved"])[0] == 0
    if not runs_proved:
        print(f"{COMMAND} isn't tested: a source is newer than the proved program")
    return [str(proved), *[str(other)] * is_of_gate, *[COMMAND] * runs_proved]


def faults(programs):
    for program in programs:
        if not os.access(program, os.X_OK):
            sys.exit(f"{program} is missing: tools/prove-program.sh makes it")
        yield from itertools.chain(*(part(program) for part in (usual, changed, with_closed_pipe, part_of_report)))
        yield from by_rows(program) if program != COMMAND else by_command()
    yield from with_refused_memory(programs[0])


if __name__ == "__main__":
    sys.exit(counted(tried() if sys.argv[1:] == ["--try"] else faults(sys.argv[1:] or built())))
