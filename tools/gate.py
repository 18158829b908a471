#!/usr/bin/env -S python3 -B
"""The merge gate: all that a merge requires, in one command.

    tools/gate.py              installs nothing: what lacks a package fails, and says how to get it
    tools/gate.py --install    installs what is missing first, by apt-get (tools/packages.py); .ci/run
                               is this

The steps below come one after the other. Each is a command; that command's file says at its head what it
does. docs/GATE.md says how to run one step, or one test, and how to read a failure.

The last line, 'N passed, M failed', counts all of it; the status is 0 if nothing failed.
"""
import collections
import resource
import subprocess
import sys
import time

from checks import LAST_LINE, ROOT, ended, processors

WORDS = sys.argv[1:]
TESTS = "tools/run-tests.py"
STEPS = [
    ("packages", ["tools/packages.py", *WORDS]),
    ("documents", [TESTS, "documents"]),
    # Every proof of the crates, except what an earlier run on this machine proved of the same files, and every test.
    ("rt ci, and the archive", ["tools/archive-beside.py", "rt", "ci"]),
    # Wrong bodies, over the libraries that were proved.
    ("edits", ["tools/edits.py", "gate"]),
    # What stands outside of Rattle, over the program and the archive that were proved.
    ("clients", [TESTS, *"page build c watched heap netbsd explorer rust rust-watched aarch64 tutorial program tools".split()]),
]
Ended = collections.namedtuple("Ended", "name passed failed clock processor")


def say(text):
    print(text, end="", flush=True)


def judged(command):
    """Runs a command, and prints what it says as it comes, except its count; how many checks passed and failed. One that ends without a count fails."""
    held = ""
    with subprocess.Popen(command, cwd=ROOT, stdin=subprocess.DEVNULL, stdout=subprocess.PIPE, text=True, errors="replace") as process:
        for line in process.stdout:
            say(held)
            held = line
    count = LAST_LINE.match(held)
    say("" if count else held)
    passed, failed = map(int, count.groups()) if count else (0, 0)
    return passed, failed or int(process.returncode != 0 or passed == 0)


def used():
    """The seconds of processors that all commands so far have taken."""
    found = resource.getrusage(resource.RUSAGE_CHILDREN)
    return found.ru_utime + found.ru_stime


def step(name, command):
    say(f"== {name}\n")
    began, before = time.monotonic(), used()
    counts = judged(command)
    return Ended(name, *counts, time.monotonic() - began, used() - before)


def table(steps):
    """What each step took, as a table for a document."""
    say("| Step | Passed | Failed | Minutes by the clock | Processor minutes |\n|---|---|---|---|---|\n")
    for it in [*steps, Ended(f"all, on {processors()} processors", *(map(sum, list(zip(*steps))[1:])))]:
        say(f"| {it.name} | {it.passed} | {it.failed} | {it.clock / 60:.1f} | {it.processor / 60:.1f} |\n")


def main():
    if WORDS not in ([], ["--install"]):
        sys.exit(__doc__)
    done = [step(*it) for it in STEPS]
    table(done)
    return ended(sum(it.passed for it in done), sum(it.failed for it in done))


if __name__ == "__main__":
    sys.exit(main())
