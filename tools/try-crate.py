#!/usr/bin/env -S python3 -B
"""Compiles a crate and runs it, unproved: contracts and edits are left to `rt check` and to the gate.

    tools/try-crate.py list             the lines KIND CRATE of what can be tried, the longest first
    tools/try-crate.py KIND CRATE       tries it

KIND is `runs`: the program on its files stdin and args, against its file stdout; `tests`: its tests; or
`compiles`: it is read with all crates beneath it, and their contracts, and nothing of them runs.
"""
import pathlib
import subprocess
import sys
import tempfile

from engines import MOST_SECONDS
from kit import below, kit, listed, over_sources

CRATES = pathlib.Path(__file__).resolve().parent.parent / "crates"


def has_tests(crate):
    return any("#[test]" in path.read_text() for path in (CRATES / crate / "src").rglob("*.rt"))


def is_program(crate):
    return (CRATES / crate / "src/main.rt").is_file()


def possible():
    """What can be tried: programs, tests, and the crates that neither of these stands on. The rows of registry_run are tools/test-program.py's."""
    beneath = {name for crate in listed() for name in below(crate)}
    programs = [crate for crate in listed() if is_program(crate)]
    tested = [crate for crate in listed() if has_tests(crate)]
    yield from (("runs", crate) for crate in programs if crate != "registry_run")
    yield from (("tests", crate) for crate in tested)
    yield from (("compiles", crate) for crate in listed() if crate not in {*beneath, *programs, *tested})


def runs(crate):
    with tempfile.TemporaryDirectory() as room:
        for name, to in (("stdin", "case"), ("args", "case.args"), ("stdout", "case.stdout")):
            given = CRATES / crate / name
            pathlib.Path(room, to).write_bytes(given.read_bytes() if given.is_file() else b"")
        return subprocess.run(["rt", "try", "--cases", room], cwd=CRATES / crate).returncode


def tests(crate):
    return subprocess.run(["rt", "try", "--test", "--seconds", str(MOST_SECONDS)], cwd=CRATES / crate).returncode


def compiles(crate):
    words = [kit() / "bin/rattle", "check", *over_sources(crate), "--jobs", "1", "--only", ""]
    return subprocess.run(words, cwd=CRATES / crate).returncode


def main(kind=None, crate=None):
    if kind == "list":
        print("\n".join(map(" ".join, possible())))
        return 0
    if (kind, crate) not in possible():
        sys.exit(__doc__)
    return {"runs": runs, "tests": tests, "compiles": compiles}[kind](crate)


if __name__ == "__main__":
    sys.exit(main(*sys.argv[1:]))
