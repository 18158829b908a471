#!/usr/bin/env -S python3 -B
"""Whether each atomic instruction of the archive for aarch64 is one of sequentially consistent steps, and most were met by a test.

    tools/atomics.py ARCHIVE PROGRAM..

Each PROGRAM is a test that is linked with ARCHIVE and c/tests/ordered.c. PROGRAM.sites has the places of the instructions by which it came to a
registry's table. An instruction of the archive is told by its function and its distance from that function's beginning. It prints what it counted, and
ends with status 1 where an atomic instruction is another one, or where fewer than four in five were met. What opens and closes a registry has steps of its own,
on a count of who shares the table, and works on a table that nobody else has yet: these are met by none. It needs aarch64-linux-gnu-objdump.
"""
import re
import subprocess
import sys

# The four instructions that aarch64 has for sequentially consistent steps on a word: an ordered load, an ordered store, and the pair of a change.
STEPS = ("ldar", "stlr", "ldaxr", "stlxr")
# All that work on memory atomically or order it, by the beginnings of their names; clrex only gives up.
ATOMIC = re.compile(r"(ldx|ldax|ldar|ldap|ldlar|stx|stlx|stlr|stllr|cas|swp|(ld|st)(add|clr|eor|set|smax|smin|umax|umin)|dmb|dsb)")
FUNCTION = re.compile(r"^([0-9a-f]+) <(.*)>:$")
INSTRUCTION = re.compile(r"^\s+([0-9a-f]+):\s+([a-z][\w.]*)")


def code(path):
    """The instructions of an object or a program: place, function, distance from its beginning, name."""
    words = ["aarch64-linux-gnu-objdump", "-d", "--no-show-raw-insn", path]
    function = begins = None
    for line in subprocess.run(words, check=True, capture_output=True, text=True).stdout.splitlines():
        if found := FUNCTION.match(line):
            begins, function = int(found[1], 16), found[2]
        elif function and (found := INSTRUCTION.match(line)):
            yield int(found[1], 16), function, int(found[1], 16) - begins, found[2]


def met_by(program):
    """The instructions by which a program came to a table, each by its function and distance."""
    with open(f"{program}.sites") as file:
        places = {int(line, 16) for line in file}
    return {(function, distance) for place, function, distance, _ in code(program) if place in places}


def main(archive, *programs):
    atomics = {(function, distance): name for _, function, distance, name in code(archive) if ATOMIC.match(name)}
    others = [f"{name} in {function}+{distance:#x}" for (function, distance), name in atomics.items() if name not in STEPS]
    met = set().union(*map(met_by, programs))
    missed = [f"{name} in {function}+{distance:#x}" for (function, distance), name in atomics.items() if (function, distance) not in met]
    counts = ", ".join(f"{name} {list(atomics.values()).count(name)}" for name in STEPS)
    print(f"{counts}; others {len(others)}; met {len(atomics) - len(missed)} of {len(atomics)}")
    for text, found in (("another instruction", others), ("met by no program", missed)):
        for it in found:
            print(f"{text}: {it}", file=sys.stderr)
    return 1 if others or 5 * len(missed) > len(atomics) or not atomics else 0


if __name__ == "__main__":
    sys.exit(main(*sys.argv[1:]))
