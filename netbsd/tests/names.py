#!/usr/bin/env python3
"""Looks for each name of names.txt in the header that a driver's file includes for it, and in what is tested.

    names.py COMPILER..    the last line is 'N passed, M failed'

For each header one file is compiled, as a kernel's is, that includes this header alone and names each of its names: for the layer, and with
-DKUPALDIZ_EXPLORER for the explorer. Then each name must be in one of the tests or the drivers.
"""
import re
import subprocess
import sys
from pathlib import Path

HERE = Path(__file__).resolve().parent
LAYER = HERE.parent
TESTED = [*HERE.rglob("*.c"), *(LAYER / "examples").glob("*.c"), *(LAYER.parent / "explorer/tests").glob("*.[c]*")]
WORDS = ["-std=gnu17", "-Wall", "-Wextra", "-Werror", "-Wno-unused-variable", "-fsyntax-only", "-xc", "-", f"-I{LAYER.parent}/out/made/netbsd"]


def expanded(name):
    """The names that one with braces stands for."""
    found = re.search(r"\{([^{}]*)\}", name)
    if found is None:
        return [name]
    return [one for part in found[1].split(",") for one in expanded(name[: found.start()] + part + name[found.end() :])]


def rows():
    """(header, kind, name) of each name."""
    for line in (HERE / "names.txt").read_text().splitlines():
        header, *rest = line.split("#")[0].split() or [""]
        for name in rest[1:]:
            yield from ((header, rest[0], one.replace("~", " ")) for one in expanded(name))


def used(kind, name, number):
    """What a file says that uses the name, as far as the kind allows it."""
    if kind == "call":
        return f"void use{number}(void);\nvoid use{number}(void) {{ void (*use)(void) = (void (*)(void)){name}; (void)use; }}"
    if kind == "constant":
        return f"void use{number}(void);\nvoid use{number}(void) {{ long use = (long)({name}); (void)use; }}"
    if kind == "type" or name.startswith("struct "):
        return f"extern {name} *use{number};"
    return f"#ifndef {name}\n#error {name}\n#endif"


def compiles(compiler, header, names, *words):
    """Whether a file compiles that includes the header and uses the names; the compiler's words where it doesn't."""
    lines = [f"#include <{header}>", *(used(kind, name, number) for number, (kind, name) in enumerate(names))]
    ran = subprocess.run([*compiler, *words, *WORDS], input="\n".join(lines) + "\n", capture_output=True, text=True, check=False)
    return ran.returncode == 0, ran.stderr


def judge(compiler, of_header):
    """How many names are declared, and how many aren't."""
    passed = failed = 0
    for header, names in of_header.items():
        for words in ([], ["-DKUPALDIZ_EXPLORER"]):
            if compiles(compiler, header, names, *words)[0]:
                passed += len(names)
                continue
            for one in names:
                right, said = compiles(compiler, header, [one], *words)
                passed, failed = passed + right, failed + (not right)
                if not right:
                    print(f"{header}: {one[1]} isn't there: {said.splitlines()[0] if said else ''}")
    return passed, failed


def main():
    of_header, failed = {}, 0
    for header, kind, name in rows():
        of_header.setdefault(header, []).append((kind, name))
    passed, failed = judge(sys.argv[1:], of_header)
    text = "\n".join(file.read_text() for file in TESTED)
    for header, names in of_header.items():
        for _, name in names:
            found = re.search(rf"\b{re.escape(re.split('[ (]', name)[-1 if name.startswith('struct') else 0])}\b", text) is not None
            passed, failed = passed + found, failed + (not found)
            if not found:
                print(f"{header}: no test uses {name}")
    print(f"{passed} passed, {failed} failed")
    sys.exit(failed != 0)


main()
