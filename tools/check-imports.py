#!/usr/bin/env -S python3 -B
"""Holds imports against what a crate's specs/Common.antt and specs/Types.antt pass on (docs/PROOFS.md, "Where names come from").

    tools/check-imports.py      says which name is passed on and imported by no one, and which file imports one from where it is defined;
                                ends with 'N passed, M failed': one check for each of these files
"""
import collections
import re
import sys

from checks import ROOT, counted

CRATES = ROOT / "crates"
IMPORT = re.compile(r"^ *(?:pub |ghost )*use ([\w.]+)\.\{([^}]*)\};?$", re.M)
PASSING = ("specs/Common.antt", "specs/Types.antt")


def module_of(path):
    return "Rattle." + ".".join(path.relative_to(CRATES).with_suffix("").parts)


def may_import(path, crate, module):
    """Whether the file could take what the crate passes on of the module: a crate's own specs can't, and its own types only its proofs see."""
    if path.relative_to(CRATES).parts[0] == crate:
        return "proofs" in path.parts or f".{crate}." not in module
    return ".declared." not in module


def faults(path, passed_on, importers):
    """What is wrong with a file that passes names on: of each name whether someone imports it from there, and no one past it who could."""
    crate = path.relative_to(CRATES).parts[0]
    for module, name in passed_on:
        for other in importers[module, name]:
            if not str(other).endswith(PASSING) and may_import(other, crate, module):
                yield f"{other.relative_to(CRATES)} imports {name} of {module}, which {module_of(path)} passes on"
        if not importers[module_of(path), name]:
            yield f"{path.relative_to(CRATES)}: no one imports {name}"


def main():
    files = [it for kind in ("*/src/**/*.rt", "*/specs/**/*.antt", "*/proofs/**/*.antt") for it in CRATES.glob(kind)]
    # The names that each file imports, each with its module.
    imported = {it: [(module, name.strip()) for module, names in IMPORT.findall(it.read_text()) for name in names.split(",")] for it in files}
    importers = collections.defaultdict(list)
    for path, found in imported.items():
        for item in found:
            importers[item].append(path)
    paths = sorted(it for name in PASSING for it in CRATES.glob(f"*/{name}"))
    return counted("\n".join(faults(path, imported[path], importers)) for path in paths)


sys.exit(main())
