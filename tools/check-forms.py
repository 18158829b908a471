#!/usr/bin/env -S python3 -B
"""Finds, in a copy of the tree, files that aren't as `rt fmt` writes them, and edits (docs/RECIPES.md) that no longer fit their file or can't be compiled.

It proves nothing, and ends with 'N passed, M failed'. The edits of code are compiled all at once, each in a copy of the function whose body it changes.
Left out are those of specs/, which the compiler doesn't read, and those of a text that an edit before them changes and of which there is no copy.
"""
import collections
import pathlib
import re
import shutil
import subprocess
import sys
import tempfile

from checks import ROOT, counted
from contracts import METHODS
from edits import function_of
from kit import below, kit, listed, over_sources, root_of
from wrong import CRATES, apply, edits_of, places


# What the compiler refuses last, so it stops before it reads what is to be proved. It must refuse this: else it has not come so far.
PLANTED = "\nfn planted<T>(twice: T) -> (T, T) {\n    (twice, twice)\n}\n"


def format_faults(folder):
    """What isn't as rt fmt writes it, or can't be read."""
    ran = subprocess.run(["rt", "fmt"], cwd=folder, stdout=subprocess.PIPE, stderr=subprocess.STDOUT, text=True)
    lines = ran.stdout.splitlines()
    return lines if ran.returncode else [it.removeprefix("rt: ") for it in lines if it.startswith("rt: formatted ")]


def misfit(edit, tree):
    """Why the edit doesn't fit, if so. The files are as they were afterwards."""
    before, why = apply(edit, tree)
    for path, text in before.items():
        path.write_text(text)
    return why or ("" if edit.reason.strip() else "it has no reason behind its file")


def is_of_trait(function):
    """Whether the function is written for a trait, in an `impl` that can have no other one."""
    lines = function.path.read_text().split("\n")
    above = next((it for it in lines[function.first::-1] if re.match(r"[^ }]", it)), "")
    return METHODS.match(above) is not None


def write(edits, tree):
    """Writes the edits into the tree: each into a copy behind the function whose body it changes, or else where it stands. Of each file whose its lines are."""
    copied = {edit: function for edit in edits if (function := function_of(edit)) and not is_of_trait(function)}
    whose, copies = collections.defaultdict(dict), collections.defaultdict(list)
    for edit in (it for it in edits if it not in copied):
        before, why = apply(edit, tree)
        for path, text in before.items() if why else ():
            path.write_text(text)
        for path, line in () if why else places(edit):
            whose[tree / path.relative_to(ROOT)][line] = edit
    for at, (edit, function) in enumerate(copied.items()):
        path = tree / function.path.relative_to(ROOT)
        before, _ = apply(edit, tree)
        head, *lines = path.read_text().split("\n")[function.first:function.last + 1]
        path.write_text(before[path])
        copies[path].append((function.last + 1, [re.sub(r'(extern "C" )?fn (\w+)', rf"fn \2_{at}", head, count=1), *lines], edit))
    for path in {*whose, *copies}:
        rows = [(it, whose[path].get(at)) for at, it in enumerate(path.read_text().split("\n"))]
        for end, lines, edit in sorted(copies[path], key=lambda it: -it[0]):
            rows[end:end] = [(it, edit) for it in lines]
        path.write_text("\n".join(it for it, _ in rows))
        yield path, [edit for _, edit in rows]


def uncompiled(edits, tree):
    """What the compiler refuses of these edits, by what it refuses: an edit, or a file where no edit is known to be wrong. All libraries are read beneath the
    first program, and beneath any other one its own."""
    whose, found = dict(write(edits, tree)), {}
    libraries = [it for it in listed() if root_of(it) == "src/lib.rt"]
    for at, crate in enumerate(it for it in listed() if it not in libraries):
        root = tree / "crates" / crate / root_of(crate)
        root.write_text(root.read_text() + PLANTED)
        words = [kit() / "bin/rattle", "check", *over_sources(crate, below(crate) if at else libraries, tree), "--jobs", "1", "--only", ""]
        ran = subprocess.run(words, cwd=tree / "crates" / crate, stdout=subprocess.PIPE, stderr=subprocess.STDOUT, text=True)
        errors = re.findall(r"^(\S+?):(\d+):\d+: (error.*)", ran.stdout, re.M)
        others = [it for it in errors if "`twice`" not in it[2]]
        for path, line, error in others or [(root_of(crate), "0", ran.stdout[-300:])] * (not errors):
            path = tree / "crates" / crate / path
            edit = whose[path][int(line) - 1] if path in whose else None
            of = edit or path.relative_to(tree)
            found.setdefault(of, f"{of}: it can't be compiled: {error}")
    return found


def faults(tree):
    """Of each thing what is wrong with it, or ''."""
    fitting = []
    for crate in CRATES:
        edits = [(it, misfit(it, tree)) for it in edits_of(crate)]
        found = [(crate, "; ".join(format_faults(tree / "crates" / crate))), *edits]
        found += [(crate, f"two edits are called {name}") for name, count in collections.Counter(it.name for it, _ in edits).items() if count > 1]
        yield from (fault and f"{name}: {fault}" for name, fault in found)
        fitting += [it for it, fault in edits if not fault and not it.file.endswith(".antt")]
    yield from uncompiled(fitting, tree).values() or [""]


with tempfile.TemporaryDirectory() as folder:
    copy = pathlib.Path(shutil.copytree(ROOT, f"{folder}/tree", ignore=shutil.ignore_patterns("out", ".git")))
    sys.exit(counted(faults(copy)))
