"""Reads the wrong bodies of crates/*/wrong.edits, and applies them. docs/RECIPES.md says how they are written."""
import collections
import re
import sys

from checks import ROOT

GATE, PROVER, TESTS = KINDS = ("gate", "prover", "tests")
BLOCK = re.compile(rf"^({'|'.join(KINDS)}) (\w+) in (\S+):(.*)\n((?:    .*\n)*)", re.M)
CRATES = sorted(it.name for it in (ROOT / "crates").iterdir() if it.is_dir())


class Edit(collections.namedtuple("Edit", "crate kind name file reason text")):
    """An edit: the first file that it changes, why it is wrong, and its other lines."""

    def __str__(self):
        return f"{self.crate}/{self.name}"


def file_of(crate):
    return ROOT / "crates" / crate / "wrong.edits"


def edits_of(crate, *kinds):
    """The edits of a crate, of these kinds or all, in the file's order."""
    text = file_of(crate).read_text() if file_of(crate).is_file() else ""
    if strange := BLOCK.sub("", text).strip():
        sys.exit(f"{crate}/wrong.edits: neither a line KIND NAME in FILE: REASON nor one below it: {strange.splitlines()[0]}")
    return [it for it in (Edit(crate, *block) for block in BLOCK.findall(text)) if it.kind in (kinds or KINDS)]


def changes(edit, tree):
    """The changes of an edit, in order: file, old text, new text. Files are named from the top of the tree if it is for the tests, else from its crate's folder."""
    base = tree if edit.kind == TESTS else tree / "crates" / edit.crate
    path = base / edit.file
    for line in edit.text.splitlines():
        old, is_change, new = line.removeprefix("    ").partition(" ==>")
        if is_change:
            yield path, old, new.removeprefix(" ")
        elif old.startswith("file: "):
            path = base / old.removeprefix("file: ")


def places(edit):
    """The file and the line of each text that the edit changes."""
    for path, old, _ in changes(edit, ROOT):
        before, found, _ = path.read_text().partition(old) if path.is_file() else ("", "", "")
        if found:
            yield path, before.count("\n")


def apply(edit, tree):
    """Applies the edit to `tree`; returns its files' text as it was, and why the edit doesn't fit, if so."""
    before = {}
    for path, old, new in changes(edit, tree):
        text = path.read_text() if path.is_file() else ""
        before.setdefault(path, text)
        if text.count(old) != 1:
            return before, f"stands {text.count(old)} times in {path.relative_to(tree)}: {old}"
        path.write_text(text.replace(old, new))
    return before, "" if any(path.read_text() != text for path, text in before.items()) else "it changes nothing"
