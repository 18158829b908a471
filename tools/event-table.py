#!/usr/bin/env -S python3 -B
"""Makes the list of docs/EVENTS.md from the sources: for each event its step, its contract, its lemmas and its wrong bodies.

    tools/event-table.py make     writes the list into docs/EVENTS.md
    tools/event-table.py check    makes it again and compares

A row of it is an event and a step of `cpu_words` that makes it. Every event needs a row; every row needs a definition, a lemma of each kind and an edit.
The last line is 'N passed, M failed', and the status is 1 where one failed.
"""
import collections
import functools
import re
import sys
import textwrap

import contracts
from contracts import contract
from checks import ROOT, counted
from wrong import CRATES, GATE, PROVER, file_of, places
from wrong import edits_of as edits_of_crate

PAGE = ROOT / "docs/EVENTS.md"
BEGIN, END = "<!-- tools/event-table.py make -->\n\n", "\n<!-- end -->\n"
TABLE = re.compile(f"{re.escape(BEGIN)}(.*?){re.escape(END)}", re.S)
EVENTS = ROOT / "crates/protocol/src/event.rt"
DEFINITIONS = ROOT / "crates/protocol/specs/Events.antt"
MADE = ROOT / "crates/protocol/proofs/Made.antt"
KEEPING = ROOT / "crates/protocol/proofs/keeps/Keeping.antt"
MACHINE = ROOT / "crates/passive_core/src/machine/run.rt"
WORDS = ROOT / "crates/cpu_words"
# What is listed of a row, after its event and what that does.
LISTED = ("Definition", "Step", "Cited", "Lemmas", "Pure machine", "Edits")
# What `step` uses for every event.
SHARED = {"guard", "with_some", "some_outcome"}
IMPORT = re.compile(r"use Rattle\.cpu_words\.((?:specs|proofs)\.[\w.]+)\.\{([^}]*)\}")
NAMED = re.compile(r"crate::(proofs(?:::\w+)+)::(\w+)")
LEMMAS = ("proofs.by_", "proofs.seats.")
LIST = ROOT / "crates/passive_list/src"
FUNCTION = re.compile(r"(?:pub\(crate\) )?fn (\w+)")
Step = collections.namedtuple("Step", "event function ensures")


def link(name, path):
    return f"[`{name}`](../{path.relative_to(ROOT)})"


def events():
    """Each event with the first sentence of its doc comment."""
    body = re.search(r"pub enum Event \{\n(.*?)\n\}", EVENTS.read_text(), re.S)[1]
    return {name: " ".join(re.findall("/// (.*)", text)).split(". ")[0].rstrip(".") for text, name in re.findall(r"((?:    /// .*\n?)+)    (\w+)[(,]", body)}


def once(found):
    """Each of what was found, in its order."""
    return list(dict.fromkeys(found))


def definitions(event):
    """The definitions that `step` names for the event."""
    text = DEFINITIONS.read_text()
    own = set(re.findall(r"^(?:abbrev )?pub (\w+) :", text, re.M)) - SHARED
    lines = re.findall(rf"^step s \(?{event}\b[^=]*=(.*)$", text, re.M)
    return once(it for line in lines for it in re.findall(r"\w+", line) if it in own)


def keeping(event):
    """The lemmas that `made_keeps` cites for what the event may be; for what leaves the state, which its last line serves, itself."""
    cases = re.findall(rf"^  (\w+) :(?:(?!^  \w+ :|^$).)*? Made s \(?{event}\b", MADE.read_text(), re.M | re.S)
    lines = dict(re.findall(r"^made_keeps s _ _ _ on \((\w+)((?:(?!^made_keeps).)*)", KEEPING.read_text(), re.M | re.S))
    return once(it for case in cases for it in re.findall(r"\w+_keeps\b", lines.get(case, "made_keeps")))


def method(event):
    """The method of the pure machine that makes the event."""
    return re.findall(rf"Event::{event}\b.*self\.(\w+)\(", MACHINE.read_text())


def steps(known):
    """The public steps, each with the event that it is named for: the one that its body makes, else the one that its contract names."""
    for path in sorted(WORDS.glob("src/steps/*.rt")):
        for function in functions_of(path):
            if function.is_public:
                clauses = contract(path.read_text().split("\n")[function.first:], "")
                ensures = [it for it in clauses if it.startswith("ensures")]
                made = re.findall(r"Event::(\w+)", function.text) or [it for it in known if re.search(rf"\b{it}\b", " ".join(ensures))]
                yield from (Step(event, function, ensures) for event in made[:1])


def imported(path, kinds):
    """The names that a file imports from modules of `cpu_words` that begin so, each with its file."""
    for module, names in IMPORT.findall(path.read_text()):
        if module.startswith(kinds):
            yield from ((name.strip(), WORDS / (module.replace(".", "/") + ".antt")) for name in names.split(","))


def cited(step):
    """The definitions of the crate that the step's `ensures` cite, except those that every step cites."""
    text = " ".join(step.ensures)
    return [link(name, path) for name, path in imported(step.function.path, "specs.")
            if re.search(rf"\b{name}\b", text) and path.stem not in ("Steps", "Rule", "Types") and "declared" not in path.parts]


def named(function):
    """The lemmas that the attribute of a function names, each with its file."""
    above = "\n".join(function.path.read_text().split("\n")[:function.first]).rpartition("\n\n")[2]
    return [(name, WORDS / (module.replace("::", "/") + ".antt")) for module, name in NAMED.findall(above)]


def step_lemma(step):
    """The lemma that the attribute or else the proof of the step names first, or the proof of the operation that the step calls."""
    own = WORDS / "proofs/steps" / step.function.path.stem / step.function.name
    called = [WORDS / "proofs/operations" / name for name in re.findall(r"\b(\w+)::", step.function.text)]
    proved = [it for folder in (own, *called) for path in sorted(folder.rglob("*.antt")) for it in imported(path, LEMMAS)]
    return [link(*it) for it in named(step.function) + proved][:1]


def operation(path, line):
    """What a step writes to make the operation of a file of src/operations/ that has this line."""
    for text in reversed(path.read_text().split("\n")[:line + 1]):
        joins, function = re.match(r"impl (Split|Join)<\w+> for (\w+)", text), FUNCTION.match(text)
        if joins or function:
            return f"{joins[1].lower()}_seat::<{joins[2]}>" if joins else f"{path.stem}::{function[1]}"
    return "?"


@functools.cache
def functions_of(path):
    """The functions of a file, which is read once."""
    return list(contracts.functions_of(path))


def edits_of(step, tried):
    """The edits of the step's body or of its operation; where there are none, those of the function of `passive_list` that calls it."""
    body, text = step.function, step.function.text
    own = [edit for edit, path, line in tried if path == body.path and body.first <= line <= body.last]
    own += [edit for edit, path, line in tried if path.parent == WORDS / "src/operations" and operation(path, line) in text]
    above = [edit for edit, path, line in tried if path.parent == LIST and any(
        it.first <= line <= it.last and re.search(rf"\b{body.name}\(", it.text) for it in functions_of(path))]
    return [link(it.name, file_of(it.crate)) + (" *" if it.kind == PROVER else "") for it in once(own or above)]


def quoted(names):
    return [f"`{it}`" for it in names]


def row(step, tried):
    """What is listed of a step, by LISTED's names."""
    event, function = step.event, step.function
    found = (quoted(definitions(event)), [link(function.name, function.path)], cited(step), step_lemma(step) + quoted(keeping(event)),
             quoted(method(event)), edits_of(step, tried))
    return dict(zip(LISTED, found))


def faults(event, rows):
    """What an event lacks: a step that makes it, and of each such step a name of each kind except what its contract cites."""
    if not rows:
        yield f"{event}: no step makes it"
    for it in rows:
        lacks = [kind for kind in ("Definition", "Pure machine", "Edits") if not it[kind]] + ["second lemma"] * (len(it["Lemmas"]) < 2)
        yield "".join(f"{event}, {it['Step'][0]}: no {kind}; " for kind in lacks)


def filled(text, indent=""):
    return textwrap.fill(text, 100, subsequent_indent=indent, break_long_words=False, break_on_hyphens=False)


def section(event, does, rows):
    """The heading of an event, what it does, and a list for each step that makes it."""
    lists = ["\n".join(filled(f"- {kind}: {', '.join(names)}", "  ") for kind, names in it.items() if names) for it in rows]
    return "\n\n".join([f"### `{event}`", filled(f"{does}."), *lists]) + "\n"


def main(words):
    if words not in (["make"], ["check"]):
        sys.exit(__doc__)
    known, edits = events(), [edit for kind in (GATE, PROVER) for crate in CRATES for edit in edits_of_crate(crate, kind)]
    # Each edit for the prover, with each place in a source file that it changes.
    tried = [(edit, path, line) for edit in edits for path, line in places(edit) if path.suffix == ".rt"]
    made = list(steps(known))
    rows = {event: [row(it, tried) for it in made if it.event == event] for event in known}
    text = "\n".join(section(event, does, rows[event]) for event, does in known.items())
    if words == ["make"]:
        PAGE.write_text(TABLE.sub(lambda _: BEGIN + text + END, PAGE.read_text()))
    stale = "" if TABLE.findall(PAGE.read_text()) == [text] else "docs/EVENTS.md: not as tools/event-table.py make writes it"
    return counted([*(fault for event in known for fault in faults(event, rows[event])), stale])


if __name__ == "__main__":
    sys.exit(main(sys.argv[1:]))
