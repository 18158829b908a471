#!/usr/bin/env -S python3 -B
"""Makes rust/src/calls.rs: the calls and constants of kupaldiz.h, for the crate and its tests.

    tools/rust-calls.py write     writes it
    tools/rust-calls.py check     writes nothing; it ends with 'N passed, M failed'
"""
import importlib
import re
import sys
import textwrap

from checks import ROOT, counted

pages = importlib.import_module("header-pages")

HEADER = ROOT / "crates/registry_c/include/kupaldiz.h"
MADE = ROOT / "rust/src/calls.rs"
TYPE = re.compile(r"(const )?(?:(enum|struct) )?(\w+) ?(\*?)")
PARAMETER = re.compile(r"(.*?)\s*(\w+)")
WORDS = {"uint64_t": "u64", "size_t": "usize", "void": "c_void", "char": "c_char"}


def typed(of):
    """The type of Rust for one of C."""
    constant, kind, name, star = TYPE.fullmatch(of).groups()
    if kind == "struct":
        plain = name.replace("kupaldiz_", "").capitalize()
    else:
        plain = "c_uint" if kind else WORDS.get(name, name)
    return (f"*{'const' if constant else 'mut'} " if star else "") + plain


def declared(call):
    """A call as Rust declares it."""
    each = [PARAMETER.fullmatch(it).groups() for it in call.parameters if it != "void"]
    given = ", ".join(f"{name}: {typed(of)}" for of, name in each)
    result = "" if call.result == "void" else f" -> {typed(call.result)}"
    return textwrap.fill(f"fn {call.name}({given}){result};", 100, initial_indent="    ", subsequent_indent="        ")


def made():
    text = HEADER.read_text()
    bodies = (pages.only(rf"^enum kupaldiz_{enum} {{(.*?)}};", text)[1] for enum in ("result", "kind", "stage"))
    parts = {"constants": [f"    {it};" for body in bodies for it in re.findall(r"KUPALDIZ_(\w+ = \d+)", body)], "calls": [], "texts": []}
    for call in pages.calls_in(text):
        parts["calls" if call.result.startswith("enum") else "texts"].append(declared(call))
    head = "// Made of kupaldiz.h by tools/rust-calls.py. ffi.rs and common/watched.rs have the macros.\n"
    return head + "".join(f"\n{name}! {{\n" + "\n".join(lines) + "\n}\n" for name, lines in parts.items())


def main(words):
    if words not in (["write"], ["check"]):
        sys.exit(__doc__)
    if words == ["write"]:
        MADE.write_text(made())
    is_made = MADE.exists() and MADE.read_text() == made()
    return counted(["" if is_made else "rust/src/calls.rs isn't what is made of kupaldiz.h: tools/rust-calls.py write makes it"])


if __name__ == "__main__":
    sys.exit(main(sys.argv[1:]))
