#!/usr/bin/env -S python3 -B
"""Makes the errors of man/kupaldiz.7 of docs/ERRORS.md: what to do on each.

    tools/errors.py make    writes them into the page, between the two lines that name this tool

tools/check-docs.py looks whether the page has them, and whether docs/ERRORS.md has each result of
kupaldiz.h with its number, and no other.
"""
import re
import sys
import textwrap

from checks import ROOT

TABLE, PAGE = ROOT / "docs/ERRORS.md", ROOT / "man/kupaldiz.7"
HEADER = ROOT / "crates/registry_c/include/kupaldiz.h"
BEGIN, END = '.\\" Made of docs/ERRORS.md by tools/errors.py, down to the next such line.\n', '.\\" tools/errors.py: the end.\n'
ROW = re.compile(r"^\| (\d+) \| `(KUPALDIZ_\w+)` \| (.*) \|$", re.MULTILINE)
RESULT = re.compile(r"^\s*(KUPALDIZ_\w+) = ([1-9]\d*)\b", re.MULTILINE)
LINK = re.compile(r"\[([^\]]*)\]\([^)]*\)")


def made():
    """The list of the page: each error with its number, and what the table says of it."""
    lines = [".Bl -tag -width Ds -compact\n"]
    for number, name, told in ROW.findall(TABLE.read_text()):
        plain = LINK.sub(r"\1", told).replace("`", "").replace("\\", "\\e")
        lines += [f".It Dv {name} Pq {number}\n", "\n".join(textwrap.wrap(plain, 78)), "\n"]
    return "".join([*lines, ".El\n"])


def parted():
    """The page up to the list, the list, and the rest."""
    before, _, rest = PAGE.read_text().partition(BEGIN)
    there, _, after = rest.partition(END)
    return before, there, after


def other_results():
    """The numbers of the results that the table or the header has alone, or has by another name."""
    _, _, rest = HEADER.read_text().partition("\nenum kupaldiz_result {\n")
    results = {(number, name) for name, number in RESULT.findall(rest.partition("\n};")[0])}
    rows = {(number, name) for number, name, _ in ROW.findall(TABLE.read_text())}
    return sorted({int(number) for number, _ in results ^ rows})


def fault():
    """What is wrong with the table or the page, or ''. A tree may have none of them."""
    if not all(it.is_file() for it in (TABLE, PAGE, HEADER)):
        return ""
    if other := other_results():
        return f"docs/ERRORS.md and kupaldiz.h don't have the same results: {other}"
    return "tools/errors.py make writes other errors" if parted()[1] != made() else ""


if __name__ == "__main__":
    if sys.argv[1:] != ["make"]:
        sys.exit(__doc__)
    _before, _, _after = parted()
    PAGE.write_text(_before + BEGIN + made() + END + _after)
