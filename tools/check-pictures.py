#!/usr/bin/env -S python3 -B
"""Looks at the pictures: each of docs/pictures is shown by a page, with the picture's <desc> as its text for who can't see it, and its words fit their boxes.
examples/NAME.svg has each command of NAME.txt and then each line of its report, in their order. docs/layers.svg has the crates of crates.txt, each with an arrow
to each of the nearest that it stands on. The last line is 'N passed, M failed'.
"""
import html
import re
import sys

from checks import ROOT, counted
from kit import listed

PAGES = ("README.md", "docs/*.md", "explorer/README.md", "rust/README.md")
IMAGE = re.compile(r'<img src="([^"]*)"[^>]* alt="([^"]*)"')
BOX = re.compile(r'<rect class="\w+" x="(\d+)" y="(\d+)" width="(\d+)" height="(\d+)"')
TEXT = re.compile(r'<text x="(\d+)" y="(\d+)" class="(\w+)[^>]*>([^<]*)</text>')
# How wide a letter of each style is, in points.
WIDTHS = {"plain": 6.7, "faint": 6.7, "code": 7.3, "name": 7.9}


def too_wide(drawing):
    """The words that begin in a box and end out of it."""
    boxes = [tuple(map(int, it)) for it in BOX.findall(drawing)]
    for x, y, style, text in TEXT.findall(drawing):
        inside = [it for it in boxes if it[0] <= int(x) < it[0] + it[2] and it[1] < int(y) <= it[1] + it[3]]
        if style in WIDTHS and any(int(x) + WIDTHS[style] * len(html.unescape(text)) > it[0] + it[2] for it in inside):
            yield f"no room for: {text}"


def pictures():
    """What is wrong with each picture of docs/pictures, or ''."""
    pages = [page for form in PAGES for page in sorted(ROOT.glob(form))]
    there = {((page.parent / name).resolve(), alt) for page in pages for name, alt in IMAGE.findall(page.read_text())}
    for path in sorted((ROOT / "docs/pictures").glob("*.svg")):
        drawing = path.read_text()
        alt = html.unescape(re.search("<desc>(.*)</desc>", drawing)[1])
        wrong = list(too_wide(drawing))
        wrong += [] if {it for shown, it in there if shown == path} == {alt} else ["no page shows it, or with another text than its <desc>"]
        yield f"docs/pictures/{path.name}: {'; '.join(wrong)}" if wrong else ""


def lacking(lines, texts):
    """The first of the lines that the texts don't have in this order, if any."""
    left = iter(texts)
    return next((line for line in lines if line not in left), "")


def examples():
    """What is wrong with each picture of examples/."""
    for path in sorted((ROOT / "examples").glob("*.svg")):
        texts = [html.unescape(it) for it in re.findall(r"<text[^>]*>([^<]*)</text>", path.read_text())]
        script = path.with_suffix(".txt")
        said, _, report = (script.read_text() if script.is_file() else f"there is no {script.name}").partition("\n# It prints:\n")
        commands = [it for it in said.splitlines() if it and not it.startswith("#")]
        missing = lacking(commands, texts) or lacking([it.removeprefix("# ") for it in report.splitlines()], texts)
        yield f"examples/{path.name}: it should say: {missing}" if missing else ""


def layers():
    """What the picture of the layers lacks, or has too much of. A crate that another one beneath stands on isn't the nearest."""
    crates, drawing = listed(), (ROOT / "docs/layers.svg").read_text()
    boxes = set(re.findall(r'data-crate="(\w+)"', drawing))
    arrows = {" on ".join(it) for it in re.findall(r'data-from="(\w+)" data-to="(\w+)"', drawing)}
    ours = {f"{crate} on {on}" for crate, below in crates.items() for on in below if on in crates and not any(on in crates.get(it, ()) for it in below)}
    for kind, odd in (("crates", boxes ^ set(crates)), ("arrows", arrows ^ ours)):
        yield f"docs/layers.svg, {kind}: {', '.join(sorted(odd))}" if odd else ""


sys.exit(counted([*pictures(), *examples(), *layers()]))
