#!/usr/bin/env -S python3 -B
"""Makes the tables of bench/README.md from the published run, except those of tables of many names.

    tools/figures.py make    writes each table that follows a line <!-- figures: .. -->

To publish another run, save it in bench/runs, name it here, and make the tables. tools/check-docs.py
looks whether the page has them, and links to this run.
"""
import re
import sys

from checks import ROOT

RUN = "2026-12-01-fast"
PAGE = ROOT / "bench/README.md"
MARKED = re.compile(r"(<!-- figures: (.*) -->\n\n)((?:\|.*\n)*)")
LINKED = re.compile(r"\]\(runs/([\w-]+)\.txt\)")


def run():
    return (ROOT / f"bench/runs/{RUN}.txt").read_text()


def block(head):
    """The rows of the run's block whose first line begins so: each contender's numbers."""
    rows = re.search(rf"^{re.escape(head)}.*\n((?:.+\n)*)", run(), re.M)[1]
    return {words[0]: words[1:] for words in map(str.split, rows.splitlines())}


def operations(names):
    """Nanoseconds on one thread, by the three lists; a contender may lack an operation."""
    found = [block(f"{name}, ns") for name in names]
    yield "", *names
    for who in found[0]:
        yield f"`{who}`", *(", ".join(it.get(who, [])[:3]) for it in found)


def changed(kind):
    """Microseconds with 1, 4 and 8 CPUs and no reader, and with three readers."""
    alone, beside = map(block, re.findall(rf"^{kind}.*$", run(), re.M))
    counts, busy = alone.pop("CPUs"), beside.pop("CPUs")
    for who in alone:
        yield f"`{who}`", ", ".join(alone[who][counts.index(cpus)] for cpus in "148"), beside[who][busy.index("4")]


def changes():
    yield "", "with a gap, no reader", "3 readers", "without a gap, no reader", "3 readers"
    for first, second in zip(changed("replacement with a gap"), changed("replacement without a gap")):
        yield *first, *second[1:]


def waits():
    yield "", "no reader", "3 readers"
    yield from changed("wait until all open sections")


def percentiles():
    yield "", "clock", "read: 50; 99; 99.9", "replace: 50; 99; 99.9"
    for who, numbers in block("one lookup and one replacement").items():
        if who != "clock":
            cells = [f"{int(it):,}" for it in numbers]
            yield f"`{who}`", cells[0], "; ".join(cells[1:4]), "; ".join(cells[4:])


MADE = {"changes": changes, "waits": waits, "percentiles": percentiles}


def row_of(cells):
    return "".join(f"| {it} " if it else "| " for it in cells) + "|\n"


def table(words):
    """The table that a marked line asks for."""
    first, *rows = MADE[words]() if words in MADE else operations(words.split(", "))
    return row_of(first) + "|---" * len(first) + "|\n" + "".join(map(row_of, rows))


def made():
    return MARKED.sub(lambda it: it[1] + table(it[2]), PAGE.read_text())


def fault():
    """What is wrong with the page, or ''. A tree may lack it."""
    if not PAGE.is_file():
        return ""
    others = sorted(it for it in set(LINKED.findall(PAGE.read_text())) - {RUN} if not it.endswith("-tables"))
    if others:
        return f"it links to the runs {', '.join(others)}, and tools/figures.py names {RUN}"
    return "" if PAGE.read_text() == made() else "tools/figures.py make writes other figures"


if __name__ == "__main__":
    if sys.argv[1:] != ["make"]:
        sys.exit(__doc__)
    PAGE.write_text(made())
