#!/usr/bin/env -S python3 -B
"""Puts the figures of a run of bench/big/run into the pages that have them.

    bench/big/figures.py FILE    FILE is below bench/runs

In bench/README.md it replaces what is below the heading FIGURES, up to the next heading, and in the
other pages the numbers that SENTENCES names. It fails if one of these isn't there.
"""
import collections
import pathlib
import re
import sys
import textwrap

ROOT = pathlib.Path(__file__).resolve().parents[2]
FIGURES = "### Figures of tables\n"
MEASURES = "first later absent replace alone pair bytes".split()
SIZES = (100, 1000, 10000, 100000)
ORDER = ("look_up", "roomy", "get", "Table", "urcu-lfht", "ck_ht", "rte_hash", "rwlock", "dashmap",
         "RwLock", "bare-hit", "bare-list")
# The tables, each with its measures, numbers of threads and a heading. A cell has them in turn.
TABLES = (
    ("The first lookup of each name by a thread, with one thread and with four, in nanoseconds:",
     [("first", 1), ("first", 4)]),
    ("Later lookups, the same:", [("later", 1), ("later", 4)]),
    ("Lookups of names that no entry has, the same:", [("absent", 1), ("absent", 4)]),
    ("A replacement with its wait and the free, in nanoseconds: alone, and while three threads "
     "look up:", [("alone", 1), ("replace", 4)]),
    ("Replacements of different names, by one thread and by two at once, in nanoseconds of one "
     "thread for each:", [("alone", 4), ("pair", 4)]),
    ("Bytes for an entry, with one thread and with four:", [("bytes", 1), ("bytes", 4)]),
)


def read(text):
    """The numbers of a run, by contender, threads and names; None for a hyphen."""
    rows = {}
    for words in map(str.split, text.splitlines()[2:]):
        numbers = [None if word == "-" else float(word) for word in words[3:]]
        rows[words[0], int(words[1]), int(words[2])] = dict(zip(MEASURES, numbers))
    return rows


def paragraph(text):
    return textwrap.fill(text, 100, break_on_hyphens=False) + "\n"


def number(value):
    if value is None:
        return "-"
    return f"{value:,.0f}" if value >= 100 else f"{value:.1f}"


def cell(rows, contender, size, columns):
    found = [rows.get((contender, threads, size), {}).get(measure) for measure, threads in columns]
    return "; ".join(map(number, found)) if any(found) else ""


def table(rows, heading, columns):
    yield paragraph(heading)
    yield "| | " + " | ".join(f"{size:,}" for size in SIZES) + " |"
    yield "|---" * (len(SIZES) + 1) + "|"
    for contender in ORDER:
        cells = [cell(rows, contender, size, columns) for size in SIZES]
        if any(cells) and not (contender.startswith("bare") and columns[0][0] == "bytes"):
            yield f"| `{contender}` | " + " | ".join(cells) + " |"
    yield ""


def remembered(rows):
    """What a remembered lookup takes beside a registry of 8, and beside what the caches miss."""
    small, loads = rows["registry", 1, 8]["later"], rows["bare-hit", 1, 8]["later"]
    yield paragraph("A later lookup beside one in a registry of 8, with one thread: the loads are "
                    "`bare-hit` less what it takes with 8 names.")
    yield "| Names | later | registry of 8 | loads | the rest |"
    yield "|---|---|---|---|---|"
    for size in SIZES:
        later = rows["look_up", 1, size]["later"]
        missed = rows["bare-hit", 1, size]["later"] - loads
        numbers = (later, small, missed, later - small - missed)
        yield f"| {size:,} | " + " | ".join(f"{each:.1f}" for each in numbers) + " |"
    yield ""


def rounded(value):
    return f"{value:,.0f}" if value >= 10 else f"{value:.1f}" if value >= 0.1 else f"{value:.1g}"


def ratio(rows, measure, threads, ours, other):
    """How many times as much ours takes as the other: the least and the most of all sizes."""
    def value(contender, size):
        return rows.get((contender, threads, size), {}).get(measure)
    both = [(value(ours, size), value(other, size)) for size in SIZES]
    found = [mine / theirs for mine, theirs in both if mine and theirs]
    return f"{rounded(min(found))} to {rounded(max(found))}" if found else ""


def compared(rows):
    """Losses beside wins."""
    yield paragraph("How many times as long ours takes, or as many bytes, the least and the most "
                    "of all sizes. Above 1 ours loses. Ours are `look_up` and `get`, beside "
                    "`dashmap` `Table`.")
    others = [each for each in ("urcu-lfht", "ck_ht", "rte_hash", "rwlock", "dashmap")
              if (each, 1, 1000) in rows][-4:]
    yield "| | " + " | ".join(f"`{other}`" for other in others) + " |"
    yield "|---" * (len(others) + 1) + "|"
    for title, measure, threads, ours in (
            ("first lookup", "first", 1, "look_up"), ("later lookup", "later", 1, "look_up"),
            ("the same, four threads", "later", 4, "look_up"),
            ("reference and release", "later", 1, "get"), ("absent name", "absent", 1, "look_up"),
            ("replacement alone", "alone", 1, "get"),
            ("replacement beside three readers", "replace", 4, "get"),
            ("bytes, one thread", "bytes", 1, "look_up"),
            ("bytes, four threads", "bytes", 4, "look_up")):
        cells = [ratio(rows, measure, threads, "Table" if other == "dashmap" else ours, other)
                 for other in others]
        yield f"| {title} | " + " | ".join(cells) + " |"
    yield ""


def section(rows, name):
    yield f"[The run](runs/{name}), as `bench/big/figures.py` writes it here.\n"
    yield from compared(rows)
    yield from remembered(rows)
    for heading, columns in TABLES:
        yield from table(rows, heading, columns)
    many = ", ".join(f"{rows['look_up', 8, size]['bytes']:,.0f} with {size:,}" for size in SIZES)
    yield paragraph(f"With eight threads an entry takes, in bytes by names: {many}.")


Sentence = collections.namedtuple("Sentence", "page pattern text")


def sentences(rows):
    """What other pages say: each pattern is there once."""
    def of(threads, size):
        return rows["look_up", threads, size]["bytes"]
    first = [rows["look_up", 1, size]["first"] / 1000 for size in SIZES[1:]]
    return (
        Sentence("packaging/VERSIONS.md",
                 r"With 8 threads it takes [\d,]+ bytes an\s+entry at 10,000 entries and [\d,]+ at "
                 r"100,000; with 4 threads [\d,]+, with one [\d,]+\.",
                 f"With 8 threads it takes {of(8, 10000):,.0f} bytes an\n  entry at 10,000 entries "
                 f"and {of(8, 100000):,.0f} at 100,000; with 4 threads {of(4, 10000):,.0f}, with "
                 f"one {of(1, 10000):,.0f}."),
        Sentence("docs/CHOOSING.md", r"\[[\d.]+ KB with 8(?=\s+threads\])",
                 f"[{of(8, 10000) / 1000:.1f} KB with 8"),
        Sentence("docs/CHOOSING.md", r"\[[\d.]+ to [\d.]+(?=\s+microseconds\])",
                 f"[{min(first):.1f} to {max(first):.1f}"),
        Sentence("docs/HOWTO-RUST.md", r"(?<=takes some )[\d.]+(?= KB, beside \[)",
                 f"{rows['Table', 8, 10000]['bytes'] / 1000:.1f}"),
        Sentence("docs/HOWTO-RUST.md", r"(?<=KB, beside \[)[\d.]+(?=\s+in\s+C\])",
                 f"{of(8, 10000) / 1000:.1f}"),
    )


def put(page, pattern, text):
    path = ROOT / page
    old = path.read_text()
    new, count = re.subn(pattern, lambda _: text, old)
    if count != 1:
        sys.exit(f"{page} has {count} places for: {pattern}")
    path.write_text(new)


def main():
    if len(sys.argv) != 2:
        sys.exit(__doc__)
    run = pathlib.Path(sys.argv[1])
    rows = read(run.read_text())
    text = "\n".join(section(rows, run.name))
    put("bench/README.md", f"(?s){FIGURES}.*?(?=\n## )", f"{FIGURES}\n{text}")
    for sentence in sentences(rows):
        put(*sentence)


if __name__ == "__main__":
    main()
