"""Compares the numbers of docs/facts with the sources, and with each place that says them.

tools/check-docs.py runs this. A form below the dashes of docs/facts is found with any numbers in
place of the names in braces. Blanks, line ends and marks of Markdown don't count.
"""
import re
import subprocess

import figures
from checks import ROOT

FACTS = ROOT / "docs/facts"
HEADER = "crates/registry_c/include/kupaldiz.h"
LIMITS = "crates/registry_c/include/kupaldiz_limits.h"
WORDS = "zero one two three four five six seven eight nine ten eleven twelve".split()
NUMBER = rf"(\d+\w*|{'|'.join(WORDS)})"
NAME = re.compile(r"\{(\w+)\}")
# What is no word of a sentence: the target of a link, and marks.
MARKS = re.compile(r"\]\([^)]*\)|[\[\]`*]")


def text_of(path):
    return (ROOT / path).read_text(encoding="utf-8", errors="replace")


def limit(name):
    """A limit of the header, or the power of two that it is."""
    return re.search(rf"^#define KUPALDIZ_MOST_{name}\s+(?:\(UINT64_C\(1\) << )?(\d+)", text_of(LIMITS), re.M)[1]


def lookup(contender, operation="lookup", threads=1):
    """The nanoseconds of an operation of the published run, among eight entries."""
    numbers = figures.block(f"{operation}, ns")[contender]
    return round(float(numbers[1 if threads == 1 else 4]))


def aims(end):
    """How many aims of the published run end so."""
    return len(re.findall(rf", at (?:most|least) .*  {end}$", figures.run(), re.M))


def said_by(*command):
    return subprocess.run(command, cwd=ROOT, check=True, stdout=subprocess.PIPE, text=True).stdout


def thousands(told, *patterns):
    """How many thousand lines these files have: what is told, if it is right within one thousand."""
    listed = said_by("git", "-c", "safe.directory=*", "ls-files", "-z", "--", *patterns)
    lines = sum(text_of(it).count("\n") for it in listed.split("\0") if (ROOT / it).is_file())
    return told if abs(lines - 1000 * int(told)) < 1000 else round(lines / 1000)


def events():
    body = text_of("crates/protocol/src/event.rt").partition("pub enum Event {")[2].partition("\n}")[0]
    return len(re.findall(r"^    [A-Z]\w*\(", body, re.M))


# The lines of these files, in thousands.
LINES = {
    "lines_src": "crates/*/src/*.rt",
    "lines_specs": "crates/*/specs/*.antt",
    "lines_proofs": "crates/*/proofs/*.antt",
    "lines_c": "*.[ch]",
    "lines_rust": "*.rs",
}
OF_LIMITS = {"slots": "SLOTS", "cpus": "CPUS", "changes": "CHANGES", "sections": "SECTIONS", "nested": "DEPTH"}
OF_RUN = {
    "from_c": ("from-C",),
    "from_rust": ("from-Rust",),
    "urcu": ("urcu-memb",),
    "crossbeam": ("crossbeam-epoch",),
    "arc_swap": ("arc-swap",),
    "copy": ("from-C", "look_up"),
    "rust_read": ("from-Rust", "read"),
    "rust_get": ("from-Rust", "get"),
    "rust_copy": ("from-Rust", "look_up"),
    "rwlock": ("pthread_rwlock", "lookup", 4),
    "mutex": ("pthread_mutex", "lookup", 4),
    "from_c_4": ("from-C", "lookup", 4),
}
AIMS = {"aims_met": "met", "aims_in_part": r"met \d+ of \d+", "aims_missed": "missed"}


def sources(facts):
    """What the sources say of facts, by their names."""
    yield "proved", sum(text_of(it).count("no_mangle") for it in ROOT.glob("crates/registry_c/src/*.rt"))
    yield "calls", len(said_by("packaging/calls-of.sh", HEADER).split())
    yield "events", events()
    yield from ((name, limit(it)) for name, it in OF_LIMITS.items())
    yield from ((name, lookup(*it)) for name, it in OF_RUN.items())
    yield from ((name, aims(it)) for name, it in AIMS.items())
    yield from ((name, thousands(facts[name], files)) for name, files in LINES.items())


def read():
    """The facts by their names, and the forms."""
    lines = [it for it in FACTS.read_text().splitlines() if it and not it.startswith("#")]
    middle = lines.index("----")
    return dict(it.split(" = ") for it in lines[:middle]), lines[middle + 1:]


def plain(text):
    return re.sub(r"\s+", " ", MARKS.sub("", text))


def pattern(form):
    """What finds a form: each of its names is a group."""
    pieces = enumerate(NAME.split(plain(form)))
    return re.compile("".join(NUMBER if place % 2 else re.escape(it) for place, it in pieces), re.I)


def value(number):
    """A number as the file has it."""
    return str(WORDS.index(number.lower())) if number.lower() in WORDS else number


def wrong_places(path, facts, forms):
    """Each place of a page that says another number, and the forms that the page has."""
    text = plain(path.read_text(encoding="utf-8", errors="replace"))
    for form in forms:
        names = NAME.findall(form)
        for found in pattern(form).finditer(text):
            is_right = [facts[name] for name in names] == [value(it) for it in found.groups()]
            wanted = ", ".join(f"{name} = {facts[name]}" for name in names)
            yield form, "" if is_right else f"'{found[0]}', and docs/facts has {wanted}"


def compared(pages):
    """What is wrong with the file of facts, and with each page: where, and what."""
    facts, forms = read()
    for name, number in sources(facts):
        told = facts.get(name)
        yield FACTS, "" if told == str(number) else f"{name} = {told}, and the sources have {number}"
    met = set()
    for path in pages:
        found = list(wrong_places(path, facts, forms))
        met.update(form for form, _ in found)
        yield path, "; ".join(fault for _, fault in found if fault)
    unused = [form for form in forms if form not in met]
    yield FACTS, f"no page says: {'; '.join(unused)}" if unused else ""
