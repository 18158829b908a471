#!/usr/bin/env -S python3 -B
"""Runs the examples of the documents over both engines, and compares what the program says.

    tools/run-examples.py [--program PROGRAM | --try] [FILE]..
    tools/run-examples.py --steps PAGE

An example is a fenced block `script`, and the block after it: `report`, what the program must print, with nothing on standard error and status 0; or `fault`, what
it must say on standard error, with nothing printed and status 2. A block `session` has both, a command and after two spaces its line of the report. A file
NAME.txt is one example, with its report as comments below `# It prints:`. Without FILE the examples are those of README.md, docs/ and examples/. The program is
./registry_run, which says on standard error if it isn't the proved one (tools/prove-program.sh), or PROGRAM; with --try `rt try` compiles it, without a proof, for
each engine. The last line counts the runs.

With --steps a page's steps are run instead: each block `sh` with a block `text` right after it, which is what its commands print at the top of the tree, on
both streams; the number of a thread may be another one. The tutorial for C needs out/libkupaldiz_proved.a.

Code in the documents must be part of a source, up to blank lines; what isn't is said, and fails. A fenced block `rust` is looked for in
crates/registry_examples/src and in rust/examples, a block `c` in c, netbsd/tests or docs/tutorial, a block `LANGUAGE PATH` in that file alone.
"""
import argparse
import pathlib
import re
import sys

from engines import ROOT, ran, said_when_tried
from checks import counted

ENGINES = ("core", "live")
FENCE = re.compile(r"^```([^\n]*)\n(.*?)^```$", re.MULTILINE | re.DOTALL)
WANTED = {"report": lambda text: (0, text, ""), "fault": lambda text: (2, "", text)}
SOURCES = {"rust": ("crates/registry_examples/src/*.rt", "rust/examples/*.rs"), "c": ("c/**/*.c", "netbsd/tests/**/*.c", "docs/tutorial/**/*.c")}
PAGES = [ROOT / "README.md", *sorted((ROOT / "docs").glob("*.md"))]
STEP = re.compile(r"^```sh\n(.*?)^```\n```text\n(.*?)^```$", re.MULTILINE | re.DOTALL)
THREAD = re.compile(r"\bthread \d+")


def blocks(path):
    """The place, as scripts-70 for line 70 of SCRIPTS.md, the word and the text of each fenced block."""
    text = path.read_bytes().decode()
    for found in FENCE.finditer(text):
        yield f"{path.stem.lower()}-{text.count(chr(10), 0, found.start()) + 1}", found[1], found[2]


def examples(path):
    """The place, the script, the word and the text of the answer of each example."""
    if path.suffix == ".txt":
        script, _, report = path.read_bytes().decode().partition("\n# It prints:\n")
        yield path.stem, script, "report", report.replace("\n# ", "\n").removeprefix("# ")
        return
    none = ("", "", "")
    found = [none, *blocks(path), none]
    for (place, word, text), (after, answers, answer) in zip(found, found[1:]):
        if (word == "script") != (answers in WANTED):
            sys.exit(f"{path.name}: {place or after}: a script without a report or a fault after it, or one of these without a script")
        if word == "script":
            yield place, text, answers, answer
        if word == "session":
            pairs = [re.split(" {2,}", line, maxsplit=1) for line in text.splitlines()]
            yield place, "".join(f"{pair[0]}\n" for pair in pairs), "report", "".join(f"{pair[-1]}\n" for pair in pairs)


def strayed():
    """What is said of each part of code in the documents that is in no source."""
    for page in [*PAGES, ROOT / "rust/README.md"]:
        for place, word, text in blocks(page):
            language, _, path = word.partition(" ")
            forms = [path] if path else SOURCES.get(language, [])
            sources = [file.read_text() for form in forms for file in ROOT.glob(form)]
            parts = text.split("\n\n") if forms else []
            yield from (f"{place}: no example has this code\n{it}" for it in parts if not any(it.strip("\n") in source for source in sources))


def runs(found, program):
    """What is wrong with each example, by each engine of the program, or of the one that `rt try` compiles; '' where nothing is."""
    scripts = {place: script.encode() for place, script, _, _ in found}
    for engine in ENGINES:
        answers = (ran([program, engine], script) for _, script, _, _ in found) if program else said_when_tried([engine], scripts)
        for (place, _, word, text), (status, printed, complained) in zip(found, answers):
            is_right = (status, printed, complained) == WANTED[word](text)
            yield "" if is_right else f"{place} {engine}: status {status}, and it said\n{printed}{complained}and not\n{text}".rstrip("\n")


def steps(page):
    """What is wrong with each step of a page; '' where nothing is."""
    for commands, told in STEP.findall(page.read_text()):
        _, said, _ = ran(["bash", "-ec", f"exec 2>&1 </dev/null\n{commands}"])
        is_told = THREAD.sub("thread", said) == THREAD.sub("thread", told)
        yield "" if is_told else f"{page.name}: it should print\n{told}and it prints\n{said}of\n{commands}".rstrip("\n")


def main():
    parser = argparse.ArgumentParser(description=__doc__.split("\n")[0])
    parser.add_argument("--program", default=ROOT / "registry_run", type=pathlib.Path, help="the program that is run")
    parser.add_argument("--try", dest="tried", action="store_true", help="compile by rt try, without proofs")
    parser.add_argument("--steps", type=pathlib.Path, metavar="PAGE", help="run the steps of a page")
    parser.add_argument("files", nargs="*", type=pathlib.Path, default=[*PAGES, *sorted((ROOT / "examples").glob("*.txt"))])
    options = parser.parse_args()
    if options.steps:
        return counted(steps(options.steps))
    found = [example for path in options.files for example in examples(path)]
    return counted([*strayed(), *runs(found, None if options.tried else options.program.resolve())])


if __name__ == "__main__":
    sys.exit(main())
