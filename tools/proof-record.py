#!/usr/bin/env -S python3 -B
"""The record of an archive's proof, which lies beside the archive as libkupaldiz.proved.

    tools/proof-record.py begin LIMITS                                  prints the first line of a LOG, before a proof begins: the sum of what is to be proved
    tools/proof-record.py write PROCESSOR LIMITS LOG COMPILED OBJECT    prints the record of an archive that was just made
    tools/proof-record.py check ARCHIVE                                 whether the archive is the recorded one, made from the sources as they stand
    tools/proof-record.py parts                                         the names of the C files in c/src that are joined with the proved object

LIMITS is the limits.rt that is proved, LOG what the proof said, COMPILED the object as the compiler wrote it, OBJECT the one that is in the archive. Each
line of a record is `NAME: TEXT`; its limits are as tools/build-archive.sh takes them. `check` prints one line and ends with status 2 where something differs.
"""
import hashlib
import pathlib
import re
import subprocess
import sys

import limits as chosen
from kit import ROOT, below

LIBRARY = "registry_c"
PARTS = ("heap", "strings")
VERDICT = re.compile(r"^logic=.*$", re.M)
BEGAN = "proved: "
NAMES = ("processor", "limits", "kit", "verdict", "sources", "commit", "compiled", "object")
REMEDY = "tools/build-archive.sh proves and builds it"


class Fault(Exception):
    pass


def said(*words):
    return subprocess.run(words, cwd=ROOT, capture_output=True, text=True, check=True).stdout.strip()


def sum_of(data):
    return hashlib.sha256(data).hexdigest()


def proved():
    """The files that the archive is proved from."""
    folders = [ROOT / "crates" / crate / part for crate in sorted([LIBRARY, *below(LIBRARY)]) for part in ("src", "specs", "proofs")]
    return [ROOT / "crates.txt", *(it for folder in folders for it in sorted(folder.rglob("*")) if it.is_file())]


def sources():
    """All that it is made from: also the headers, and the files in C that are joined with what is proved."""
    return [*proved(), *sorted((ROOT / "crates" / LIBRARY / "include").glob("*.h")), *(ROOT / f"c/src/{it}.c" for it in PARTS)]


def sum_of_files(files, limits):
    """The sum of these, where the file of limits has this text."""
    texts = {str(it.relative_to(ROOT)): it.read_bytes() for it in files}
    texts[chosen.LIMITS] = limits.encode()
    return sum_of("".join(f"{name} {sum_of(text)}\n" for name, text in texts.items()).encode())


def commit():
    """The tree's commit, and whether a source was changed since; `none` outside a repository."""
    try:
        changed = said("git", "status", "--porcelain", "--", "crates", "crates.txt", *(f"c/src/{part}.c" for part in PARTS))
        return said("git", "rev-parse", "HEAD") + ", with changes" * bool(changed)
    except (OSError, subprocess.CalledProcessError):
        return "none"


def begin(limits):
    print(BEGAN + sum_of_files(proved(), pathlib.Path(limits).read_text()))


def write(processor, limits, log, compiled, built):
    lines, text = pathlib.Path(log).read_text(errors="replace"), pathlib.Path(limits).read_text()
    verdict = VERDICT.findall(lines)[-1:]
    if not verdict or not verdict[0].startswith("logic=proved "):
        raise Fault(f"{log} has no last line that begins 'logic=proved': what was built isn't proved")
    if not lines.startswith(f"{BEGAN}{sum_of_files(proved(), text)}\n"):
        raise Fault(f"{log} is of a proof that began with other sources than those that stand")
    sums = (sum_of(pathlib.Path(it).read_bytes()) for it in (compiled, built))
    of = " ".join(chosen.words_of(limits))
    for pair in zip(NAMES, (processor, of, said("rt", "version"), *verdict, sum_of_files(sources(), text), commit(), *sums)):
        print(": ".join(pair))


def read(path):
    """The record at that path."""
    pairs = dict(line.split(": ", 1) for line in path.read_text().splitlines() if ": " in line)
    if lacking := [name for name in NAMES if not pairs.get(name)]:
        raise Fault(f"{path} has no line '{lacking[0]}: ..'")
    return pairs


def sum_in(archive):
    """The sum of the one object that the archive has."""
    listed, whole = (subprocess.run(["ar", *words], capture_output=True) for words in (("t", archive), ("p", archive, "kupaldiz.o")))
    if listed.stdout.split() != [b"kupaldiz.o"]:
        raise Fault(f"{archive} has no object kupaldiz.o, or another one beside it")
    return sum_of(whole.stdout)


def check(name):
    archive = pathlib.Path(name)
    path = archive.with_name(archive.name.replace("_proved.a", ".proved"))
    for needed in (archive, path):
        if not needed.is_file():
            raise Fault(f"there is no {needed}: {REMEDY}")
    record = read(path)
    if sum_in(archive) != record["object"]:
        raise Fault(f"{archive} isn't the archive that {path} tells of: {REMEDY}")
    of = chosen.wanted(record["limits"].split())
    if chosen.name(of) not in ("", archive.parent.name):
        raise Fault(f"{archive} has other limits than the sources as they stand: {REMEDY}")
    if record["sources"] != sum_of_files(sources(), chosen.file(of)):
        raise Fault(f"{archive} was made from other sources than those that stand: {REMEDY}")


def main(use="", *words):
    uses = {"begin": begin, "write": write, "check": check, "parts": lambda: print(*PARTS)}
    if use not in uses:
        sys.exit(__doc__)
    try:
        uses[use](*words)
    except (Fault, chosen.Fault, OSError) as fault:
        print(f"proof-record: {fault}", file=sys.stderr)
        return 2
    return 0


if __name__ == "__main__":
    sys.exit(main(*sys.argv[1:]))
