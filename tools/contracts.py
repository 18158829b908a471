#!/usr/bin/env -S python3 -B
"""Prints the contract of each public function: its head and its clauses, a block each, sorted.

  tools/contracts.py [REVISION | . [CRATE..]]

Without arguments, or with `.`, it reads the tree that it is in; else a git revision. CRATE.. are the crates to look at: all, if none
is named. A block says the type and the name of the function, not its crate, file or module, so a function that moved prints the same:

  diff <(tools/contracts.py REVISION) <(tools/contracts.py)

shows each contract that is new, gone or otherwise worded since. What the words of a clause mean is in specs/, and isn't compared. Functions of a public
trait count as public; `pub(crate)` ones don't. Other tools find here where each function begins and ends, and the name that the checker prints for it.
"""
import collections
import pathlib
import re
import subprocess
import sys
import tempfile

from checks import ROOT

OWNER = re.compile(r"(?:pub )?(impl|trait)\b(?:<[^{]*?>)?\s*(.*?)\s*(?:where\b.*)?(?:: .*)?\{$")
FUNCTION = re.compile(r'( *)(pub |pub\(crate\) )?(?:final |const |unsafe |extern "C" )*fn (\w+)')
# The head of a trait's methods for a type. The checker's name of such a method begins with both names in one, first the type's.
METHODS = re.compile(r"impl\b(?:<[^{]*?>)?\s*(\w+)(?:<.*>)? for ")
# A function of a file: its lines from the first one on, the one that opens its body, the last one, and the text between.
Function = collections.namedtuple("Function", "path name is_public first body last text")


def contract(lines, indent):
    """The head of the function that begins here and its clauses, up to its body."""
    parts = []
    for line in lines:
        if line in (indent + "{", indent + "{}"):
            break
        last = line.endswith(";") or line.endswith(" {") and not re.match(r"\s*(requires|ensures)\b", line)
        if not parts or re.match(indent + r"    (requires|ensures|\w+ \{)", line):
            parts.append([])
        parts[-1].append(line[:-1].rstrip() if last else line)
        if last:
            break
    # A list on lines of its own reads as one in the line.
    texts = (" ".join(" ".join(part).split()) for part in parts)
    return [re.sub(r",? ([)\]])", r"\1", re.sub(r"([(\[]) ", r"\1", it)) for it in texts]


def body_of(lines, first, indent):
    """The lines that open and close the body of the function which begins here; without a body the line with its semicolon."""
    opens = first if lines[first].endswith(("{", "{}")) else None
    for number in range(first, len(lines)):
        if opens is None and re.fullmatch(rf"{indent}(\{{|\).* \{{)", lines[number]):
            opens = number
        ends = lines[number] in (indent + "}", indent + "{}") or lines[first].endswith("{}")
        if ends or opens is None and lines[number].endswith(";"):
            break
    return number if opens is None else opens, number


def functions_of(path):
    """The functions of a file, public and private."""
    lines, owner, is_trait = path.read_text().split("\n"), "", False
    for number, line in enumerate(lines):
        if found := OWNER.match(line):
            methods = METHODS.match(line)
            owner = re.sub(r"<.*", "", found[2].split(" for ")[-1]) + (methods[1] if methods else "") + "::"
            is_trait = line.startswith("pub trait")
        elif line == "}":
            owner, is_trait = "", False
        if head := FUNCTION.match(line):
            body, last = body_of(lines, number, head[1])
            yield Function(path, owner + head[3], head[2] == "pub " or is_trait, number, body, last, "\n".join(lines[number + 1:last]))


def blocks(path):
    """A block of text for each public function of a file."""
    lines = path.read_text().split("\n")
    for it in functions_of(path):
        if it.is_public:
            head, *clauses = contract(lines[it.first:], re.match(" *", lines[it.first])[0])
            yield "\n".join([it.name, "  " + head, *("    " + clause for clause in clauses)])


def main(revision=".", *crates):
    if revision.startswith("-"):
        sys.exit(__doc__)
    with tempfile.TemporaryDirectory() as room:
        top = ROOT if revision == "." else pathlib.Path(room)
        if revision != ".":
            archive = subprocess.run(["git", "archive", revision, "crates"], cwd=ROOT, check=True, stdout=subprocess.PIPE).stdout
            subprocess.run(["tar", "-x", "-C", room], input=archive, check=True)
        found = [block for crate in crates or "*" for path in top.glob(f"crates/{crate}/src/**/*.rt") for block in blocks(path)]
    print("\n\n".join(sorted(found)))


if __name__ == "__main__":
    main(*sys.argv[1:])
