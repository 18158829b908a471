#!/usr/bin/env -S python3 -B
"""The limits of a build, which crates/registry_values/src/limits.rt has, and for C and Rust kupaldiz_limits.h:

    tools/limits.py check             compares each place that has a limit: 'N passed, M failed'
    tools/limits.py name WORD..       what a build with these limits is called: each that isn't the tree's, as cpus-16-slots-64
    tools/limits.py file WORD..       limits.rt with these limits
    tools/limits.py header WORD..     kupaldiz_limits.h with these limits

WORD.. is --cpus or --slots or both, each with a number in digits or as 2^5. Where it may go from and to is in `LimitsLeaveRoom`, which each build proves.
"""
import pathlib
import re
import sys

from checks import ROOT, counted

LIMITS = "crates/registry_values/src/limits.rt"
ROOM = "crates/registry_values/specs/Limits.antt"
HEADER = "crates/registry_c/include/kupaldiz.h"
# The header of the limits is beside kupaldiz.h, and again in a crate that is used alone. `rt ci` takes no links.
PLACED = ("crates/registry_c/include/kupaldiz_limits.h", "rust/kupaldiz_limits.h")
# The limits that a build may choose, by their words, and where numbers of theirs are.
CHOSEN = {"cpus": "MOST_CPUS", "slots": "MOST_SLOTS"}
PLACES = (("MOST_CPUS", "bench/common.h", r"MOST_THREADS = (\d+)"), ("MOST_SLOTS", "bench/common.h", r"MOST_ENTRIES = (\d+)"),
          ("MOST_SLOTS", "bench/peers/src/list.rs", r"const MOST_ENTRIES: usize = (\d+);"))


class Fault(Exception):
    pass


def text_of(path):
    return (ROOT / path).read_text()


def limits(text=None):
    """Each limit by its name, as limits.rt writes it, or this text of it."""
    return dict(re.findall(r"^pub const ((?:MOST|USUAL)_\w+): \w+ = (\d[\d_]*(?: << \d+)?);", text or text_of(LIMITS), re.M))


def words_of(path):
    """The words that ask for the limits of a file."""
    of = limits(pathlib.Path(path).read_text())
    return [word for flag, it in CHOSEN.items() for word in (f"--{flag}", of[it])]


def given(text):
    """The number that is written in digits, or as 2^40."""
    found = re.fullmatch(r"(\d{1,20})(?: ?\^ ?(\d{1,2}))?", text, re.ASCII)
    return int(found[1]) ** int(found[2] or 1) if found else -1


def wanted(words):
    """The limits that the words name, by their constants."""
    flags, numbers = [it.removeprefix("--") for it in words[::2]], words[1::2]
    if len(set(flags)) != len(numbers) or len(flags) != len(numbers) or not set(flags) <= set(CHOSEN):
        raise Fault(f"{' '.join(words)}: each of --{', --'.join(CHOSEN)} may be given once, with a number")
    for flag, text in zip(flags, numbers):
        usual, most = re.search(rf"\((\w+) ≤ {CHOSEN[flag]}\) × \({CHOSEN[flag]} ≤ (.*)\)", text_of(ROOM)).groups()
        if not int(limits()[usual]) <= given(text) <= given(most):
            raise Fault(f"--{flag} may be {limits()[usual]} to {most}, in digits or as 2^5; it is {text}")
    return {CHOSEN[flag]: str(given(text)) for flag, text in zip(flags, numbers)}


def name(of):
    """What a build with these limits is called, a folder's name."""
    return "-".join(f"{word}-{of[it]}" for word, it in CHOSEN.items() if of.get(it, limits()[it]) != limits()[it])


def file(of):
    """The text of the file of limits with these."""
    text = text_of(LIMITS)
    for constant, number in of.items():
        text = re.sub(rf"^(pub const {constant}: \w+ = ).*;", rf"\g<1>{number};", text, flags=re.M)
    return text


def header(of):
    """The header with these limits, named for them and for the version: the major and the minor one, or from 1 on the major one."""
    cpus, slots = (of.get(it, limits()[it]) for it in CHOSEN.values())
    major, minor = re.findall(r"^#define KUPALDIZ_VERSION_M\w+\t(\d+)$", text_of(HEADER), re.M)
    version = f"0_{minor}" if major == "0" else major
    texts = {"MOST_CPUS": cpus, "MOST_SLOTS": slots, "BUILT_FOR": f"kupaldiz_for_{cpus}_cpus_{slots}_slots_v{version}",
             "BUILD": f'"-{cpus}x{slots}"' if name(of) else '""'}
    return re.sub(rf"^(#define KUPALDIZ_({'|'.join(texts)})\t).*", lambda it: it[1] + texts[it[2]], text_of(PLACED[0]), flags=re.M)


def faults():
    """For each comparison what is wrong, or ''."""
    found = dict(re.findall(r"^#define KUPALDIZ_(MOST_\w+)\t(.*)", text_of(PLACED[0]), re.M))
    in_header = {it: re.sub(r"UINT64_C\((\d+)\)|[()]", r"\1", text) for it, text in found.items()}
    in_code = {it: number for it, number in limits().items() if it.startswith("MOST_")}
    yield "" if in_header == in_code else f"{PLACED[0]} has {in_header}, and {LIMITS} {in_code}"
    for path in PLACED:
        lacking = set(header({}).splitlines()) - set(text_of(path).splitlines())
        yield "" if text_of(path) == header({}) else f"{path} isn't as it should be, and lacks: {'; '.join(sorted(lacking))}"
    for limit, path, pattern in PLACES:
        found = re.search(pattern, text_of(path))
        yield "" if found and found[1] == limits()[limit] else f"{path}: {limit} is {found and found[1]} there, and {limits()[limit]} in {LIMITS}"


def main(use="", *words):
    if use == "check":
        return counted(faults())
    if use not in ("name", "file", "header"):
        sys.exit(__doc__)
    print({"name": f"{name(wanted(words))}\n", "file": file(wanted(words)), "header": header(wanted(words))}[use], end="")
    return 0


if __name__ == "__main__":
    try:
        sys.exit(main(*sys.argv[1:]))
    except (Fault, OSError) as fault:
        print(f"limits: {fault}", file=sys.stderr)
        sys.exit(2)
