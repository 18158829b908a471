#!/usr/bin/env -S python3 -B
"""Makes the manual pages of the calls for C from their headers, which alone say what a call does.

    tools/header-pages.py make      writes out/made/man/PAGE.3 from man/PAGE.3.in and its header, for each page
    tools/header-pages.py check     makes each and writes none; it ends with 'N passed, M failed'

A page's frame, PAGE.3.in, is mdoc with lines that stand for parts of the header or of a program:

    @names              .Nm of each call
    @synopsis           each call as it is declared, by group
    @calls              each group, and what its comments say of its calls
    @types NAME..       these structs, with what their comments say of their members
    @constants NAME     the enum of that name: what the comments say of each
    @example FILE NAME  the function of that name

A comment is in paragraphs and lists of lines that begin with '- '. In it names of calls, constants, `parameters` and other pages are marked up.
"""
import collections
import os
import re
import sys
import textwrap

from checks import ROOT, counted

PAGES = {"kupaldiz": "crates/registry_c/include/kupaldiz.h", "kupaldiz_waiting": "c/include/kupaldiz_waiting.h",
         "kupaldiz_table": "c/include/kupaldiz_table.h"}
WIDTH = 80
FOLDER = ROOT / "out/made/man"

GROUP = re.compile(r"/\* ---- (.*?) ---- \*/")
CALL = re.compile(r"/\*\n \* (kupaldiz_\w+) - ((?:(?!\*/).)*)\*/\n([^;{]*);", re.S)
ATTRIBUTE = re.compile(r"\s+KUPALDIZ_[A-Z_]+(?:\([^)]*\))?")
DECLARATION = re.compile(r"^(.*?)(kupaldiz_\w+)\((.*)\)$", re.S)
# Words of a comment that have a macro of their own, with the marks before and after them.
MARKED = re.compile(
    r"(?P<open>[(\[]?)"
    r"(?:`(?P<code>[^`]+)`|(?P<zero>\{0\})|(?P<call>kupaldiz_\w+)(?!\.h|\(\d\)|\w)|(?P<constant>KUPALDIZ_[A-Z_]+|NULL|CLOCK_MONOTONIC)\b"
    r"|(?P<member>[a-z]+->[a-z]+)|(?P<header>kupaldiz\w*\.h))"
    r"(?P<close>[.,:;)]*)(?=\s|$)")
MACROS = {"code": "Fa", "zero": "Li", "call": "Fn", "constant": "Dv", "member": "Fa", "header": "In"}
# Members of a struct from here on are nobody's but the library's.
PRIVATE = "/* The rest is private. */"
# A call of a header: its name, what its first line says, its comment's other lines, what it returns, its parameters and its attributes.
Call = collections.namedtuple("Call", "name summary comment result parameters attributes")


def plain(text):
    return " ".join(text.split())


def uncommented(lines):
    """The lines of a comment without its stars."""
    return re.sub(r"^ \*(?: |$)", "", lines, flags=re.M).strip("\n")


def calls_in(text):
    for name, comment, declared in CALL.findall(text):
        summary, _, rest = uncommented(comment).partition("\n\n")
        result, _, parameters = DECLARATION.match(plain(ATTRIBUTE.sub("", declared))).groups()
        yield Call(name, plain(summary), rest, result.strip(), [plain(it) for it in parameters.split(",")], " ".join(ATTRIBUTE.findall(declared)))


def groups_of(header):
    """Each group of calls: its title, what is said of all of them, and its calls. Calls before the first group have no title."""
    parts = GROUP.split(header)
    for title, text in zip([""] + parts[1::2], parts[0::2]):
        if calls := list(calls_in(text)):
            head, _, rest = title.partition(". ")
            yield head.rstrip("."), rest, calls


def marked_up(sentence):
    """The lines of a sentence: text is filled, and what has a macro of its own is on a line of its own."""
    lines, at = [], 0
    for found in MARKED.finditer(sentence):
        lines += filled(sentence[at:found.start()])
        kind = found.lastgroup if found.lastgroup != "close" else next(it for it in MACROS if found[it])
        lines.append(" ".join(["." + MACROS[kind], *found["open"], found[kind].replace(" ", "\\ "), *found["close"]]))
        at = found.end()
    return lines + filled(sentence[at:])


def filled(text):
    """The text in lines of the page's width, none of which is taken for a macro."""
    lines = textwrap.wrap(plain(text), WIDTH - 1, break_long_words=False, break_on_hyphens=False)
    return ["\\&" + it if it[0] in ".'" else it for it in lines]


def prose(text):
    """The lines of a text, each sentence on lines of its own."""
    sentences = re.split(r"(?<=[.?!])\s+(?=[A-Z`{(]|kupaldiz_)", plain(text))
    return [line for it in sentences if it for line in marked_up(it)]


def blocks(comment):
    """The paragraphs and list items of a comment, each with whether it is an item."""
    for paragraph in re.split(r"\n\s*\n|\n(?=Returns )", comment):
        if paragraph.startswith("- "):
            yield from ((True, it) for it in re.split(r"\n?^- ", paragraph, flags=re.M) if it)
        elif paragraph.strip():
            yield False, paragraph


def paragraphs(comment):
    """A comment as mdoc: paragraphs apart, and lists."""
    lines, listed = [], False
    for is_item, text in blocks(comment):
        if is_item and not listed:
            lines.append(".Bl -bullet -offset indent -compact")
        if not is_item:
            lines += [".El"] * listed + [".Pp"] * bool(lines)
        lines += [".It"] * is_item + prose(text)
        listed = is_item
    return lines + [".El"] * listed


def names(header):
    calls = [call.name for _, _, calls in groups_of(header) for call in calls]
    return [f".Nm {name}" + " ," * (name != calls[-1]) for name in calls]


def quoted(text):
    return f'"{text}"' if " " in text else text


def synopsis(header):
    lines = []
    for title, _, calls in groups_of(header):
        lines += [f".Ss {title}"] * bool(title)
        for call in calls:
            one_line = " ".join([f".Fn {call.name}", *map(quoted, call.parameters)])
            several = [f".Fo {call.name}", *(f".Fa {quoted(it)}" for it in call.parameters), ".Fc"]
            lines += [f".Ft {quoted(call.result)}", *([one_line] if len(one_line) <= WIDTH else several)]
    return lines


def calls(header):
    """What each call's comment says, under its name and its parameters' names."""
    lines = []
    for title, common, members in groups_of(header):
        lines += [f".Ss {title}"] * bool(title) + prose(common) + [".Bl -tag -width Ds"]
        for call in members:
            names = [re.split(r"[ *]+", it)[-1] for it in call.parameters]
            summary = call.summary if call.summary.startswith("kupaldiz_") else call.summary[0].upper() + call.summary[1:]
            lines += [" ".join([".It Fn", call.name, *names]), *prose(f"{summary}."), *[".Pp"] * bool(call.comment), *paragraphs(call.comment)]
        lines.append(".El")
    return lines


def only(form, text):
    """What has this form in the text."""
    found = re.search(form, text, re.M | re.S)
    if not found:
        raise LookupError
    return found


def members(body):
    """The members of a struct or an enum, each with its comment: the one after it, or the line of comment before it."""
    for before, member, after in re.findall(r"(?:/\* (.*?) \*/\n\s*)?^\s*(\w[^;\n]*?)[;,]?\s*(?:/\* (.*?) \*/)?$", body, re.M):
        yield plain(member), before or after


def types(header, *chosen):
    lines = [".Bl -tag -width Ds"]
    for name in chosen:
        comment, body = only(rf"/\*((?:(?!\*/).)*)\*/\nstruct {name} {{\n(.*?)^}};", header).groups()
        shown = [(member.removesuffix(" {"), said) for member, said in members(body.partition(PRIVATE)[0]) if said != "private"]
        lines += [f".It Vt struct {name}", *paragraphs(uncommented(comment).strip()), ".Bl -tag -width Ds -compact"]
        lines += [line for member, said in shown for line in (".It Vt " + quoted(member), *prose(said))] + [".El"]
    return lines + [".El"]


def constants(header, name):
    body = only(rf"^enum {name} {{\n(.*?)^}};", header)[1]
    items = [line for member, said in members(body) for line in (f".It Dv {member.split(' = ')[0]}", *prose(said))]
    return [".Bl -tag -width KUPALDIZ_SECTIONS_SPENT -offset indent -compact", *items, ".El"]


def example(_, file, name):
    found = only(rf"^[^\n]*\b{name}\([^;{{]*\)\n{{\n.*?^}}\n", (ROOT / file).read_text())
    return [".Bd -literal -offset indent", *found[0].replace("\\", "\\e").splitlines(), ".Ed"]


PARTS = {"names": names, "synopsis": synopsis, "calls": calls, "types": types, "constants": constants, "example": example}


def part(header, line):
    """What a line of the frame stands for."""
    word, *rest = line[1:].split()
    try:
        return PARTS[word](header, *rest)
    except (KeyError, LookupError, OSError, TypeError):
        sys.exit(f"header-pages: '{line}' of the frame names nothing")


def made(page):
    """The page that its frame and its header make."""
    header = (ROOT / PAGES[page]).read_text()
    frame = (ROOT / f"man/{page}.3.in").read_text()
    lines = [f'.\\" Made by tools/header-pages.py from {PAGES[page]} and man/{page}.3.in.']
    for line in frame.splitlines():
        lines += part(header, line) if line.startswith("@") else [line]
    return "\n".join(lines) + "\n"


def write(path, text):
    """Writes a file that isn't so already, in one step: another process may read it."""
    path.parent.mkdir(parents=True, exist_ok=True)
    if not path.exists() or path.read_text() != text:
        new = path.with_suffix(f".{os.getpid()}")
        new.write_text(text)
        os.replace(new, path)


def main(words):
    if words == ["make"]:
        for page in PAGES:
            write(FOLDER / f"{page}.3", made(page))
        return 0
    return counted("" for page in PAGES if made(page)) if words == ["check"] else __doc__


if __name__ == "__main__":
    sys.exit(main(sys.argv[1:]))
