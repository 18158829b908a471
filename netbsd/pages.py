#!/usr/bin/env python3
"""The manual pages kupaldiz_NAME(3), made from the headers in include/kupaldiz/ beside this file.

    pages.py make      writes them to ../out/made/man
    pages.py write     writes into man/kupaldiz_netbsd.7 the program that it shows, without its first
                       comment, after a line that names the program's file
    pages.py check     compares that program, and looks for the entry of each call and of each macro
                       with parameters
"""
import os
import re
import sys
import textwrap
from pathlib import Path

HERE = Path(__file__).resolve().parent
HEADERS_AT = HERE / "include/kupaldiz"
PAGES = HERE.parent / "out/made/man"
DATE = "November 27, 2026"
# Header, the names under which it is included, and what its page is about.
HEADERS = {
    "cpu": (["sys/cpu.h", "sys/lwp.h"], "threads, and the CPUs that they run on"),
    "pserialize": (["sys/pserialize.h"], "pserialize(9) for threads of user space"),
    "psref": (["sys/psref.h"], "psref(9) for threads of user space"),
    "localcount": (["sys/localcount.h"], "localcount(9) for threads of user space"),
    "locks": (["sys/mutex.h", "sys/condvar.h", "sys/rwlock.h"], "mutex(9), condvar(9) and rwlock(9) for threads of user space"),
    "softint": (["sys/intr.h", "sys/xcall.h", "sys/callout.h"], "softint(9), spl(9), xcall(9) and callout(9) for threads of user space"),
    "workqueue": (["sys/workqueue.h"], "workqueue(9) for threads of user space"),
    "module_hook": (["sys/module_hook.h"], "module_hook(9) for threads of user space"),
    "memory": (["sys/kmem.h", "sys/pool.h", "sys/percpu.h"], "kmem(9), pool(9), pool_cache(9) and percpu(9) for threads of user space"),
    "kernel": (["sys/systm.h", "sys/kthread.h", "sys/proc.h", "sys/module.h", "sys/evcnt.h"], "assertions, panic(9), kthread(9), kpause(9), copy(9)"),
}
# Headers without a page: what each of the others includes.
UNPAGED = {"names", "places", "sys_types"}
# The page that isn't made from a header, and where it shows a program.
OVERVIEW = HERE.parent / "man/kupaldiz_netbsd.7"
SHOWN = re.compile(r'(?<=^\.\\" netbsd/)(\S+)(\n\.Bd -literal\n).*?(?=^\.Ed$)', re.M | re.S)
COMMENT = re.compile(r"/\*(.*?)\*/", re.S)
PROTOTYPE = re.compile(r"^(?:static inline )?((?:[a-z_0-9]+ )+\**)([a-z_0-9]+)\((.*?)\)(?: __attribute__.*)?(?:;| \{.*)?$")
MACRO = re.compile(r"^#define ([A-Za-z_0-9]+)(?:\((.*?)\))?")
# What stands before a parenthesis and is no call.
NO_CALLS = {"__attribute__", "KUPALDIZ_BUILT_FOR"}
TITLES = re.compile(r"([A-Za-z_0-9]+(?:, [A-Za-z_0-9]+)*) - ")


def words_of(comment):
    """The words of a comment, its paragraphs apart."""
    lines = [re.sub(r"^\s*\*? ?", "", line).rstrip() for line in comment.strip().split("\n")]
    return re.sub(r"\n{2,}", "\n\n", "\n".join(lines)).strip()


def split_at_commas(text):
    """The parameters of a prototype."""
    parts, depth, at = [], 0, ""
    for character in text:
        depth += {"(": 1, ")": -1}.get(character, 0)
        if character == "," and depth == 0:
            parts.append(at.strip())
            at = ""
        else:
            at += character
    return [part for part in [*parts, at.strip()] if part]


def prototype_of(line):
    """What a line declares: (type, name, parameters). A macro has no type, and parameters None where it takes none."""
    call, macro = PROTOTYPE.match(line), MACRO.match(line)
    if call:
        return call.group(1).strip(), call.group(2), split_at_commas(call.group(3))
    if macro:
        return "", macro.group(1), None if macro.group(2) is None else split_at_commas(macro.group(2))
    return None


def calls_of(text):
    """Each comment that describes calls, with the prototypes after it: (what is said, prototypes). Among these are the macros that the comment names."""
    found = []
    functions = {one[1] for one in map(prototype_of, text.split("\n")) if one and one[0]}
    comments = list(COMMENT.finditer(text))
    for place, comment in enumerate(comments):
        end = comments[place + 1].start() if place + 1 < len(comments) else len(text)
        said = words_of(comment.group(1))
        head = TITLES.match(said)
        macros = set(head.group(1).split(", ")) - functions if head else set()
        prototypes = [one for one in map(prototype_of, text[comment.end() : end].split("\n")) if one and (one[0] or one[1] in macros)]
        if head and prototypes:
            found.append((said, prototypes))
    return found


def code_of(text):
    """A header without comments, without what stands in braces, and without what is for the preprocessor."""
    code = COMMENT.sub("", text)
    code = re.sub(r"^#(?:.*\\\n)*.*$", "", code, flags=re.M)
    while "{" in code:
        code, before = re.sub(r"\{[^{}]*\}", ";", code), code
        if code == before:
            sys.exit("a brace without another one")
    return code


def named_in(text):
    """The calls and the macros with parameters of a header, by C's punctuation alone: PROTOTYPE has no part in it."""
    declarations = [re.match(r"(?!typedef\b)[^(=]*?\b(\w+)\s*\(", one.strip()) for one in code_of(text).split(";")]
    calls = {one.group(1) for one in declarations if one} - NO_CALLS
    return calls | {name for name in re.findall(r"^#define (\w+)\(", text, re.M) if not name.lower().startswith("kupaldiz_")}


def escaped(line):
    """A line of text that isn't taken for a request."""
    line = line.replace("\\", "\\e")
    return "\\&" + line if line[:1] in {".", "'"} else line


def paragraphs(text):
    """Text of a page: each sentence begins a line, and a row of marked lines is a list."""
    lines = []
    for part in text.split("\n\n"):
        lines.append(".Pp")
        items = re.split(r"\n- |^- ", part)
        lines += sentences(items[0]) if items[0] else []
        if len(items) > 1:
            lines.append(".Bl -bullet -compact")
            for item in items[1:]:
                lines += [".It", *sentences(item)]
            lines.append(".El")
    return lines[1:]


def sentences(text):
    lines = []
    text = text.rstrip() + ("" if text.rstrip()[-1:] in ".:;" else ".")
    for sentence in re.split(r"(?<=[.:;])\s+(?=[A-Z])", " ".join(text.split())):
        lines += [escaped(line) for line in textwrap.wrap(sentence, 76, break_long_words=False, break_on_hyphens=False)]
    return lines


def synopsis(prototype):
    answer, name, parameters = prototype
    if parameters is None:
        return []
    return [*([f'.Ft "{answer}"'] if answer else []), f".Fo {name}", *(f'.Fa "{parameter}"' for parameter in parameters), ".Fc"]


def item(prototypes):
    """The head of a list's item that is about these calls: one line if it fits."""
    names = [f"{'Dv' if parameters is None else 'Fn'} {name}" for _, name, parameters in prototypes]
    line = f".It {' , '.join(names)}"
    return [line] if len(line) <= 80 else [".It Xo", *(f".{name} ," for name in names[:-1]), f".{names[-1]}", ".Xc"]


def page_of(name):
    includes, about = HEADERS[name]
    text = (HEADERS_AT / f"{name}.h").read_text()
    head = words_of(COMMENT.search(text).group(1)).split("\n\n", 1)
    calls = calls_of(text)
    names = sorted({one[1] for _, prototypes in calls for one in prototypes})
    lines = [f'.\\" Made by netbsd/pages.py from netbsd/include/kupaldiz/{name}.h.', f".Dd {DATE}", f".Dt KUPALDIZ_{name.upper()} 3", ".Os", ".Sh NAME"]
    lines += [f".Nm {one} ," for one in names[:-1]] + [f".Nm {names[-1]}", f".Nd {about}", ".Sh LIBRARY", ".Li -lkupaldiz_netbsd", ".Sh SYNOPSIS"]
    lines += [f".In {include}" for include in includes]
    for _, prototypes in calls:
        for prototype in prototypes:
            lines += synopsis(prototype)
    lines += [".Sh DESCRIPTION", *paragraphs(head[1])]
    lines += [".Ss The calls", ".Bl -tag -width Ds"]
    for said, prototypes in calls:
        titles, _, rest = said.partition(" - ")
        lines += [*(item(prototypes) if titles else [".It"]), *paragraphs(rest[0].upper() + rest[1:])]
    lines += [".El", ".Sh SEE ALSO", "kupaldiz_netbsd(7)", ""]
    return "\n".join(lines)


def with_program(text):
    """The overview with its program as it is in the program's file, and how many programs it shows."""
    def lines_of(found):
        program = COMMENT.sub("", (HERE / found[1]).read_text(), count=1).strip("\n")
        return found[1] + found[2] + "".join(f"{escaped(line)}\n" for line in program.split("\n"))
    return SHOWN.subn(lines_of, text)


def check():
    wrong = 0
    text = OVERVIEW.read_text()
    if with_program(text) != (text, 1):
        print(f"{OVERVIEW.name}: doesn't show one program as it is in its file; run netbsd/pages.py write")
        wrong += 1
    for name in HEADERS:
        text = (HEADERS_AT / f"{name}.h").read_text()
        described = {one[1] for _, prototypes in calls_of(text) for one in prototypes}
        for call in sorted(named_in(text) - described):
            print(f"{name}.h: {call} has no entry: it has no comment that describes it, or no declaration in one line")
            wrong += 1
    for name in sorted({header.stem for header in HEADERS_AT.glob("*.h")} - set(HEADERS) - UNPAGED):
        print(f"{name}.h: no page is made of it")
        wrong += 1
    return wrong


def put(page, text):
    """Writes a page that isn't so already, in one step: another process may read it."""
    if not page.exists() or page.read_text() != text:
        page.with_suffix(f".{os.getpid()}").write_text(text)
        os.replace(page.with_suffix(f".{os.getpid()}"), page)


def main():
    if sys.argv[1:] == ["make"]:
        PAGES.mkdir(parents=True, exist_ok=True)
        for name in HEADERS:
            put(PAGES / f"kupaldiz_{name}.3", page_of(name))
    elif sys.argv[1:] == ["write"]:
        put(OVERVIEW, with_program(OVERVIEW.read_text())[0])
    elif sys.argv[1:] == ["check"]:
        sys.exit(check() != 0)
    else:
        sys.exit("usage: pages.py make|write|check")


main()
