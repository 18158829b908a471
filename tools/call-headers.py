#!/usr/bin/env -S python3 -B
"""Makes what is of each call of kupaldiz.h, kupaldiz_waiting.h and kupaldiz_table.h, from these.

    tools/call-headers.py make      writes kupaldiz_check.h and kupaldiz_tsan.h, from their frames in
                                    c/include, texts.h, checked.h and checked_table.h; all in
                                    out/made/c

Git keeps none of these. Each make makes them first, and so does a build of the archive. A line
'@PART HEADER' of a frame stands for a part that is made of the header's calls:

    @declarations   each call of the checking build, with the place that it is made at
    @macros         what the program's call becomes there
    @names          what the call is called within the checking build
    @edges          what a call that orders memory tells the thread sanitizer

texts.h has what the header says of each result. checked.h has what is looked at before a call, by
its parameters. c/src/check.c has the functions that look, and the few calls that are written by
hand. checked_table.h has the same for kupaldiz_table.h: c/src/check_table.c is compiled of it.
"""
import functools
import importlib
import os
import re
import sys
import textwrap

from checks import ROOT

pages = importlib.import_module("header-pages")

HEADERS = {"kupaldiz.h": "crates/registry_c/include/kupaldiz.h",
           "kupaldiz_waiting.h": "c/include/kupaldiz_waiting.h",
           "kupaldiz_table.h": "c/include/kupaldiz_table.h"}
HANDLE = re.compile(r"struct kupaldiz_(keeper|cpu|passive|local) \*")
LOCAL = re.compile(r"\blocal\b")
ACQUIRED = re.compile(r"^struct kupaldiz_(?:passive|local) \*(\w+)$")
NAME, ENTRY = "const struct kupaldiz_name *", "struct kupaldiz_entry *"
# The frame has the macros of both, which compare the limits first, and declares the first one.
OPEN, OPEN_TABLE = "kupaldiz_open", "kupaldiz_table_open"
BY_HAND = (OPEN, *(f"kupaldiz_{it}" for it in ("close", "copy", "release", "copy_local")))
# What orders memory. Before a call what was written is shown, or is let go of. After one that is
# done what was shown is seen, or nobody uses it any more.
BEFORE = {
    "KUPALDIZ_SHOWN": "attach attach_iface replace replace_iface table_attach table_replace",
    "KUPALDIZ_LET_GO": "exit release try_release_local release_local_locked forget_local "
                       "release_local close table_release table_release_local table_close",
}
AFTER = {
    "KUPALDIZ_SHOWN": "look_up get find enter_find walk acquire get_local acquire_local "
                      "table_look_up table_get table_get_local",
    "KUPALDIZ_LET_GO": "destroy destroy_wait perform_turn perform_wait close table_destroy "
                       "table_perform table_close",
}
# What is looked at before a call of kupaldiz_waiting.h: the functions are check.c's, and those for
# tables check_table.c's.
TAKES = "judge_interlock(interlock);", "judge_may_wait(interlock);"
LIST_TAKES = "judge_interlock(deferred->interlock);", "judge_may_wait(deferred->interlock);"
LOOKED_AT = {
    "interlock_of_mutex": ["learn(&outer, keeper, mutex, false);"],
    "release_local": TAKES[:1],
    "destroy_wait": [*TAKES, "kupaldiz_check_own(interlock, number);"],
    "perform_wait": TAKES,
    **{f"deferred_{it}": ["judge_locked(deferred->interlock);"]
       for it in ("count", "add", "call", "free")},
    "deferred_barrier": LIST_TAKES,
    "reclaimer_start": LIST_TAKES[:1],
    "reclaimer_stop": LIST_TAKES[:1],
    "pool_give": ["kupaldiz_check_left(kupaldiz_pool_cpu(pool));"],
    "table_give": ["judge_left(thread);"],
    "table_destroy": ["judge_own(thread, number, deadline);"],
}


def source(header):
    return (ROOT / HEADERS[header]).read_text()


@functools.cache
def calls_of(header):
    """The calls of a header that are checked: of kupaldiz.h those that take a handle."""
    is_all = header != "kupaldiz.h"
    return [it for it in pages.calls_in(source(header))
            if is_all or any(HANDLE.search(parameter) for parameter in it.parameters)]


def short(call):
    return call.name.removeprefix("kupaldiz_")


def needs_look(call):
    """' KUPALDIZ_MUST_USE' if the call's result must be used."""
    return " KUPALDIZ_MUST_USE" * ("KUPALDIZ_MUST_USE" in call.attributes)


def needed(call):
    """The parameters that are never NULL."""
    places = re.search(r"KUPALDIZ_NONNULL\(([^)]*)\)", call.attributes)
    return {call.parameters[int(it) - 1] for it in places[1].split(",")} if places else set()


def wrapped(text, width=100, joint="\n"):
    """The text in lines; a parameter stays whole."""
    whole = re.sub(r"\w[\w *]*(?=[,)])", lambda it: it[0].replace(" ", "~"), text)
    lines = textwrap.wrap(whole, width, subsequent_indent="    ", break_on_hyphens=False)
    if lines[0] == "enum kupaldiz_result":  # a call's name is on its first line
        name, more = lines[1].strip().split("(", 1)
        lines[:2] = [f"{lines[0]} {name}(", f"    {more}"]
    return joint.join(lines).replace("~", " ")


def given(call):
    return ", ".join(re.search(r"(\w+)$", it)[1] for it in call.parameters)


def head(call, prefix, *more):
    space = "" if call.result.endswith("*") else " "
    parameters = ", ".join([*call.parameters, *more])
    return f"{call.result}{space}kupaldiz_{prefix}_{short(call)}({parameters})"


def function(start, lines):
    return "\n".join([start, "{", *(f"\t{it}" for it in lines), "}"])


def declared(call, _):
    if call.name == OPEN:
        return ""
    return wrapped(head(call, "checked", "KUPALDIZ_FROM") + needs_look(call) + ";")


def macro(call, _):
    if call.name in (OPEN, OPEN_TABLE):
        return ""
    becomes = f"kupaldiz_checked_{short(call)}({given(call)}, KUPALDIZ_AT)"
    return f"#define {call.name}({given(call)}) \\\n\t" + wrapped(becomes, 84, " \\\n\t")


def renamed(call, _):
    return f"#define {call.name}\tkupaldiz_inner_{short(call)}"


def edges(of, call, line):
    """The line for each edge that has the call."""
    return [line.format(edge) for edge, names in of.items() if short(call) in names.split()]


def ordered(call, _):
    """The call under the thread sanitizer, if it orders memory."""
    before = edges(BEFORE, call, "__tsan_release({});")
    after = edges(AFTER, call, "if (result == KUPALDIZ_DONE)\n\t\t__tsan_acquire({});")
    if not before + after:
        return ""
    start = wrapped(f"static inline{needs_look(call)} {head(call, 'tsan')}")
    called = f"enum kupaldiz_result result = {call.name}({given(call)});"
    lines = [*before, wrapped(called, 92, "\n\t"), *after, "return result;"]
    becomes = f"kupaldiz_tsan_{short(call)}({given(call)})"
    return f"{function(start, lines)}\n#define {call.name}({given(call)}) \\\n\t{becomes}"


def acquired(call):
    """The parameter of the reference that the call acquires, or ''."""
    last = ACQUIRED.search(call.parameters[-1])
    return last[1] if last and re.match("get|acquire", short(call)) else ""


def handles_looked_at(call):
    for it in call.parameters:
        if "kupaldiz_keeper *" in it:
            yield "use_locked(keeper);"
        if it.endswith("*cpus"):
            yield "use_all(cpus, count);"
        elif "kupaldiz_cpu *" in it:
            yield "use(CPU, cpu);" if it in needed(call) else "if (cpu != NULL)\n\t\tuse(CPU, cpu);"


def looked_at(call):
    """What is looked at before a call of kupaldiz.h. What it acquires has the entry it writes."""
    yield from handles_looked_at(call)
    taken = acquired(call)
    if taken:
        yield f"judge_pointer({'LOCAL' if taken == 'local' else 'PASSIVE'}, {taken});"
    names = [it.removeprefix(NAME) for it in call.parameters if it.startswith(NAME)]
    entries = [it.removeprefix(ENTRY) for it in call.parameters if it.startswith(ENTRY)]
    entries += [f"&{taken}->entry"] * bool(taken)
    yield from (f"judge_apart({name}, {entry});" for name in names for entry in entries)


def ended(call):
    """The call, and what is done after it."""
    if acquired(call) == "local":
        return f"acquired_local({call.name}({given(call)}), local)"
    if acquired(call):
        return f"acquired({call.name}({given(call)}), reference)"
    return f"end({call.name}({LOCAL.sub('use_local(local)', given(call))}))"


def checked(call, header):
    """The function of the checking build, unless it is written by hand."""
    if call.name in BY_HAND:
        return ""
    if header == "kupaldiz.h":
        lines = [f'begin("{call.name}", file, line);', *looked_at(call),
                 f"return {ended(call)};"]
    else:
        lines = [f'kupaldiz_check_outer("{call.name}", file, line);', *LOOKED_AT.get(short(call), ()),
                 f"return {call.name}({given(call)});"]
    return function(wrapped(head(call, "checked", "KUPALDIZ_FROM")), lines)


PARTS = {"declarations": declared, "macros": macro, "names": renamed, "edges": ordered,
         "functions": checked}


def part(name, header):
    if name not in PARTS or header not in HEADERS:
        sys.exit(f"call-headers: '@{name} {header}' of a frame names nothing")
    texts = (PARTS[name](call, header) for call in calls_of(header))
    return "".join(f"{text}\n" for text in texts if text)


def framed(name):
    """A header that has a frame."""
    frame = (ROOT / f"c/include/{name}.in").read_text()
    return re.sub(r"^@(\w+) (\S+)\n", lambda it: part(it[1], it[2]), frame, flags=re.M)


def texts(_):
    """What the comments say of each result, without the point."""
    body = pages.only(r"^enum kupaldiz_result \{\n(.*?)^\};", source("kupaldiz.h"))[1]
    results = [(it.split(" = ")[0], said.rstrip(".")) for it, said in pages.members(body)]
    return "".join(f'\t[{name}] = "{said}",\n' for name, said in results)


def functions(_):
    return "\n".join(part("functions", header) for header in ("kupaldiz.h", "kupaldiz_waiting.h"))


def table_functions(_):
    return part("functions", "kupaldiz_table.h")


FOLDER = ROOT / "out/made/c"
MADE = {"kupaldiz_check.h": framed, "kupaldiz_tsan.h": framed, "texts.h": texts,
        "checked_table.h": table_functions, "checked.h": functions}
# What they are made from.
FROM = ("tools/call-headers.py", "tools/header-pages.py", *HEADERS.values(),
        "c/include/kupaldiz_check.h.in", "c/include/kupaldiz_tsan.h.in")


def mark_new(file):
    """packaging/places.mk sees by this file whether all are new. If they are, its time stays: else
    each make would link the programs anew that are made of it, also while another process runs
    them."""
    time = file.stat().st_mtime
    if any((ROOT / it).stat().st_mtime > time for it in FROM):
        os.utime(file)


def main(words):
    if words != ["make"]:
        sys.exit(__doc__)
    for name, make in MADE.items():
        pages.write(FOLDER / name, f"/* Made by tools/call-headers.py: don't edit it. */\n{make(name)}")
    mark_new(FOLDER / "checked.h")
    return 0


if __name__ == "__main__":
    sys.exit(main(sys.argv[1:]))
