#!/usr/bin/env python3
"""Plants faults in the explorer's reduction, one at a time, each of which some program of the random comparison must tell.

    rules.py FOLDER LINK.. -- COMPILE..    compiles the sources in a folder, links `outcomes` and `programs` with them, and runs these

First those of RULES. Then, for each place of the sources where a step says what it touches: the step doesn't say it; or it says that it reads what it writes.
At last no fault: steps say no more than two things that they touch, and commute with nothing if they touch more. So the outcomes are still the same.
`outcomes` shows what the search with the reduction comes to. A fault is told where that differs from what it comes to without one: in an outcome or a fault,
or at least in the number of runs. It is told, too, where one of the written and random `programs` comes to something else than without the reduction. The last
line is 'N passed, M failed'.
"""
import os
import pathlib
import re
import subprocess
import sys
from concurrent.futures import ThreadPoolExecutor
from itertools import zip_longest
from typing import NamedTuple

SOURCES = pathlib.Path(__file__).resolve().parent.parent / "src"


class Rule(NamedTuple):
    file: str
    name: str       # what holds no more
    before: str     # in the file once
    after: str


RULES = [
    Rule("commute", "a write conflicts with a read", "((one->how | other->how) & WRITES) == 0", "((one->how & other->how) & WRITES) == 0"),
    Rule("commute", "memory conflicts by its bytes", "one->address < other->address + other->size && other->address < one->address + one->size",
         "one->address == other->address && one->size == other->size"),
    Rule("commute", "what touches any CPU touches each", " || one->cpu == ANY || other->cpu == ANY", ""),
    Rule("commute", "an initial comes after no other step", " && !has_earlier(list, count, at)", ""),
    Rule("commute", "each race has an initial of its own among the backtrack points",
         "can & (step->backtrack | step->explored | step->sleeping | UINT32_C(1) << step->chosen)", "step->backtrack | step->explored"),
    Rule("commute", "a step that acquires and releases enables nobody alone", "(first->how & (ACQUIRES | RELEASES)) == RELEASES", "(first->how & RELEASES) != 0"),
    Rule("commute", "a release enables only who waited for it", "(second->how & WAITED) != 0", "(second->how & ACQUIRES) != 0"),
    Rule("commute", "a race that isn't direct plans each thread", "if (races[place].direct)", "if (true)"),
    Rule("commute", "nothing covers a race of the clock's", "step->chosen != CLOCK && ", ""),
    Rule("locks", "who takes a lock at once acquires it", "touch(ON_LOCK, word, 0, ACQUIRES);", "acquire_clock(ON_LOCK, word, 0);"),
    Rule("locks", "who takes a lock at once hasn't waited for it", "(waits ? WAITED : 0)", "WAITED"),
    Rule("softints", "a handler that takes its CPU acquires it", "touch(ON_LOCK, &me->cpu->hold, 0, WRITES | ACQUIRES);",
         "touch(ON_LOCK, &me->cpu->hold, 0, WRITES); acquire_clock(ON_LOCK, &me->cpu->hold, 0);"),
    Rule("commute", "a thread that was disabled is looked for further back", "return (search->steps[earlier].enabled >> step->chosen & 1) != 0;", "return true;"),
    Rule("schedule", "a conflict wakes what sleeps", "if (are_dependent(set, &before->set))", "if (false && are_dependent(set, &before->set))"),
    Rule("schedule", "threads that are disabled at the end race", "	find_races_of_all_disabled(run.finish + 1, enabled_now());", "	;"),
    Rule("schedule", "threads that are disabled at a cut race", "			find_races_of_all_disabled(run.step, enabled);", "			;"),
    Rule("schedule", "the clock that is disabled races", "if ((enabled & bit(CLOCK)) == 0 && run.ticks < options.ticks)", "if (false)"),
    Rule("schedule", "the clock that is disabled waits for deadlines", ", {.size = 1, .kind = ON_DEADLINE, .cpu = ANY}", ""),
    Rule("schedule", "the clock that is disabled writes the time", "{.size = 1, .kind = ON_TIME, .how = WRITES}", "{.size = 1, .kind = ON_TIME}"),
    Rule("schedule", "a soft interrupt waits for its queue", ".kind = ON_PENDING, .cpu =", ".kind = ON_NOTHING, .cpu ="),
    Rule("schedule", "a tick may change places, as long as the clock may jump", "if (run.ticks == options.ticks)\n		make_barrier();", "make_barrier();"),
    Rule("locks", "a wake-up may come to a waiter whose time is over", "is_late(me) || me->may_end != IN_TIME ? 0 : ACQUIRES | WAITED", "ACQUIRES | WAITED"),
]

# What no program tells, by the reasons of REDUCTION.md: the file, the head of a statement, and what isn't told of it.
BOTH = ("untold", "reads")
NEVER_TOLD = [
    # The later step waits until the earlier one is made.
    ("locks", "touch(ON_THREAD, joined, 0, ORDERS", BOTH), ("routine", "touch(ON_THREAD, me, 0, WRITES", BOTH),
    ("more_calls", "touch(ON_XCALL, (const void *)(uintptr_t)", BOTH),
    # It says only that the step had to wait, and the step touches the same otherwise.
    ("calls", "touch(ON_LOCK, &self->cpu->hold, 0, WAITED)", BOTH), ("calls", "touch(ON_LOCK, &me->self->cpu->hold, 0, WAITED)", BOTH),
    ("locks", "touch(ON_LOCK, word, 0, 0)", BOTH),
    # The steps touch something else in common, too, or the other one writes what this one reads.
    ("more_calls", "touch(ON_TARGET, work, 0, WRITES)", BOTH),
    ("locks", "touch(ON_LOCK, word, 0, WRITES | RELEASES)", ("reads",)), ("more_calls", "touch(ON_PENDING, NULL, ANY, WRITES)", ("reads",)),
    ("schedule", "add(&set, of_lock(lock", ("reads",)),
    ("softints", "touch(ON_LOCK, &me->cpu->hold, 0, WRITES | ACQUIRES)", ("reads",)), ("softints", "touch(ON_LOCK, &me->cpu->hold, 0, WRITES | RELEASES)", BOTH),
    # Another order of the same steps has a fault with the same line; or they change nothing any more.
    ("calls", "at_thing(__func__, ON_TARGET, psref_class, 1, WRITES)", BOTH), ("calls", "AT(ON_TARGET, target, WRITES); check_live(__func__, psref_class, 1); touch(", BOTH),
    ("sections", "touch(ON_TARGET, target->prt_class", BOTH), ("calls", "touch(ON_REFERENCES, lc, OF_SETUP", BOTH),
    ("calls", "WRAPPED(void, pserialize_destroy", BOTH), ("schedule", "touch(ON_TARGET, me->target, 0, 0)", BOTH),
    ("calls", "WRAPPED(void, localcount_fini", ("reads",)), ("sections", "touch(ON_REFERENCES, run.current->target, ANY, 0)", BOTH),
    # counts.c tells.
    ("explore", "touch_memory(run.outcome", BOTH),
]

# What a step touches: a kind of thing, or a call that says it; and that it writes that.
KIND = r'(?P<kind>(?:(?<=\btouch\()|(?<=\bAT\()|(?<=at_thing\(__func__, )|(?<="percpu_foreach", ))ON_[A-Z]+)'
CALL = r"(?P<call>\btouch_(?:memory|bound)\((?!const |unsigned ))"
HOW = r"(?P<how>(?<!how = )(?<!& )\bWRITES\b)"
PLANTED = {"kind": "(PLANTED({}) ? UNTOLD : 0) + {}", "call": "PLANTED({}) ? (void)0 : {}", "how": "(PLANTED({}) ? 0 : {})"}
RECORD = "	record_access((struct access){(uintptr_t)address, 1,"
CHOICE = """#include <stdlib.h>
int planted;
__attribute__((constructor)) static void choose(void) { planted = atoi(getenv("PLANTED")); }
"""


def plant_touches(folder):
    """Writes the sources with each fault in them, of which the environment chooses one by its number from 1 on. The names of the faults."""
    names = []

    def plant(found):
        line = found.string.count("\n", 0, found.start())
        what = "reads" if found.lastgroup == "how" else "untold"
        text = found.string.splitlines()[line].strip()
        if any(file.stem == of and what in how and head in text for of, head, how in NEVER_TOLD):
            return found.group()
        names.append(f"{file.stem}.c:{line + 1}: {what}: {text[:90]}")
        return PLANTED[found.lastgroup].format(len(names), found.group())

    (folder / "planted.h").write_text("enum { UNTOLD = 64 };\nextern int planted;\n#define PLANTED(number)	(planted == (number))\n")
    (folder / "planted.c").write_text(CHOICE)
    for file in sorted(SOURCES.glob("*.c")):
        text = re.sub(f"{KIND}|{CALL}|{HOW}", plant, file.read_text())
        if file.stem == "schedule":
            text = text.replace(RECORD, f"	bool told = kind < UNTOLD;\n	kind %= UNTOLD;\n	if (told)\n	{RECORD}")
        (folder / file.name).write_text(text)
    return names


def plant_rule(rule, folder):
    """Writes the file with the fault in it."""
    text = (SOURCES / f"{rule.file}.c").read_text()
    if text.count(rule.before) != 1:
        sys.exit(f"{rule.file}.c, {rule.name}: it fits {text.count(rule.before)} times")
    (folder / f"{rule.file}.c").write_text(text.replace(rule.before, rule.after))


def build(folder, link, words):
    """Compiles the files of the folder, and links both programs with them instead of the library's own. The first one."""
    for file in folder.glob("*.c"):
        subprocess.run([*words, f"-I{SOURCES}", "-w", "-c", "-o", file.with_suffix(".o"), file], check=True)
    for program, test in zip(("outcomes", "programs"), link[1:3]):
        subprocess.run([link[0], "-Wl,-z,now", "-o", folder / program, test, *folder.glob("*.o"), *link[3:], "-pthread"], check=True)
    return folder / "outcomes"


def differs(folder, planted=0):
    """Whether one of some written and random programs comes to something else than without the reduction: which."""
    ran = subprocess.run([folder / "programs", "count", "300", "1"], stdout=subprocess.PIPE, stderr=subprocess.STDOUT, text=True, check=False,
                         env={**os.environ, "PLANTED": str(planted)})
    return ran.stdout.split("\n")[0] if ran.returncode != 0 else None


def run(program, planted=0):
    """What the reduced searches come to: for each program the number of runs, and the rest."""
    ran = subprocess.run([program, "reduced", "1", "0"], stdout=subprocess.PIPE, stderr=subprocess.STDOUT, text=True, check=False,
                         env={**os.environ, "PLANTED": str(planted)})
    return [(re.findall(r"reduced: \d+", each), re.sub(r"reduced: \d+", "", each)) for each in re.split(r"^program", ran.stdout, flags=re.M)]


def holds_with_small_sets(folder, link, words):
    """Whether the outcomes are the same with the reduction and without it where most sets are full."""
    for file in SOURCES.glob("*.[ch]"):
        (folder / file.name).write_text(file.read_text().replace("ACCESSES = 12", "ACCESSES = 2"))
    ran = subprocess.run([build(folder, link, words), "1", "0"], stdout=subprocess.PIPE, text=True, check=False)
    print(f"{'holds  ' if ran.returncode == 0 else 'WRONG  '} with small sets: {ran.stdout.strip()}")
    return ran.returncode == 0


def judge(name, right, said, told=None):
    """Prints by which program a fault is told. Whether it is."""
    pairs = list(zip_longest(said, right, fillvalue=("", "")))
    told = told or next((text for (_, text), (_, other) in pairs if text != other), None)
    counted = next((text for (runs, text), (before, _) in pairs if runs != before), None)
    how = "told   " if told is not None else "counted" if counted is not None else "UNTOLD "
    print(f"{how} {name}: {(told or counted or '').split(chr(10))[0].strip(', ')}", flush=True)
    return told is not None or counted is not None


def main():
    folder, words = pathlib.Path(sys.argv[1]), sys.argv[2:]
    link, compiles = words[: words.index("--")], words[words.index("--") + 1 :]

    def prepared(name):
        (folder / name).mkdir(parents=True, exist_ok=True)
        return folder / name

    touches = prepared("touches")
    names = plant_touches(touches)
    program = build(touches, link, [*compiles, "-include", touches / "planted.h"])
    right = run(program)
    passed = []
    for rule in RULES:
        plant_rule(rule, prepared(rule.name))
        said = run(build(folder / rule.name, link, compiles))
        passed.append(judge(rule.name, right, said, differs(folder / rule.name)))
    with ThreadPoolExecutor(os.cpu_count()) as pool:
        numbers = range(1, len(names) + 1)
        for number, name, said in zip(numbers, names, pool.map(lambda number: run(program, number), numbers)):
            passed.append(judge(name, right, said, differs(touches, number) if said == right else None))
    passed.append(holds_with_small_sets(prepared("small sets"), link, compiles))
    print(f"{sum(passed)} passed, {len(passed) - sum(passed)} failed")
    sys.exit(not all(passed))


main()
