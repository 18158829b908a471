#!/usr/bin/env python3
"""Compares what is told of the explorer with what it has: told.py points|drivers; the last line is 'N passed, M failed'.

`points`: the calls that the layer shows with those that have a point in the explorer. One without a point must be named here, with the reason.
`drivers`: the table of CASES.md, with what was printed: the output of `drivers` at standard input.
"""
import re
import sys
from pathlib import Path

EXPLORER = Path(__file__).resolve().parent.parent
WITHOUT = {
    "looks at nothing but the thread itself": "assert_sleepable at cpu cpu_softintr_p curcpu curlwp hz kernel_locked kpreempt_disabled set_hz set_strict softnet"
    " pserialize_in_read_section pserialize_not_in_read_section rw_write_held",
    "initialises what no other thread has yet": "kthread_create mutex_obj_alloc percpu_alloc percpu_create pool_cache_init pserialize_create"
    " psref_class_create softint_establish workqueue_create",
    "is made of calls that have points": "module_hook_exit module_hook_set module_hook_tryenter module_hook_unset",
    "ends the thread or the run": "failed failed_with kthread_exit panic",
}
# Those that the explorer has a call of its own for, which says what the step touches.
TOUCHES = set("bind callout_init curlwp_bind curlwp_bindx cv_init mutex_init mutex_ownable mutex_owned pool_init rw_init unbind".split())
PRINTED = r"^([a-z-]+): (\d+) schedules, (\d+) cut short, \d+ states, (\d+) points, \d+ switches$"


def points():
    """How many calls are as they should be, and what is wrong with the others."""
    shown = set(re.findall(r"^\t\tkupaldiz_([a-z0-9_]+);$", (EXPLORER.parent / "netbsd/netbsd.map").read_text(), re.M))
    sources = "".join(file.read_text() for file in sorted((EXPLORER / "src").glob("*.c")))
    wrapped = {re.sub("^kupaldiz_", "", name) for name in re.findall(r"^(?:LAYER|WRAPPED|AROUND|ANSWERED)\([^,]*, ([a-z_]+),", sources, re.M)}
    wrapped -= TOUCHES
    without = TOUCHES | {name for names in WITHOUT.values() for name in names.split()}
    wrong = [f"{name} has no point, and no reason is told" for name in sorted(shown - wrapped - without)]
    wrong += [f"{name} has a point, or is no call" for name in sorted((without & wrapped) | (without - shown))]
    return len(shown) - len(wrong), wrong


def told():
    """The rows of the table, without what the threads do."""
    text = (EXPLORER / "CASES.md").read_text()
    lines = text[text.index("| Case |") :].split("\n\n")[0].splitlines()[2:]
    cells = [[cell.strip().replace(",", "") for cell in line.strip("|").split("|")] for line in lines]
    return {(row[0], *row[2:]) for row in cells}


def drivers():
    """How many rows of the table are what was printed, and what only one of both says."""
    printed = set(re.findall(PRINTED, sys.stdin.read(), re.M))
    wrong = [f"{'only the table' if row in told() else 'only the run'} says: {', '.join(row)}" for row in sorted(told() ^ printed)]
    return len(told() & printed), wrong or ([] if printed else ["nothing was printed"])


def main():
    passed, wrong = points() if sys.argv[1] == "points" else drivers()
    for line in wrong:
        print(line)
    print(f"{passed} passed, {len(wrong)} failed")
    sys.exit(bool(wrong))


main()
