#!/usr/bin/env python3
"""Plants faults in the seven drivers, one at a time, and lets the explorer look for each. It must find each by the run that is told here.

    faults.py FOLDER WORDS..             plants in a folder, compiles with these words, runs, and prints a table; the last line is 'N passed, M failed'
    faults.py FOLDER --threads WORDS..   the same with real threads, which may miss any

With EXPLORER_FAULTS only those faults whose driver and name fit that pattern, as 'bridge' or 'unload two locks'.

A fault is found where some schedule of its case goes wrong with the line that is told here.
"""
import os
import pathlib
import re
import subprocess
import sys
from typing import NamedTuple

HERE = pathlib.Path(__file__).resolve().parent
EXAMPLES = HERE.parent.parent / "netbsd/examples"


class Fault(NamedTuple):
    driver: str
    case: str
    name: str
    found: tuple    # by which run, and the switches and preemptions of its schedule
    line: str       # what the explorer says, as a pattern
    edits: list     # (before, after) pairs; each `before` is in the driver's file once


FREED = r"data race|use of freed memory|written to freed memory|is not live|being destroyed|being drained|ends by signal 11|AddressSanitizer|status 1"


def block(driver, first, count):
    """So many lines of a driver, from the one on that begins so."""
    lines = (EXAMPLES / f"{driver}.c").read_text().split("\n")
    (at,) = (at for at, line in enumerate(lines) if line.lstrip().startswith(first))
    return "\n".join(lines[at : at + count]) + "\n"


BRIDGE_END = block("bridge", "PSLIST_WRITER_REMOVE(bif, bif_next);", 7)
BRIDGE_ACQUIRE = block("bridge", "psref_acquire(&psref, &bif->bif_psref, sc->sc_class);", 2)
BRIDGE_RELEASE = """		BRIDGE_PSZ_RENTER(s);
		psref_release(&psref, &bif->bif_psref, sc->sc_class);
"""
DETACH = block("ifindex", "atomic_store_release(&iftable->it_entries[index], NULL);", 6)
GROW = block("ifindex", "atomic_store_release(&iftable, new);", 3)
IF_GET = block("ifindex", "if (__predict_true(ifp != NULL))", 3)
DEVSW_END = block("devsw", "atomic_store_relaxed(&devswrefs[major], NULL);", 7)
DEVSW_FIND = block("devsw", "if (ref != NULL)", 3)
DEVSW_RELEASE = block("devsw", "localcount_release(&ref->dr_lc, &device_cv, &device_lock);", 1)
OPEN = block("devsw", "error = (*ref->dr_devsw->d_open)(minor);", 2)
REMOVE = block("ioctl", "PSLIST_WRITER_REMOVE(e, e_link);", 6)
REPLACE = block("ioctl", "PSLIST_WRITER_REMOVE(other, e_link);", 3)
ENTRY_GET = block("ioctl", "if (e != NULL)", 3)
COPYOUT = block("ioctl", "error = copyout(&e->e_content, data, sizeof(e->e_content));", 2)
UNLISTEN = block("rxintr", "PSLIST_WRITER_REMOVE(l, l_link);", 6)
DELIVER = block("rxintr", "psref_acquire(&psref, &l->l_target, listener_class);", 2)
FOUND_HOOK = block("unload", "localcount_acquire(&hook.lc);", 2)
UNHOOK = block("unload", "atomic_store_relaxed(&hook.sc, NULL);", 3)
CALL_HOOK = block("unload", "*answer = value + 1;", 3)
WORK = """		mutex_exit(&sc->sc_lock);
		rw_enter(&sc->sc_rwlock, RW_WRITER);
		sc->sc_seen = ticks;
		rw_exit(&sc->sc_rwlock);
		mutex_enter(&sc->sc_lock);
"""
DYING = """	mutex_enter(&sc->sc_lock);
	sc->sc_dying = true;
	cv_broadcast(&sc->sc_cv);
"""


def swapped(text, first, second):
    """The text with two of its lines in each other's place."""
    lines = text.split("\n")
    lines[first], lines[second] = lines[second], lines[first]
    return "\n".join(lines)


def without(text, *places):
    return "\n".join(line for place, line in enumerate(text.split("\n")) if place not in places)


FAULTS = [
    Fault("bridge", "bridge", "a perform forgotten", (27, 2, 1), FREED, [(BRIDGE_END, without(BRIDGE_END, 1))]),
    Fault("bridge", "bridge", "a link cleared before the perform", (1, 1, 0), r"data race", [
        (BRIDGE_END, BRIDGE_END.replace("	PSLIST_ENTRY_DESTROY(bif, bif_next);\n", "").replace(
            "	BRIDGE_PSZ_PERFORM(sc);\n", "	PSLIST_ENTRY_DESTROY(bif, bif_next);\n	BRIDGE_PSZ_PERFORM(sc);\n"))]),
    Fault("bridge", "bridge", "a psref acquired after the section", (26, 2, 1), FREED, [(BRIDGE_ACQUIRE, swapped(BRIDGE_ACQUIRE, 0, 1))]),
    Fault("bridge", "bridge", "a free before the destroy", (1, 0, 0), FREED, [
        (BRIDGE_END, without(BRIDGE_END, 6).replace("	psref_target_destroy", "	kmem_free(bif, sizeof(*bif));\n	psref_target_destroy"))]),
    Fault("bridge", "bridge", "a release before the section in which the link is followed", (9, 2, 1), FREED, [
        (BRIDGE_RELEASE, swapped(BRIDGE_RELEASE, 0, 1))]),
    Fault("bridge", "bridge", "a reference kept over unbind", (1, 0, 0), r"curlwp_bindx: the thread has passive references|is held already", [
        (BRIDGE_RELEASE, without(BRIDGE_RELEASE, 1))]),
    Fault("ifindex", "ifindex", "a perform forgotten", (5, 2, 1), FREED, [(DETACH, without(DETACH, 1))]),
    Fault("ifindex", "growth", "the old table freed before the perform", (1, 1, 0), FREED, [(GROW, swapped(GROW, 1, 2))]),
    Fault("ifindex", "ifindex", "a psref acquired after the section", (3, 2, 1), FREED, [
        (IF_GET, IF_GET.replace("	pserialize_read_exit(s);\n", "").replace("	if (__predict", "	pserialize_read_exit(s);\n	if (__predict"))]),
    Fault("ifindex", "ifindex", "a free before the destroy", (1, 1, 0), FREED, [(DETACH, swapped(DETACH, 4, 5))]),
    Fault("ifindex", "ifindex", "a thread that isn't bound", (1, 0, 0), r"psref_acquire: the thread is not bound", [
        ("	bound = curlwp_bind();\n", "	bound = 1;\n"), ("	curlwp_bindx(bound);\n", "	(void)bound;\n")]),
    Fault("ifindex", "ifindex", "a reference kept over unbind", (1, 0, 0), r"the thread has passive references", [
        ("	if_put(ifp, &psref);\n", "	if (!sent)\n		if_put(ifp, &psref);\n")]),
    Fault("devsw", "devsw", "a perform forgotten", (6, 2, 1), FREED, [(DEVSW_END, without(DEVSW_END, 1))]),
    Fault("devsw", "devsw", "a drain before the unlinking", (6, 1, 1), FREED, [
        (DEVSW_END, "	localcount_drain(&ref->dr_lc, &device_cv, &device_lock);\n" + without(DEVSW_END, 2))]),
    Fault("devsw", "devsw", "a count acquired after the section", (4, 2, 1), FREED, [
        (DEVSW_FIND, "	pserialize_read_exit(s);\n" + without(DEVSW_FIND, 2))]),
    Fault("devsw", "devsw", "a count released twice", (1, 0, 0), r"no reference to the count is held|is not live|freed", [
        (DEVSW_RELEASE, DEVSW_RELEASE * 2)]),
    Fault("devsw", "devsw", "the wrong lock", (1, 1, 0), r"the interlock differs", [
        ("static kmutex_t		device_lock;\n", "static kmutex_t		device_lock, other_lock;\n"),
        ("	mutex_init(&device_lock, MUTEX_DEFAULT, IPL_NONE);\n", "	mutex_init(&device_lock, MUTEX_DEFAULT, IPL_NONE);\n	mutex_init(&other_lock, MUTEX_DEFAULT, IPL_NONE);\n"),
        (DEVSW_RELEASE, DEVSW_RELEASE.replace("&device_lock", "&other_lock"))]),
    Fault("devsw", "devsw", "a release forgotten", (1, 1, 0), r"waits in localcount_drain at .* for 1 reference, acquired by thread \"open\" at ", [
        (OPEN, without(OPEN, 1))]),
    Fault("ioctl", "ioctl", "a perform forgotten", (5, 2, 1), FREED, [(REMOVE, without(REMOVE, 1))]),
    Fault("ioctl", "replace", "a perform forgotten where an entry is replaced", (5, 2, 1), FREED, [(REPLACE, without(REPLACE, 1))]),
    Fault("ioctl", "ioctl", "a copy to the user inside the section", (1, 0, 0), r"copyout: inside a read section", [
        (ENTRY_GET, without(ENTRY_GET, 2)), (COPYOUT, COPYOUT.replace("	psref_release", "	pserialize_read_exit(0);\n	psref_release"))]),
    Fault("ioctl", "ioctl", "a free before the destroy", (1, 1, 0), FREED, [(REMOVE, swapped(without(REMOVE, 4), 3, 4))]),
    Fault("ioctl", "ioctl", "a psref acquired after the section", (3, 2, 1), FREED, [
        (ENTRY_GET, "	pserialize_read_exit(s);\n" + without(ENTRY_GET, 2))]),
    Fault("ioctl", "ioctl", "a destroy with the lock that a holder waits for", (3, 1, 1),
        r"deadlock: .*psref_target_destroy|deadlock: .*mutex_enter", [
        (REMOVE, swapped(REMOVE, 2, 3)), (COPYOUT, COPYOUT.replace("	psref_release", "	mutex_enter(&entry_lock);\n	mutex_exit(&entry_lock);\n	psref_release"))]),
    Fault("rxintr", "rxintr", "a perform forgotten", (14, 3, 1), FREED, [(UNLISTEN, without(UNLISTEN, 1))]),
    Fault("rxintr", "rxintr", "a lock of IPL_NONE in a soft interrupt", (1, 1, 0),
        r"in a soft interrupt, and the lock is of IPL_NONE|at a raised level|with a spin lock", [
        ("	mutex_init(&rxq_lock, MUTEX_DEFAULT, IPL_NET);\n", "	mutex_init(&rxq_lock, MUTEX_DEFAULT, IPL_NONE);\n")]),
    Fault("rxintr", "rxintr", "a packet that is never freed", (1, 3, 0),
        r"left at the end, (one of them )?taken by kmem_intr_alloc at ", [
        ("		rx_deliver(p->p_number);\n		kmem_intr_free(p, sizeof(*p));\n", "		rx_deliver(p->p_number);\n")]),
    Fault("rxintr", "rxintr", "a psref acquired after the section", (13, 3, 1), FREED, [(DELIVER, swapped(DELIVER, 0, 1))]),
    Fault("rxintr", "rxintr", "a free before the destroy", (1, 0, 0), FREED, [
        (UNLISTEN, without(UNLISTEN, 5).replace("	psref_target", "	kmem_free(l, sizeof(*l));\n	psref_target"))]),
    Fault("rxintr", "rxintr", "a sleep at a raised level", (1, 0, 0), r"kmem_intr_alloc: at a raised level", [
        ("KM_NOSLEEP", "KM_SLEEP")]),
    Fault("counters", "counters", "a putref forgotten", (1, 0, 0), r"with its CPU|with preemption", [
        ("		_NET_STATADD(counters, which, number);\n", "		_NET_STATADD_REF(_NET_STAT_GETREF(counters), which, number);\n")]),
    Fault("counters", "counters", "a sum without the cross call", (1, 0, 0), r"KASSERT: not so: ci == curcpu\(\)", [
        ("	percpu_foreach_xcall(counters, XC_HIGHPRI, counters_sum_cpu, sums);\n", "	percpu_foreach(counters, counters_sum_cpu, sums);\n")]),
    Fault("counters", "counters", "a putref too much", (1, 0, 0), r"percpu_putref: without a percpu_getref", [
        ("		_NET_STATADD(counters, which, number);\n", "	{\n		_NET_STATADD(counters, which, number);\n		_NET_STAT_PUTREF(counters);\n	}\n")]),
    Fault("counters", "counters", "the wrong size at the end", (1, 2, 0), r"bytes are given back of", [
        ("	percpu_free(counters, sizeof(uint64_t) * COUNTERS);\n", "	percpu_free(counters, sizeof(uint64_t));\n")]),
    Fault("counters", "counters", "counters that are never freed", (1, 2, 0),
        r"1 block of memory is left at the end, taken by percpu_alloc at ", [
        ("	percpu_free(counters, sizeof(uint64_t) * COUNTERS);\n", "")]),
    Fault("unload", "unload", "a perform forgotten", (959, 2, 1), FREED, [(UNHOOK, without(UNHOOK, 1))]),
    Fault("unload", "unload", "a drain before the unlinking", (959, 1, 1), FREED, [(UNHOOK, UNHOOK.split("\n")[2] + "\n" + without(UNHOOK, 2))]),
    Fault("unload", "unload", "a count acquired after the section", (550, 2, 1), FREED, [(FOUND_HOOK, swapped(FOUND_HOOK, 0, 1))]),
    Fault("unload", "unload", "a broadcast forgotten", (1, 3, 0), r"nobody can go on: .*kthread_join|nobody can go on: .*cv_wait", [
        (DYING, without(DYING, 2))]),
    Fault("unload", "unload", "a wake-up that is lost: the flag set without the lock", (1, 1, 0), r"data race", [
        (DYING, "	sc->sc_dying = true;\n	cv_broadcast(&sc->sc_cv);\n	mutex_enter(&sc->sc_lock);\n")]),
    Fault("unload", "unload", "two locks in two orders", (342, 11, 1), r"deadlock: .*(rw_enter|mutex_enter)", [
        (CALL_HOOK, CALL_HOOK.replace("	*answer", "	mutex_enter(&sc->sc_lock);\n	*answer").replace("	rw_exit", "	mutex_exit(&sc->sc_lock);\n	rw_exit")),
        (WORK, without(WORK, 0, 4))]),
    Fault("unload", "unload", "a callout that is halted with its lock held", (6, 7, 1), r"deadlock: .*callout_halt|deadlock: .*mutex_enter", [
        ("	callout_halt(&sc->sc_callout, &sc->sc_lock);\n", "	callout_halt(&sc->sc_callout, NULL);\n")]),
    Fault("unload", "unload", "a callout that isn't halted", (1, 2, 0),
        r"callout_destroy: the callout is pending|callout_destroy: the callout runs|freed", [
        ("	callout_halt(&sc->sc_callout, &sc->sc_lock);\n", "")]),
    Fault("unload", "unload", "a worker that isn't joined", (1, 2, 0),
        r"freed memory|a thread waits for|of memory (is|are) left|signal 11|status 1", [
        ("	kthread_join(sc->sc_worker);\n", "")]),
]


def plant(fault, folder):
    """Writes the driver with the fault in it. Its file."""
    text = (EXAMPLES / f"{fault.driver}.c").read_text()
    for before, after in fault.edits:
        if text.count(before) != 1:
            sys.exit(f"{fault.driver}, {fault.name}: an edit fits {text.count(before)} times")
        text = text.replace(before, after)
    file = folder / f"{fault.driver}-{FAULTS.index(fault)}.c"
    file.write_text(text)
    return file


def build(words, file, driver, *flags):
    """Compiles the driver, with these flags, and links the cases with it. The program."""
    program = file.with_suffix("")
    driver_words = [word for word in words if not word.endswith((".o", ".a"))]
    others = [word for word in words if word.endswith((".o", ".a")) and not word.endswith(f"driver-{driver}.o")]
    made = file.with_suffix(".o")
    subprocess.run([*driver_words, *flags, f"-I{EXAMPLES}", "-w", "-c", "-o", made, file], check=True)
    subprocess.run([*driver_words, "-o", program, made, *others, "-pthread"], check=True)
    return program


def judge(fault, said):
    """Whether the run tells the fault as it is told here, and what it tells."""
    line = re.search(r": FAULT: (.*)", said)
    counts = re.search(r": found by run (\d+); schedule \S*, switches (\d+), preemptions (\d+)", said)
    if line is None or counts is None:
        return False, said.strip().split("\n")[-1]
    found = tuple(int(it) for it in counts.groups())
    return bool(re.search(fault.line, line[1])) and found == fault.found, f"run {found[0]:>5}, switches {found[1]}, preemptions {found[2]}: {line[1]}"


def chosen():
    """The faults that are planted."""
    pattern = os.environ.get("EXPLORER_FAULTS", "")
    return [fault for fault in FAULTS if re.search(pattern, f"{fault.driver} {fault.name}")]


def run_threads(words, folder):
    """How many runs real threads took for each."""
    for fault in chosen():
        program = build(words, plant(fault, folder), fault.driver)
        ran = subprocess.run([program, fault.case], stdout=subprocess.PIPE, stderr=subprocess.DEVNULL, text=True, check=False)
        runs = re.search(r": (\d+) runs(: FAULT)?", ran.stdout)
        how = "found by run" if runs.group(2) else "not found in"
        print(f"{fault.driver:9} {fault.name:55} {how} {runs.group(1)}", flush=True)


def main():
    words, folder = sys.argv[2:], pathlib.Path(sys.argv[1])
    os.environ["CASES_STRICT"] = "1"
    folder.mkdir(parents=True, exist_ok=True)
    if words[0] == "--threads":
        run_threads(words[1:], folder)
        return
    passed = failed = 0
    for fault in chosen():
        program = build(words, plant(fault, folder), fault.driver, "-fsanitize=thread")
        ran = subprocess.run([program, fault.case], stdout=subprocess.PIPE, stderr=subprocess.DEVNULL, text=True, check=False)
        right, said = judge(fault, ran.stdout)
        passed, failed = passed + right, failed + (not right)
        print(f"{'found ' if right else 'FAILED'} {fault.driver:9} {fault.name:55} {said}", flush=True)
    print(f"{passed} passed, {failed} failed")
    sys.exit(failed != 0)


main()
