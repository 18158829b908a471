"""What the tools share: how checks are counted, and what this machine has."""
import contextlib
import os
import pathlib
import re

ROOT = pathlib.Path(__file__).resolve().parent.parent
GIGABYTE = 1 << 30
# A tool's last line.
LAST_LINE = re.compile(r"^(\d+) passed, (\d+) failed\s*\Z", re.MULTILINE)


def ended(passed, failed):
    """Prints 'N passed, M failed', a tool's last line; the status that goes with it. No check at all is a failure."""
    failed = failed or int(passed == 0)
    print(f"{passed} passed, {failed} failed", flush=True)
    return int(failed > 0)


def counted(faults):
    """Prints the fault of each check as it comes, '' where there is none, and the count; the status that goes with it."""
    passed = failed = 0
    for fault in faults:
        passed, failed = passed + (not fault), failed + bool(fault)
        if fault:
            print(fault, flush=True)
    return ended(passed, failed)


def processors():
    return len(os.sched_getaffinity(0))


def free_memory():
    """The bytes that are free, under the limit of the control group too."""
    found = re.search(r"MemAvailable:\s+(\d+)", pathlib.Path("/proc/meminfo").read_text())
    free = 1024 * int(found[1])
    with contextlib.suppress(OSError, ValueError):
        group = pathlib.Path("/sys/fs/cgroup")
        free = min(free, int((group / "memory.max").read_text()) - int((group / "memory.current").read_text()))
    return free


def at_once(memory):
    """How many commands of this size may run beside each other: as many as there are processors and free memory for."""
    return max(1, min(processors(), int(0.85 * free_memory() // memory)))
