#!/usr/bin/env -S python3 -B
"""Runs groups of the tests in tools/tests by ctest, as many at once as there are processors, and counts.

    tools/run-tests.py GROUP.. [--named WORD..]    all tests of these groups, or those that a word names

A group is a label of ctest's: docs/GATE.md lists them, and says how to run one test by name. A test is
one check, or as many as it counts. One that isn't run, as its program is missing or what it needs failed,
is a failure. The last line is 'N passed, M failed'.
"""
import pathlib
import re
import subprocess
import sys
import tempfile
import xml.etree.ElementTree

import packages
from checks import ROOT, ended, processors

FOLDER = ROOT / "out/tests"
# The last line of tools/tests/counted.sh.
COUNT = re.compile(r"^checks: (\d+) passed, (\d+) failed\s*\Z", re.M)
# ctest keeps this much of what a test prints.
BYTES = str(10_000_000)


def listed():
    """Makes the list of tests anew, also where another tree left one; whether that went well."""
    (FOLDER / "CMakeCache.txt").unlink(missing_ok=True)
    ran = subprocess.run(["cmake", "-S", ROOT / "tools/tests", "-B", FOLDER], stdout=subprocess.PIPE, stderr=subprocess.STDOUT, text=True)
    print("\n".join(re.findall("skipped .*", ran.stdout)) if ran.returncode == 0 else ran.stdout, flush=True)
    return ran.returncode == 0


def any_of(words):
    return "|".join(map(re.escape, words))


def run(groups, names, results):
    """Runs the tests of these groups that a name names, and what they need; ctest's status. It writes the results, as JUnit's, into that file."""
    words = ["--output-on-failure", "--no-tests=error", "--test-output-size-passed", BYTES, "--test-output-size-failed", BYTES]
    words += ["-j", str(processors()), "-L", f"^({any_of(groups)})$", "-R", any_of(names) or ".", "--output-junit", results]
    return subprocess.run(["ctest", "--test-dir", FOLDER, *words]).returncode


def counted(case):
    """How many checks of a test passed and failed."""
    has_run = case.get("status") == "run"
    count = COUNT.search(case.findtext("system-out") or "")
    passed, failed = map(int, count.groups()) if count else (int(has_run), 0)
    return passed, failed or int(not has_run)


def main(words):
    at = words.index("--named") if "--named" in words else len(words)
    groups, names = words[:at], words[at + 1:]
    if not groups or any(it.startswith("-") for it in groups):
        sys.exit(__doc__)
    for package in (lacking := packages.missing(["tests"])):
        print(packages.fault(package))
    if lacking or not listed():
        return ended(0, 1)
    with tempfile.TemporaryDirectory() as room:
        results = pathlib.Path(room, "results.xml")
        status = run(groups, names, results)
        cases = xml.etree.ElementTree.parse(results).findall(".//testcase") if results.is_file() else []
    passed, failed = (sum(it) for it in zip((0, 0), *map(counted, cases)))
    return ended(passed, failed or int(status != 0))


if __name__ == "__main__":
    sys.exit(main(sys.argv[1:]))
