#!/usr/bin/env python3
"""Looks for each line by which the layer stops, or says what it waits for, in a test that wants it.

    lines.py    the last line is 'N passed, M failed'
"""
import re
import sys
from pathlib import Path

HERE = Path(__file__).resolve().parent
TESTS = ("misuses", "misuses_of_threads", "lacks", "tells")
# Some files have the same line: each needs a test of its own call.
CALLS = {"rwlock.c": r"rw_[a-z]+", "mutex.c": r"(?:mutex|cv)_[a-z_]+", "callout.c": r"callout_[a-z]+"}
# What a row USES of misuses.c tests of its call, where the thing has this name there.
MADE = re.compile(r'\brequire_made\([^;]*"(the [^"]*)"')
TEXT = re.compile(r'"((?:[^"\\]|\\.)*)"')


def lines():
    """(file, what it says) of each."""
    for file in sorted((HERE.parent / "src").glob("*.c")):
        for call in re.finditer(r"\b(?:stop|stop_if|report|stop_at|enable_preemption)\(([^;]*);", file.read_text()):
            yield from ((file.name, text) for text in TEXT.findall(call.group(1)) if " " in text or "%" in text)
        yield from ((file.name, f"{thing} was destroyed") for thing in MADE.findall(file.read_text()))


def pattern_of(text):
    """What finds it in a test: a conversion is any word or words there."""
    parts = re.split(r"%[a-z]+", text.replace('\\"', '"'))
    return ".{0,60}".join(re.escape(part.replace('"', '\\"')) for part in parts)


def wanted(file, text):
    """What a test has that wants it."""
    made = re.fullmatch("(the .*) was destroyed", text)
    if made:
        return rf"USES\(.*, {CALLS.get(file, 'cv_[a-z_]+')}, [\s\S]*\"{made.group(1)}\""
    return (rf'"{CALLS[file]}: ' if file in CALLS else "") + pattern_of(text)


def main():
    files = {path.stem: path for path in HERE.rglob("*.c")}
    gone = [name for name in TESTS if name not in files]
    if gone:
        sys.exit(f"lines: {gone[0]} isn't there")
    tests = "\n".join(files[name].read_text() for name in TESTS)
    passed = failed = 0
    for file, text in sorted(set(lines())):
        found = re.search(wanted(file, text), tests) is not None
        passed, failed = passed + found, failed + (not found)
        if not found:
            print(f'{file}: no test wants "{text}"')
    print(f"{passed} passed, {failed} failed")
    sys.exit(failed != 0)


main()
