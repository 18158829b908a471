#!/usr/bin/env python3
"""Compares what small programs come to on real threads with what they come to in the explorer.

    beside.py EXPLORER THREADS FIRST COUNT    the two builds of tests/outcomes.c, and the seeds of the random programs

Each outcome of real threads must be among the explorer's. Programs in which the explorer finds a fault, or has more schedules than it tries, aren't run on
threads: so each that is comes to its end, however busy the machine is.
"""
import os
import re
import subprocess
import sys


def outcomes(program, words, **variables):
    """Each program's text, with what is wrong or not tried of it, and its outcomes."""
    ran = subprocess.run([program, "print", *words], stdout=subprocess.PIPE, text=True, check=True, env={**os.environ, **variables})
    said = re.findall(r"^program[^:]*: (.*)\nreduced: \d+ schedules, \d+ outcomes, (.*)\n((?:    .*\n)*)", ran.stdout, re.M)
    return [(text, fault, set(found.splitlines())) for text, fault, found in said]


def main():
    explorer, threads, *words = sys.argv[1:]
    tried = outcomes(explorer, words)
    fit = [it for it in tried if not it[1]]
    seen = outcomes(threads, words, EXPLORER_RUNS="60", EXPLORER_YIELD="1", EXPLORER_SECONDS="3600", OUTCOMES_OF="".join(str(int(not it[1])) for it in tried))
    wrong = 0
    for (text, _, right), (other, fault, found) in zip(fit, seen):
        if other != text or fault or not found <= right:
            wrong += 1
            print(f"{text}: real threads come to {sorted(found - right)} {fault}, and the explorer to {sorted(right)}")
    print(f"{len(fit)} programs: {sum(len(it[2]) for it in seen)} outcomes of real threads are among the explorer's {sum(len(it[2]) for it in fit)}")
    sys.exit(bool(wrong) or not fit or len(seen) != len(fit))


main()
