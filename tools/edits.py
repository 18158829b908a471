#!/usr/bin/env -S python3 -B
"""Tries edits, the wrong bodies of crates/*/wrong.edits: the prover, or a test, must refuse each (docs/RECIPES.md).

    tools/edits.py gate                           those of the kind `gate`, and some twenty others
    tools/edits.py all | CRATE | CRATE/EDIT ..    these, of all kinds

The twenty others are chosen by the hash of the tree's files, which no other date or message of the commit changes. The last line is 'N passed, M failed'.

The prover's need crates/*/out/rlib, as `rt ci` builds it. Most of a check's time goes into reading it and, where there is no crates/CRATE/out/incremental,
which `rt check` keeps and `rt ci` doesn't, into the proofs of all that is called. So one check tries edits of several bodies of a crate, one of each function:
it is proved of its own body and of the contracts of what it calls, which stay. What isn't refused so is tried alone.
"""
import collections
import itertools
import pathlib
import re
import shutil
import subprocess
import sys
import tempfile
from concurrent.futures import ThreadPoolExecutor

from checks import GIGABYTE, ROOT, at_once, counted
from contracts import functions_of
from kit import kit, over_libraries
from wrong import CRATES, GATE, PROVER, TESTS, apply, edits_of, places

# How many of the others a gate tries, by their kind. They follow one another in their files, so few crates are read for them.
SAMPLE = {PROVER: 17, TESTS: 3}
# What a check says of a function, of one that only calls what isn't proved, of one whose proof it can't read, of a goal that isn't proved, of code that it
# can't read, and as it ends. A fault of a proof that names what an edit took away says nothing of the edit.
STATE = re.compile(r"^fn (\S+): (.*)$", re.M)
CALLS, UNSEARCHED = re.compile("no proof: it calls "), re.compile(r"no proof: expected answers in \S+$")
GOAL = re.compile(r"^(?:note: |\./)?((?:src|specs|proofs)/\S+:\d+:\d+: (?!.*(?:has no field|is not in scope|has no `|was not admitted)).*(?:not proved|error).*)$", re.M)
UNREAD = re.compile(r"^(?:\./)?((?:src|specs)/\S+:\d+:\d+: error.*)", re.M)
ENDED = re.compile(r"^(?:only|logic)=.*\Z", re.M)


def function_of(edit):
    """The function whose body is all that the edit changes, if there is one."""
    found = [it for path, line in places(edit) if path.suffix == ".rt" for it in functions_of(path) if it.body < line <= it.last]
    return found[0] if len(found) == edit.text.count(" ==>") and len(set(found)) == 1 else None


def asked_for(edit):
    """The functions to check: those of its line `only`, or the one whose body it changes; else none, for the whole crate."""
    function = function_of(edit)
    if named := re.search(r"^    only: (.+)$", edit.text, re.M):
        return named[1].split()
    # A method is named by its type, a function by its module.
    folders = function.path.with_suffix("").parts[len(ROOT.parts) + 3:] if function and "::" not in function.name else ()
    return ["::".join([*(it for it in folders if it not in ("lib", "main", "mod")), function.name])] if function else []


def rounds(edits):
    """The edits as they are tried, one check a round: bodies of several functions together, and what changes anything else alone."""
    found, seen = collections.defaultdict(list), collections.Counter()
    for edit in edits:
        function = None if "    only: " in edit.text else function_of(edit)
        found[seen[function] if function else edit].append(edit)
        seen[function] += 1
    return list(found.values())


def check(edits, kept):
    """Checks the functions of these edits in a copy of their crate; what it says, or which edits don't fit. It begins with what earlier checks kept."""
    crate, only = edits[0].crate, [word for name in sorted({it for edit in edits for it in asked_for(edit)}) for word in ("--only", name)]
    with tempfile.TemporaryDirectory() as room:
        home = shutil.copytree(ROOT / "crates" / crate, f"{room}/crates/{crate}", ignore=shutil.ignore_patterns("out"))
        if misfits := [f"{it}: {why}" for it in edits if (why := apply(it, pathlib.Path(room))[1])]:
            return "\n".join(misfits)
        words = [kit() / "bin/rattle", "check", *over_libraries(crate), "--jobs", "1", "--incremental", kept, *only]
        return subprocess.run(words, cwd=home, stdin=subprocess.DEVNULL, stdout=subprocess.PIPE, stderr=subprocess.STDOUT, text=True, errors="replace").stdout.rstrip()


def is_in(edit, told):
    """Whether what a check told, which begins with its place, is of the edit's own function, or of what is written of its proof."""
    function, (file, line, *_) = function_of(edit), told.split(":")
    is_in_body = function is not None and str(function.path).endswith(f"/{file}") and function.first < int(line) <= function.last + 1
    return is_in_body or any(f"/{it.replace('::', '/')}/" in file for it in asked_for(edit))


def judged(edit, said, is_alone):
    """What refuses the edit, or '', and else what is wrong, by what a check said. Beside others only its own function's goals and search say that it is."""
    names = asked_for(edit)
    own = {path: state for path, state in STATE.findall(said) if not names or any(f"::{path}".endswith(f"::{it}") for it in names)}
    if names and not own or not ENDED.search(said) or UNREAD.search(said):
        return "", f"NOT TRIED: {next(iter(UNREAD.findall(said)), said[-300:])}"
    failed = [state for state in own.values() if state != "proved" and not CALLS.match(state)]
    if not failed:
        return "", f"NOT REFUSED: {', '.join(own) or 'the whole crate'} still proved"
    goals = [it for it in GOAL.findall(said) if is_alone or is_in(edit, it)] or [it for it in failed if it.startswith("no proof") and not UNSEARCHED.match(it)]
    found = [it for it in goals if "gave up at one of its limits" not in it or "Excluded by" in edit.reason + edit.text]
    return (found[0][:200], "") if found else ("", "NOT TRIED: it is refused only because a proof names what it took away, or because a search was cut off")


def by_prover(edits):
    """Each of these edits of a crate with what refuses it, or what is wrong. One that spoils its round is tried alone, and the others together once more."""
    waiting = rounds(edits)
    with tempfile.TemporaryDirectory() as kept:
        for before in {it for edit in edits if (it := ROOT / "crates" / edit.crate / "out/incremental").is_dir()}:
            shutil.copytree(before, kept, dirs_exist_ok=True)
        while waiting:
            those = waiting.pop(0)
            said = check(those, kept)
            spoiling = [it for it in those if f"{it}: " in said or any(is_in(it, error) for error in UNREAD.findall(said))]
            waiting += [rest] if spoiling and (rest := [it for it in those if it not in spoiling]) else []
            for edit in spoiling or those:
                refusal, fault = judged(edit, said, len(those) == 1)
                if refusal or len(those) == 1:
                    yield edit, refusal, fault
                else:
                    waiting.append([edit])


def by_test(edit):
    """An edit with what refuses it, or what is wrong, by the tests of its crate in a copy of the tree; of scripts also by the program's rows."""
    runs = [(["rt", "try", "--test"], f"crates/{edit.crate}", r"^test (\S+).* FAILED$")] * (edit.crate != "registry_run")
    runs += [(["tools/test-program.py", "--try"], ".", r"^(.+):\n  wanted ")] * (edit.crate in ("script_tests", "registry_run"))
    with tempfile.TemporaryDirectory() as room:
        tree = pathlib.Path(shutil.copytree(ROOT, f"{room}/tree", ignore=shutil.ignore_patterns(".git", "out")))
        if misfit := apply(edit, tree)[1]:
            return edit, "", f"NOT TRIED: {misfit}"
        for command, folder, failed in runs:
            ran = subprocess.run(command, cwd=tree / folder, stdout=subprocess.PIPE, stderr=subprocess.STDOUT, text=True, errors="replace")
            if told := re.findall(failed, ran.stdout, re.M):
                return edit, ", ".join(told[:3]), ""
            if ran.returncode:
                return edit, "", f"NOT TRIED: {ran.stdout[-300:]}"
    return edit, "", "NOT REFUSED: all tests pass"


def told(edits):
    """Tries edits, those of a crate one after the other; prints what refuses each, and yields what is wrong with it, or ''."""
    of = [[it for it in edits if it.crate == crate] for crate in dict.fromkeys(it.crate for it in edits)]
    tried = lambda those: [*by_prover([it for it in those if it.kind != TESTS]), *(by_test(it) for it in those if it.kind == TESTS)]
    with ThreadPoolExecutor(at_once(2.5 * GIGABYTE)) as pool:
        for edit, refusal, fault in itertools.chain.from_iterable(pool.map(tried, of)):
            print(f"{edit}: refused: {refusal}\n" if refusal else "", end="", flush=True)
            yield fault and f"{edit}: {fault}"


def named(word):
    """The edits that a word names; of `gate` also some twenty others, chosen by the tree."""
    every = lambda *kinds: [it for crate in CRATES for it in edits_of(crate, *kinds)]
    if word == "gate":
        tree = subprocess.run(["git", "-c", "safe.directory=*", "rev-parse", "HEAD^{tree}"], cwd=ROOT, check=True, stdout=subprocess.PIPE, text=True).stdout
        others = [(every(kind), many) for kind, many in SAMPLE.items()]
        return every(GATE) + [it for those, many in others for it in those[int(tree[:8], 16) % (-(-len(those) // many) or 1) * many:][:many]]
    crate, _, name = word.partition("/")
    return every() if word == "all" else [it for it in edits_of(crate) if name in ("", it.name)] or sys.exit(f"no edit {word}")


if __name__ == "__main__":
    words = sys.argv[1:]
    sys.exit(counted(told([it for word in words for it in named(word)])) if words and not words[0].startswith("-") else __doc__)
