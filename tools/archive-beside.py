#!/usr/bin/env -S python3 -B
"""Runs `rt ci`, and on the processors that it leaves idle proves and builds the archive for C, and proves its library for aarch64.

    tools/archive-beside.py rt ci

`rt ci` keeps nothing that the static library registry_c could be linked from. So once it says that the libraries beneath are proved, `rattle build` proves and
compiles registry_c over these, for one processor after the other. tools/build-archive.sh makes the archive of the first; where the proof failed, as for
want of memory, it proves once more. The library for another processor is left in out/PROCESSOR, with what the proof said, for tools/build-archive.sh --for
PROCESSOR, which proves it where it isn't there. The last line is that of `rt ci`, with a check more for the archive.
"""
import os
import pathlib
import re
import shutil
import subprocess
import sys
import tempfile
import time
from concurrent.futures import ThreadPoolExecutor

from checks import GIGABYTE, LAST_LINE, ROOT, ended, free_memory
from kit import below, kit, over_libraries
from limits import LIMITS

LIBRARY = "registry_c"
OUT = ROOT / "out"
# The processors that the library is proved for, and what names each to `rattle`. The first one's archive is built here.
PROCESSORS = {"x86_64": (), "aarch64": ("--target", "aarch64-unknown-linux-gnu")}
FIRST, *OTHERS = PROCESSORS
# What a proof of the archive keeps for the next one in this copy of the repository.
KEPT = OUT / "proof"
STANDS = re.compile(r"^rt: (\w+) (?:proved$|is kept: )")
# A check of the library takes at most this; it waits until so much is free.
NEEDS = 2 * GIGABYTE


def build(processor, room, began):
    """Proves and compiles the library once there is memory for it; whether it did."""
    while free_memory() < NEEDS:
        time.sleep(1)
    log, made = room / f"{processor}.log", room / processor / f"lib{LIBRARY}.a"
    made.parent.mkdir()
    words = ["nice", "-n", "10", kit() / "bin/rattle", "build", *over_libraries(LIBRARY, room), "--jobs", "1", *PROCESSORS[processor]]
    words += ["--incremental", KEPT, "--toolchain", kit() / "toolchain", "--backend", "llvm", "-o", made]
    with open(log, "wb", buffering=0) as said:
        said.write(began)
        ran = subprocess.Popen(words, cwd=room / LIBRARY, stdin=subprocess.DEVNULL, stdout=said, stderr=said)
        # Where memory runs out, this is what ends, and no check of rt ci.
        pathlib.Path(f"/proc/{ran.pid}/oom_score_adj").write_text("1000")
        return ran.wait() == 0


def prove(room, began):
    """The processors for which the library is proved over what `rt ci` has proved. That is linked: `rt ci` puts its folders out/ back when it ends."""
    KEPT.mkdir(parents=True, exist_ok=True)
    shutil.copytree(ROOT / "crates" / LIBRARY, room / LIBRARY, ignore=shutil.ignore_patterns("out"))
    for name in below(LIBRARY):
        shutil.copytree(ROOT / "crates" / name / "out/rlib" / f"{name}.rlib", room / f"{name}.rlib", copy_function=os.link)
    return [processor for processor in PROCESSORS if build(processor, room, began)]


def follow(command, may_prove):
    """Runs the command, and calls `may_prove` once all beneath the library are proved; the last line, and the status."""
    waits, held = set(below(LIBRARY)), ""
    with subprocess.Popen(command, cwd=ROOT, stdin=subprocess.DEVNULL, stdout=subprocess.PIPE, text=True, errors="replace") as ran:
        for line in ran.stdout:
            print(held, end="", flush=True)
            held = line
            if waits and (stands := STANDS.match(line)) and not (waits := waits - {stands[1]}):
                may_prove()
        return held, ran.wait()


def archive(proved, room):
    """Whether the archive stands, made of what was proved beside, or proved now. Libraries for other processors are left where they are looked for."""
    for processor in set(OTHERS) & set(proved):
        (OUT / processor).mkdir(parents=True, exist_ok=True)
        shutil.copy2(room / f"{processor}.log", OUT / processor / "proof.log")
        shutil.copy2(room / processor / f"lib{LIBRARY}.a", OUT / processor)
    made = [room / FIRST / f"lib{LIBRARY}.a", room / f"{FIRST}.log"] if FIRST in proved else []
    return subprocess.run(["tools/build-archive.sh", *made], cwd=ROOT).returncode == 0


def main(*command):
    if not command:
        sys.exit(__doc__)
    for path in (OUT / "libkupaldiz_proved.a", *(OUT / it / f"lib{LIBRARY}.a" for it in OTHERS)):
        path.unlink(missing_ok=True)
    began = subprocess.run(["tools/proof-record.py", "begin", LIMITS], cwd=ROOT, stdout=subprocess.PIPE, check=True).stdout
    OUT.mkdir(exist_ok=True)
    with tempfile.TemporaryDirectory(prefix="archive-", dir=OUT) as folder, ThreadPoolExecutor(1) as beside:
        room, proofs = pathlib.Path(folder), []
        line, status = follow(command, lambda: proofs.append(beside.submit(prove, room, began)))
        stands = bool(proofs) and archive(proofs[0].result(), room)
    counted = LAST_LINE.match(line)
    if not counted:
        sys.exit(line)
    print("ok     " if stands else "FAILED ", "the archive, proved and built", flush=True)
    passed, failed = int(counted[1]) + stands, int(counted[2]) + (not stands)
    return ended(passed, failed or int(status != 0))


if __name__ == "__main__":
    sys.exit(main(*sys.argv[1:]))
