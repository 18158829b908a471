#!/usr/bin/env -S python3 -B
"""Prints what stack each export of the static library takes at most, with all that it calls in the library, in bytes, the deepest first.

  tools/frames.py ARCHIVE [LIMIT]

With a LIMIT it says which exports are above it, and ends with status 1 if there are any. A frame is the deepest that its function's unwind table says. A function
without a table, or whose table counts from another register than the stack pointer, is a fault. What the C library takes in `malloc` and its like isn't counted.
A call through a pointer, and one that comes back to itself, is a fault; a jump through a pointer is that of a table.
"""
import collections
import re
import subprocess
import sys
import tempfile

# A function's head, as objdump prints it.
FUNCTION = re.compile(r"^([0-9a-f]+) <(.*)>:$")
# The unwind table of a function, and a row of one.
TABLE, ROW = re.compile(r" FDE .* pc=([0-9a-f]+)\.\."), re.compile(r"^[0-9a-f]{16} (\w+)(?:\+(\d+))? ")
# What the C library does, by its own names: not counted.
OUTSIDE = {f"{it}@plt" for it in ("malloc", "realloc", "free", "memcpy", "memmove", "memset", "memcmp")}
# Of a processor: how its binutils are called, what a table may count from (the stack pointer, or where a frame of several pages will end), what a call takes,
# what a function that calls none may use beneath the stack pointer, what calls and jumps, and which of these are calls.
Processor = collections.namedtuple("Processor", "prefix bases return_address red_zone calls call")
X86 = Processor("", ("rsp", "r11"), 8, 128, re.compile(r"\t(?P<by>call|j[a-z]+)\s+(?:[0-9a-f]+ <(?P<to>.*?)(?:\+0x[0-9a-f]+)?>|(?P<pointer>\*.*))$"), ("call",))
AARCH64 = Processor("aarch64-linux-gnu-", ("sp", "x9"), 0, 0, re.compile(
    r"\t(?P<by>blr?|br|b\.\w+|b|cbn?z|tbn?z)\t(?:.*, )?(?:[0-9a-f]+ <(?P<to>.*?)(?:\+0x[0-9a-f]+)?>|(?P<pointer>x\d+))(?:\s+//.*)?$"), ("bl", "blr"))


def said(*words):
    return subprocess.run(words, check=True, capture_output=True, text=True).stdout


def frames(processor, library):
    """How deep each function's table goes, by the place where the function begins; None where it doesn't say."""
    found = {}
    for table in said("readelf", "--debug-dump=frames-interp", library).split("\n\n"):
        rows = [ROW.match(line) for line in table.splitlines()]
        depths = [int(it[2]) if it[1] in processor.bases and it[2] else None for it in filter(None, rows)]
        if begins := TABLE.search(table):
            found[int(begins[1], 16)] = None if None in depths else max([processor.return_address, *depths])
    return found


def read(processor, library):
    """Each function with its frame and what it calls."""
    functions, deep, name = {}, frames(processor, library), None
    for line in said(f"{processor.prefix}objdump", "-d", "--no-show-raw-insn", library).splitlines():
        if found := FUNCTION.match(line):
            name = found[2]
            functions[name] = deep.get(int(found[1], 16)), set()
        elif name and (found := processor.calls.search(line)):
            is_call = found["by"] in processor.call
            if is_call and found["pointer"]:
                sys.exit(f"{name} calls through a pointer")
            if not found["pointer"] and (is_call or found["to"] != name):
                functions[name][1].add(found["to"])
    return functions


def deepest(name, functions, processor, above=()):
    """The stack that the function takes with what it calls."""
    if name in OUTSIDE:
        return processor.return_address
    if name not in functions:
        sys.exit(f"{above[-1]} calls {name}, which isn't in the archive")
    if name in above:
        sys.exit(f"{name} comes back to itself")
    frame, calls = functions[name]
    if frame is None:
        sys.exit(f"{name} has no unwind table that counts from the stack pointer")
    return frame + max((deepest(it, functions, processor, (*above, name)) for it in calls), default=processor.red_zone)


def main(archive, limit="inf"):
    processor = AARCH64 if "AArch64" in said("readelf", "-h", archive) else X86
    with tempfile.TemporaryDirectory() as room:
        # Linked, each function has a place of its own, and each call says where it leads.
        library = f"{room}/library.so"
        said(f"{processor.prefix}ld", "-shared", "-Bsymbolic", "--whole-archive", archive, "-o", library)
        functions = read(processor, library)
    # A function of the library's own has its path in its name.
    depths = sorted(((deepest(it, functions, processor), it) for it in functions if re.fullmatch(r"kupaldiz_\w+", it)), reverse=True)
    if not depths:
        sys.exit(f"{archive} has no export")
    for depth, name in depths:
        print(f"{depth:6} {name}")
    return "\n".join(f"above {limit}: {name}" for depth, name in depths if depth > float(limit)) or 0


if __name__ == "__main__":
    sys.exit(main(*sys.argv[1:]))
