#!/usr/bin/env -S python3 -B
"""Adds unwind tables (.eh_frame) to an object of the compiler that has none: unwind-tables.py OBJECT, which is written anew.

The tables are read off the finished code. Of each function every path is followed from its first instruction: what moves the stack pointer says how deep
the stack is at the next one, and a store of a register that a callee keeps says where that is saved. A large frame is made by a loop that touches each
page of it; while it runs another register says where the frame will end. Code that moves the stack pointer otherwise, two paths that meet at different
depths, or a return with something left on the stack is refused.

It wants readelf, and objdump, objcopy, as and ld of the object's processor."""

import re
import subprocess
import sys
import tempfile
from pathlib import Path

LINE = re.compile(r"^\s+([0-9a-f]+):\t(\S+)(?:\s+(.*))?$")
OUT = "out"


class X86:
    """How code of x86-64 moves the stack pointer.

    A depth is how far the stack pointer lies below the frame's address, which is its value before the call. A negative one is how far %r11 lies below it, while
    a loop makes a frame.
    """

    TOOLS = ""
    # What the assembler calls the type of the tables' section.
    SECTION_TYPE = "@unwind"
    # What begins a comment of objdump's.
    COMMENT = "#"
    # DWARF's numbers: of the registers that a callee keeps, of the stack pointer and of what says where a loop ends.
    KEPT = {"%rbx": 3, "%rbp": 6, "%r12": 12, "%r13": 13, "%r14": 14, "%r15": 15}
    STACK, PROBED = 7, 11
    # The return address lies on the stack.
    AT_ENTRY = 8
    # A jump to a place, one by a table, a return, what the next instruction doesn't follow, and what fills up.
    JUMP, TABLE, RETURN, ENDS = map(re.compile, (r"j\w+ (?!\*)", r"jmp\w* \*", r"retq?\b", r"(jmpq?|retq?|ud2)\b"))
    PADDING = re.compile(r"(nop[lw]?|int3|data16|cs|xchg)\b")
    # The loop that makes a large frame: of these the instruction SIZES says how large, and from the instruction SURE on it can be nothing else.
    LOOP = (r"mov %rsp,%r11", r"sub \$(0x[0-9a-f]+)(),%r11", r"sub .*,%rsp", r"movq \$0x0,\(%rsp\)", r"cmp %r11,%rsp", r"jne .*")
    SIZES, SURE = 1, 0
    # The common part of all tables: the address is 8 above the stack pointer, and the return address lies right below it.
    HEAD = ".sleb128 -8\n.uleb128 16, 1\n.byte 0x1b, 0x0c\n.uleb128 7, 8\n.byte 0x90\n.uleb128 1\n"

    @staticmethod
    def after(name, operands, depth, saved):
        """How deep the stack is after the instruction, and where registers are saved: by each its distance from the frame's address."""
        if name == "push":
            if operands in X86.KEPT and operands not in saved:
                saved = {**saved, operands: depth + 8}
            return depth + 8, saved
        if name == "pop":
            if saved.get(operands) == depth:
                saved = {register: at for register, at in saved.items() if register != operands}
            return depth - 8, saved
        if operands.endswith(",%rsp") and name not in ("cmp", "test"):
            found = re.fullmatch(r"\$(-?0x[0-9a-f]+),%rsp", operands)
            assert found and name in ("add", "sub"), f"{name} {operands} isn't understood"
            return depth + int(found[1], 16) * (1 if name == "sub" else -1), saved
        assert name not in ("leave", "enter", "pushf", "popf"), f"{name} isn't understood"
        return depth, saved


class Aarch64:
    """How code of aarch64 moves the stack pointer.

    A depth is how far the stack pointer lies below the frame's address, which is its value before the call. A negative one is how far x9 lies below it, while
    a loop makes a frame. The return address is in x30 until that is saved.
    """

    TOOLS = "aarch64-linux-gnu-"
    SECTION_TYPE = "%progbits"
    COMMENT = "//"
    # As for x86-64, and with the return address.
    KEPT = {f"x{number}": number for number in range(19, 31)}
    STACK, PROBED = 31, 9
    AT_ENTRY = 0
    JUMP, TABLE, RETURN, ENDS = map(re.compile, (r"(b|b\.\w+|cbn?z|tbn?z) ", r"br ", r"ret\b", r"(b|br|ret|brk|udf)( |$)"))
    PADDING = re.compile(r"(nop|udf|\.word|\.inst)\b")
    LOOP = (r"sub x9, sp, #(0x[0-9a-f]+)(, lsl #12)?", r"sub sp, sp, #0x1, lsl #12", r"cmp sp, x9", r"str xzr, \[sp\]", r"b\.ne .*")
    SIZES, SURE = 0, 1
    # The common part of all tables: the address is the stack pointer, and the return address is in x30.
    HEAD = ".sleb128 -8\n.uleb128 30, 1\n.byte 0x1b, 0x0c\n.uleb128 31, 0\n"
    # A move between one or two registers and the stack, whose pointer may move before it or after it.
    MOVED = re.compile(r"(?:(\w+), )?(\w+), \[sp(?:, #(-?\d+))?\](!?)(?:, #(-?\d+))?")
    SIZED = re.compile(r"sp, sp, #(0x[0-9a-f]+)(, lsl #12)?")

    @staticmethod
    def moved(name, found, depth, saved):
        """A store to the stack or a load from it."""
        first, second, offset, before, past = found.groups()
        if before:
            depth, offset = depth - int(offset), 0
        at = depth - int(offset or 0)
        for register in filter(None, (first, second)):
            if name.startswith("st") and register in Aarch64.KEPT and register not in saved:
                saved = {**saved, register: at}
            elif name.startswith("ld") and saved.get(register) == at:
                saved = {other: where for other, where in saved.items() if other != register}
            at -= 8
        return depth - int(past or 0), saved

    @staticmethod
    def after(name, operands, depth, saved):
        """As for x86-64."""
        if name in ("stp", "str", "ldp", "ldr") and (found := Aarch64.MOVED.fullmatch(operands)):
            return Aarch64.moved(name, found, depth, saved)
        if operands.startswith("sp, ") and name not in ("cmp", "cmn", "tst"):
            found = Aarch64.SIZED.fullmatch(operands)
            assert found and name in ("add", "sub"), f"{name} {operands} isn't understood"
            return depth + size_of(found) * (1 if name == "sub" else -1), saved
        assert not re.search(r"\[sp.*\]!|\[sp\], ", operands), f"{name} {operands} isn't understood"
        return depth, saved


# By what readelf calls the processor.
MACHINES = {"Advanced Micro Devices X86-64": X86, "AArch64": Aarch64}


def run(*words):
    return subprocess.run(words, check=True, capture_output=True, text=True).stdout


def machine_of(path):
    name = re.search(r"^\s*Machine:\s+(.*)$", run("readelf", "-h", path), re.M)[1]
    assert name in MACHINES, f"nothing is known of the code of {name}"
    return MACHINES[name]


def functions(path):
    """The functions: name, size, whether other objects see it. Each has a section of its own."""
    for line in run("readelf", "-sW", path).splitlines():
        words = line.split(None, 7)
        if len(words) == 8 and words[3] == "FUNC" and words[6].isdigit():
            assert int(words[1], 16) == 0, f"{words[7]} isn't at the head of its section"
            yield words[7], int(words[2], 0), words[4] == "GLOBAL"


def code(machine, path, section):
    """The instructions of a section by their places, in their order, each with one blank behind its name. A jump that the linker is to direct leaves the
    function, wherever it seems to lead: its operand is OUT."""
    listing = {}
    for line in run(f"{machine.TOOLS}objdump", "-d", "-r", "-w", "--no-show-raw-insn", "-j", section, path).splitlines():
        if found := LINE.match(line):
            operands, *relocation = (found[3] or "").split("\t")
            text = f"{found[2]} {operands.split(machine.COMMENT)[0].strip()}"
            listing[int(found[1], 16)] = f"{found[2]} {OUT}" if relocation and machine.JUMP.match(text) else text
    return listing


def target(text):
    """Where a jump leads."""
    return int(re.split(r", | ", text.partition(" <")[0])[-1], 16)


def size_of(found):
    """How many bytes the stack pointer is moved by, as `#0x1, lsl #12` says."""
    return int(found[1], 16) << (12 if found[2] else 0)


def probed(machine, listing, places):
    """How large a frame the loop makes that begins at the first of these places, and its places from where that is said, up to the one past it; or nothing."""
    forms = [re.fullmatch(form, listing[it]) for form, it in zip(machine.LOOP, places)]
    if not all(forms[:machine.SURE + 1]):
        return None
    loop = places[machine.SIZES:len(machine.LOOP) + 1]
    assert len(forms) == len(machine.LOOP) and all(forms) and target(listing[loop[-2]]) == loop[1], f"a loop at {places[0]:x} isn't understood"
    return size_of(forms[machine.SIZES]), loop


def onward(machine, listing, place, following, state):
    """The places to which a path goes on from the instruction at the place, after which the stack and the saved registers are so."""
    text, at_entry = listing[place], state == (machine.AT_ENTRY, {})
    assert at_entry or not machine.RETURN.match(text), f"a return at {place:x} with something on the stack"
    if machine.JUMP.match(text):
        if not text.endswith(f" {OUT}") and target(text) in listing:
            yield target(text)
        else:
            assert at_entry, f"a jump out at {place:x} with something on the stack"
    if not machine.ENDS.match(text):
        assert place in following, f"a path goes on behind the last instruction, at {place:x}"
        yield following[place]


def unreached(machine, listing, known, by_table):
    """What no path has come to is where a jump by a table leads: the first such place, at the depth of these jumps."""
    assert all(each == by_table[0] for each in by_table), "two depths at jumps by tables"
    return [(place, by_table[0]) for place in sorted(listing) if place not in known and not machine.PADDING.match(listing[place])][:1]


def states(machine, listing):
    """The depth and the saved registers before each instruction that a path comes to; a negative depth is that of a loop that makes a frame."""
    places = sorted(listing)
    following = dict(zip(places, places[1:]))
    known, todo, by_table = {}, [(places[0], (machine.AT_ENTRY, {}))], []
    while todo or (by_table and (todo := unreached(machine, listing, known, by_table))):
        place, state = todo.pop()
        if place in known:
            assert known[place] == state, f"two depths at {place:x}"
            continue
        known[place] = depth, saved = state
        if found := probed(machine, listing, places[places.index(place):]):
            size, (second, *loop, past) = found
            known[second] = state
            known.update((each, (-depth - size, saved)) for each in loop)
            todo.append((past, (depth + size, saved)))
            continue
        state = machine.after(*listing[place].split(" ", 1), depth, saved)
        if machine.TABLE.match(listing[place]):
            by_table.append(state)
        else:
            todo.extend((each, state) for each in onward(machine, listing, place, following, state))
    return known


def change(machine, state, now):
    """What a table says where a state becomes another one, as lines for the assembler."""
    (depth, saved), (now_depth, now_saved) = state, now
    if now_depth != depth:
        yield from (".byte 0x0c", f".uleb128 {machine.PROBED if now_depth < 0 else machine.STACK}", f".uleb128 {abs(now_depth)}")
    for register in sorted(set(saved) - set(now_saved)):
        yield f".byte {0xC0 | machine.KEPT[register]}"
    for register in sorted(now_saved):
        if saved.get(register) != now_saved[register]:
            yield from (f".byte {0x80 | machine.KEPT[register]}", f".uleb128 {now_saved[register] // 8}")


def rows(machine, listing):
    """What a table says at each place where it changes."""
    last, state = 0, (machine.AT_ENTRY, {})
    for place, now in sorted(states(machine, listing).items()):
        if lines := list(change(machine, state, now)):
            yield from (".byte 0x04", f".long {place - last}", *lines)
            last, state = place, now


HEAD = """.section .note.GNU-stack,"",%progbits
.section .eh_frame,"a",%PROGBITS
.balign 8
.Lcie: .long .Lcie_end - .Lcie_start
.Lcie_start: .long 0
.byte 1
.asciz "zR"
.uleb128 1
"""
HEAD_END = ".balign 8\n.Lcie_end:\n"
# A table names a function that others see by a local name of its own, which begins so: a shared library's table may not use the function's name.
OWN = "unwound."


def table(machine, number, name, size, listing):
    lines = [f".long .Lend{number} - .Lstart{number}", f".Lstart{number}: .long .Lstart{number} - .Lcie", f'.long "{name}" - .', f".long {size}", ".uleb128 0"]
    return "\n".join([*lines, *rows(machine, listing), ".balign 8", f".Lend{number}:", ""])


def main(path):
    machine, found = machine_of(path), list(functions(path))
    sections = {section for section in re.findall(r"\s(\.text\S*)\s+PROGBITS", run("readelf", "-SW", path)) if section != ".text"}
    text = HEAD.replace("%PROGBITS", machine.SECTION_TYPE) + machine.HEAD + HEAD_END
    for number, (name, size, seen) in enumerate(found):
        section = next(each for each in sections if each.endswith("." + name))
        text += table(machine, number, OWN * seen + name, size, code(machine, path, section))
    objcopy = f"{machine.TOOLS}objcopy"
    with tempfile.TemporaryDirectory() as room:
        shown, tables, whole = (str(Path(room, each)) for each in ("shown.o", "tables.o", "whole.o"))
        local = [name for name, _, seen in found if not seen]
        added = [name for name, _, seen in found if seen]
        run(objcopy, *(f"--globalize-symbol={name}" for name in local),
            *(f"--add-symbol={OWN}{name}=.text.{name}:0,function,global" for name in added), path, shown)
        subprocess.run([f"{machine.TOOLS}as", "-o", tables], input=text, text=True, check=True)
        run(f"{machine.TOOLS}ld", "-r", "-o", whole, shown, tables)
        run(objcopy, *(f"--localize-symbol={name}" for name in local), *(f"--localize-symbol={OWN}{name}" for name in added), whole, path)
    print(f"unwind tables for {len(found)} functions")


if __name__ == "__main__":
    if not __debug__:
        sys.exit("unwind-tables: what it refuses, it refuses by assertions: unset PYTHONOPTIMIZE")
    main(sys.argv[1])
