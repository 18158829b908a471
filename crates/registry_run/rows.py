"""Scripts that the program is tested on, with what it must say of each: the worked rows of rows.txt; scripts that are long, or no lines of
words; a registry that is full; and a script that is cut after each byte, where tools/other_registry.py says what is reported."""
import collections
import pathlib
import re

from other_registry import report_of

ROWS = pathlib.Path(__file__).with_name("rows.txt")
# Its name, the script, and the status, the report and the line on standard error that it must end with.
Row = collections.namedtuple("Row", "name script status report error")


def reported(name, script, report):
    return Row(name, script, 0, report, b"")


def faulty(name, script, line, cause):
    """The first fault of a script: nothing is reported."""
    return Row(name, script, 2, b"", f"script fault: line {line}: {cause}\n".encode())


def lines(row):
    return "".join(f"{line}\n" for line in row.split("; ")).encode()


def worked():
    """The rows of the file: in a block of three lines a name, a script and its report; else a fault a line."""
    for block in ROWS.read_text().split("\n\n"):
        texts = [it for it in block.splitlines() if not it.startswith("#")]
        faults = [re.fullmatch(r"(\d+) ([A-Z]\w+): (.+)", it) for it in texts]
        if all(faults):
            yield from (faulty(it[0], lines(it[3]), it[1], it[2]) for it in faults)
        else:
            name, script, report = texts
            yield reported(name, lines(script), lines(report))


def built():
    """Scripts that are long, or no lines of words."""
    yield reported("bare-domain, without its end", b"domain 2 2", b"domain 2 2\n")
    limits = b"domain 1 1\nlimits 1000 1 100 100\n"
    script = limits + b"enter 0\n" * 256 + b"exit 0\n" * 255 + b"enter 0\n"
    report = limits + b"inside\n" * 255 + b"refused TooDeep\n" + b"inside\n" * 254 + b"outside\nrefused SectionsSpent\n"
    yield reported("too-deep", script, report)
    for name, text in (("the most", b"domain 8 32\n"), ("the least", b"domain 1 1\n"),
                       ("the most of each limit", b"domain 2 1\nlimits 1000000 1 1099511627776 1099511627776\n")):
        yield reported(f"outer-limits, {name}", text, text)
    yield reported("ten thousand commands", b"domain 1 1\n" + b"audit\n" * 10000, b"domain 1 1\n" + b"empty\n" * 10000)
    yield reported("sixty words of a comment", b"# " * 60 + b"\ndomain 1 1", b"domain 1 1\n")
    script = b"domain 1 1\n" + b" " * 60 + b"plug  0  w  18446744073709551615  a" + b" " * 25
    yield reported("the most words that a command has, far apart", script, b"domain 1 1\nno label\n")
    yield reported("spaces and comments", b"\n   \n #~!\n  domain   002  2 \n #", b"domain 2 2\n")
    for name, script, line, cause in (
        ("no script", b"", 1, "NoDomain"),
        ("a command without its end", b"domain 2 2\natt", 2, "UnknownCommand"),
        ("long line", b"x" * 121, 1, "LongLine"),
        ("long line of which a byte is bad", b"x" * 7 + b"\xc8" + b"x" * 113, 1, "LongLine"),
        ("long comment", b"#" * 121, 1, "LongLine"),
        ("longest comment", b"#" * 120, 1, "NoDomain"),
        ("comment of which a byte is bad", b"#" * 7 + b"\xc8" + b"#" * 112, 1, "BadByte"),
        ("longest script", b"\n" * 65536, 1, "NoDomain"),
        ("too long a script", b"\n" * 65536 + b"\xc8", 1, "TooLong"),
        ("carriage return", b"domain 2\r", 1, "BadByte"),
        ("byte 127", b"domain 2 2\x7f", 1, "BadByte"),
        ("byte 0", b"\x00", 1, "BadByte"),
        ("byte 255 in a comment", b"# \xff", 1, "BadByte"),
        ("tab", b"\tatt", 1, "BadByte"),
        ("tab between words", b"domain 2 2\nenter\t0\n", 2, "BadByte"),
        ("sixty words", b"domain 1 1\n" + b"a " * 60, 2, "UnknownCommand"),
        ("fifty-eight words after a command", b"domain 1 1\naudit" + b" a" * 57, 2, "WrongCount"),
    ):
        yield faulty(name, script, line, cause)


def travelled(slot, number, held=0, total=0, counts=True):
    """What an audit says of the entry in the slot: a reference to it went from the slot's CPU to the next one, and was released there."""
    nets = [(cpu == slot % 8) - (cpu == (slot + 1) % 8) if counts else 0 for cpu in range(8)]
    return f"slot {slot} number {number} held {held} locals {' '.join(map(str, nets))} total {total}"


def each_slot():
    """A driver in each slot: it is attached, found, referred to, audited, detached and destroyed. With all slots taken, a taken name is told before the
    slots, and the slots before the history, which is full as well. The last reference to the last driver is released once its counts were collected, so
    under the lock: nothing but its own total changes."""
    yield "domain 8 32", "domain 8 32"
    yield "limits 64 1000000 100 100", "limits 64 1000000 100 100"
    for s in range(32):
        yield f"attach {s % 8} driver w{s} {s}", f"attached {s + 1} slot {s}"
    yield "attach 1 driver w31 0", "refused NameTaken"
    yield "attach 1 driver w32 0", "refused NoSlot"
    for s in range(32):
        yield f"enter {s // 4}; find {s // 4} driver w{s}; exit {s // 4}", f"inside; found {s + 1} slot {s} value {s}; outside"
    for s in range(32):
        c, d = s % 8, (s + 1) % 8
        yield f"enter {c}; find {c} driver w{s}; count {c} a; exit {c}", f"inside; found {s + 1} slot {s} value {s}; count a {s + 1}; outside"
        yield f"uncount {d} a", f"uncounted a {s + 1}"
    yield "audit", "; ".join(travelled(s, s + 1) for s in range(32))
    yield "enter 7; find 7 driver w20; ref 7 a; exit 7", "inside; found 21 slot 20 value 20; ref a 21; outside"
    yield "enter 5; find 5 driver w31; count 5 a; exit 5", "inside; found 32 slot 31 value 31; count a 32; outside"
    for s in range(32):
        yield f"detach {s // 4} driver w{s}; detach {s // 4} driver w{s}", f"retired {s + 1} slot {s}; refused NotFound"
    yield "advance 21; drop 7 a; destroy 2 21 1; advance 21; advance 32", "passive cpu 7; dropped a 21; destroyed slot 20; refused NotRetired; local 1"
    others = [travelled(s, s + 1) for s in range(31) if s != 20]
    yield "audit", "; ".join([*others, travelled(31, 32, held=1, total=1, counts=False)])
    yield "uncount 3 a", "uncounted a 32"
    yield "audit", "; ".join([*others, travelled(31, 32, counts=False)])
    for s in (it for it in range(32) if it != 20):
        yield f"advance {s + 1}; destroy {s % 8} {s + 1} 1", f"freed slot {s}; refused NotRetired"
    yield "audit; attach 0 driver w33 0", "empty; refused HistoryFull"


def interfaces():
    """One driver, and an interface on it in each other slot."""
    found = "inside; found 1 slot 0 value 0; count a 1; outside"
    yield "domain 8 32; attach 0 driver w0 0", "domain 8 32; attached 1 slot 0"
    for s in range(1, 32):
        c = s % 8
        yield f"enter {c}; find {c} driver w0; count {c} a; exit {c}; plug {c} i{s} {s} a", f"{found}; attached {s + 1} slot {s}"
    yield "enter 0; find 0 driver w0; count 0 a; exit 0; plug 0 i32 0 a", f"{found}; refused NoSlot"
    yield "detach 6 iface i31; advance 32; plug 5 i31 31 a", "retired 32 slot 31; freed slot 31; attached 34 slot 31"
    yield "detach 3 driver w0; advance 1", "retired 1 slot 0; local 31"
    for s in range(1, 31):
        c, d, e = s % 8, (s + 1) % 8, (s + 2) % 8
        yield f"enter {d}; find {d} iface i{s}; exit {d}", f"inside; found {s + 1} slot {s} value {s}; outside"
        yield f"detach {c} iface i{s}; destroy {e} {s + 1} 1; advance 1", f"retired {s + 1} slot {s}; destroyed slot {s}; local {31 - s}"
    yield "enter 0; find 0 iface i31; exit 0", "inside; found 34 slot 31 value 31; outside"
    yield "detach 7 iface i31; destroy 1 34 1; advance 1", "retired 34 slot 31; destroyed slot 31; freed slot 0"


def to_the_limit():
    """The last slot's entry comes and goes beside thirty-one others, until the history has no room for its next detach and theirs. What is live can be
    detached to the end."""
    yield "domain 8 32; limits 2400 1 1 1", "domain 8 32; limits 2400 1 1 1"
    for s in range(31):
        yield f"attach {s % 8} driver w{s} 0", f"attached {s + 1} slot {s}"
    for number in range(32, 2370, 2):
        yield f"attach 7 driver x 1; detach 0 driver x; advance {number}", f"attached {number} slot 31; retired {number} slot 31; freed slot 31"
    yield "attach 0 driver x 1", "refused HistoryFull"
    for s in range(31):
        yield f"detach {s % 8} driver w{s}", f"retired {s + 1} slot {s}"
    yield "attach 0 driver x 1", "refused HistoryFull"


def all_but_one_retired():
    """All slots but the last are retired under a section of CPU 7: the next attach gets the last slot, and there is no other."""
    yield "domain 8 32", "domain 8 32"
    for s in range(32):
        yield f"attach {s % 8} driver w{s} 0", f"attached {s + 1} slot {s}"
    yield "detach 0 driver w31; destroy 0 32 1; enter 7", "retired 32 slot 31; destroyed slot 31; inside"
    for s in range(31):
        yield f"detach 1 driver w{s}", f"retired {s + 1} slot {s}"
    yield "attach 0 driver w0 0; attach 0 driver w1 0", "attached 65 slot 31; refused NoSlot"
    for s in range(31):
        yield f"advance {s + 1}", "grace cpu 7"


def each_section():
    """Each CPU in its turn is inside: a perform, an advance and a destroy wait for it, and for no other."""
    yield "domain 8 32", "domain 8 32"
    for c in range(8):
        d, e, number = (c + 1) % 8, (c + 2) % 8, 2 * c + 1
        yield f"attach {c} driver w 1; enter {c}; perform {d} 1", f"attached {number} slot 0; inside; refused Waiting cpu {c}"
        yield f"detach {d} driver w; advance {number}; destroy {e} {number} 1", f"retired {number} slot 0; grace cpu {c}; refused StillHeld grace cpu {c}"
        yield f"exit {c}; perform {c} 1; destroy {c} {number} 1", "outside; performed; destroyed slot 0"


def full():
    """A registry that is full: eight CPUs, thirty-two slots in use, a history to its limit. The calls behind the lock meet each slot and each CPU."""
    for row in (each_slot, interfaces, to_the_limit, all_but_one_retired, each_section):
        scripts, reports = zip(*row())
        yield reported(row.__name__, lines("; ".join(scripts)), lines("; ".join(reports)))


def cut(script):
    """The script, cut after each byte: its first fault, or the report of what is left."""
    for end in range(len(script) + 1):
        front = script[:end]
        before, _, rest = front.rpartition("\n")
        number = front.count("\n") + 1
        line, words = script.splitlines()[number - 1 : number] or [""], rest.split()
        name, verbs = f"cut after {end} bytes", line[0].split()
        if words and words[0][0] != "#" and words[0] != verbs[0]:
            yield faulty(name, front.encode(), number, "UnknownCommand")
        elif words and words[0][0] != "#" and len(words) < len(verbs):
            yield faulty(name, front.encode(), number, "WrongCount")
        elif all(it.startswith("#") for it in front.splitlines()):
            yield faulty(name, front.encode(), max(1, number - (not rest)), "NoDomain")
        else:
            yield reported(name, front.encode(), report_of("".join(f"{it}\n" for it in front.splitlines() if it[0] != "#")).encode())


def rows():
    all_limits = next(it for it in worked() if it.name == "all-limits")
    return [*worked(), *built(), *full(), *cut(f"# x\n{all_limits.script.decode()}")]
