#!/usr/bin/env -S python3 -B
"""A registry that shares nothing with this repository's, written after docs/SCRIPTS.md: tools/conformance.py tries it as a program of somebody's own.

    tools/other_registry.py [FAULT] <SCRIPT

It prints the report of a script that has no fault. With one of FAULTS it is wrong in that way, which the scripts of the kit have to find.
"""
import sys
from dataclasses import dataclass

FAULTS = {
    "no-grace": "an entry's slot doesn't wait for the sections that may hold it",
    "later-sections": "it also waits for sections that began after the detach",
    "no-passive": "it doesn't wait for passive references",
    "no-local": "it doesn't wait for local references",
    "inner-exit": "an inner exit ends the section",
    "stale-find": "a lookup that finds nothing leaves the last found entry",
    "newest-slot": "an attach takes the greatest vacant slot",
    "attaches-alone": "detaches aren't counted in an entry's number",
}
DEPTH = 255


@dataclass(eq=False)
class Entry:
    """What was attached, and is in its slot until it is freed. `ended` is its place in the history once it is detached."""

    number: int
    slot: int
    kind: str
    name: str
    value: int
    net: list
    kept: object = None
    ended: int = 0
    collected: bool = False
    given_up: int = 0


@dataclass
class Cpu:
    """How deep it is inside, how long the history was at the outermost enter, how often it has entered, and its last found entry."""

    depth: int = 0
    begin: int = 0
    enters: int = 0
    found: object = None


class Line(Exception):
    """The line of a command that changes nothing."""


def refuse(name):
    raise Line(f"refused {name}")


def filled(labels, label):
    if label not in labels:
        raise Line("no label")
    return labels[label]


def vacant(labels, label):
    if label in labels:
        raise Line("label taken")


class Registry:
    """The registry of one script. A method named as a command carries it out, and returns its line.

    Labels name references: the CPU and the entry of each passive one, the entry of each local one.
    """

    def __init__(self, fault=None):
        self.fault, self.changes, self.entries, self.passives, self.locals = fault, 0, [], {}, {}
        self.change_limit, self.section_limit, self.passive_limit, self.count_limit = 1000, 1000, 100, 100

    def domain(self, cpus, slots):
        self.cpus, self.slots = [Cpu() for _ in range(cpus)], slots
        return f"domain {cpus} {slots}"

    def limits(self, *limits):
        self.change_limit, self.section_limit, self.passive_limit, self.count_limit = limits
        return " ".join(map(str, ["limits", *limits]))

    # What is there.

    def named(self, kind, name):
        return next((it for it in self.entries if not it.ended and (it.kind, it.name) == (kind, name)), None)

    def passive(self, entry, cpu):
        """How many passive references the CPU has to the entry."""
        return sum(it == (cpu, entry) for it in self.passives.values())

    def local(self, entry):
        """How many local references to the entry are held, by labels and by slots."""
        return sum(it is entry for it in self.locals.values()) + sum(it.kept is entry for it in self.entries)

    def inside(self, cpu):
        if not self.cpus[cpu].depth:
            raise Line("not inside")
        return self.cpus[cpu]

    def outside(self, cpu):
        if self.cpus[cpu].depth:
            refuse("Inside")

    # Sections and lookups.

    def enter(self, cpu):
        cpu = self.cpus[cpu]
        if cpu.depth == DEPTH:
            refuse("TooDeep")
        if not cpu.depth:
            if cpu.enters == self.section_limit:
                refuse("SectionsSpent")
            cpu.enters, cpu.begin = cpu.enters + 1, self.changes
        cpu.depth += 1
        return "inside"

    def exit(self, cpu):
        cpu = self.inside(cpu)
        cpu.depth = 0 if self.fault == "inner-exit" else cpu.depth - 1
        if cpu.depth:
            return "inside"
        cpu.found = None
        return "outside"

    def find(self, cpu, kind, name):
        cpu, entry = self.inside(cpu), self.named(kind, name)
        if entry or self.fault != "stale-find":
            cpu.found = entry
        return f"found {entry.number} slot {entry.slot} value {entry.value}" if entry else "none"

    # Changes.

    def attach(self, cpu, kind, name, value):
        self.outside(cpu)
        if kind != "driver":
            refuse("NeedsDriver")
        return self.publish(kind, name, value)

    def plug(self, cpu, name, value, label):
        driver = filled(self.locals, label)
        self.outside(cpu)
        if driver.kind != "driver":
            refuse("NeedsDriver")
        line = self.publish("iface", name, value)
        self.entries[-1].kept = self.locals.pop(label)
        return line

    def publish(self, kind, name, value):
        if self.named(kind, name):
            refuse("NameTaken")
        vacant = sorted(set(range(self.slots)) - {it.slot for it in self.entries})
        if not vacant:
            refuse("NoSlot")
        if self.changes + sum(not it.ended for it in self.entries) + 2 > self.change_limit:
            refuse("HistoryFull")
        self.changes += 1
        slot = vacant[-1 if self.fault == "newest-slot" else 0]
        self.entries.append(Entry(self.changes, slot, kind, name, value, [0] * len(self.cpus)))
        return f"attached {self.changes} slot {slot}"

    def detach(self, cpu, kind, name):
        self.outside(cpu)
        entry = self.named(kind, name) or refuse("NotFound")
        self.changes += self.fault != "attaches-alone"
        entry.ended = self.changes
        return f"retired {entry.number} slot {entry.slot}"

    # Passive references.

    def refer(self, cpu, label, entry):
        if self.passive(entry, cpu) >= self.passive_limit:
            refuse("PassiveFull")
        self.passives[label] = cpu, entry
        return f"ref {label} {entry.number}"

    def own(self, cpu, label):
        owner, entry = filled(self.passives, label)
        return entry if owner == cpu else refuse("WrongCpu")

    def ref(self, cpu, label):
        vacant(self.passives, label)
        return self.refer(cpu, label, self.cpus[cpu].found or refuse("NothingFound"))

    def copy(self, cpu, label, second):
        filled(self.passives, label)
        vacant(self.passives, second)
        return self.refer(cpu, second, self.own(cpu, label))

    def held(self, cpu, label):
        return "yes" if self.passive(filled(self.passives, label)[1], cpu) else "no"

    def read(self, cpu, label):
        entry = self.own(cpu, label)
        return f"read {entry.number} value {entry.value}"

    def drop(self, cpu, label):
        entry = self.own(cpu, label)
        del self.passives[label]
        return f"dropped {label} {entry.number}"

    # Local references.

    def count(self, cpu, label):
        vacant(self.locals, label)
        entry = self.cpus[cpu].found or refuse("NothingFound")
        if entry.net[cpu] >= self.count_limit:
            refuse("LocalFull")
        entry.net[cpu] += 1
        self.locals[label] = entry
        return f"count {label} {entry.number}"

    def peek(self, label):
        entry = filled(self.locals, label)
        return f"peek {entry.number} value {entry.value}"

    def uncount(self, cpu, label):
        entry = filled(self.locals, label)
        del self.locals[label]
        entry.net[cpu] -= 1
        return f"uncounted {label} {entry.number}"

    def audit(self):
        return "\n".join(map(self.audited, sorted(self.entries, key=lambda it: it.slot))) or "empty"

    def audited(self, entry):
        held = self.local(entry)
        net, total = ([0] * len(self.cpus), held) if entry.collected else (entry.net, -entry.given_up)
        return f"slot {entry.slot} number {entry.number} held {held} locals {' '.join(map(str, net))} total {total}"

    # The work on a retired entry, and waiting.

    def retired(self, number):
        return next((it for it in self.entries if it.number == number and it.ended), None) or refuse("NotRetired")

    def may_hold(self, cpu, entry):
        """Whether a section of the CPU may hold the retired entry."""
        return cpu.depth and (cpu.begin < entry.ended or self.fault == "later-sections") and self.fault != "no-grace"

    def obstacle(self, entry):
        """The first thing that holds a retired entry; nothing if its slot is vacant now."""
        for place, cpu in enumerate(self.cpus):
            if self.may_hold(cpu, entry):
                return f"grace cpu {place}"
        for place in range(len(self.cpus)):
            if self.passive(entry, place) and self.fault != "no-passive":
                return f"passive cpu {place}"
        entry.collected = True
        if self.local(entry) and self.fault != "no-local":
            return f"local {self.local(entry)}"
        self.entries.remove(entry)
        if entry.kept:
            entry.kept.given_up += 1
        return ""

    def advance(self, number):
        entry = self.retired(number)
        return self.obstacle(entry) or f"freed slot {entry.slot}"

    def destroy(self, cpu, number, _turns):
        self.outside(cpu)
        entry = self.retired(number)
        if obstacle := self.obstacle(entry):
            refuse(f"StillHeld {obstacle}")
        return f"destroyed slot {entry.slot}"

    def perform(self, cpu, _turns):
        self.outside(cpu)
        for place, other in enumerate(self.cpus):
            if other.depth:
                refuse(f"Waiting cpu {place}")
        return "performed"


def carry_out(registry, words):
    """The line of a command."""
    verb, *rest = words
    try:
        return getattr(registry, verb)(*(int(it) if it.isdigit() else it for it in rest))
    except Line as line:
        return str(line)


def lines_of(script, fault=None, registry=None):
    """The line or lines of each command of a script, by a registry with this fault, or by this one."""
    registry = registry or Registry(fault)
    commands = (line.split() for line in script.splitlines())
    return [carry_out(registry, words) for words in commands if words and not words[0].startswith("#")]


def report_of(script, fault=None, registry=None):
    return "".join(f"{it}\n" for it in lines_of(script, fault, registry))


if __name__ == "__main__":
    if not set(sys.argv[1:]) <= set(FAULTS) or len(sys.argv) > 2:
        sys.exit(__doc__)
    sys.stdout.write(report_of(sys.stdin.read(), *sys.argv[1:]))
