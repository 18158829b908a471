#!/usr/bin/env -S python3 -B
"""A conformance kit: scripts from a seed with their reports, for whoever builds the protocol elsewhere.

    tools/conformance.py write FOLDER [--seed N] [--scripts N] [--lines N] [--only COMMAND,..]
    tools/conformance.py run FOLDER PROGRAM [ARGUMENT]..
    tools/conformance.py test [DRIVER]..

`write` makes NNNN.txt and, by the program's engine `core`, NNNN.report; it says which answers they met, and which they never did. `run` gives each script to a
program on its standard input, and compares what it prints with the report. `test` writes scripts, compares the reports with those of another registry,
tools/other_registry.py, and then once more with each of its faults, which some script must find. It has both engines, `core` and `live`, run these scripts, and
if the program is built larger ones, and some with a byte changed, which most often is a fault of the script. Each DRIVER of the library in C or Rust is a
command that gets the path of a script as its last word; it must print the reports, too, of those scripts that C and Rust have all calls for. The last line of
`run` and `test` is 'N passed, M failed'. The program is crates/registry_run/out/registry_run, or else the same sources, compiled by `rt try` without a proof.
"""
import argparse
import collections
import pathlib
import random
import shlex
import sys
import tempfile
from concurrent.futures import ThreadPoolExecutor

from engines import ROOT, ran, said_when_tried
from other_registry import FAULTS, Registry, lines_of, report_of
from checks import counted, processors

PROGRAM = ROOT / "crates/registry_run/out/registry_run"
# So many scripts are written for a test.
SCRIPTS = 150

ATTACHES = "attached Inside NeedsDriver NameTaken NoSlot HistoryFull"
# Of each command how often it comes, its arguments, by the methods of a Writer that choose them, and what it may answer. NotHeld isn't among that: a label
# stands only for a reference that its CPU holds.
Command = collections.namedtuple("Command", "weight arguments answers")
COMMANDS = {
    "domain": Command(0, "", "domain"),
    "limits": Command(0, "", "limits"),
    "attach": Command(8, "cpu kind name number", ATTACHES),
    "plug": Command(9, "cpu plugged number label", f"{ATTACHES} no-label"),
    "detach": Command(9, "cpu entry", "retired Inside NotFound"),
    "enter": Command(3, "cpu", "inside TooDeep SectionsSpent"),
    "exit": Command(22, "cpu", "inside outside not-inside"),
    "find": Command(3, "cpu entry", "found none not-inside"),
    "ref": Command(2, "cpu label", "ref label-taken NothingFound PassiveFull"),
    "copy": Command(3, "cpu label label", "ref no-label label-taken WrongCpu PassiveFull"),
    "held": Command(3, "cpu label", "yes no no-label"),
    "read": Command(4, "cpu label", "read no-label WrongCpu"),
    "drop": Command(16, "cpu label", "dropped no-label WrongCpu"),
    "count": Command(2, "cpu label", "count label-taken NothingFound LocalFull"),
    "peek": Command(3, "label", "peek no-label"),
    "uncount": Command(14, "cpu label", "uncounted no-label"),
    "advance": Command(20, "number", "grace passive local freed NotRetired"),
    "destroy": Command(5, "cpu number turns", "destroyed Inside NotRetired StillHeld"),
    "perform": Command(3, "cpu turns", "performed Inside Waiting"),
    "audit": Command(4, "", "slot empty"),
}
NO_CALL = ("no label", "label taken", "not inside")
KINDS = ("driver", "iface")


class Writer:
    """Writes one script of these commands. One in eight nests a section too deep. A large one has as many CPUs and slots as there may be."""

    def __init__(self, rng, verbs, is_large=False):
        self.rng, self.changes = rng, 0
        self.cpus, self.slots = (8, 32) if is_large else (rng.randint(1, 4), rng.randint(2, 6))
        self.names = ["wm", "wm", "vga", "wm0", "wm0"] + [f"wm{place}" for place in range(40 * is_large)]
        self.verbs, self.allowed = [verb for verb, it in COMMANDS.items() if it.weight and verb in verbs], verbs

    def cpu(self):
        return str(self.rng.randrange(self.cpus))

    def name(self):
        return self.rng.choice(self.names)

    def plugged(self):
        return "wm0"

    def kind(self):
        return self.rng.choice(KINDS[:1] * 9 + KINDS[1:])

    def turns(self):
        return str(self.rng.randint(1, 3))

    def entry(self):
        """The kind and the name of an entry that may be there: an interface is called wm0, mostly."""
        name = self.name()
        kind = KINDS[name == "wm0"] if self.rng.random() < 0.9 else self.rng.choice(KINDS)
        return f"{kind} {name}"

    def label(self):
        return self.rng.choice("abc")

    def number(self):
        """Of an entry that may be there."""
        return str(self.rng.randint(max(1, self.changes // 4 - 7), self.changes // 4 + 1))

    def command(self, verb):
        self.changes += verb in ("attach", "plug", "detach")
        return " ".join([verb, *(getattr(self, it)() for it in COMMANDS[verb].arguments.split())])

    def burst(self):
        """A section on one CPU in which something is looked up and referred to, as far as these commands go. In one of eight it is counted by each label and
        detached, and then let go of by one label after the other."""
        cpu, entry = self.cpu(), self.entry()
        lines = [f"enter {cpu}", f"find {cpu} {entry}"]
        if self.rng.random() < 0.875:
            lines += [f"{self.rng.choice(('ref', 'count'))} {cpu} {self.label()}"] + [f"exit {cpu}"] * (self.rng.random() < 0.9)
        else:
            lines += [f"count {cpu} {label}" for label in "abc"] + [f"exit {cpu}", f"detach {cpu} {entry}"]
            numbers = range(max(1, self.changes // 4 - 2), self.changes // 4 + 1)
            for label in "abc":
                lines += [f"advance {number}" for number in numbers] + [f"uncount {cpu} {label}"]
        return [line for line in lines if line.split()[0] in self.allowed]

    def head(self):
        rng = self.rng
        yield f"domain {self.cpus} {self.slots}"
        if "limits" in self.allowed and self.slots < 32 and rng.random() < 0.5:
            yield f"limits {rng.randint(4, 60)} {rng.randint(2, 40)} {rng.randint(1, 4)} {rng.randint(1, 4)}"
        if "enter" in self.allowed and rng.random() < 0.125:
            yield from [f"enter {self.cpus - 1}"] * 256

    def script(self, lines):
        rng, text = self.rng, list(self.head())
        for verb in rng.choices(self.verbs, [COMMANDS[verb].weight for verb in self.verbs], k=lines):
            text.append(self.command(verb))
            if rng.random() < 0.25:
                text.extend(self.burst())
        return "\n".join(text) + "\n"


def said_by(engine, scripts):
    """The status of an engine on each script, its report, and what it says of a fault."""
    if PROGRAM.exists():
        return [ran([PROGRAM, engine], it) for it in scripts]
    return list(said_when_tried([engine], {f"s{place}": it.encode() for place, it in enumerate(scripts)}))


def reports_of(scripts):
    """What the engine `core` prints of each script."""
    for place, (status, report, error) in enumerate(said_by("core", scripts)):
        if status != 0:
            sys.exit(f"script {place}: status {status}: {error}")
        yield report


def answers_of(script):
    """Each command of a script with its answer, in one word."""
    for command, line in zip(script.splitlines(), lines_of(script)):
        answer = line.replace(" ", "-") if line in NO_CALL else line.removeprefix("refused ").split()[0]
        yield command.split()[0], answer


def write_kit(folder, options, verbs):
    """Writes the scripts and the reports. The scripts, and the answers met and never met."""
    folder.mkdir(parents=True, exist_ok=True)
    seeds = range(options.seed, options.seed + options.scripts)
    scripts = [Writer(random.Random(seed), verbs).script(options.lines) for seed in seeds]
    for place, (script, report) in enumerate(zip(scripts, reports_of(scripts))):
        (folder / f"{place:04}.txt").write_text(script)
        (folder / f"{place:04}.report").write_text(report)
    met = {answer for script in scripts for answer in answers_of(script)}
    wanted = {(verb, answer) for verb in verbs for answer in COMMANDS[verb].answers.split()}
    return met & wanted, wanted - met, met - wanted


def write(options):
    verbs = options.only.split(",") if options.only else list(COMMANDS)
    if unknown := set(verbs) - set(COMMANDS):
        sys.exit(f"no commands: {' '.join(sorted(unknown))}")
    met, never, strange = write_kit(options.folder, options, {"domain", *verbs})
    print(f"{options.scripts} scripts in {options.folder}\nanswers met: {len(met)} of {len(met) + len(never)}")
    for what, found in (("never met", never), ("not in the list", strange)):
        print("".join(f"{what}: {verb} {answer}\n" for verb, answer in sorted(found)), end="")
    return bool(strange)


def difference(report, found):
    """Where two reports part; '' where they are the same."""
    pairs = zip([*report.splitlines(), "(the end)"], [*found.splitlines(), "(the end)"])
    parted = (f"line {place} is '{other}' and not '{one}'" for place, (one, other) in enumerate(pairs, 1) if one != other)
    return next(parted, "another end of line") if report != found else ""


def failure(path, report, command, script=None):
    """Where what a command prints of a script parts from its report; '' where it prints that."""
    status, found, _ = ran(command, script)
    wrong = f"status {status}" if status else difference(report, found)
    return wrong and f"{path.name}: {wrong}"


def run(options):
    paths = sorted(options.folder.glob("*.txt"))
    return counted(failure(it, it.with_suffix(".report").read_text(), options.program, it.read_text()) for it in paths)


def is_told(folder, fault=None):
    """Whether another registry, with this fault, has another report of some script."""
    return any(report_of(path.read_text(), fault) != path.with_suffix(".report").read_text() for path in folder.glob("*.txt"))


def with_a_byte_changed(script, rng):
    """The script with another byte in one place."""
    place = rng.randrange(len(script))
    return script[:place] + rng.choice(" \t\n#a9{") + script[place + 1 :]


def first_apart(scripts):
    """The first script on which the engines `core` and `live` print or end otherwise, if any."""
    said = zip(scripts, said_by("core", scripts), said_by("live", scripts))
    return next((f"{script}\ncore: {by_core}\nlive: {by_live}" for script, by_core, by_live in said if by_core != by_live), "")


class Beyond(Exception):
    """What C and Rust have no call for."""


class OfFaces(Registry):
    """The registry as C and Rust offer it: an interface is attached by the name of its driver, and not by a reference, so a reference is counted in the call.
    So its driver is live, and the CPU may count one reference more."""

    def plug(self, cpu, name, value, label):
        driver = self.locals.get(label)
        if driver and (driver.ended or driver.net[cpu] >= self.count_limit):
            raise Beyond
        return super().plug(cpu, name, value, label)


def is_for_faces(script):
    """Whether C and Rust have all calls for the script, which has no fault."""
    try:
        return bool(report_of(script, registry=OfFaces()))
    except Beyond:
        return False


def checks_of_driver(driver, folder, scripts):
    """The two checks of a driver, each with what fails."""
    driven = list(filter(is_for_faces, scripts))
    paths = [folder / f"driven-{place}" for place in range(len(driven))]
    for path, script in zip(paths, driven):
        path.write_text(script)
    with ThreadPoolExecutor(processors()) as pool:
        commands = [[*shlex.split(driver), path] for path in paths]
        found = list(pool.map(failure, paths, reports_of(driven), commands))
    yield f"{driver} prints each report of {len(driven)} scripts", next((f"{it}\n{script}" for it, script in zip(found, driven) if it), "")
    yield f"{driver} runs most scripts", "" if len(driven) > len(scripts) / 2 else f"only {len(driven)} of {len(scripts)}"


def checks_of(drivers, folder):
    """Each check with what fails, or ''."""
    _, never, strange = write_kit(folder, argparse.Namespace(seed=1, scripts=SCRIPTS, lines=150), set(COMMANDS))
    rng, scripts = random.Random(1), [path.read_text() for path in sorted(folder.glob("*.txt"))]
    yield "the scripts meet each answer", f"never met: {never}, not in the list: {strange}" if never or strange else ""
    yield "another registry has each report", "it has another one" if is_told(folder) else ""
    yield from ((f"a fault is found: {fault}", "" if is_told(folder, fault) else "no script finds it") for fault in FAULTS)
    # Without a built program these would take too long.
    changed = [with_a_byte_changed(it, rng) for it in rng.choices(scripts, k=800)] if PROGRAM.exists() else []
    large = [Writer(rng, set(COMMANDS), is_large=True).script(1500) for _ in range(50)] if PROGRAM.exists() else []
    yield "both engines print the same and end alike", first_apart([*scripts, *changed, *large])
    for driver in drivers:
        yield from checks_of_driver(driver, folder, [*scripts, *large])


def test(options):
    with tempfile.TemporaryDirectory() as folder:
        return counted(wrong and f"FAILED  {check}: {wrong}" for check, wrong in checks_of(options.driver, pathlib.Path(folder)))


def main():
    parser = argparse.ArgumentParser(description=__doc__.split("\n")[0])
    commands = parser.add_subparsers(required=True)
    writing, running, testing = (commands.add_parser(it.__name__) for it in (write, run, test))
    for each, act in ((writing, write), (running, run), (testing, test)):
        each.set_defaults(act=act)
    for each in (writing, running):
        each.add_argument("folder", type=pathlib.Path)
    for name, number in (("seed", 1), ("scripts", 100), ("lines", 150)):
        writing.add_argument(f"--{name}", type=int, default=number)
    writing.add_argument("--only", help="the commands that a program has, with commas between")
    running.add_argument("program", nargs=argparse.REMAINDER)
    testing.add_argument("driver", nargs="*")
    options = parser.parse_args()
    sys.exit(options.act(options))


if __name__ == "__main__":
    main()
