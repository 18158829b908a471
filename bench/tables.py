#!/usr/bin/env -S python3 -B
"""Prints the tables of what bench/run measured, the least time of all rounds, and whether each aim is met; and draws the chart.

    bench/tables.py PROCESSORS [CHART TITLE] <LINES

A line is NAME, pairs of a word and a number that say what was run, and pairs of a word and a time:

    NAME threads T entries E OPERATION NANOSECONDS ..                lookups and references
    NAME cpus C readers R entries E WHAT NANOSECONDS ..              replacements of an entry, and waits
    NAME cpus C readers R entries E clock N WHAT NANOSECONDS ..      percentiles of single lookups and replacements
    NAME changes COUNT CALL NANOSECONDS ..                           the calls behind the interlock
"""
import html
import math
import sys

OURS = "from-C"
OPERATIONS = "lookup batch walk passive local read look_up absent get".split()
# An aim: the operation, what is divided by what, and how much it may be at most. `section` is our lookup in a section, from C.
AIMS = [line.split() for line in """\
lookup from-C/hand-padded 1.25
lookup from-C/hand-pointed 1.15
lookup from-C/hand-called 1.15
batch from-C/hand-padded 1.15
batch from-C/hand-pointed 1.15
batch from-C/hand-called 1.15
batch from-C/urcu-memb 1.25
walk from-C/urcu-memb 2.00
passive from-C/hand-padded 1.15
passive from-C/hand-called 1.15
local from-C/hand-padded 1.25
local from-C/hand-called 1.25
lookup from-Rust/from-C 1.30
batch from-Rust/from-C 1.30
read from-C/section 1.30
read from-Rust/section 1.30
look_up from-C/section 1.15
look_up from-Rust/section 1.15
get from-Rust/from-C 1.15""".splitlines()] + [[it, "from-C/before", "1.05"] for it in OPERATIONS]
# Each thread of these contenders writes its own cache lines alone. (Those of hand-packed share theirs on purpose.)
QUIET = ("hand-padded", "hand-pointed", "hand-kept")
NOISY = 1.3
WAITS = {
    "replace": "replacement with a gap: detach, destroy, attach",
    "exchange": "replacement without a gap: replace, destroy",
    "perform": "wait until all open sections have ended",
}
PERCENTILES = "clock read_p50 read_p99 read_p999 replace_p50 replace_p99 replace_p999".split()
LABELS = {
    "from-C": "here, C", "from-Rust": "here, Rust",
    "urcu-memb": "liburcu (default)", "urcu-mb": "liburcu mb", "urcu-qsbr": "liburcu qsbr", "dpdk-qsbr": "DPDK qsbr", "ck_epoch": "ck_epoch",
    "crossbeam-epoch": "crossbeam-epoch", "arc-swap": "arc-swap", "pthread_rwlock": "reader-writer lock", "pthread_mutex": "mutex",
    "hand-packed": "unpadded words",
}
STYLE = """<style>
text { font: 12px sans-serif; fill: #1f2328 } .title { font: bold 15px sans-serif } .name { font: bold 12px sans-serif }
.paper { fill: #ffffff } .faint { fill: #59636e } .grid { stroke: #e4e8ec } .base { stroke: #d0d7de }
.ours { fill: #bc4c00 } .other { fill: #0969da }
@media (prefers-color-scheme: dark) {
text { fill: #e6edf3 }
.paper { fill: #0d1117 } .faint { fill: #9da7b1 } .grid { stroke: #21262d } .base { stroke: #30363d }
.ours { fill: #f0883e } .other { fill: #58a6ff }
}
</style>"""


def read(lines):
    """The least time of each thing, by what was run, such as ("threads", 4, "entries", 8), by the contender and by what it did."""
    best = {}
    for name, *words in map(str.split, lines):
        pairs = list(zip(words[::2], words[1::2]))
        said = {"threads": 2, "cpus": 3, "changes": 1}[words[0]]
        run = tuple(it if it.isalpha() else int(it) for pair in pairs[:said] for it in pair)
        times = best.setdefault("changes" if run[0] == "changes" else run, {}).setdefault(name, {})
        for what, time in pairs[said:]:
            times[what] = min(float(time), times.get(what, math.inf))
    return best


def short(number):
    """A number with fewer digits after the point, the greater it is."""
    return f"{number:.{0 if number >= 1000 else 1 if number >= 100 else 2}f}"


class Operations:
    """Lookups and references, by so many threads on lists of so many entries."""

    def __init__(self, best):
        self.best = {(run[1], run[3]): of for run, of in best.items() if run[0] == "threads"}
        self.lists = sorted({entries for _, entries in self.best})
        self.threads = sorted({threads for threads, _ in self.best})

    def row(self, name, operation):
        """The times of a contender, by threads and then by lists."""
        of = (OURS, "lookup") if name == "section" else (name, operation)
        return [self.best[threads, entries].get(of[0], {}).get(of[1]) for threads in self.threads for entries in self.lists]

    def heading(self, text, width):
        return f"{text:<{width}}" + "".join(f"{f'{it} thread' + 's' * (it > 1):>{9 * len(self.lists)}}" for it in self.threads)

    def tables(self):
        for operation in OPERATIONS:
            print("\n" + self.heading(f"{operation}, ns", 16))
            for name in self.best[1, self.lists[0]]:
                if None not in (times := self.row(name, operation)):
                    print(f"{name:<16}" + "".join(f"{it:9.1f}" for it in times))

    def aim(self, what, ratios, goal, is_least=False):
        met = sum(it >= goal if is_least else it <= goal for it in ratios)
        told = "met" if met == len(ratios) else f"met {met} of {len(ratios)}" if met else "missed"
        what += f", at {'least' if is_least else 'most'} {goal:.2f}"
        print(f"{what:<58}" + "".join(f"{it:7.2f}" for it in ratios) + f"  {told}")

    def aims(self):
        print(f"\naims, by threads ({', '.join(map(str, self.threads))}) and then by lists")
        for operation, ratio, goal in AIMS:
            pairs = list(zip(*(self.row(name, operation) for name in ratio.split("/"))))
            if None not in pairs[0]:
                called = ratio.replace("/", " / ").replace("section", "our lookup in a section")
                self.aim(f"{operation}: {called}", [one / other for one, other in pairs], float(goal))
        many = [other / ours for other, ours in zip(self.row("pthread_rwlock", "lookup"), self.row(OURS, "lookup"))][-len(self.lists):]
        self.aim(f"lookup: pthread_rwlock / {OURS}, {self.threads[-1]} threads", many, 8 if self.threads[-1] >= 4 else 3, True)
        self.scaling()

    def scaled(self, name, operation):
        """How many times as long it takes with the most threads as with one, by lists."""
        times = self.row(name, operation)
        return [] if None in times else [most / one for one, most in zip(times, times[-len(self.lists):])]

    def scaling(self):
        """Where the machine itself is slower with more threads, a ratio of times with more and with fewer says nothing of the program."""
        found = [(name, operation, entries, by) for name in QUIET for operation in OPERATIONS for entries, by in zip(self.lists, self.scaled(name, operation))]
        noises, most, ours = [it for it in found if it[3] > NOISY], self.threads[-1], self.scaled(OURS, "lookup")
        if not noises:
            self.aim(f"lookup: {OURS}, {most} threads / 1 thread", ours, 1.5)
            print(f"\nNo hand-written contender takes more than {NOISY:.2f} times as long with {most} threads as with 1.")
            return
        print(f"lookup: {OURS}, {most} threads / 1 thread: not shown: {', '.join(f'{it:.2f}' for it in ours)}")
        print("\nThe machine was not quiet: THIS RUN SHOWS NOTHING OF SCALING. "
              f"With {most} threads these take so many times as long as with 1, and share nothing:")
        for name, operation, entries, by in noises:
            print(f"  {name}, {operation}, list of {entries}: {by:.2f}")


class Waits:
    """Replacements and waits, by CPUs. A star marks more busy threads than processors."""

    def __init__(self, best, processors):
        self.best = {(run[1], run[3] > 0): of for run, of in best.items() if run[0] == "cpus"}
        self.processors = processors

    def table(self, title, busy, what):
        """A row of microseconds by CPUs for each contender that does this."""
        counts = sorted(cpus for cpus, reads in self.best if reads == busy)
        print(f"\n{title} (microseconds), {'all others read' if busy else 'no reader'}")
        print(f"{'CPUs':<16}" + "".join(f"{f'{it}' + '*' * (busy and it > self.processors):>10}" for it in counts))
        for name in self.best[counts[0], busy]:
            times = [self.best[it, busy].get(name, {}).get(what) for it in counts]
            if None not in times:
                print(f"{name:<16}" + "".join(f"{short(it / 1000):>10}" for it in times))
        if busy and counts[-1] > self.processors:
            print(f"* more busy threads than the {self.processors} processors: most of such a time is the scheduler's")

    def tables(self):
        for what, title in WAITS.items():
            for busy in (False, True):
                self.table(title, busy, what)


def spread_of(best):
    """What was run of the percentiles, and those of each contender."""
    for run, of in best.items():
        if run[0] == "cpus" and (spread := {name: times for name, times in of.items() if "clock" in times}):
            return (run[3], run[5]), spread
    return (), {}


def print_spread(run, spread):
    print(f"\none lookup and one replacement, {run[0]} readers, list of {run[1]} (nanoseconds, with what the clock takes)")
    print(" " * 16 + "".join(f"{it:>13}" for it in PERCENTILES))
    for name, times in spread.items():
        print(f"{name:<16}" + "".join(f"{times[it]:13.0f}" for it in PERCENTILES))


def print_changes(found):
    """Nanoseconds of one call, and how many times as many as from C: at most 1.3."""
    print(f"{'one call':<16}" + "".join(f"{it:>21}" for it in found))
    for call, ours in found[OURS].items():
        ratios = [of[call] / ours for of in found.values()]
        met = "met" if max(ratios) <= 1.3 else "missed"
        print(f"{call:<16}" + "".join(f"{of[call]:10.1f} ns{ratio:8.2f}" for of, ratio in zip(found.values(), ratios)) + f"  at most 1.30: {met}")


WIDTH, LEFT, RIGHT, ROW = 455, 150, 400, 18


def text(x, y, kind, what):
    shown = f' class="{kind}"' if kind else ""
    return f'<text x="{x:.1f}" y="{y:.1f}"{shown}>{html.escape(what)}</text>'


def at(x, time):
    return x + LEFT + (RIGHT - LEFT) * math.log(max(time, 1)) / math.log(10000)


def panel(x, y, title, digits, times):
    """A dot for each contender on one scale of powers of ten, the fastest first."""
    top, bottom = y + 24, y + 24 + ROW * len(times)
    yield text(x + 10, y + 16, "name", title)
    for mark in (1, 10, 100, 1000, 10000):
        yield f'<line class="grid" x1="{at(x, mark):.1f}" y1="{top}" x2="{at(x, mark):.1f}" y2="{bottom}"/>'
        yield f'<text class="faint" text-anchor="middle" x="{at(x, mark):.1f}" y="{bottom + 14}">{mark if mark < 10000 else "10,000 ns"}</text>'
    for place, (label, time) in enumerate(sorted(times, key=lambda it: it[1])):
        middle, kind = top + ROW * (place + 0.5), "ours" if label.startswith("here") else "other"
        yield text(x + 10, middle + 4, "name" if kind == "ours" else "", label)
        yield f'<line class="base" x1="{x + LEFT}" y1="{middle:.1f}" x2="{at(x, time):.1f}" y2="{middle:.1f}"/>'
        yield f'<circle class="{kind}" cx="{at(x, time):.1f}" cy="{middle:.1f}" r="4.5"/>'
        yield text(at(x, time) + 8, middle + 4, "faint", f"{time:.{digits}f}")


def chart(operations, spread, title):
    """Above a lookup on a list of 8, on one thread and on four. Below, beside three readers, the time that 99 of 100 lookups keep, and the median of a
    replacement. The panel of four threads is left out if hand-kept, whose threads share no line, takes more than 1.3 times as long there."""
    place = operations.lists.index(8)
    lookups = [(label + ", section" * label.startswith("here"), operations.row(name, "lookup")) for name, label in LABELS.items()]
    lookups += [(f"{LABELS[name]}, look_up", operations.row(name, "look_up")) for name in (OURS, "from-Rust")]
    lookups = [(label, times[place], times[place - len(operations.lists)]) for label, times in lookups if None not in times]
    waits = [(LABELS[name], of["read_p99"], of["replace_p50"]) for name, of in spread.items() if name in LABELS]
    is_quiet = operations.scaled("hand-kept", "lookup")[place] <= NOISY
    panels = [
        ("a lookup, one thread", 1, [(label, one) for label, one, _ in lookups if label != LABELS["hand-packed"]]),
        ("a lookup, each of four threads", 1, [(label, most) for label, _, most in lookups] if is_quiet else []),
        ("99 of 100 lookups beside changes", 0, [(label + ", look_up" * label.startswith("here"), read) for label, read, _ in waits]),
        ("a replacement beside three readers, median", 0, [(label, replace) for label, _, replace in waits]),
    ]
    upper, lower = (60 + ROW * max(len(times) for *_, times in two) for two in (panels[:2], panels[2:]))
    size = f'width="{2 * WIDTH}" height="{62 + upper + lower}"'
    yield f'<svg xmlns="http://www.w3.org/2000/svg" {size} viewBox="0 0 {2 * WIDTH} {62 + upper + lower}" role="img">'
    yield "<title>Nanoseconds of a lookup on one thread and on four, and beside changes</title>"
    yield from (STYLE, '<rect class="paper" width="100%" height="100%"/>')
    yield from (text(10, 22, "title", "Nanoseconds, list of 8"), text(10, 40, "faint", f"{title}; less is better"))
    for number, (called, digits, times) in enumerate(panels):
        if times:
            yield from panel(WIDTH * (number % 2), 50 + upper * (number > 1), called, digits, times)
    yield "</svg>"


def main(processors, file=None, title=""):
    best = read(sys.stdin)
    run, spread = spread_of(best)
    if "changes" in best:
        return print_changes(best["changes"])
    operations = None
    if any(it[0] == "threads" for it in best):
        operations = Operations(best)
        operations.tables()
        operations.aims()
    if any(it[0] == "cpus" for it in best):
        Waits(best, int(processors)).tables()
    if spread:
        print_spread(run, spread)
    if file:
        with open(file, "w") as to:
            to.writelines(f"{it}\n" for it in chart(operations, spread, title))
    return None


if __name__ == "__main__":
    sys.exit(main(*sys.argv[1:]))
