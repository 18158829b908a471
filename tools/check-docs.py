#!/usr/bin/env -S python3 -B
"""Finds what the documents name and the tree doesn't have: links to files and headings, and names in
backquotes. Also tables that a line cuts off, rows with too many cells or words in one, links whose
text doesn't say where they lead, lines that are too long, our private words on a page for users
(PRIVATE), numbers that differ from docs/facts (tools/facts.py), and tables that differ from the
published runs (tools/figures.py).

    tools/check-docs.py            says what is wrong, and ends with 'N passed, M failed'

A name counts if it is a word of some file that isn't a document, or of a path, or if FOREIGN lists
it with its origin.
"""
import functools
import re
import subprocess
import sys
from fnmatch import fnmatch

import errors
import facts
import figures
from checks import ROOT, counted

# Words in backquotes that no file of this repository has, by where they come from.
FOREIGN = {
    "NetBSD": "PSLIST_READER_FOREACH PSLIST_WRITER_INSERT_HEAD PSLIST_WRITER_REMOVE if_acquire",
    "Linux": """PERCPU_COUNT_BIAS kfree list_add_rcu list_del_rcu list_for_each_entry_rcu migrate_disable percpu_ref percpu_ref_exit
        kfree_rcu percpu_ref_get percpu_ref_kill percpu_ref_put poll_state_synchronize_rcu rcu_barrier srcu_read_lock start_poll_synchronize_rcu
        synchronize_srcu""",
    "liburcu": """cds_list_add_rcu cds_list_del_rcu cds_list_for_each_entry_rcu defer_destroy rcu_read_lock rcu_register_thread synchronize_rcu
        urcu_ref""",
    "ck": "ck_epoch_section_2",
    "arc-swap": "load_full",
    "crossbeam": "Collector register",
    "Debian": "libck taskset",
    "glibc": "tcache_count",
    "Rust": "HashMap RwLock",
    "earlier versions": "poll_lend",
    "libc and os of the kit": "chdir getcwd lseek rattle_arg rattle_env rattle_env_at rattle_errno rattle_set_errno",
    "other provers": "admit assume axiom sorry",
    "ctest": "following",
    "x86-64": "cmpxchg mov xadd xchg",
    "rt": "RT_JOBS axioms logbook logic plant trusted unsupported dac8208d650f15bf",
}
FOREIGN_WORDS = {word for words in FOREIGN.values() for word in words.split()}

# The page that says what was called otherwise, and what names were then.
EARLIER = ("packaging/VERSIONS.md", re.compile(r"(lib)?registry(_\w+)?"))

FENCED = re.compile(r"^(```|~~~).*?^\1", re.MULTILINE | re.DOTALL)
QUOTED = re.compile(r"`([^`\n]+)`")
LINK = re.compile(r"\[([^\]]*)\]\(([^)\s]+)\)")
BY_LABEL = re.compile(r"\[[^\]]+\]\[[^\]]+\]|^\[[^\]]+\]:", re.MULTILINE)
HEADING = re.compile(r"^#+\s+(.*)$", re.MULTILINE)
CUT_OFF = re.compile(r"^\|.*\n(?!\||\n)(.+)", re.MULTILINE)
WORD = re.compile(r"[A-Za-z_][A-Za-z0-9_]*")

# What a page for users does without.
PRIVATE = re.compile(r"\b(?:seats?|ledgers?|deeds?|hears?|heard)\b", re.IGNORECASE)

# Pages for users, headers and manual pages among them.
USERS = ("README.md", "bench/README.md", "packaging/VERSIONS.md", "packaging/INSTALL.md", "docs/C.md", "c/include/*.h*",
         "man/*.7", "man/kupaldiz*.in", "netbsd/include/kupaldiz/*.h", "rust/README.md", "crates/registry_c/include/kupaldiz.h",
         "docs/CHOOSING.md", "docs/SCRIPTS.md", "docs/TUTORIAL-C.md", "docs/ERRORS.md", "docs/HOW-IT-WORKS.md", "docs/PROVED.md", "docs/RUST-RULES.md",
         "docs/NETBSD.md", "docs/HOWTO-DRIVERS.md", "docs/HOWTO-RUST.md", "explorer/README.md", "explorer/CASES.md")
# What may say a fact.
PAGES = ("*.md", "man/*", "*/include/*.h", "rust/src/lib.rs", "docs/pictures/*")
MOST_COLUMNS, MOST_CELLS, MOST_WORDS = 100, 5, 10
CELLS = re.compile(r"(?<!\\)\|")
# A line that may be longer: a table's row, a picture, or code, which nothing can break.
LONG = re.compile(r"\||<img|\s*`[^`]+`[.,:;]?$")
# A link's text that doesn't say where it leads: such a word, or the name of a page's file.
EMPTY_TEXT = re.compile(r"(?i:more|here|this|link|how|why|which|others?|another)|[A-Z]{3,}")


def tracked():
    """The files of the repository, new ones too. The tree may be another user's."""
    command = ["git", "-c", "safe.directory=*", "ls-files", "-co", "--exclude-standard"]
    listed = subprocess.run(command, cwd=ROOT, check=True, stdout=subprocess.PIPE, text=True)
    return [ROOT / name for name in listed.stdout.splitlines() if (ROOT / name).is_file()]


def text_of(path):
    return path.read_text(encoding="utf-8", errors="replace")


def without_code(text):
    """The text with empty lines for those of its code."""
    return FENCED.sub(lambda block: "\n" * block[0].count("\n"), text)


@functools.cache
def anchors(path):
    """The anchors that a page's headings have."""
    headings = HEADING.findall(FENCED.sub("", text_of(path)).lower())
    return {re.sub(r"[^\w\- ]", "", it).strip().replace(" ", "-") for it in headings}


def links(path, prose):
    """The links that lead nowhere, whose text doesn't say where they lead, or whose target is elsewhere on the page."""
    yield from (f"a target elsewhere: {it}" for it in BY_LABEL.findall(QUOTED.sub("", prose)))
    for text, target in LINK.findall(prose):
        name, _, anchor = target.partition("#")
        file = path.parent / name if name else path
        if EMPTY_TEXT.fullmatch(text):
            yield f"the text '{text}'"
        if "://" not in target and not file.exists():
            yield f"no file {target}"
        elif anchor and file.suffix == ".md" and anchor not in anchors(file):
            yield f"no heading {target}"


def unknown(name, prose, words):
    """The names in backquotes that nothing has. What has dots or capitals in place of a part stands for many names, and isn't looked for."""
    for quoted in (it for it in set(QUOTED.findall(prose)) if ".." not in it and not it.startswith("-")):
        names = (it for it in WORD.findall(quoted) if len(it) > 2 and it.strip("_") == it and not it.isupper())
        strange = (it for it in names if it not in words and it not in FOREIGN_WORDS)
        yield from (f"`{quoted}`: {it}" for it in strange if name != EARLIER[0] or not EARLIER[1].fullmatch(it))


def layout(text):
    """The lines that have too many columns, the rows of tables that have too many cells or words in one, and the tables that a line cuts off."""
    yield from (f"a table ends at: {line}" for line in CUT_OFF.findall(text))
    for number, line in enumerate(text.split("\n"), 1):
        if len(line) > MOST_COLUMNS and not LONG.match(line):
            yield f"line {number} has {len(line)} columns"
        cells = CELLS.split(LINK.sub(r"\1", line))[1:-1] if line.startswith("|") else []
        longest = max((len(it.split()) for it in cells), default=0)
        if len(cells) > MOST_CELLS or longest > MOST_WORDS:
            yield f"line {number} has {len(cells)} cells, one of {longest} words"


def private(text):
    """The lines that have a private word, except in code and in the targets of links."""
    for number, line in enumerate(LINK.sub(r"\1", without_code(text)).split("\n"), 1):
        yield from (f"line {number}: '{it}' is a private word" for it in PRIVATE.findall(line))


def is_one_of(path, patterns):
    """Whether a pattern names the page. Its stars are for names, not for folders."""
    name = str(path.relative_to(ROOT))
    return any(name.count("/") == it.count("/") and fnmatch(name, it) for it in patterns)


def words_of(files):
    """All words of the paths, and of the files that aren't documents."""
    texts = (text_of(it) for it in files if it.suffix != ".md" and it != ROOT / "tools/check-docs.py")
    return {word for text in (*texts, *(str(it.relative_to(ROOT)) for it in files)) for word in WORD.findall(text)}


def checks_of(path, words):
    """The checks of a page: what each is of, and what it finds."""
    text = text_of(path)
    if path.suffix == ".md":
        prose = FENCED.sub("", text)
        yield path, "links", links(path, prose)
        yield path, "names", unknown(str(path.relative_to(ROOT)), prose, words)
        yield path, "layout", layout(without_code(text))
    if is_one_of(path, USERS):
        yield path, "words", private(text)


def checks_of_all():
    files = tracked()
    words = words_of(files)
    for path in files:
        yield from checks_of(path, words)
    if facts.FACTS in files:
        pages = [it for it in files if any(fnmatch(it.relative_to(ROOT), form) for form in PAGES)]
        yield from ((path, "facts", [fault] if fault else []) for path, fault in facts.compared(pages))
    for tool in (figures, errors):
        yield tool.PAGE, tool.__name__, [fault] if (fault := tool.fault()) else []


sys.exit(counted("\n".join(f"{path.relative_to(ROOT)}: {kind}: {line}" for line in found) for path, kind, found in checks_of_all()))
