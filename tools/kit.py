"""Knows the crates of crates.txt and the folder of the Rattle kit, and names both to `rattle`, the command beneath `rt`."""
import functools
import pathlib
import shutil
import subprocess
import sys

ROOT = pathlib.Path(__file__).resolve().parent.parent


@functools.cache
def kit():
    """The kit's folder."""
    if shutil.which("rt") is None:
        sys.exit("there is no rt, the command of the Rattle kit: the kit comes from whoever gives you Rattle")
    said = subprocess.run(["rt", "doc"], check=True, stdout=subprocess.PIPE, text=True)
    return pathlib.Path(said.stdout.strip()).parent


@functools.cache
def lines():
    """The lines of crates.txt: of each crate its name with what stands beside that, and the libraries that it stands on."""
    texts = [line.partition("#")[0].partition(":") for line in (ROOT / "crates.txt").read_text().splitlines()]
    return [(head.split(), names.split()) for head, _, names in texts if head.strip()]


@functools.cache
def listed():
    """Of each crate the libraries that its line names, in the order of the file."""
    return {head[0]: names for head, names in lines()}


def below(crate):
    """The crates of this repository that a crate stands on, each after those that it stands on itself."""
    found = []
    for name in listed()[crate]:
        if name in listed():
            found += [it for it in [*below(name), name] if it not in found]
    return found


def libraries_of_kit(crate):
    return list(dict.fromkeys(["std", *(name for name in listed()[crate] if name not in listed())]))


def externs(names):
    return [word for name in names for word in ("--extern", f"{name}={kit()}/rlibs/{name}.rlib")]


def logic():
    return ["--antt-project", f"{kit()}/rattle/logic/antt-project.json", "--logic-built", f"{kit()}/logic_built"]


def built(crate):
    """The library that rt makes of a crate."""
    return ROOT / "crates" / crate / "out/rlib" / f"{crate}.rlib"


def root_of(crate):
    """The file with which the crate begins, from its folder."""
    return next(it for it in ("src/main.rt", "src/lib.rt") if (ROOT / "crates" / crate / it).is_file())


def over_libraries(crate, folder=None):
    """What names a crate and the libraries beneath it to `rattle`: each of these is folder/NAME.rlib, or where rt makes it."""
    at = {name: folder / f"{name}.rlib" if folder else built(name) for name in below(crate)}
    words = ["--crate-name", crate, root_of(crate), *externs(libraries_of_kit(crate)), "-L", f"dependency={kit()}/rlibs"]
    words += [word for name in listed()[crate] if name in at for word in ("--extern", f"{name}={at[name]}")]
    words += [word for path in dict.fromkeys(it.parent for it in at.values()) for word in ("-L", f"dependency={path}")]
    return [*words, *logic(), "--links", f"{crate}=", *(["--crate-type", "staticlib"] if ([crate, "staticlib"], listed()[crate]) in lines() else [])]


def over_sources(crate, others=None, tree=ROOT):
    """What names a crate to `rattle` with the sources of those beneath it, or of these others, of which none is built. A static library goes as any other:
    the checks of what it may link want built ones."""
    names = below(crate) if others is None else others
    libraries = {name for it in [crate, *names] for name in libraries_of_kit(it)} | {"core"}
    words = ["--crate-name", crate, root_of(crate), *externs(sorted(libraries)), "-L", f"dependency={kit()}/rlibs"]
    for name in names:
        uses = dict.fromkeys(["core", *libraries_of_kit(name), *(it for it in listed()[name] if it in listed())])
        words += ["--lib", f"{name}:{','.join(uses)}={tree}/crates/{name}/src/lib.rt"]
    return [*words, *logic(), "--links", f"{crate}="]
