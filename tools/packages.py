#!/usr/bin/env -S python3 -B
"""The Debian packages that the tests and a release need, beside the Rattle kit, and what each serves. It
installs nothing unless --install is given.

    tools/packages.py [PART..]              names those that are missing, and how to install them
    tools/packages.py --install [PART..]    says what it installs, and installs it by apt-get, which
                                            takes root and a network

A PART is one of PARTS, a group of tests (tools/run-tests.py) or a tool, or one of RELEASES. Without one
all of PARTS count. Each row of PACKAGES is a check, and the last line is 'N passed, M failed'.
"""
import collections
import os
import pathlib
import shutil
import subprocess
import sys

from checks import ended

# What the parts are called where a user reads of them.
PARTS = {
    "archive": "tools/build-archive.sh",
    "tests": "all tests, which ctest runs",
    "page": "the manual pages",
    "build": "the clients in C are built",
    "c": "the clients in C",
    "watched": "the clients in C, watched",
    "heap": "memory behind entries",
    "netbsd": "the manual pages' names",
    "explorer": "the explorer",
    "rust": "the crate in Rust",
    "rust-watched": "the crate in Rust, watched",
    "aarch64": "aarch64, under qemu",
}
RELEASES = {
    "release": "tools/make-release.sh",
    "release-aarch64": "a release for aarch64",
    "roots": "tools/test-release.sh",
}
# Packages, a command or file that shows that they are there, and the parts that need them.
Package = collections.namedtuple("Package", "names shown parts")
FACE = "page build c watched heap netbsd explorer rust rust-watched"
PACKAGES = [Package(names, shown, parts.split()) for names, shown, parts in (
    ("cmake", "ctest", f"tests aarch64 {FACE}"),
    ("git", "git", "c release"),
    ("gcc", "gcc", f"archive aarch64 release {FACE}"),
    ("libc6-dev", "/usr/include/stdlib.h", f"archive aarch64 release {FACE}"),
    ("binutils", "ar", f"archive aarch64 release {FACE}"),
    ("make", "make", f"aarch64 release {FACE}"),
    ("g++", "g++", "page c netbsd explorer"),
    ("pkg-config", "pkg-config", "c release"),
    ("man-db", "man", "c"),
    ("mandoc", "mandoc", "page"),
    ("cargo", "cargo", "rust rust-watched release"),
    ("valgrind libc6-dbg", "valgrind", "watched heap netbsd explorer rust-watched"),
    ("qemu-user-static", "qemu-aarch64-static", "aarch64"),
    ("gcc-aarch64-linux-gnu", "aarch64-linux-gnu-gcc", "aarch64 release-aarch64"),
    ("libc6-dev-arm64-cross", "/usr/aarch64-linux-gnu/include/stdlib.h", "aarch64 release-aarch64"),
    ("xz-utils", "xz", "release"),
    ("dpkg-dev", "dpkg-buildpackage", "release"),
    ("debhelper", "dh", "release"),
    ("lintian", "lintian", "release"),
    ("mmdebstrap", "mmdebstrap", "roots"),
)]
APT = ("apt-get", "-o", "DPkg::Lock::Timeout=300")
INSTALL = "install --no-install-recommends"


def missing(parts):
    """The packages that any of these parts needs and that aren't there."""
    needed = [it for it in PACKAGES if set(it.parts) & set(parts)]
    return [it for it in needed if not (shutil.which(it.shown) or pathlib.Path(it.shown).exists())]


def names(packages):
    return " ".join(it.names for it in packages)


def line(packages):
    """What a user types, as root, to install them."""
    return f"apt-get {INSTALL} {names(packages)}"


def fault(package):
    serves = ", ".join({**PARTS, **RELEASES}[part] for part in package.parts)
    return f"there is no {package.shown} ({package.names}). It serves: {serves}"


def install(packages):
    """Says what it installs, and installs it. Whether it is there then is looked at afterwards."""
    print(f"installs, as --install asks: {names(packages)}", flush=True)
    words = [*INSTALL.split(), "-y", *names(packages).split()]
    for command in ([*APT, "update"], [*APT, *words]) if shutil.which("apt-get") else ():
        quiet = {**os.environ, "DEBIAN_FRONTEND": "noninteractive"}
        subprocess.run(command, stdin=subprocess.DEVNULL, env=quiet, check=False)


def main(words):
    may_install = words[:1] == ["--install"]
    parts = words[may_install:] or list(PARTS)
    if unknown := sorted(set(parts) - set(PARTS) - set(RELEASES)):
        sys.exit(f"there is no part {unknown[0]}: {' '.join([*PARTS, *RELEASES])}")
    if may_install and missing(parts):
        install(missing(parts))
    left = missing(parts)
    for package in left:
        print(fault(package))
    if left:
        print(f"To install what is missing, as root: {line(left)}")
    needed = sum(bool(set(it.parts) & set(parts)) for it in PACKAGES)
    return ended(needed - len(left), len(left))


if __name__ == "__main__":
    sys.exit(main(sys.argv[1:]))
