#!/usr/bin/env -S python3 -B
"""Prints the crates that stand on others, directly or through crates between: what `rt ci` proves again after a change of those.

    tools/above.py CRATE..    one a line, each after those that it stands on itself
"""
import sys

from kit import below, listed


def main():
    words = sys.argv[1:]
    if not words or set(words) - set(listed()):
        sys.exit(__doc__)
    # In crates.txt each crate comes after those that it uses.
    for crate in listed():
        if set(words) & set(below(crate)):
            print(crate)


if __name__ == "__main__":
    main()
