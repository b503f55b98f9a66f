#!/usr/bin/env python3
"""Prints the crates that stand on a crate, directly or through others, lowest layer first: what a change of it proves again.

    tools/above.py NAME    those above the crate of this name, in one line
    tools/above.py         for each crate a line: how many stand on it, and its name
"""
import sys
from pathlib import Path

CRATES = Path(__file__).resolve().parent.parent / "crates.txt"


def crates():
    """Each crate with the names that it stands on, in the order of crates.txt."""
    for line in CRATES.read_text(encoding="utf-8").splitlines():
        if line.strip() and not line.startswith("#"):
            name, _, below = line.partition(":")
            yield name.split()[0], set(below.split())


def above(name, stands_on):
    """The crates that stand on the one of this name."""
    found, more = set(), {name}
    while more:
        more = {other for other, below in stands_on.items() if below & more} - found
        found |= more
    return [other for other in stands_on if other in found]


def main():
    stands_on = dict(crates())
    match sys.argv[1:]:
        case []:
            for name in stands_on:
                print(f"{len(above(name, stands_on)):3} {name}")
        case [name] if name in stands_on:
            print(" ".join(above(name, stands_on)))
        case _:
            print(f"usage: tools/above.py [NAME], with a name of {CRATES.name}", file=sys.stderr)
            return 2
    return 0


if __name__ == "__main__":
    sys.exit(main())
