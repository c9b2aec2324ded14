#!/usr/bin/env python3
"""The map of crates, from crates.txt: each crate stands on those in the rows below it. map.py"""
import os
import sys
import textwrap

ROOT = os.path.dirname(os.path.dirname(os.path.abspath(__file__)))


def crates():
    """Name -> the names that it stands on, without the kit's own; `staticlib` may stand behind a name."""
    on = {}
    with open(os.path.join(ROOT, "crates.txt"), encoding="utf-8") as file:
        for line in file:
            if ":" in line and not line.startswith("#"):
                name, _, rest = line.partition(":")
                on[name.split()[0]] = rest.split()
    return {name: [other for other in below if other in on] for name, below in on.items()}


def height(on, name, known):
    if name not in known:
        known[name] = 1 + max([height(on, other, known) for other in on[name]], default=-1)
    return known[name]


def is_program(name):
    return os.path.exists(os.path.join(ROOT, "crates", name, "src", "main.rt"))


def row(mark, names):
    return textwrap.fill(" ".join(names), width=92, initial_indent=f"{mark:<10}", subsequent_indent=" " * 10)


def main():
    on, known = crates(), {}
    for name in on:
        height(on, name, known)
    print(row("programs", [name for name in on if is_program(name)]))
    for level in range(max(known.values()), -1, -1):
        names = [name for name in on if known[name] == level and not is_program(name)]
        if names:
            print(row(f"{'│':>5}", names))
    return 0


if __name__ == "__main__":
    sys.exit(main())
