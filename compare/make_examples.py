#!/usr/bin/env python3
"""Writes the sample sessions of examples/: document 01's own example, and a small cast of a nose and throat."""
import os
import sys

sys.dont_write_bytecode = True
import generate

FOLDER = os.path.join(os.path.dirname(os.path.dirname(os.path.abspath(__file__))), "examples")

# The nose and throat, one layer above the other, from the throat up. Within a layer x runs to the right, from the face to the back of the
# throat, and y down. '#' is tissue, '.' air, 'N' a nostril, 'T' the way to the windpipe. The two passages have the septum between them
# and meet behind it.
WALL = ["##########"] * 5
PHARYNX = ["##########", "#######..#", "#######..#", "#######..#", "##########"]
THROAT = [
    ["##########", "##########", "#######TT#", "##########", "##########"],
    PHARYNX,
    PHARYNX,
    ["##########", "N........#", "#######..#", "N........#", "##########"],
    ["##########", "##.......#", "#######..#", "##.......#", "##########"],
    WALL,
]
LABELS = {".": 0, "N": 1, "T": 1, "#": 2}
LEVELS = {"N": 0, "T": -120000}


def throat():
    marks = "".join("".join(layer) for layer in THROAT)
    labels = [LABELS[mark] for mark in marks]
    values = [LEVELS.get(mark, 0) for mark in marks]
    return generate.session_bytes(10, 5, 6, "little", 3, 3, 100, labels, values)


def example():
    return generate.session_bytes(3, 1, 1, "big", 0, 1, 5, [1, 0, 1], [10, 0, 20])


def sessions():
    for name, session in (("example", example()), ("throat", throat())):
        yield os.path.join(FOLDER, name + ".session"), session


def differing():
    """The files that are not what would be written."""
    return [path for path, session in sessions() if not os.path.exists(path) or open(path, "rb").read() != session]


def main():
    for path, session in sessions():
        with open(path, "wb") as file:
            file.write(session)


if __name__ == "__main__":
    main()
