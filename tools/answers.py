#!/usr/bin/env python3
"""The rows of docs/ANSWERS.md's table, made and shown.

    answers.py [--show]       makes the file of each row, has ./airway answer it, and holds the answer to what the row says; --show prints file and answer of each
    answers.py --bound        what the proved bound says of the samples, beside the true error where that can be worked out exactly

Every row of the table has its case here and every case its row."""
import argparse
import fractions
import os
import re
import subprocess
import sys

sys.dont_write_bytecode = True
import form
from form import AIR, OPENING, WALL, Session

PAGE = os.path.join(form.ROOT, "docs", "ANSWERS.md")


# ---------------------------------------------------------------- the files

def sample(**changes):
    """A passage of four cells between two openings, 6 × 1 × 1; parts of it can be changed."""
    parts = dict(sides=(6, 1, 1), order="big", tolerance=6, levels=1, rounds=100,
                 labels=[OPENING, AIR, AIR, AIR, AIR, OPENING], values=[0, 0, 0, 0, 0, -1000])
    parts.update(changes)
    return Session(**parts)


def throat(**changes):
    with open(os.path.join(form.ROOT, "examples", "throat.session"), "rb") as file:
        session = form.read(file.read())
    for name, content in changes.items():
        setattr(session, name, content)
    return session


def room(sides, order="big", tolerance=6):
    """All air, with an opening in two opposite corners."""
    cells = sides[0] * sides[1] * sides[2]
    return Session(sides, order, tolerance, 6, 1000, [OPENING] + [AIR] * (cells - 2) + [OPENING], [512] + [0] * (cells - 2) + [131072])


def sixteen_bit(session):
    """The same with values of two bytes."""
    return session.header() + bytes(session.labels) + b"".join(value.to_bytes(2, "big", signed=True) for value in session.values)


def old_form(session):
    return b"size=6x1x1\nunit=1\n" + b"".join(value.to_bytes(2, "big", signed=True) for value in session.values) + bytes(session.labels)


def relabelled(cell, label):
    labels = sample().labels
    labels[cell] = label
    return labels


def with_line(number, line):
    """The sample with another header line."""
    lines = sample().bytes().split(b"\n", 7)
    lines[number - 1] = line
    return b"\n".join(lines)


def other_order(session):
    """The header names the order in which the values are not."""
    return session.bytes().replace(b"order=big", b"order=little")


def swapped(session):
    """The header has x and y exchanged, the body as it was."""
    nx, ny, nz = session.sides
    session.sides = ny, nx, nz
    return session.bytes()


PICTURE = b"\x89PNG\r\n\x1a\n\x00\x00\x00\rIHDR\x00\x00\x00\x06\x00\x00\x00\x01"
FOLDER = object()

# the name of a row: its file
CASES = {
    "CR LF": lambda: sample().header().replace(b"\n", b"\r\n") + sample().bytes()[len(sample().header()):],
    "byte order mark": lambda: b"\xef\xbb\xbf" + sample().bytes(),
    "blanks": lambda: with_line(1, b"nx = 6"),
    "picture": lambda: PICTURE,
    "empty file": lambda: b"",
    "folder": lambda: FOLDER,
    "old form": lambda: old_form(sample()),
    "leading zero": lambda: with_line(1, b"nx=06"),
    "order not named": lambda: with_line(4, b"order=Big"),
    "side": lambda: Session((33, 1, 1), "big", 6, 1, 100, [OPENING] + [AIR] * 32, [0] * 33).bytes(),
    "newline at the end": lambda: sample().bytes() + b"\n",
    "16-bit values": lambda: sixteen_bit(sample()),
    "cut off": lambda: sample().bytes()[:-3],
    "many cells": lambda: room((11, 10, 10)).bytes(),
    "setting": lambda: sample(levels=7).bytes(),
    "labels as text": lambda: sample(labels=[ord(str(label)) for label in sample().labels]).bytes(),
    "strange label": lambda: sample(labels=relabelled(2, 3)).bytes(),
    "wrong order": lambda: other_order(sample(values=[10, 0, 0, 0, 0, 20])),
    "value at a wall": lambda: sample(labels=relabelled(2, WALL), values=[0, 0, 700, 0, 0, -1000]).bytes(),
    "no air": lambda: sample(labels=[OPENING] + [WALL] * 5, values=[0] * 6).bytes(),
    "sealed": lambda: sample(labels=[OPENING, AIR, WALL, AIR, WALL, OPENING], values=[0, 0, 0, 0, 0, -1000]).bytes(),
    "limit": lambda: throat(rounds=2).bytes(),
    "tolerance 0": lambda: throat(tolerance=0, rounds=1000).bytes(),
    "accepted": lambda: sample().bytes(),
    "swapped axes": lambda: swapped(room((4, 3, 2))),
    "order in range": lambda: other_order(room((4, 3, 2))),
}


# ---------------------------------------------------------------- the table

def rows():
    """Name -> what is seen, of each row of the page's table."""
    with open(PAGE, encoding="utf-8") as file:
        lines = file.read().split("\n")
    start = next(number for number, line in enumerate(lines) if line.startswith("| case | what you see |"))
    seen = {}
    for line in lines[start + 2:]:
        if not line.startswith("|"):
            break
        cells = [cell.strip() for cell in line.strip("|").split("|")]
        seen[cells[0]] = cells[1]
    return seen


def answered(given):
    if given is FOLDER:
        folder = os.open(form.ROOT, os.O_RDONLY)
        done = subprocess.run([form.SCRIPT], stdin=folder, stdout=subprocess.PIPE, stderr=subprocess.DEVNULL, check=True)
        os.close(folder)
        return form.parse_print(done.stdout)[0]
    return form.run(given)[0]


def fits(seen, fields):
    """Whether an answer is what a row says that one sees: one of the answers that it names, and each other field as it stands there."""
    named = re.findall(r"`([a-z]+)=(\d+)`", seen)
    answers = [int(content) for key, content in named if key == "answer"]
    others = [(key, int(content)) for key, content in named if key != "answer"]
    return fields["answer"] in answers and all(fields[key] == content for key, content in others)


def shown(given):
    return "a folder" if given is FOLDER else f"{len(given)} bytes {given[:24]!r}" + ("" if len(given) <= 24 else "..")


def check(options):
    table, wrong = rows(), 0
    for name in sorted(table.keys() ^ CASES.keys()):
        print(f"answers: '{name}' is in {'the table alone' if name in table else 'the script alone'}")
        wrong += 1
    for name in [name for name in table if name in CASES]:
        given = CASES[name]()
        fields = answered(given)
        if options.show:
            print(f"{name}: {shown(given)}: " + " ".join(f"{key}={content}" for key, content in fields.items()))
        if not fits(table[name], fields):
            print(f"answers: '{name}' says {table[name]}; answered was {fields}")
            wrong += 1
    print(f"answers: {len(table)} rows, {wrong} wrong")
    return 1 if wrong else 0


# ---------------------------------------------------------------- the bound

def exact(session):
    """The exact pressures of the air cells, by elimination over fractions."""
    air = [cell for cell, label in enumerate(session.labels) if label == AIR]
    lines = []
    for cell in air:
        line, right = {cell: fractions.Fraction(0)}, fractions.Fraction(session.values[cell])
        for other in form.neighbours(session.sides, cell):
            if session.labels[other] == WALL:
                continue
            line[cell] += 1
            if session.labels[other] == OPENING:
                right += session.values[other]
            else:
                line[other] = line.get(other, fractions.Fraction(0)) - 1
        lines.append((line, right))
    return solved(air, lines)


def solved(air, lines):
    """Gauss, in the cells' order: the matrix is positive definite, so no pivot is 0."""
    done = []
    for number, cell in enumerate(air):
        line, right = lines[number]
        done.append((cell, line, right))
        for later in range(number + 1, len(air)):
            other, its = lines[later]
            if cell in other:
                share = other.pop(cell) / line[cell]
                for name, factor in line.items():
                    if name != cell:
                        other[name] = other.get(name, fractions.Fraction(0)) - share * factor
                lines[later] = other, its - share * right
    pressures = {}
    for cell, line, right in reversed(done):
        pressures[cell] = (right - sum(factor * pressures[name] for name, factor in line.items() if name != cell)) / line[cell]
    return pressures


def bound_row(name, session, by_hand):
    fields, pressures = form.run(session.bytes(), session.cells() > 1000)
    if fields["answer"] != 0:
        return f"{name}, tolerance {session.tolerance}: answer={fields['answer']}, no pressures"
    line = f"{name}, tolerance {session.tolerance}: worst {fields['worst']} × interior {fields['interior']} × depth {fields['depth']}: proved bound {form.bound(fields)}"
    if by_hand:
        error = max(abs(pressures[cell] - pressure) for cell, pressure in exact(session).items())
        line += f", true error {float(error):.2f}"
    return line


def bounds():
    for tolerance in (1000, 30, 3, 1):
        print(bound_row("the throat sample", throat(tolerance=tolerance, rounds=1000), True))
    print(bound_row("a room of 32 × 32 × 32", room((32, 32, 32)), False))
    return 0


def main():
    parser = argparse.ArgumentParser(description="The rows of docs/ANSWERS.md's table, made and shown.")
    parser.add_argument("--show", action="store_true")
    parser.add_argument("--bound", action="store_true")
    options = parser.parse_args()
    return bounds() if options.bound else check(options)


if __name__ == "__main__":
    sys.exit(main())
