#!/usr/bin/env python3
"""Seeded sessions for comparing the program with the separate implementation.

    generate.py --seed S --count N [--max-cells M] [--kind sound|damaged|all]
                (--frames | --out DIR)

The same arguments give the same bytes. Session K does not depend on the count.
"""

import argparse
import collections
import os
import random
import struct
import sys

AIR, OPENING, WALL = 0, 1, 2
MAX_SIDE = 32
MAX_LEVEL = 1_000_000
MAX_SOURCE = 1_000
PROGRAM_ROOM = 1000
INT32_MIN, INT32_MAX = -2**31, 2**31 - 1
KEYS = ["nx", "ny", "nz", "order", "tolerance", "levels", "rounds"]

# A cast without values or settings.
Shape = collections.namedtuple("Shape", "nx ny nz labels")


# ---------------------------------------------------------------- the form

def header_lines(nx, ny, nz, order, tolerance, levels, rounds):
    """The seven lines, each with its LF."""
    contents = [nx, ny, nz, order, tolerance, levels, rounds]
    return [f"{key}={content}\n".encode("ascii") for key, content in zip(KEYS, contents)]


def body_bytes(order, labels, values):
    spelling = (">" if order == "big" else "<") + "i"
    return bytes(labels) + b"".join(struct.pack(spelling, value) for value in values)


def session_bytes(nx, ny, nz, order, tolerance, levels, rounds, labels, values):
    """One session in document 01's form; order is 'big' or 'little'."""
    header = b"".join(header_lines(nx, ny, nz, order, tolerance, levels, rounds))
    return header + body_bytes(order, labels, values)


class Session:
    """A session in parts that can be damaged one by one before it is written."""

    def __init__(self, nx, ny, nz, order, tolerance, levels, rounds, labels, values):
        self.fields = [nx, ny, nz, order, tolerance, levels, rounds]
        self.labels = list(labels)
        self.values = list(values)
        self.line_damage = []   # functions from the seven lines to some lines
        self.body_damage = []   # functions from the body to a body
        self.cut = None         # keep so many bytes of the whole

    def bytes(self):
        lines = header_lines(*self.fields)
        for change in self.line_damage:
            lines = change(lines)
        body = body_bytes(self.fields[3], self.labels, self.values)
        for change in self.body_damage:
            body = change(body)
        whole = b"".join(lines) + body
        return whole if self.cut is None else whole[:self.cut]


# ---------------------------------------------------------------- geometry

def cell_number(nx, ny, i, j, k):
    return i + nx * (j + ny * k)


def neighbours(nx, ny, nz, cell):
    i, j, k = cell % nx, cell // nx % ny, cell // (nx * ny)
    if i > 0:
        yield cell - 1
    if i + 1 < nx:
        yield cell + 1
    if j > 0:
        yield cell - nx
    if j + 1 < ny:
        yield cell + nx
    if k > 0:
        yield cell - nx * ny
    if k + 1 < nz:
        yield cell + nx * ny


def reached_air(shape):
    """The set of air cells that have a walk through air to an opening."""
    edge = [c for c, label in enumerate(shape.labels) if label == OPENING]
    seen = set()
    while edge:
        cell = edge.pop()
        for other in neighbours(shape.nx, shape.ny, shape.nz, cell):
            if shape.labels[other] == AIR and other not in seen:
                seen.add(other)
                edge.append(other)
    return seen


def walled_off(shape):
    """The same cast with every sealed air cell made wall."""
    reached = reached_air(shape)
    labels = [WALL if label == AIR and cell not in reached else label
              for cell, label in enumerate(shape.labels)]
    return shape._replace(labels=labels)


def random_sides(rng, max_cells, least=1, most=MAX_SIDE):
    """Three sides whose product is at most max_cells; mostly small casts."""
    budget = max_cells
    if rng.random() < 0.85:
        budget = min(max_cells, rng.choice([8, 27, 60, 125, 200, 300]))
    sides = []
    for left in (2, 1, 0):
        floor = least if least**left * least <= budget else 1
        top = max(floor, min(most, budget // max(1, least**left)))
        if left:
            top = min(top, max(floor, round(budget ** (1 / (left + 1)) * rng.choice([1, 1, 1.5, 3]))))
        side = rng.randint(floor, max(floor, min(top, budget)))
        if left == 0 and rng.random() < 0.6:
            side = max(floor, min(most, budget))
        sides.append(side)
        budget = max(1, budget // side)
    rng.shuffle(sides)
    return sides


# ---------------------------------------------------------------- families of sound casts

def straight_tube(rng, max_cells):
    """Air from an opening at one end to an opening or a wall at the other."""
    cross = rng.choice([1, 1, 2, 3, 4])
    length = max(2, min(rng.choice([2, 3, 5, 8, 13, 20, 31, 32]), max_cells // (cross * cross)))
    if length * cross * cross > max_cells:
        cross, length = 1, max(1, min(length, max_cells))
    axis = rng.randrange(3)
    sides = [cross] * 3
    sides[axis] = length
    nx, ny, nz = sides
    far = rng.choice([OPENING, OPENING, WALL, AIR])
    labels = []
    for cell in range(nx * ny * nz):
        place = (cell % nx, cell // nx % ny, cell // (nx * ny))[axis]
        labels.append(OPENING if place == 0 else far if place == length - 1 else AIR)
    return Shape(nx, ny, nz, labels)


def winding_throat(rng, max_cells):
    """A walk carved out of wall, an opening where it starts."""
    return throat_within(rng, *random_sides(rng, max_cells, least=2))


def throat_within(rng, nx, ny, nz):
    labels = [WALL] * (nx * ny * nz)
    cell = rng.randrange(len(labels))
    start = cell
    for _ in range(rng.randint(2, 2 * len(labels) + 2)):
        labels[cell] = AIR
        fresh = [n for n in neighbours(nx, ny, nz, cell)
                 if sum(labels[m] == AIR for m in neighbours(nx, ny, nz, n)) <= 1]
        options = fresh or list(neighbours(nx, ny, nz, cell))
        if not options:
            break
        cell = rng.choice(options)
    if rng.random() < 0.5:
        labels[cell] = OPENING
    labels[start] = OPENING
    return walled_off(Shape(nx, ny, nz, labels))


def maze(rng, max_cells):
    """Passages one cell wide on every second cell, walls between."""
    nx, ny, nz = random_sides(rng, max_cells, least=3)
    if rng.random() < 0.5:
        nx, ny, nz = min(MAX_SIDE, max(1, max_cells // ny)), ny, 1
    return maze_within(rng, nx, ny, nz)


def maze_within(rng, nx, ny, nz):
    labels = [WALL] * (nx * ny * nz)
    stack = [(0, 0, 0)]
    labels[0] = AIR
    while stack:
        i, j, k = stack[-1]
        steps = []
        for di, dj, dk in ((1, 0, 0), (-1, 0, 0), (0, 1, 0), (0, -1, 0), (0, 0, 1), (0, 0, -1)):
            a, b, c = i + 2 * di, j + 2 * dj, k + 2 * dk
            if 0 <= a < nx and 0 <= b < ny and 0 <= c < nz \
                    and labels[cell_number(nx, ny, a, b, c)] == WALL:
                steps.append((di, dj, dk))
        if not steps:
            stack.pop()
            continue
        di, dj, dk = rng.choice(steps)
        labels[cell_number(nx, ny, i + di, j + dj, k + dk)] = AIR
        labels[cell_number(nx, ny, i + 2 * di, j + 2 * dj, k + 2 * dk)] = AIR
        stack.append((i + 2 * di, j + 2 * dj, k + 2 * dk))
    passages = [c for c, label in enumerate(labels) if label == AIR]
    for cell in rng.sample(passages, min(len(passages), rng.choice([1, 1, 2, 3]))):
        labels[cell] = OPENING
    return walled_off(Shape(nx, ny, nz, labels))


def open_room(rng, max_cells):
    """All air but a few openings, here and there a pillar; sides mostly odd."""
    nx, ny, nz = [s - 1 if s % 2 == 0 and rng.random() < 0.8 else s
                  for s in random_sides(rng, max_cells, least=3)]
    nx, ny, nz = max(1, nx), max(1, ny), max(1, nz)
    labels = [AIR] * (nx * ny * nz)
    for _ in range(rng.choice([0, 0, 1, 4])):
        labels[rng.randrange(len(labels))] = WALL
    for _ in range(rng.choice([1, 1, 2, 5])):
        labels[rng.randrange(len(labels))] = OPENING
    return walled_off(Shape(nx, ny, nz, labels))


def half_open_room(rng, max_cells):
    """A box of air with one whole face of openings."""
    nx, ny, nz = random_sides(rng, max_cells, least=2)
    axis = rng.randrange(3)
    last = (nx, ny, nz)[axis] - 1
    face = rng.choice([0, last])
    labels = [OPENING if (c % nx, c // nx % ny, c // (nx * ny))[axis] == face else AIR
              for c in range(nx * ny * nz)]
    return Shape(nx, ny, nz, labels)


def rubble(rng, max_cells):
    """Random labels with given densities; sealed air mostly walled off."""
    nx, ny, nz = random_sides(rng, max_cells)
    air, opening = rng.choice([(0.9, 0.05), (0.7, 0.1), (0.5, 0.25), (0.34, 0.33), (0.8, 0.02), (0.3, 0.6)])
    labels = rng.choices([AIR, OPENING, WALL], [air, opening, 1 - air - opening], k=nx * ny * nz)
    shape = Shape(nx, ny, nz, labels)
    return walled_off(shape) if rng.random() < 0.85 else shape


def several_regions(rng, max_cells):
    """Slabs of air with wall planes between, an opening in each."""
    nx, ny, nz = random_sides(rng, max_cells, least=2)
    axis = max(range(3), key=lambda a: (nx, ny, nz)[a])
    gap = rng.choice([2, 3, 4, 5])
    labels, slabs = [], collections.defaultdict(list)
    for cell in range(nx * ny * nz):
        place = (cell % nx, cell // nx % ny, cell // (nx * ny))[axis]
        wall = place % gap == gap - 1
        labels.append(WALL if wall else AIR)
        if not wall:
            slabs[place // gap].append(cell)
    for slab in sorted(slabs):
        for cell in rng.sample(slabs[slab], min(len(slabs[slab]), rng.choice([1, 1, 2]))):
            labels[cell] = OPENING
    return Shape(nx, ny, nz, labels)


def long_thin(rng, max_cells):
    """Sides of 1 and 32 together."""
    sides = rng.choice([(32, 1, 1), (1, 32, 1), (1, 1, 32), (1, 32, 2), (32, 2, 1), (2, 1, 32),
                        (32, 3, 1), (1, 3, 31), (31, 1, 2), (32, 5, 2), (1, 32, 7)])
    if sides[0] * sides[1] * sides[2] > max_cells:
        sides = (min(32, max_cells), 1, 1)
    nx, ny, nz = sides
    labels = [AIR] * (nx * ny * nz)
    for _ in range(rng.choice([1, 2, 3])):
        labels[rng.randrange(len(labels))] = OPENING
    for _ in range(rng.choice([0, 0, 1, 3])):
        labels[rng.randrange(len(labels))] = WALL
    return walled_off(Shape(nx, ny, nz, labels))


def great_box(rng, max_cells):
    """The greatest casts that max-cells allows."""
    boxes = [(10, 10, 10), (32, 31, 1), (9, 11, 10), (5, 6, 32), (32, 32, 4), (32, 32, 32), (31, 17, 9)]
    fitting = [b for b in boxes if b[0] * b[1] * b[2] <= max_cells]
    nx, ny, nz = rng.choice(fitting) if fitting else random_sides(rng, max_cells)
    labels = rng.choices([AIR, OPENING, WALL], [0.85, 0.03, 0.12], k=nx * ny * nz)
    return walled_off(Shape(nx, ny, nz, labels))


def sealed_pocket(rng, max_cells):
    """Answer 7: air shut in by walls or by the box, often beside sound air."""
    nx, ny, nz = random_sides(rng, max_cells)
    labels = rng.choices([AIR, WALL], [0.6, 0.4], k=nx * ny * nz)
    if rng.random() < 0.7 and len(labels) > 2:
        labels[rng.randrange(len(labels))] = OPENING
    pocket = rng.randrange(len(labels))
    for other in neighbours(nx, ny, nz, pocket):
        labels[other] = WALL
    labels[pocket] = AIR
    return Shape(nx, ny, nz, labels)


def no_air(rng, max_cells):
    """Answer 6: walls and openings only."""
    nx, ny, nz = random_sides(rng, max_cells)
    labels = rng.choices([OPENING, WALL], [rng.random(), 1], k=nx * ny * nz)
    return Shape(nx, ny, nz, labels)


def tiny(rng, max_cells):
    """One to four cells, any labels."""
    nx, ny, nz = rng.choice([(1, 1, 1), (2, 1, 1), (3, 1, 1), (1, 3, 1), (1, 1, 4), (2, 2, 1), (1, 2, 2)])
    if nx * ny * nz > max_cells:
        nx, ny, nz = 1, 1, 1
    labels = rng.choices([AIR, OPENING, WALL], [0.5, 0.35, 0.15], k=nx * ny * nz)
    return Shape(nx, ny, nz, labels)


FAMILIES = [(straight_tube, 10), (winding_throat, 12), (maze, 12), (open_room, 12), (half_open_room, 6),
            (rubble, 16), (several_regions, 8), (long_thin, 8), (great_box, 2), (sealed_pocket, 5),
            (no_air, 3), (tiny, 6)]


def weighted(rng, pairs):
    return rng.choices([p[0] for p in pairs], [p[1] for p in pairs])[0]


def random_values(rng, labels):
    """One value a cell, in its label's range; the manner is chosen once a cast."""
    def wide(most):
        return rng.randint(-most, most)

    def extreme(most):
        return rng.choice([-most, most, -most, most, 0, most - 1, 1 - most])

    def small(most):
        return rng.randint(-3, 3)

    level = weighted(rng, [(wide, 5), (extreme, 3), (small, 2), (lambda m: 0, 1), (lambda m: m, 1)])
    source = weighted(rng, [(wide, 4), (extreme, 3), (small, 2), (lambda m: 0, 3), (lambda m: -m, 1)])
    return [level(MAX_LEVEL) if label == OPENING else source(MAX_SOURCE) if label == AIR else 0
            for label in labels]


def random_settings(rng, cells):
    """tolerance, levels, rounds; the long limits mostly with casts that end early."""
    tolerance = weighted(rng, [(0, 2), (1, 3), (2, 2), (3, 4), (5, 3), (rng.randint(6, 100), 3),
                               (rng.randint(101, 100_000), 2), (999_999, 1), (1_000_000, 1)])
    levels = weighted(rng, [(1, 3), (2, 4), (3, 4), (4, 2), (5, 2), (6, 3)])
    long_limit = 6 if cells <= 300 else 1
    rounds = weighted(rng, [(0, 1), (1, 2), (2, 2), (5, 4), (50, 6), (999, 1), (1000, long_limit)])
    return tolerance, levels, rounds


def small_cast(rng, max_cells):
    """A small random cast of any family: (nx, ny, nz, labels, values)."""
    shape = weighted(rng, FAMILIES)(rng, max_cells)
    return shape.nx, shape.ny, shape.nz, shape.labels, random_values(rng, shape.labels)


def sound_session(rng, max_cells):
    nx, ny, nz, labels, values = small_cast(rng, max_cells)
    tolerance, levels, rounds = random_settings(rng, len(labels))
    if len(labels) > 1000:
        rounds = min(rounds, 50)
    return Session(nx, ny, nz, rng.choice(["big", "little"]), tolerance, levels, rounds, labels, values)


# ---------------------------------------------------------------- damage to the header

def changed_line(number, change):
    """Damage to one line of the seven, number from 0; a line already without its `=` is left."""
    def damage(rng, session):
        session.line_damage.append(lambda lines: [
            change(line) if n == number and b"=" in line else line for n, line in enumerate(lines)])
    return damage


def replaced_content(number, content):
    return changed_line(number, lambda line: line.split(b"=")[0] + b"=" + content + b"\n")


LINE_CHANGES = [
    lambda line: line[:-1],                                 # LF missing
    lambda line: line + b"\n",                              # two LFs
    lambda line: line[:-1] + b"\r\n",                       # CR LF
    lambda line: line[:-1] + b"\r",                         # CR for LF
    lambda line: line[:-1] + b" \n",                        # blank at the end
    lambda line: line[:-1] + b"\0\n",
    lambda line: b" " + line,
    lambda line: b"\n" + line,
    lambda line: b"\xef\xbb\xbf" + line,
    lambda line: line.replace(b"=", b"= "),
    lambda line: line.replace(b"=", b" ="),
    lambda line: line.replace(b"=", b"=="),
    lambda line: line.replace(b"=", b":"),
    lambda line: line.replace(b"=", b""),
    lambda line: line.replace(b"=", b"=\t"),
    lambda line: line.split(b"=")[0] + b"=\n",              # nothing behind the key
    lambda line: line.upper(),
    lambda line: line[:1].upper() + line[1:],
    lambda line: line[1:],
    lambda line: line[:1] + line,
    lambda line: b"size" + line[line.index(b"="):],         # wrong key
    lambda line: b"n" + line,
    lambda line: line[:-2] + b"x\n",
    lambda line: line[:-2] + bytes([line[-2] | 0x80]) + b"\n",
    lambda line: line[:-1] + b"#\n",
    lambda line: b"",                                       # dropped
    lambda line: line + line,                               # doubled
    lambda line: b"\n",
]

NUMBER_CHANGES = [
    lambda line: line.replace(b"=", b"=0"),                 # leading zero
    lambda line: line.replace(b"=", b"=000000"),
    lambda line: line.replace(b"=", b"=+"),
    lambda line: line.replace(b"=", b"=-"),
    lambda line: line[:-1] + b".0\n",
    lambda line: line[:-1] + b"e0\n",
    lambda line: line[:-1] + b"/\n",                        # the byte below 0
    lambda line: line[:-1] + b":\n",                        # the byte above 9
]

BAD_NUMBERS = [b"00", b"01", b"-1", b"+1", b"-0", b"00000003", b"12345678", b"10000000", b"0x3", b"3 ",
               b" 3", b"4294967297", b"18446744073709551617", b"99999999", b"3,0", b"1 2", b"III", b"0 ",
               b"0000000", b"00000000", b"\xb3"]

BAD_ORDERS = [b"Big", b"BIG", b"Little", b"middle", b"", b"bi", b"bigg", b"littl", b"littlee", b"biglittle",
              b"big little", b"0", b"1", b"gib", b"big\0", b" big", b"le", b"be", b"bag", b"lITTLE"]


def swapped_lines(first, second):
    def change(lines):
        lines = list(lines)
        lines[first], lines[second] = lines[second], lines[first]
        return lines

    def damage(rng, session):
        session.line_damage.append(change)
    return damage


def cut_in_header(at):
    """Keeps `at` bytes, or so many fewer that the header itself is cut."""
    def damage(rng, session):
        session.cut = at % len(b"".join(header_lines(*session.fields)))
    return damage


def header_damages():
    damages = []
    for number in range(7):
        damages += [changed_line(number, change) for change in LINE_CHANGES]
        if number == 3:
            damages += [replaced_content(3, content) for content in BAD_ORDERS]
        else:
            damages += [changed_line(number, change) for change in NUMBER_CHANGES]
            damages += [replaced_content(number, content) for content in BAD_NUMBERS]
    damages += [swapped_lines(a, b) for a in range(7) for b in range(a + 1, 7)]
    damages += [cut_in_header(at) for at in range(95)]
    return damages


# ---------------------------------------------------------------- damage to fields and body

def changed_field(number, content):
    def damage(rng, session):
        session.fields[number] = content
    return damage


def side_damages():
    return [changed_field(axis, side) for axis in range(3) for side in (0, 33, 64, 1000, 65537, 9999999)]


def setting_damages():
    return [changed_field(number, content) for number, contents in
            ((4, (1000001, 1000010, 9999999)), (5, (0, 7, 8, 255, 257, 9999999)), (6, (1001, 1010, 9999999)))
            for content in contents]


def changed_body(change):
    def damage(rng, session):
        session.body_damage.append(lambda body: change(rng, body))
    return damage


def body_damages():
    return [changed_body(change) for change in (
        lambda rng, body: body[:-1],
        lambda rng, body: body[1:],
        lambda rng, body: body[:-4],
        lambda rng, body: body[:-5],
        lambda rng, body: body[:rng.randrange(len(body))] if body else b"x",
        lambda rng, body: body[:len(body) // 5],
        lambda rng, body: b"",
        lambda rng, body: body[:1],
        lambda rng, body: body + b"\0",
        lambda rng, body: body + b"\n",
        lambda rng, body: body + b"\0" * 5,
        lambda rng, body: body + rng.randbytes(rng.randint(1, 40)),
        lambda rng, body: body + body,
        lambda rng, body: b"rounds=5\n" + body)]


def places(rng, cells):
    return rng.choice([0, cells - 1, cells // 2, rng.randrange(cells), rng.randrange(cells)])


def bad_label(label):
    def damage(rng, session):
        session.labels[places(rng, len(session.labels))] = label
    return damage


def two_bad_labels(rng, session):
    for _ in range(2):
        session.labels[places(rng, len(session.labels))] = rng.choice([3, 4, 7, 127, 128, 254, 255])


def label_damages():
    return [bad_label(label) for label in (3, 4, 7, 48, 127, 128, 254, 255)] + [two_bad_labels]


def bad_value(label, value):
    """A value out of the label's range at some cell that has the label, or is given it."""
    def damage(rng, session):
        having = [c for c, own in enumerate(session.labels) if own == label]
        cell = rng.choice([having[0], having[-1], rng.choice(having)]) if having \
            else places(rng, len(session.labels))
        session.labels[cell] = label
        session.values[cell] = value
    return damage


def two_bad_values(rng, session):
    for _ in range(2):
        cell = places(rng, len(session.labels))
        session.values[cell] = rng.choice([-1_000_001, 1_000_001, INT32_MIN, INT32_MAX])


def other_order(rng, session):
    """The order line names the other order than the one the values are in."""
    session.line_damage.append(lambda lines: [
        {b"order=big\n": b"order=little\n", b"order=little\n": b"order=big\n"}.get(line, line) for line in lines])


def value_damages():
    pairs = [(AIR, (1001, -1001, 1024, 65536, INT32_MIN, INT32_MAX)),
             (OPENING, (1_000_001, -1_000_001, 16_777_216, INT32_MIN, INT32_MAX)),
             (WALL, (1, -1, 256, 1000, INT32_MIN, INT32_MAX))]
    return [bad_value(label, value) for label, values in pairs for value in values] \
        + [two_bad_values, other_order]


def more_than_room(sides, body):
    """More than 1,000 cells; the body full, cut or missing."""
    def damage(rng, session):
        nx, ny, nz = sides
        labels = rng.choices([AIR, OPENING, WALL], [0.4, 0.2, 0.4], k=nx * ny * nz)
        shape = walled_off(Shape(nx, ny, nz, labels))
        session.fields[:3] = [nx, ny, nz]
        session.fields[6] = min(int(session.fields[6]), 5)
        session.labels, session.values = shape.labels, random_values(rng, shape.labels)
        if body != "full":
            session.body_damage.append(lambda whole: whole[:-1] if body == "short" else b"")
    return damage


def room_damages():
    return [more_than_room(sides, body)
            for sides in ((11, 13, 7), (10, 10, 11), (1, 32, 32), (32, 1, 32), (13, 7, 11))
            for body in ("full", "short", "none")] \
        + [more_than_room((32, 32, 32), "none"), more_than_room((10, 10, 10), "full"),
           more_than_room((10, 10, 10), "short")]


# ---------------------------------------------------------------- several faults, and noise

def several_faults(rng, session):
    """Two to four faults of different ranks, so that the order of checks shows."""
    kinds = [value_damages, label_damages, setting_damages, body_damages, side_damages, header_damages]
    if rng.random() < 0.15:
        rng.choice(room_damages())(rng, session)
    chosen = rng.sample(range(len(kinds)), rng.choice([2, 2, 2, 3, 3, 4]))
    for kind in sorted(chosen):
        rng.choice(kinds[kind]())(rng, session)


def faults_of_one_kind(rng, session):
    """The same kind of fault more than once: the first place shows."""
    damages = rng.choice([value_damages, label_damages, header_damages, side_damages, setting_damages])()
    for _ in range(rng.choice([2, 2, 3])):
        rng.choice(damages)(rng, session)


def both(first, second):
    def damage(rng, session):
        first(rng, session)
        second(rng, session)
    return damage


def label_and_value(bad_label_at, bad_value_at):
    """Case l and its kin: a bad label behind or before a bad value."""
    def damage(rng, session):
        cells = len(session.labels)
        session.labels[min(bad_label_at, cells - 1)] = rng.choice([3, 7, 255])
        session.values[min(bad_value_at, cells - 1)] = rng.choice([1_000_001, INT32_MIN])
    return damage


def chosen_pairs():
    """Pairs of faults named in the plan, always tried."""
    side, line7 = changed_field(0, 33), replaced_content(6, b"05")
    setting, short = changed_field(5, 7), changed_body(lambda rng, body: body[:-1])
    return [both(side, line7), both(changed_field(2, 0), replaced_content(3, b"Big")),
            both(setting, short), both(side, short), both(side, setting), both(setting, bad_label(255)),
            both(setting, bad_value(AIR, 1001)), both(short, bad_label(3)), both(short, bad_value(WALL, 1)),
            both(replaced_content(0, b""), replaced_content(6, b"")),
            label_and_value(4, 0), label_and_value(0, 4), label_and_value(2, 2),
            both(more_than_room((11, 10, 10), "full"), setting),
            both(more_than_room((11, 10, 10), "short"), bad_label(9)),
            both(more_than_room((11, 10, 10), "full"), line7),
            both(more_than_room((11, 10, 10), "full"), changed_field(1, 33)),
            both(more_than_room((11, 10, 10), "full"), bad_value(AIR, -1001))]


def noise(rng):
    """Bytes that are no session, or only begin like one."""
    size = rng.choice([0, 1, 2, 3, 10, 100, 300])
    return rng.choice([
        lambda: rng.randbytes(size),
        lambda: bytes(rng.choices(b"nxyz=0123456789\n", k=size)),
        lambda: b"\n" * size,
        lambda: b"\0" * size,
        lambda: b"nx=3\nny=" + rng.randbytes(size),
        lambda: b"nx=1\nny=1\nnz=1\norder=big\ntolerance=0\nlevels=1\nrounds=5\n" + rng.randbytes(size),
        lambda: b"nx=" + b"9" * size + b"\n",
        lambda: b"size=3x1x1\nunit=1\n" + rng.randbytes(size)])()


def mutated(rng, whole):
    """One to three bytes changed, left out, doubled or put in, anywhere."""
    whole = bytearray(whole)
    for _ in range(rng.choice([1, 1, 2, 3])):
        top = rng.choice([len(whole), min(len(whole), 90)])
        if top == 0:
            break
        at = rng.randrange(top)
        what = rng.randrange(4)
        if what == 0:
            whole[at] = rng.randrange(256)
        elif what == 1:
            del whole[at]
        elif what == 2:
            whole.insert(at, whole[at])
        else:
            whole.insert(at, rng.randrange(256))
    return bytes(whole)


def catalogue():
    """Every single damage, in a fixed order."""
    return (header_damages() + side_damages() + setting_damages() + body_damages()
            + label_damages() + value_damages() + room_damages() + chosen_pairs())


CATALOGUE = catalogue()


def damaged_base(rng):
    """A small sound session to be damaged, cheap to solve where the damage leaves it sound."""
    session = sound_session(rng, rng.choice([4, 12, 40, 120]))
    session.fields[6] = rng.choice([0, 1, 2, 5, 50])
    return session


def damaged_bytes(rng, seed, ordinal):
    """Two of three go through the catalogue in a seeded order, the third is damaged at random."""
    session = damaged_base(rng)
    if ordinal % 3 < 2:
        order = list(range(len(CATALOGUE)))
        random.Random(f"{seed}/catalogue").shuffle(order)
        CATALOGUE[order[(ordinal // 3 * 2 + ordinal % 3) % len(order)]](rng, session)
        return session.bytes()
    manner = rng.randrange(10)
    if manner < 4:
        several_faults(rng, session)
    elif manner < 6:
        faults_of_one_kind(rng, session)
    elif manner < 8:
        return mutated(rng, session.bytes())
    elif manner < 9:
        return noise(rng)
    else:
        whole = session.bytes()
        return whole[:rng.randrange(len(whole))]
    return session.bytes()


# ---------------------------------------------------------------- all together

def generated(seed, number, max_cells, kind):
    """The bytes of session `number` of a seed."""
    rng = random.Random(f"{seed}/{kind}/{max_cells}/{number}")
    damaged = kind == "damaged" or (kind == "all" and number % 2 == 1)
    if damaged:
        return damaged_bytes(rng, seed, number if kind == "damaged" else number // 2)
    return sound_session(rng, max_cells).bytes()


def sessions(seed, count, max_cells=PROGRAM_ROOM, kind="all"):
    for number in range(count):
        yield generated(seed, number, max_cells, kind)


def framed(whole):
    return b"bytes=%d\n" % len(whole) + whole


def write_files(folder, wholes):
    os.makedirs(folder, exist_ok=True)
    for number, whole in enumerate(wholes):
        with open(os.path.join(folder, f"{number:05d}.session"), "wb") as file:
            file.write(whole)


def arguments():
    parser = argparse.ArgumentParser(description="Seeded sessions, sound and damaged.")
    parser.add_argument("--seed", required=True)
    parser.add_argument("--count", type=int, required=True)
    parser.add_argument("--max-cells", type=int, default=PROGRAM_ROOM)
    parser.add_argument("--kind", choices=["sound", "damaged", "all"], default="all")
    where = parser.add_mutually_exclusive_group(required=True)
    where.add_argument("--frames", action="store_true")
    where.add_argument("--out", metavar="DIR")
    chosen = parser.parse_args()
    if chosen.count < 0 or chosen.max_cells < 1:
        parser.error("count must be 0 or more, max-cells 1 or more")
    return chosen


def main():
    chosen = arguments()
    wholes = sessions(chosen.seed, chosen.count, chosen.max_cells, chosen.kind)
    if chosen.out is not None:
        write_files(chosen.out, wholes)
        return
    for whole in wholes:
        sys.stdout.buffer.write(framed(whole))


if __name__ == "__main__":
    main()
