#!/usr/bin/env python3
"""Makes, shows, checks and converts sessions. Python's standard library is enough.

    session.py make OUT SLICE.. --order big|little --opening G=LEVEL [--air G[=SOURCE]] [--wall G] [--tolerance T] [--levels L] [--rounds R] [--axes zyx|xyz]
    session.py show SESSION [--answer PRINT | --solve] [--slice K] [--png FILE] [--hex]
    session.py check SESSION
    session.py convert SESSION OUT --to big|little

`make` puts a stack of label images (PGM, .npy or CSV, slice 0 first; x to the right, y down) together: each number in the images is named once, as air, wall or an
opening with its level. `show` draws slices in the terminal (in colours where it is one), and with --png as a picture; with the program's print the pressures too. `check` lists all bad cells and all
sealed pockets. `convert` writes the same session in the other byte order. No order is ever guessed: a session names its own, and `make` has to be told."""
import argparse
import ast
import os
import struct
import sys
import zlib

sys.dont_write_bytecode = True
import form
from form import AIR, OPENING, WALL, Fault


# ---------------------------------------------------------------- label images

def pgm_words(whole):
    """The words of a PGM's header, without its comments, and what follows the one blank behind them."""
    words, at = [], 0
    while len(words) < 4:
        while at < len(whole) and whole[at:at + 1].isspace():
            at += 1
        if whole[at:at + 1] == b"#":
            at = whole.find(b"\n", at) % (len(whole) + 1)
            continue
        end = at
        while end < len(whole) and not whole[end:end + 1].isspace():
            end += 1
        if end == at:
            raise Fault("a PGM that ends in its header")
        words.append(whole[at:end])
        at = end
    return words, whole[at + 1:]


def pgm_rows(whole):
    """The rows of a PGM, plain (P2) or raw (P5)."""
    (kind, *numbers), rest = pgm_words(whole)
    try:
        width, height, greatest = map(int, numbers)
        if kind == b"P2":
            grays = [int(word) for line in rest.split(b"\n") for word in line.split(b"#")[0].split()]
        else:
            grays = list(struct.unpack(f">{width * height}{'B' if greatest < 256 else 'H'}", rest))
    except (ValueError, struct.error) as error:
        raise Fault("a PGM whose numbers do not fit its size") from error
    if len(grays) != width * height:
        raise Fault(f"a PGM of {width} × {height} with {len(grays)} numbers")
    return [grays[width * row:width * (row + 1)] for row in range(height)]


def csv_rows(whole):
    """The rows of a CSV of whole numbers, by commas, semicolons or tabs."""
    try:
        lines = whole.decode("ascii").splitlines()
        return [[int(word) for word in line.replace(";", ",").replace("\t", ",").split(",")] for line in lines if line.strip()]
    except ValueError as error:
        raise Fault(f"a CSV with something that is not a whole number ({error})") from error


def npy_plain(whole):
    """Shape and numbers of a .npy, by its description, where NumPy is not there."""
    if whole[:6] != b"\x93NUMPY":
        raise Fault("a .npy without its mark")
    long = whole[6] >= 2
    size = struct.unpack("<I" if long else "<H", whole[8:12 if long else 10])[0]
    start = 12 if long else 10
    told = ast.literal_eval(whole[start:start + size].decode("latin-1"))
    kinds = {"b1": "?", "i1": "b", "u1": "B", "i2": "h", "u2": "H", "i4": "i", "u4": "I", "i8": "q", "u8": "Q"}
    kind = told["descr"]
    if not isinstance(kind, str) or kind[1:] not in kinds or told["fortran_order"]:
        raise Fault(f"a .npy of {kind}, {'columns' if told['fortran_order'] else 'rows'} first: whole numbers, rows first, are read")
    count = 1
    for side in told["shape"]:
        count *= side
    mark = ">" if kind[0] == ">" else "<"
    try:
        return told["shape"], [int(number) for number in struct.unpack(f"{mark}{count}{kinds[kind[1:]]}", whole[start + size:])]
    except struct.error as error:
        raise Fault("a .npy whose numbers do not fit its shape") from error


def npy_numbers(path, whole):
    try:
        import numpy
    except ImportError:
        return npy_plain(whole)
    array = numpy.load(path, allow_pickle=False)
    if array.dtype.kind not in "biu":
        raise Fault(f"a .npy of {array.dtype}: whole numbers are read")
    return array.shape, [int(number) for number in array.reshape(-1)]


def npy_slices(path, whole, axes):
    """The slices of a .npy: two axes are (y, x); of three the user says which is which."""
    shape, numbers = npy_numbers(path, whole)
    if len(shape) == 2:
        shape, axes = (1, *shape), "zyx"
    if len(shape) != 3:
        raise Fault(f"a .npy of {len(shape)} axes: two or three are read")
    if axes is None:
        raise Fault("a .npy of three axes: say by --axes zyx or --axes xyz which is which; it is not guessed")
    a, b, c = shape
    if axes == "zyx":
        return [[numbers[(k * b + j) * c:(k * b + j + 1) * c] for j in range(b)] for k in range(a)]
    return [[[numbers[(i * b + j) * c + k] for i in range(a)] for j in range(b)] for k in range(c)]


def slices_of(path, axes):
    """The slices that a file holds, each a list of rows."""
    whole = form.read_file(path)
    ending = os.path.splitext(path)[1].lower()
    try:
        if ending == ".npy":
            return npy_slices(path, whole, axes)
        if ending == ".csv":
            return [csv_rows(whole)]
        if whole[:2] in (b"P2", b"P5"):
            return [pgm_rows(whole)]
    except Fault as fault:
        raise Fault(f"{path}: {fault}") from fault
    raise Fault(f"{path}: neither a PGM (P2 or P5), nor .npy, nor .csv")


# ---------------------------------------------------------------- make

def meaning(options):
    """Number in the images -> (label, value), as the user named it."""
    means = {}
    for label, given in ((AIR, options.air), (OPENING, options.opening), (WALL, options.wall)):
        for text in given:
            number, _, content = text.partition("=")
            try:
                number, value = int(number), int(content) if content else 0
            except ValueError as error:
                raise Fault(f"{text} is not a whole number, or two with '=' between them") from error
            if label == OPENING and not content:
                raise Fault(f"--opening {text}: an opening needs its level, as --opening {text}=0")
            if number in means:
                raise Fault(f"{number} is named twice")
            if abs(value) > form.LIMITS[label]:
                raise Fault(f"{value} is out of range for {form.NAMES[label]} (within ±{form.LIMITS[label]:,})")
            means[number] = label, value
    return means


def stack_of(paths, axes):
    """All slices, of one size."""
    slices = [one for path in paths for one in slices_of(path, axes)]
    sizes = {(len(row), len(one)) for one in slices for row in one}
    if len(sizes) != 1:
        raise Fault("the slices differ in size: " + ", ".join(f"{width} × {height}" for width, height in sorted(sizes)))
    width, height = sizes.pop()
    sides = width, height, len(slices)
    for name, side in zip("xyz", sides):
        if not 1 <= side <= 32:
            raise Fault(f"{side} cells along {name}: a side is 1 to 32")
    return sides, [number for one in slices for row in one for number in row]


def made(options):
    for name in ("tolerance", "levels", "rounds"):
        least, greatest = form.RANGES[name]
        if not least <= getattr(options, name) <= greatest:
            raise Fault(f"{name} is {least} to {greatest:,}")
    means = meaning(options)
    sides, numbers = stack_of(options.slices, options.axes)
    unnamed = [cell for cell, number in enumerate(numbers) if number not in means]
    if unnamed:
        seen = sorted({numbers[cell] for cell in unnamed})
        raise Fault(f"{len(unnamed)} cells have a number that is not named, the first of them {form.spoken(sides, unnamed[0])}: "
                    f"{', '.join(map(str, seen))}; say by --air, --wall or --opening what it is")
    labels, values = zip(*(means[number] for number in numbers))
    return form.Session(sides, options.order, options.tolerance, options.levels, options.rounds, labels, values)


def make(options):
    session = made(options)
    write(options.out, session.bytes())
    counts = ", ".join(f"{session.labels.count(label)} {form.NAMES[label]}" for label in (AIR, OPENING, WALL))
    print(f"{options.out}: {' × '.join(map(str, session.sides))} cells ({counts}), order {session.order}, {len(session.bytes())} bytes")
    return 0


def write(path, whole):
    try:
        with open(path, "wb") as file:
            file.write(whole)
    except OSError as error:
        raise Fault(f"{path}: {error.strerror}") from error


# ---------------------------------------------------------------- show

def shade(pressure, least, greatest):
    """0 for the least pressure to 9 for the greatest."""
    return 0 if greatest == least else min(9, 10 * (pressure - least) // (greatest - least))


def range_of(session, pressures):
    """Least and greatest pressure of what is not wall."""
    shown = [pressure for pressure, label in zip(pressures, session.labels) if label != WALL]
    return (min(shown), max(shown)) if shown else (0, 0)


def mark(session, pressures, scale, cell):
    label = session.labels[cell]
    if label not in (AIR, OPENING):
        return "#" if label == WALL else "?"
    if pressures:
        return str(shade(pressures[cell], *scale))
    return "." if label == AIR else "O"


def painted(session, pressures, scale, cell):
    """A mark on its colour, for a terminal."""
    red, green, blue = pixel(session, pressures, scale, cell, False)
    ink = 30 if red + green + blue > 300 else 97
    return f"\x1b[{ink};48;2;{red};{green};{blue}m{mark(session, pressures, scale, cell)}\x1b[0m"


def drawn(session, pressures, k, coloured=False):
    """The lines of slice k."""
    nx, ny, _ = session.sides
    scale = range_of(session, pressures) if pressures else None
    draw = painted if coloured else mark
    yield f"slice {k} (x to the right, y down)"
    for j in range(ny):
        yield "  " + "".join(draw(session, pressures, scale, form.cell_of(session.sides, i, j, k)) for i in range(nx))


def legend(session, pressures):
    if not pressures:
        return "'.' air, 'O' opening, '#' wall"
    least, greatest = range_of(session, pressures)
    return f"0 to 9: pressures from {least} to {greatest}; '#' wall"


TISSUE = (40, 40, 48)
EDGE = (255, 255, 255)
GAP = (120, 120, 128)


def colour(share):
    """From blue by white to red, for 0 to 1."""
    if share < 0.5:
        return tuple(round(a + (b - a) * 2 * share) for a, b in zip((33, 80, 200), (240, 240, 240)))
    return tuple(round(a + (b - a) * (2 * share - 1)) for a, b in zip((240, 240, 240), (200, 40, 33)))


def pixel(session, pressures, scale, cell, at_edge):
    label = session.labels[cell]
    if label not in (AIR, OPENING):
        return TISSUE
    if label == OPENING and at_edge:
        return EDGE
    if not pressures:
        return (150, 190, 235) if label == AIR else (235, 170, 60)
    least, greatest = scale
    return colour(0.5 if greatest == least else (pressures[cell] - least) / (greatest - least))


def picture(session, pressures, chosen, size=12):
    """The rows of pixels of the chosen slices, side by side; an opening has a white edge."""
    nx, ny, _ = session.sides
    scale = range_of(session, pressures) if pressures else None
    rows = []
    for y in range(ny * size):
        row = bytearray()
        for number, k in enumerate(chosen):
            row += bytes(GAP) * (size // 2 if number else 0)
            for x in range(nx * size):
                at_edge = x % size in (0, size - 1) or y % size in (0, size - 1)
                row += bytes(pixel(session, pressures, scale, form.cell_of(session.sides, x // size, y // size, k), at_edge))
        rows.append(bytes(row))
    return rows


def png(rows):
    """A PNG of rows of red, green and blue bytes."""
    def chunk(kind, content):
        return struct.pack(">I", len(content)) + kind + content + struct.pack(">I", zlib.crc32(kind + content))
    head = struct.pack(">IIBBBBB", len(rows[0]) // 3, len(rows), 8, 2, 0, 0, 0)
    return b"\x89PNG\r\n\x1a\n" + chunk(b"IHDR", head) + chunk(b"IDAT", zlib.compress(b"".join(b"\0" + row for row in rows), 9)) + chunk(b"IEND", b"")


def dumped(whole):
    """An annotated dump: each header line, the labels, the values with both readings."""
    def line(at, part, said):
        return f"{at:06x}  {part.hex(' '):<35}  {said}"
    contents, body = form.header_of(whole)
    at = 0
    for text in whole.split(b"\n")[:7]:
        for start in range(0, len(text) + 1, 12):
            part = (text + b"\n")[start:start + 12]
            yield line(at + start, part, part.decode("ascii").replace("\n", "⏎"))
        at += len(text) + 1
    sides = form.sides_of(contents)
    cells = sides[0] * sides[1] * sides[2]
    for cell, label in enumerate(body[:cells]):
        yield line(at + cell, bytes([label]), f"label of cell {form.spoken(sides, cell)}: {form.NAMES.get(label, 'none')}")
    for cell in range(min(cells, max(0, len(body) - cells) // 4)):
        part = body[cells + 4 * cell:cells + 4 * cell + 4]
        big, little = (struct.unpack(mark + "i", part)[0] for mark in "><")
        yield line(at + cells + 4 * cell, part, f"value of cell {form.spoken(sides, cell)}: {big} as big, {little} as little")


def pressures_for(options, session):
    """The pressures that the user has, or the program's, or none."""
    if options.answer is None and not options.solve:
        return []
    fields, pressures = form.parse_print(form.read_file(options.answer)) if options.answer is not None else form.run(session.bytes(), session.cells() > 1000)
    if fields["answer"] != 0:
        raise Fault(f"there are no pressures: answer={fields['answer']}, {form.WORDS.get(fields['answer'], '')}")
    if len(pressures) != session.cells():
        raise Fault(f"{options.answer} has {len(pressures)} pressures and the session {session.cells()} cells: it is another session's print")
    return pressures


def show(options):
    whole = form.read_file(options.session)
    if options.hex:
        for line in dumped(whole):
            print(line)
        return 0
    session = form.read(whole)
    pressures = pressures_for(options, session)
    nz = session.sides[2]
    if options.slice is not None and not 0 <= options.slice < nz:
        raise Fault(f"there is no slice {options.slice}: there are 0 to {nz - 1}")
    chosen = range(nz) if options.slice is None else [options.slice]
    if options.png is not None:
        write(options.png, png(picture(session, pressures, chosen)))
        print(f"{options.png}: {len(chosen)} slices, {legend(session, pressures) if not pressures else 'pressures from blue, {} to red, {}'.format(*range_of(session, pressures))}")
        return 0
    print(legend(session, pressures))
    for k in chosen:
        for line in drawn(session, pressures, k, sys.stdout.isatty()):
            print(line)
    return 0


# ---------------------------------------------------------------- check

def bad_cells(session):
    """Every cell whose label or value is not allowed, in a sentence."""
    for cell, (label, value) in enumerate(zip(session.labels, session.values)):
        if label not in form.LIMITS:
            yield f"cell {form.spoken(session.sides, cell)}: label {label} is above 2" + (", the character " + repr(chr(label)) if 32 < label < 127 else "")
        elif abs(value) > form.LIMITS[label]:
            yield f"cell {form.spoken(session.sides, cell)}: value {value} at {form.NAMES[label]}, which allows {'0 alone' if label == WALL else f'±{form.LIMITS[label]:,}'}"


def reached(session):
    """The air cells with a way through air to an opening."""
    edge = [cell for cell, label in enumerate(session.labels) if label == OPENING]
    seen = set()
    while edge:
        for other in form.neighbours(session.sides, edge.pop()):
            if session.labels[other] == AIR and other not in seen:
                seen.add(other)
                edge.append(other)
    return seen


def pockets(session):
    """The sealed pockets, each a list of its cells in order."""
    left = {cell for cell, label in enumerate(session.labels) if label == AIR} - reached(session)
    while left:
        pocket, edge = set(), [min(left)]
        while edge:
            cell = edge.pop()
            if cell in left:
                left.remove(cell)
                pocket.add(cell)
                edge.extend(form.neighbours(session.sides, cell))
        yield sorted(pocket)


def settings_out(session):
    for name in ("tolerance", "levels", "rounds"):
        least, greatest = form.RANGES[name]
        if not least <= getattr(session, name) <= greatest:
            yield f"{name}={getattr(session, name)} is not {least} to {greatest:,}"


def findings(session):
    """All that is wrong, in sentences."""
    yield from settings_out(session)
    yield from bad_cells(session)
    if AIR not in session.labels:
        yield "there is no air cell"
    for pocket in pockets(session):
        yield f"sealed pocket of {len(pocket)} air cell{'s' if len(pocket) > 1 else ''}: " + ", ".join(form.spoken(session.sides, cell) for cell in pocket)


def in_range(labels, values):
    return all(label in form.LIMITS and abs(value) <= form.LIMITS[label] for label, value in zip(labels, values))


def order_lines(session, whole):
    """What the values would be in either order; which of them is right is the sender's to say."""
    _, body = form.header_of(whole)
    for order in form.ORDERS:
        values = form.values_of(body, session.cells(), order)
        fit = "all in range" if in_range(session.labels, values) else "not all in range"
        yield f"values read as {order}: {min(values)} to {max(values)}, {fit}" + ("; this is what the header says" if order == session.order else "")


def check(options):
    whole = form.read_file(options.session)
    session = form.read(whole)
    found = list(findings(session))
    for line in found:
        print(line)
    counts = ", ".join(f"{session.labels.count(label)} {form.NAMES[label]}" for label in (AIR, OPENING, WALL))
    print(f"{' × '.join(map(str, session.sides))} cells: {counts}")
    for line in order_lines(session, whole):
        print(line)
    print(f"{len(found)} finding{'s' if len(found) != 1 else ''}")
    return 1 if found else 0


# ---------------------------------------------------------------- convert

def convert(options):
    session = form.read(form.read_file(options.session))
    was, session.order = session.order, options.to
    write(options.out, session.bytes())
    print(f"{options.out}: order {was} is now {options.to}, the same {session.cells()} values")
    return 0


# ---------------------------------------------------------------- the command

def arguments():
    parser = argparse.ArgumentParser(description="Makes, shows, checks and converts sessions.", epilog="docs/SESSION.md describes the form; docs/WALK.md shows a walk from images to a picture.")
    commands = parser.add_subparsers(dest="command", required=True)
    one = commands.add_parser("make", help="a session from label images")
    one.add_argument("out")
    one.add_argument("slices", nargs="+", help="PGM, .npy or CSV, slice 0 first")
    one.add_argument("--order", choices=form.ORDERS, required=True, help="the byte order of the values; either will do, but it has to be said")
    one.add_argument("--air", action="append", default=[], metavar="G[=SOURCE]")
    one.add_argument("--wall", action="append", default=[], metavar="G")
    one.add_argument("--opening", action="append", default=[], metavar="G=LEVEL")
    one.add_argument("--tolerance", type=int, default=6, help="6 if not said: rounding alone can leave so much at a cell")
    one.add_argument("--levels", type=int, default=6)
    one.add_argument("--rounds", type=int, default=1000)
    one.add_argument("--axes", choices=("zyx", "xyz"), help="the axes of a .npy of three")
    one = commands.add_parser("show", help="slices as a picture")
    one.add_argument("session")
    given = one.add_mutually_exclusive_group()
    given.add_argument("--answer", metavar="PRINT", help="what ./airway printed of it")
    given.add_argument("--solve", action="store_true", help="runs ./airway for the pressures")
    one.add_argument("--slice", type=int)
    one.add_argument("--png", metavar="FILE")
    one.add_argument("--hex", action="store_true", help="the bytes, annotated, the values read in both orders")
    one = commands.add_parser("check", help="all bad cells and all sealed pockets")
    one.add_argument("session")
    one = commands.add_parser("convert", help="the same session in the other byte order")
    one.add_argument("session")
    one.add_argument("out")
    one.add_argument("--to", choices=form.ORDERS, required=True)
    return parser.parse_args()


def main():
    options = arguments()
    try:
        return {"make": make, "show": show, "check": check, "convert": convert}[options.command](options)
    except Fault as fault:
        print(f"session: {fault}", file=sys.stderr)
        return 1


if __name__ == "__main__":
    sys.exit(main())
