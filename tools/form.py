"""The session form as the tools need it: read for people, written, cell numbers and places, the answers in words. Python's standard library alone.

The judge of a session is the proved program; nothing here decides an answer. docs/SESSION.md describes the form."""
import os
import struct
import subprocess

ROOT = os.path.dirname(os.path.dirname(os.path.abspath(__file__)))
SCRIPT = os.path.join(ROOT, "airway")
AIR, OPENING, WALL = 0, 1, 2
NAMES = {AIR: "air", OPENING: "opening", WALL: "wall"}
KEYS = ("nx", "ny", "nz", "order", "tolerance", "levels", "rounds")
ORDERS = {"big": ">", "little": "<"}
RANGES = {"nx": (1, 32), "ny": (1, 32), "nz": (1, 32), "tolerance": (0, 1_000_000), "levels": (1, 6), "rounds": (0, 1_000)}
# the greatest size of a value, by label
LIMITS = {AIR: 1_000, OPENING: 1_000_000, WALL: 0}

# What an answer says, in a few words; docs/ANSWERS.md says more.
WORDS = {
    0: "accepted",
    1: "a side is not 1 to 32",
    2: "the cast has more cells than there is room for",
    3: "a setting is out of range",
    4: "a label is above 2",
    5: "a value is out of its label's range",
    6: "there is no air cell",
    7: "an air cell has no way through air to an opening",
    8: "the round limit was reached before the test was passed",
    9: "the rounds stalled before the test was passed",
    10: "a header line is not of the form",
    11: "the body is not 5 bytes a cell",
}
# the answers whose place is a cell; that of 10 is a line
AT_CELL = (4, 5, 7)


class Fault(Exception):
    """What a tool tells its user, in a sentence."""


# ---------------------------------------------------------------- places

def place_of(sides, cell):
    """(i, j, k) of a cell number: x runs fastest, then y, then z."""
    nx, ny, _ = sides
    return cell % nx, cell // nx % ny, cell // (nx * ny)


def cell_of(sides, i, j, k):
    nx, ny, _ = sides
    return i + nx * (j + ny * k)


def spoken(sides, cell):
    """A cell as it is spoken of: its number and its place."""
    return f"{cell} ({','.join(map(str, place_of(sides, cell)))})"


def neighbours(sides, cell):
    """The cells across the faces of a cell, without what is outside the box."""
    place = place_of(sides, cell)
    for axis, step in ((0, -1), (0, 1), (1, -1), (1, 1), (2, -1), (2, 1)):
        other = list(place)
        other[axis] += step
        if 0 <= other[axis] < sides[axis]:
            yield cell_of(sides, *other)


# ---------------------------------------------------------------- the form

class Session:
    """Sides, order, settings, labels and values; the order is the name of the bytes' order, which is never guessed."""

    def __init__(self, sides, order, tolerance, levels, rounds, labels, values):
        self.sides, self.order = tuple(sides), order
        self.tolerance, self.levels, self.rounds = tolerance, levels, rounds
        self.labels, self.values = list(labels), list(values)

    def cells(self):
        return self.sides[0] * self.sides[1] * self.sides[2]

    def header(self):
        contents = (*self.sides, self.order, self.tolerance, self.levels, self.rounds)
        return "".join(f"{key}={content}\n" for key, content in zip(KEYS, contents)).encode("ascii")

    def bytes(self):
        return self.header() + bytes(self.labels) + b"".join(struct.pack(ORDERS[self.order] + "i", value) for value in self.values)


def is_number(content):
    """1 to 7 decimal digits, no sign, no leading zero except 0 itself."""
    return content.isdigit() and content.isascii() and 1 <= len(content) <= 7 and (content == b"0" or not content.startswith(b"0"))


def line_fault(number, line):
    """What is wrong with header line 1 to 7 as it stands in the file (without its LF), or None."""
    key = KEYS[number - 1]
    if line.startswith(b"\xef\xbb\xbf"):
        return "it begins with a byte order mark: save the file without one"
    if line.endswith(b"\r"):
        return "it ends in CR LF: lines end in LF alone"
    if line.startswith(b"size="):
        return "it is the first line of the old form"
    if not line.startswith(key.encode("ascii") + b"="):
        return f"it does not begin with '{key}='"
    content = line[len(key) + 1:]
    if key == "order":
        return None if content in (b"big", b"little") else "the order is neither 'big' nor 'little'"
    return None if is_number(content) else "its number is not 1 to 7 digits without sign, blank or leading zero"


def header_of(whole):
    """The seven contents by key and the body; Fault names the first line that is not of the form."""
    contents, rest = {}, whole
    for number, key in enumerate(KEYS, 1):
        line, found, rest = rest.partition(b"\n")
        fault = line_fault(number, line) if found else "the file ends before it does" if line_fault(number, line) is None else line_fault(number, line)
        if fault is not None:
            raise Fault(f"line {number} is not of the form: {fault}")
        content = line.split(b"=", 1)[1].decode("ascii")
        contents[key] = content if key == "order" else int(content)
    return contents, rest


def sides_of(contents):
    return contents["nx"], contents["ny"], contents["nz"]


def values_of(body, cells, order):
    return struct.unpack(f"{ORDERS[order]}{cells}i", body[cells:5 * cells])


def read(whole):
    """A session; Fault where its form, a side or its length is wrong. Labels, values and settings are taken as they stand."""
    contents, body = header_of(whole)
    sides = sides_of(contents)
    for key in ("nx", "ny", "nz"):
        if not 1 <= contents[key] <= 32:
            raise Fault(f"side {key}={contents[key]} is not 1 to 32")
    cells = sides[0] * sides[1] * sides[2]
    if len(body) != 5 * cells:
        raise Fault(f"the body has {len(body)} bytes, and {cells} cells take {5 * cells}: {length_hint(len(body), cells)}")
    return Session(sides, contents["order"], contents["tolerance"], contents["levels"], contents["rounds"],
                   body[:cells], values_of(body, cells, contents["order"]))


def length_hint(found, cells):
    """What a wrong length usually comes from."""
    if found == 5 * cells + 1:
        return "one byte too many, as an editor's newline at the end"
    if found == 3 * cells:
        return "3 bytes a cell, as with 16-bit values"
    if found < 5 * cells:
        return f"missing: {5 * cells - found}"
    return f"too many: {found - 5 * cells}"


def read_file(path):
    try:
        with open(path, "rb") as file:
            return file.read()
    except OSError as error:
        raise Fault(f"{path}: {error.strerror}") from error


# ---------------------------------------------------------------- the program

def run(whole, large=False):
    """What ./airway prints of a session's bytes: its fields by name, and the pressures (none unless the answer is 0)."""
    words = [SCRIPT] + (["--large"] if large else [])
    done = subprocess.run(words, input=whole, stdout=subprocess.PIPE, stderr=subprocess.PIPE)
    if done.returncode != 0:
        raise Fault(done.stderr.decode("utf-8", "replace").strip() or f"./airway ended with status {done.returncode}")
    return parse_print(done.stdout)


def parse_print(printed):
    """The fields of a print by name, in its order, and its pressures."""
    fields, pressures = {}, []
    try:
        for line in printed.decode("ascii").split("\n")[:-1]:
            key, content = line.split("=")
            if key == "cell":
                pressures.append(int(content))
            else:
                fields[key] = int(content)
    except ValueError as error:
        raise Fault("this is not a print of ./airway") from error
    if "answer" not in fields:
        raise Fault("this is not a print of ./airway")
    return fields, pressures


def bound(fields):
    """The proved bound on the error of each pressure of an accepted answer (docs/ANSWERS.md)."""
    return fields["worst"] * fields["interior"] * fields["depth"]
