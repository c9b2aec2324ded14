#!/usr/bin/env python3
"""Reads a session file, solves it through the C library and prints as the program does: solve.py FILE

Needs target/library/libquetzalcup.so (./build-library) and Python's standard library. `solve` takes any buffers: bytes and arrays, or NumPy arrays."""
import ctypes
import os
import sys

UINT8, INT32, INT64, FLOAT, WORD, SIZE = ctypes.c_uint8, ctypes.c_int32, ctypes.c_int64, ctypes.c_double, ctypes.c_uint32, ctypes.c_size_t


class Sides(ctypes.Structure):
    _fields_ = [(name, WORD) for name in ("nx", "ny", "nz")]


class Settings(ctypes.Structure):
    _fields_ = [(name, WORD) for name in ("tolerance", "levels", "rounds")]


class Task(ctypes.Structure):
    _fields_ = [("sides", Sides), ("settings", Settings)]


class Answer(ctypes.Structure):
    _fields_ = [(name, WORD) for name in ("number", "place", "rounds", "worst", "worstcell")]
    _fields_ += [("worstvalue", INT32), ("interior", WORD), ("depth", WORD)]


class Session(ctypes.Structure):
    _fields_ = [("answer", Answer), ("sides", Sides), ("order", WORD), ("settings", Settings), ("start", SIZE)]


def library(path=None):
    """The library, with its calls declared."""
    path = path or os.path.join(os.path.dirname(os.path.abspath(__file__)), "..", "target", "library", "libquetzalcup.so")
    made = ctypes.CDLL(path)

    def slices(*types):
        return [word for kind in types for word in (ctypes.POINTER(kind), SIZE)]

    made.quetz_read.restype, made.quetz_read.argtypes = Session, slices(UINT8, INT32)
    made.quetz_solve.restype, made.quetz_solve.argtypes = Answer, [Task] + slices(UINT8, INT32, INT64, UINT8, FLOAT, WORD)
    for need in (made.quetz_byte_need, made.quetz_float_need, made.quetz_word_need):
        need.restype, need.argtypes = SIZE, [Sides]
    return made


def lent(kind, items):
    """A pointer and a length: of a NumPy array its own memory, of anything else an array of its items."""
    if hasattr(items, "ctypes") and hasattr(items, "dtype"):
        assert items.itemsize == ctypes.sizeof(kind) and items.flags["C_CONTIGUOUS"], "an array of another type, or not in one piece"
        return items.ctypes.data_as(ctypes.POINTER(kind)), items.size
    array = items if isinstance(items, ctypes.Array) else (kind * len(items))(*items)
    return ctypes.cast(array, ctypes.POINTER(kind)), len(array)


def read(made, data):
    """What a session's bytes say, and its values."""
    values = (INT32 * 32768)()
    return made.quetz_read(*lent(UINT8, data), *lent(INT32, values)), values


def solve(made, sides, settings, labels, values):
    """The answer, and the pressures."""
    cells = sides.nx * sides.ny * sides.nz
    pressures = (INT64 * cells)()
    rooms = (UINT8 * made.quetz_byte_need(sides))(), (FLOAT * made.quetz_float_need(sides))(), (WORD * made.quetz_word_need(sides))()
    answer = made.quetz_solve(Task(sides, settings), *lent(UINT8, labels), *lent(INT32, values), *lent(INT64, pressures),
                              *lent(UINT8, rooms[0]), *lent(FLOAT, rooms[1]), *lent(WORD, rooms[2]))
    return answer, pressures


def main():
    if len(sys.argv) != 2:
        print(__doc__, file=sys.stderr)
        return 2
    with open(sys.argv[1], "rb") as file:
        data = file.read()
    made = library()
    session, values = read(made, data)
    answer, pressures = session.answer, []
    if answer.number == 0:
        cells = session.sides.nx * session.sides.ny * session.sides.nz
        answer, pressures = solve(made, session.sides, session.settings, data[session.start:session.start + cells], values[:cells])
    lines = [f"{name if name != 'number' else 'answer'}={getattr(answer, name)}\n" for name, _ in Answer._fields_]
    lines += [f"cell={pressure}\n" for pressure in pressures if answer.number == 0]
    sys.stdout.write("".join(lines))
    return 0


if __name__ == "__main__":
    sys.exit(main())
