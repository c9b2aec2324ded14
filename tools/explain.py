#!/usr/bin/env python3
"""The answer in words: explain.py PRINT SESSION [new|old], where PRINT is what ./airway printed of SESSION, of the new form or the old one.
`./airway --explain` runs it."""
import re
import sys

sys.dont_write_bytecode = True
import form

LINES = {
    0: "accepted: every exact residual is within the tolerance, the worst is {worstvalue} at cell {at}; {interior} air cells, depth {depth}, {rounds} rounds.\n"
       "Each pressure is proved to be within {bound} ticks of the exact one (worst · interior · depth).",
    1: "a side is not 1 to 32.",
    2: "the cast has more cells than there is room for: 1,000, or 32,768 with --large.",
    3: "a setting is out of range: tolerance 0 to 1,000,000, levels 1 to 6, rounds 0 to 1,000.",
    4: "cell {cell} has a label above 2: it is not said whether it is air, an opening or wall.",
    5: "cell {cell} has a value out of its label's range: a level within ±1,000,000, a source within ±1,000, 0 at a wall.",
    6: "there is no air cell, so there is nothing to solve.",
    7: "cell {cell} has no way through air to an opening; it has no level at all.",
    8: "{rounds} rounds, the limit, were made and the test was not passed yet. This does not say that there is no solution: there is one.",
    9: "after {rounds} rounds a scalar could not be used any more, and the test was not passed. This does not say that there is no solution: there is one.",
    10: "line {place} of the header is not of the form{why}.",
    11: "the body is not 5 bytes a cell{why}.",
}

# what is said otherwise of the old form, whose settings the caller passed
OLD = {
    2: "the cast has more cells than there is room for.",
    3: "the unit is not 1 to 1,000, or a setting that you passed is out of range: tolerance 0 to 1,000,000, levels 1 to 6, rounds 0 to 1,000.",
    5: "cell {cell} has a value, its number times the unit, out of its label's range: a level within ±1,000,000, a source within ±1,000, 0 at a wall.",
    10: "line {place} is not of the old form, which begins size=AxBxC, then unit=U{why}.",
    11: "the body is not 3 bytes a cell.",
}
OLD_SIZE = re.compile(rb"size=(\d{1,7})x(\d{1,7})x(\d{1,7})\n")


def why(whole):
    """What the form's reader finds, as a clause; nothing where it finds nothing."""
    try:
        form.read(whole)
    except form.Fault as fault:
        return ": " + str(fault).split(": ", 1)[-1]
    return ""


def why_old(whole):
    return ": this is a session of the new form, which ./airway answers without --old" if whole.startswith(b"nx=") else ""


def sides(whole, old):
    if old:
        size = OLD_SIZE.match(whole)
        return tuple(int(part) for part in size.groups()) if size else None
    try:
        return form.sides_of(form.header_of(whole)[0])
    except form.Fault:
        return None


def explained(fields, whole, old=False):
    number, place = fields["answer"], fields["place"]
    named = sides(whole, old)
    cell = form.spoken(named, place) if number in form.AT_CELL and named is not None else str(place)
    said = OLD[number] if old and number in OLD else LINES.get(number, "docs/ANSWERS.md says what it means.")
    clause = "" if number not in (10, 11) else why_old(whole) if old else why(whole)
    text = said.format(**dict(fields, cell=cell, at=form.spoken(named, fields["worstcell"]) if number == 0 else "", bound=form.bound(fields), why=clause))
    return f"answer={number}: {text}"


def main():
    if len(sys.argv) not in (3, 4) or sys.argv[3:] not in ([], ["new"], ["old"]):
        print(__doc__, file=sys.stderr)
        return 2
    try:
        fields, _ = form.parse_print(form.read_file(sys.argv[1]))
        print(explained(fields, form.read_file(sys.argv[2]), sys.argv[3:] == ["old"]), file=sys.stderr)
    except form.Fault as fault:
        print(f"explain: {fault}", file=sys.stderr)
        return 1
    return 0


if __name__ == "__main__":
    sys.exit(main())
