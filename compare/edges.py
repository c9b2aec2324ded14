#!/usr/bin/env python3
"""Direct calls of the solver, through the library and by the separate implementation: every answer, every pressure lent, and the rooms.

edges.py --program AIRWAY [--seed S] [--calls N]     compares; status 1 where a print differs or something to be covered is missing"""
import argparse
import collections
import random
import struct
import sys

sys.dont_write_bytecode = True
import generate
import programs

AIR, OPENING, WALL = generate.AIR, generate.OPENING, generate.WALL
GREATEST_WORD = 2 ** 32 - 1
LENT = ("labels", "values", "pressures", "bytes", "binary64", "u32")
HEAD = 48

# sides, settings (tolerance, levels, rounds), what the lengths lent have more than they should, labels, values
Call = collections.namedtuple("Call", "name sides settings more labels values")


def needs(sides):
    """What a cast of these sides needs; of sides out of range, what one cell needs."""
    cells = sides[0] * sides[1] * sides[2]
    cells = cells if 1 <= cells <= 32768 else 1
    return [cells, cells, cells, 2 * cells + 16, 8 * cells + 64, 2 * cells]


def frame(call):
    lengths = [max(0, need + more) for need, more in zip(needs(call.sides), call.more)]
    given = max(lengths[:2])
    labels = (list(call.labels) + [WALL] * given)[:given]
    values = (list(call.values) + [0] * given)[:given]
    return struct.pack(">12I", *call.sides, *call.settings, *lengths) + bytes(labels) + struct.pack(f">{given}i", *values)


# ---------------------------------------------------------------- the calls that are always made

SOUND = Call("sound", (3, 1, 1), (0, 1, 5), (0,) * 6, [1, 0, 1], [10, 0, 20])
CASTS = {
    "the example": SOUND,
    "six levels": Call("six levels", (3, 2, 3), (2, 6, 50), (0,) * 6, [1, 0, 0, 0, 2, 0] * 3, [-1000000, 5, -7, 1000, 0, -1000] * 3),
    "one cell": Call("one cell", (1, 1, 1), (0, 6, 0), (0,) * 6, [1], [7]),
    "sealed": Call("sealed", (5, 1, 1), (0, 1, 5), (0,) * 6, [1, 0, 2, 0, 2], [0] * 5),
    "limit": Call("limit", (3, 1, 1), (0, 1, 1), (0,) * 6, [1, 0, 1], [0, 1, 0]),
    "stalled": Call("stalled", (3, 1, 1), (0, 1, 5), (0,) * 6, [1, 0, 1], [0, 1, 0]),
    "no air": Call("no air", (2, 1, 1), (0, 1, 5), (0,) * 6, [1, 2], [5, 0]),
    "a label of 3": Call("a label of 3", (3, 1, 1), (0, 1, 5), (0,) * 6, [1, 0, 3], [10, 0, 20]),
    "a source of 1001": Call("a source of 1001", (3, 1, 1), (0, 1, 5), (0,) * 6, [1, 0, 1], [10, 1001, 20]),
}
SETTINGS = [(0, bad) for bad in (1000001, GREATEST_WORD)] + [(1, bad) for bad in (0, 7, 8, GREATEST_WORD)] + [(2, bad) for bad in (1001, GREATEST_WORD)]
SETTINGS += [(0, 1000000), (1, 1), (1, 6), (2, 0), (2, 1000)]      # the last that are in range
SIDES = (0, 32, 33, 64, 65536, GREATEST_WORD)


def lengths(call):
    """Each slice and each room one short, exact and one longer; and all of them together."""
    for place, what in enumerate(LENT):
        for more in (-1, 0, 1):
            yield call._replace(name=f"{what} {more:+d}", more=tuple(more if n == place else 0 for n in range(6)))
    for more in (-1, 0, 1):
        yield call._replace(name=f"all {more:+d}", more=(more,) * 6)
    yield call._replace(name="rooms +1", more=(0, 0, 0, 1, 1, 1))
    yield call._replace(name="nothing lent", more=(-300000,) * 6)


def changed(items, place, content):
    return tuple(content if n == place else item for n, item in enumerate(items))


def ranges(call):
    """Each setting and each side at the edges of its range and beyond."""
    for place, content in SETTINGS:
        yield call._replace(name=f"setting {place} is {content}", settings=changed(call.settings, place, content))
    for axis in range(3):
        for side in SIDES:
            yield call._replace(name=f"side {axis} is {side}", sides=changed(call.sides, axis, side))


FAULTS = [
    lambda call: call._replace(sides=changed(call.sides, 1, 33)),
    lambda call: call._replace(more=changed(call.more, 3, -1)),
    lambda call: call._replace(settings=changed(call.settings, 1, 7)),
    lambda call: call._replace(labels=changed(call.labels, len(call.labels) - 1, 3)),
    lambda call: call._replace(values=changed(call.values, 0, 1000001)),
    lambda call: call._replace(labels=[WALL if label == AIR else label for label in call.labels], values=[0 if label == AIR else v for label, v in zip(call.labels, call.values)]),
]


def faults(call):
    """Every set of the faults 1 to 6 in one call: the first in document 01's order is the answer."""
    for chosen in range(1, 2 ** len(FAULTS)):
        changed_call = call
        for place, fault in reversed(list(enumerate(FAULTS))):
            if chosen >> place & 1:
                changed_call = fault(changed_call)
        yield changed_call._replace(name="faults " + ", ".join(str(place + 1) for place in range(len(FAULTS)) if chosen >> place & 1))


def great():
    """The greatest cast, in rooms that fit exactly, and with each one short."""
    labels = [OPENING if cell < 1024 else AIR for cell in range(32768)]
    call = Call("32x32x32", (32, 32, 32), (1000000, 6, 1), (0,) * 6, labels, [0] * 32768)
    yield call
    for place, what in enumerate(LENT):
        yield call._replace(name=f"32x32x32, {what} -1", more=tuple(-1 if n == place else 0 for n in range(6)))


def fixed_calls():
    for call in CASTS.values():
        yield call
        yield from lengths(call)
    yield from ranges(SOUND)
    yield from ranges(CASTS["six levels"])
    yield from faults(SOUND)
    yield from faults(CASTS["six levels"])
    yield from great()


# ---------------------------------------------------------------- and more from a seed

def random_call(rng):
    """Mostly sound lengths and settings; here and there one that is not."""
    nx, ny, nz, labels, values = generate.small_cast(rng, rng.choice([4, 12, 40, 120]))
    tolerance, levels, rounds = generate.random_settings(rng, len(labels))
    more = tuple(rng.choice([0, 0, 0, 1]) if place > 2 else 0 for place in range(6))
    call = Call("random", (nx, ny, nz), (tolerance, levels, min(rounds, 50)), more, labels, values)
    for _ in range(rng.choice([0, 0, 1, 1, 2, 3])):
        manner = rng.randrange(5)
        if manner == 0:
            call = call._replace(more=changed(call.more, rng.randrange(6), rng.choice([-2, -1, 1, 5])))
        elif manner == 1:
            call = call._replace(settings=changed(call.settings, *rng.choice(SETTINGS)))
        elif manner == 2:
            call = call._replace(sides=changed(call.sides, rng.randrange(3), rng.choice([0, 1, 2, 33, GREATEST_WORD])))
        elif manner == 3:
            call = call._replace(labels=changed(call.labels, rng.randrange(len(call.labels)), rng.choice([0, 1, 2, 3, 255])))
        else:
            call = call._replace(values=changed(call.values, rng.randrange(len(call.values)), rng.choice([0, 1, 1001, -1001, 1000001, -2 ** 31])))
    return call


def calls(seed, count):
    made = list(fixed_calls())
    return made + [random_call(random.Random(f"edges {seed}/{number}")) for number in range(count)]



# ---------------------------------------------------------------- comparing

def bad_frames():
    """A whole call behind which each of these stands: both print it and then `frame=bad`."""
    good = frame(SOUND)
    for cut in (1, 47, 48, 50, 51, 52, len(good) - 1):
        yield good + good[:cut]
    for place, most in zip(range(6, 12), (32769, 32769, 32769, 65553, 262209, 65537)):
        numbers = list(struct.unpack(">12I", good[:HEAD]))
        numbers[place] = most + 1
        yield good + struct.pack(">12I", *numbers) + bytes(5 * 32770)


def both(options, given):
    ours = programs.run(programs.harness("edges"), given)
    theirs = programs.run([options.program, "--edges"], given)
    return ours, theirs


def compare(options):
    made = calls(options.seed, options.calls)
    ours, theirs = both(options, b"".join(frame(call) for call in made))
    difference = programs.first_difference(ours, theirs)
    if difference is not None:
        print(f"edges: differs {difference}")
        return 1
    blocks = ours.split("call=")[1:]
    kept = ours.count("rooms=kept\n")
    if not len(blocks) == len(made) == kept:
        print(f"edges: {len(made)} calls were asked for, {len(blocks)} were answered, {kept} kept the rooms")
        return 1
    numbers = collections.Counter(int(block.split("\n")[1].split("=")[1]) for block in blocks)
    missing = [number for number in range(10) if not numbers[number]]
    if missing:
        print(f"edges: no call has answer {', '.join(map(str, missing))}")
        return 1
    refused = list(bad_frames())
    for number, given in enumerate(refused):
        a, b = both(options, given)
        if a != b or not a.endswith("rooms=kept\nframe=bad\n"):
            print(f"edges: bad frame {number}: ours ends in {a[-60:]!r}, the separate implementation's in {b[-60:]!r}")
            return 1
    print("edges: " + "; ".join(f"answer {number}: {numbers[number]}" for number in range(10)))
    print(f"edges: {len(made)} calls agree, every one with its rooms kept, and {len(refused)} bad frames, seed {options.seed}")
    return 0


def arguments():
    parser = argparse.ArgumentParser(description="Direct calls of the solver, compared.")
    parser.add_argument("--program", required=True, help="the separate implementation, built")
    parser.add_argument("--seed", default="1")
    parser.add_argument("--calls", type=int, default=1000)
    return parser.parse_args()


def main():
    options = arguments()
    return compare(options)


if __name__ == "__main__":
    sys.exit(main())
