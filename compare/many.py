#!/usr/bin/env python3
"""One cast with many sets (document 02, wish 1), through the library and by the separate implementation: the call's answer, every field of every set's
answer, every pressure lent, and the rooms; and each set beside a single call.

many.py --program AIRWAY [--seed S] [--calls N]     compares; status 1 where a print differs or something to be covered is missing"""
import argparse
import collections
import random
import struct
import sys

sys.dont_write_bytecode = True
import generate
import programs

AIR, OPENING, WALL = generate.AIR, generate.OPENING, generate.WALL
GREATEST_WORD = 2 ** 32 - 1
FIELDS = 8
LENT = ("labels", "values", "pressures", "answers", "bytes", "binary64", "u32")
MOST = (32769, 65 * 32768 + 1, 65 * 32768 + 1, 1000, 65553, 262209, 65537)
HEAD = 56

# sides, settings (tolerance, levels, rounds), the number of sets that is said, what the lengths lent have more than they should, labels, sets of values
Call = collections.namedtuple("Call", "name sides settings said more labels sets")


def needs(call):
    """What a cast of these sides with so many sets needs; of sides out of range, what one cell needs. Far too many sets: what one needs."""
    cells = call.sides[0] * call.sides[1] * call.sides[2]
    cells = cells if 1 <= cells <= 32768 else 1
    said = call.said if call.said <= 65 else 1
    return [cells, said * cells, said * cells, said * FIELDS, 2 * cells + 16, 8 * cells + 64, 2 * cells]


def frame(call):
    lengths = [max(0, need + more) for need, more in zip(needs(call), call.more)]
    labels = (list(call.labels) + [WALL] * lengths[0])[:lengths[0]]
    values = [value for values in call.sets for value in values]
    values = (values + [0] * lengths[1])[:lengths[1]]
    return struct.pack(">14I", *call.sides, *call.settings, call.said, *lengths) + bytes(labels) + struct.pack(f">{lengths[1]}i", *values)


def called(name, sides, settings, labels, sets):
    return Call(name, sides, settings, len(sets), (0,) * 7, labels, sets)


# ---------------------------------------------------------------- the calls that are always made

ROW = [1, 0, 1]
SOUND = called("sound", (3, 1, 1), (0, 1, 5), ROW, [[10, 0, 20], [0, 1, 0], [0, 1001, 0]])
SIX = [1, 0, 0, 0, 2, 0] * 3
CASTS = [
    SOUND,
    called("limit", (3, 1, 1), (0, 1, 1), ROW, [[0, 1, 0], [-10, 0, 20]]),
    called("six levels", (3, 2, 3), (2, 6, 50), SIX, [[-1000000, 5, -7, 1000, 0, -1000] * 3, [0] * 18, [1, 0, 0, 0, 1, 0] * 3, [1000000, 0, 0, 0, 0, 1] * 3]),
    called("one cell", (1, 1, 1), (0, 6, 0), [1], [[7]]),
    called("no air, a value too large", (2, 1, 1), (0, 1, 5), [1, 2], [[9999999, 0]] * 2),
    called("sealed, a value too large", (5, 1, 1), (0, 1, 5), [1, 0, 2, 0, 2], [[0, 9999999, 0, 0, 0]] * 3),
    called("a label of 3", (3, 1, 1), (0, 1, 5), [1, 0, 3], [[10, 0, 20]] * 2),
    called("every set faulty", (3, 1, 1), (0, 1, 5), ROW, [[0, 1001, 0], [0, 0, 1000001], [-2 ** 31, 0, 0]]),
]
SETTINGS = [(0, 1000001), (0, GREATEST_WORD), (1, 0), (1, 7), (2, 1001), (0, 1000000), (1, 6), (2, 1000)]
SIDES = (0, 32, 33, 65536, GREATEST_WORD)


def changed(items, place, content):
    return tuple(content if n == place else item for n, item in enumerate(items))


def lengths(call):
    """Each slice and each room one short, exact and one longer; and all of them together."""
    for place, what in enumerate(LENT):
        for more in (-1, 0, 1):
            yield call._replace(name=f"{what} {more:+d}", more=changed(call.more, place, more))
    for more in (-1, 0, 1):
        yield call._replace(name=f"all {more:+d}", more=(more,) * 7)
    yield call._replace(name="nothing lent", more=(-300000,) * 7)


def numbers_of_sets():
    """0, 1, 2, 64, 65 sets and the largest u32: with the lengths that the number asks for, and with others."""
    for said in (0, 1, 2, 63, 64, 65):
        call = called(f"{said} sets", (3, 1, 1), (0, 1, 5), ROW, [[10 * s, s % 3, -s] for s in range(said)])
        yield call
        yield call._replace(name=f"{said} sets, levels 7", settings=(0, 7, 5))
        for place in (1, 2, 3):
            for more in (-1, 1):
                yield call._replace(name=f"{said} sets, {LENT[place]} {more:+d}", more=changed(call.more, place, more))
    for said in (2 ** 31, GREATEST_WORD - 1, GREATEST_WORD):
        for sides in ((3, 1, 1), (32, 32, 32)):
            yield called("", sides, (0, 1, 5), ROW, [[0, 0, 0]])._replace(name=f"{said} sets", said=said)


def ranges(call):
    for place, content in SETTINGS:
        yield call._replace(name=f"setting {place} is {content}", settings=changed(call.settings, place, content))
    for axis in range(3):
        for side in SIDES:
            yield call._replace(name=f"side {axis} is {side}", sides=changed(call.sides, axis, side))


FAULTS = [
    (1, lambda call: call._replace(sides=changed(call.sides, 1, 33))),
    (2, lambda call: call._replace(more=changed(call.more, 3, -1))),
    (3, lambda call: call._replace(settings=changed(call.settings, 1, 7))),
    (4, lambda call: call._replace(labels=changed(call.labels, len(call.labels) - 1, 3))),
    (5, lambda call: call._replace(sets=[call.sets[0]] + [changed(values, 0, 1000001) for values in call.sets[1:]])),
    (6, lambda call: call._replace(labels=[WALL if label == AIR else label for label in call.labels])),
]


def faults(call):
    """Every set of the faults 1 to 6 in one call: the first in the order 1, 2, 3, 4, 6 is the answer."""
    for chosen in range(1, 2 ** len(FAULTS)):
        faulty = call
        for place, (_, fault) in reversed(list(enumerate(FAULTS))):
            if chosen >> place & 1:
                faulty = fault(faulty)
        yield faulty._replace(name="faults " + ", ".join(str(FAULTS[place][0]) for place in range(len(FAULTS)) if chosen >> place & 1))


def great():
    """The greatest cast with two sets, in rooms that fit exactly."""
    labels = [OPENING if cell < 1024 else AIR for cell in range(32768)]
    yield called("32x32x32", (32, 32, 32), (1000000, 6, 1), labels, [[0] * 32768, [1] * 32768])


def fixed_calls():
    for call in CASTS:
        yield call
        yield from lengths(call)
    yield from numbers_of_sets()
    yield from ranges(SOUND)
    yield from faults(SOUND)
    yield from faults(CASTS[2])
    yield from great()


# ---------------------------------------------------------------- and more from a seed

def other_values(rng, labels, values):
    """Another set on the same labels: some of the values anew, here and there one out of its range."""
    made = []
    for label, value in zip(labels, values):
        if rng.random() < 0.5:
            value = 0 if label == WALL else rng.randint(-1000, 1000) if label == AIR else rng.randint(-1000000, 1000000)
        made.append(value)
    if rng.random() < 0.2:
        made[rng.randrange(len(made))] = rng.choice([1001, -1001, 1000001, -2 ** 31, 2 ** 31 - 1])
    return made


def random_call(rng):
    """Mostly sound lengths and settings; here and there one that is not."""
    nx, ny, nz, labels, values = generate.small_cast(rng, rng.choice([4, 12, 40, 120]))
    tolerance, levels, rounds = generate.random_settings(rng, len(labels))
    sets = [values] + [other_values(rng, labels, values) for _ in range(rng.choice([0, 1, 2, 3, 5, 8]))]
    rng.shuffle(sets)
    call = called("random", (nx, ny, nz), (tolerance, levels, min(rounds, 50)), labels, sets)
    call = call._replace(more=tuple(rng.choice([0, 0, 0, 1]) if place > 3 else 0 for place in range(7)))
    for _ in range(rng.choice([0, 0, 0, 1, 2])):
        manner = rng.randrange(5)
        if manner == 0:
            call = call._replace(more=changed(call.more, rng.randrange(7), rng.choice([-2, -1, 1, 5])))
        elif manner == 1:
            call = call._replace(settings=changed(call.settings, *rng.choice(SETTINGS)))
        elif manner == 2:
            call = call._replace(sides=changed(call.sides, rng.randrange(3), rng.choice([0, 1, 2, 33, GREATEST_WORD])))
        elif manner == 3:
            call = call._replace(labels=changed(call.labels, rng.randrange(len(call.labels)), rng.choice([0, 1, 2, 3, 255])))
        else:
            call = call._replace(said=rng.choice([0, 1, len(sets) + 1, 65, GREATEST_WORD]))
    return call


def calls(seed, count):
    return list(fixed_calls()) + [random_call(random.Random(f"many {seed}/{number}")) for number in range(count)]


# ---------------------------------------------------------------- comparing

def bad_frames():
    """A whole call behind which each of these stands: both print it and then `frame=bad`."""
    good = frame(SOUND)
    for cut in (1, HEAD - 1, HEAD, HEAD + 2, len(good) - 1):
        yield good + good[:cut]
    for place, most in zip(range(7, 14), MOST):
        numbers = list(struct.unpack(">14I", good[:HEAD]))
        numbers[place] = most + 1
        yield good + struct.pack(">14I", *numbers)


def both(options, given):
    return programs.run(programs.harness("many"), given), programs.run([options.program, "--many"], given)


def counted(blocks):
    """How many calls have each answer, and how many sets of calls with answer 0 have each number."""
    whole, single = collections.Counter(), collections.Counter()
    for block in blocks:
        number = int(block.split("\n")[1].split("=")[1])
        whole[number] += 1
        if number == 0:
            fields = [int(line[6:]) for line in block.split("\n") if line.startswith("field=")]
            single.update(fields[::FIELDS])
    return whole, single


def missing_in(whole, single):
    return [f"call with answer {number}" for number in (0, 1, 2, 3, 4, 6, 7) if not whole[number]] + \
           [f"set with answer {number}" for number in (0, 5, 8, 9) if not single[number]] + \
           [f"nothing but 0 to 4, 6, 7: {number}" for number in whole if number in (5, 8, 9)]


def compare(options):
    made = calls(options.seed, options.calls)
    ours, theirs = both(options, b"".join(frame(call) for call in made))
    difference = programs.first_difference(ours, theirs)
    if difference is not None:
        print(f"many: differs {difference}")
        return 1
    blocks = ours.split("call=")[1:]
    kept, differ = ours.count("rooms=kept\n"), ours.count("singles=differ\n")
    if not len(blocks) == len(made) == kept or differ:
        print(f"many: {len(made)} calls were asked for, {len(blocks)} were answered, {kept} kept the rooms, {differ} differ from single calls")
        return 1
    whole, single = counted(blocks)
    missing = missing_in(whole, single)
    if missing:
        print("many: missing: " + "; ".join(missing))
        return 1
    refused = list(bad_frames())
    for number, given in enumerate(refused):
        a, b = both(options, given)
        if a != b or not a.endswith("rooms=kept\nframe=bad\n"):
            print(f"many: bad frame {number}: ours ends in {a[-60:]!r}, the separate implementation's in {b[-60:]!r}")
            return 1
    print("many: calls: " + "; ".join(f"answer {number}: {whole[number]}" for number in sorted(whole)))
    print("many: sets: " + "; ".join(f"answer {number}: {single[number]}" for number in sorted(single)))
    print(f"many: {len(made)} calls agree, every set with its single call, every call with its rooms kept, and {len(refused)} bad frames, seed {options.seed}")
    return 0


def arguments():
    parser = argparse.ArgumentParser(description="One cast with many sets, compared.")
    parser.add_argument("--program", required=True, help="the separate implementation, built")
    parser.add_argument("--seed", default="1")
    parser.add_argument("--calls", type=int, default=600)
    return parser.parse_args()


def main():
    return compare(arguments())


if __name__ == "__main__":
    sys.exit(main())
