#!/usr/bin/env python3
"""One cycle, through the library and by the separate implementation, on generated casts: every element's bits.

onecycle.py --program AIRWAY [--seed S] [--count N]     compares; status 1 where a print differs or something to be covered is missing
onecycle.py --program AIRWAY --time [--runs R]          the time of one cycle at 16x16x16 and 32x32x32, and the ratios"""
import argparse
import collections
import random
import resource
import statistics
import struct
import sys

sys.dont_write_bytecode = True
import generate
import programs

AIR, OPENING, WALL = generate.AIR, generate.OPENING, generate.WALL
LEVELS = 6
GREATEST = (32, 32, 32)

Cast = collections.namedtuple("Cast", "sides levels labels b times")


def frame(cast):
    """nx, ny, nz, levels, a byte each; how often, two bytes; a label a cell; the eight bytes of b a cell."""
    return struct.pack(">4BH", *cast.sides, cast.levels, cast.times) + bytes(cast.labels) + b"".join(n.to_bytes(8, "big") for n in cast.b)


# ---------------------------------------------------------------- what a field holds

NAN, INFINITY, MINUS = 0x7FF8 << 48, 0x7FF << 52, 1 << 63
KINDS = {
    "nan": lambda rng: NAN | rng.getrandbits(51) | rng.choice([0, MINUS]),
    "signalling nan": lambda rng: INFINITY | 1 + rng.getrandbits(50) | rng.choice([0, MINUS]),
    "infinity": lambda rng: INFINITY | rng.choice([0, MINUS]),
    "subnormal": lambda rng: 1 + rng.getrandbits(51) | rng.choice([0, MINUS]),
    "minus zero": lambda rng: MINUS,
    "huge": lambda rng: 0x7FE << 52 | rng.getrandbits(52) | rng.choice([0, MINUS]),
    "tiny": lambda rng: (1 + rng.getrandbits(4)) << 52 | rng.getrandbits(52) | rng.choice([0, MINUS]),
}


def bits_of(x):
    return struct.unpack(">Q", struct.pack(">d", x))[0]


def kind_of(bits):
    if bits & ~MINUS > INFINITY:
        return "nan" if bits & 1 << 51 else "signalling nan"
    if bits & ~MINUS == INFINITY:
        return "infinity"
    if bits == MINUS:
        return "minus zero"
    return "subnormal" if 0 < bits < 1 << 52 or 0 < bits - MINUS < 1 << 52 else "usual"


def plain(rng):
    return bits_of(rng.choice([rng.uniform(-1000, 1000), float(rng.randint(-6001000, 6001000)), rng.uniform(-1, 1), 0.0]))


def field(rng, cells):
    """Mostly plain numbers; in some casts a few, or all, of one other kind."""
    b = [plain(rng) for _ in range(cells)]
    style = rng.random()
    if style < 0.45:
        return b
    make = KINDS[rng.choice(sorted(KINDS))]
    share = 1.0 if style > 0.9 else min(1.0, rng.choice([1, 1, 2, 4]) / cells)
    return [make(rng) if rng.random() < share else x for x in b]


# ---------------------------------------------------------------- casts

def any_labels(rng):
    """Any sides from 1 to 8 and any labels: sealed air, no opening, no air, air alone."""
    sides = [rng.choice([1, 2, 3, 4, 5, 6, 7, 8, 3, 5, 7]) for _ in range(3)]
    cells = sides[0] * sides[1] * sides[2]
    weights = rng.choice([(1, 0, 0), (4, 1, 1), (1, 0, 1), (1, 1, 0), (2, 1, 4), (0, 1, 1), (8, 1, 0), (1, 1, 1)])
    return sides, rng.choices([AIR, OPENING, WALL], weights, k=cells)


def lone_air(rng):
    """Walls and here and there a cell of air by itself: d is 0 there, on level 0 and often below."""
    sides, labels = any_labels(rng)
    return sides, [AIR if rng.random() < 0.12 else WALL for _ in labels]


def great(rng):
    labels = rng.choices([AIR, OPENING, WALL], rng.choice([(0.85, 0.03, 0.12), (0.97, 0.03, 0), (0.6, 0.1, 0.3), (1, 0, 0)]), k=32 ** 3)
    return list(GREATEST), labels


def long_sides(rng):
    sides = rng.choice([[31, 17, 9], [1, 32, 31], [32, 1, 1], [17, 33 - 16, 3], [5, 32, 7], [29, 2, 13]])
    return sides, rng.choices([AIR, OPENING, WALL], [0.85, 0.05, 0.1], k=sides[0] * sides[1] * sides[2])


def casts(seed, count):
    """Two of the greatest for each number of levels, and the others mostly small. Cast k does not depend on the count."""
    for number in range(count):
        rng = random.Random(f"onecycle {seed}/{number}")
        levels = number % LEVELS + 1
        if number < 2 * LEVELS:
            sides, labels = great(rng)
        elif number < 4 * LEVELS:
            sides, labels = long_sides(rng)
        elif number % 4 == 0:
            sides, labels = lone_air(rng)
        elif number % 4 == 1:
            nx, ny, nz, labels, _ = generate.small_cast(rng, 300)
            sides = [nx, ny, nz]
        else:
            sides, labels = any_labels(rng)
        levels = levels if rng.random() < 0.7 else rng.randint(1, LEVELS)
        yield Cast(sides, levels if number >= 4 * LEVELS else number % LEVELS + 1, labels, field(rng, len(labels)), rng.choice([0, 1, 1, 1, 2, 3]))


# ---------------------------------------------------------------- what was covered

def coarse(sides, labels):
    """The next level's sides and labels: opening if any child is, else air if any child is, else wall."""
    halved = [(side + 1) // 2 for side in sides]
    seen = [set() for _ in range(halved[0] * halved[1] * halved[2])]
    for cell, label in enumerate(labels):
        i, j, k = cell % sides[0], cell // sides[0] % sides[1], cell // (sides[0] * sides[1])
        seen[generate.cell_number(halved[0], halved[1], i // 2, j // 2, k // 2)].add(label)
    return halved, [OPENING if OPENING in s else AIR if AIR in s else WALL for s in seen]


def has_lone_air(sides, labels):
    return any(label == AIR and all(labels[o] == WALL for o in generate.neighbours(*sides, cell)) for cell, label in enumerate(labels))


def lone_levels(cast):
    """The levels of a cast that have an air cell with d = 0."""
    sides, labels = cast.sides, cast.labels
    for level in range(cast.levels):
        if has_lone_air(sides, labels):
            yield level
        sides, labels = coarse(sides, labels)


def traits(cast, printed):
    """What a cast and its result stand for."""
    yield f"{cast.levels} levels"
    if tuple(cast.sides) == GREATEST:
        yield "32x32x32"
        yield f"32x32x32, {cast.levels} levels"
    for axis, side in zip("xyz", cast.sides):
        if side % 2 and side > 1:
            yield f"an odd side along {axis}"
    if len(cast.labels) <= 1000:
        for level in lone_levels(cast):
            yield "d = 0 on level 0" if level == 0 else "d = 0 on a coarser level"
    kinds = set(cast.labels)
    yield {frozenset([AIR]): "air alone", frozenset([AIR, WALL]): "air and walls", frozenset([AIR, OPENING]): "air and openings",
           frozenset([AIR, OPENING, WALL]): "all labels"}.get(frozenset(kinds), "no air")
    for kind in {kind_of(n) for n, label in zip(cast.b, cast.labels) if label == AIR}:
        yield f"b has {kind}"
    for kind in {"nan" if word == "nan" else kind_of(int(word, 16)) for word in printed}:
        yield f"u has {kind}"


WANTED = ([f"{n} levels" for n in range(1, LEVELS + 1)] + [f"32x32x32, {n} levels" for n in range(1, LEVELS + 1)]
          + [f"an odd side along {axis}" for axis in "xyz"] + ["d = 0 on level 0", "d = 0 on a coarser level"]
          + ["air alone", "air and walls", "air and openings", "all labels", "no air"]
          + [f"b has {kind}" for kind in ("nan", "signalling nan", "infinity", "subnormal", "minus zero", "usual")]
          + [f"u has {kind}" for kind in ("nan", "infinity", "subnormal", "usual")])     # u is never -0.0: it starts at +0.0 and only sums follow


# ---------------------------------------------------------------- frames that are not of the form

def bad_frames():
    """A whole frame behind which each of these stands: both programs print the cast and then `frame=bad`."""
    good = Cast([2, 1, 1], 2, [0, 1], [bits_of(1.0)] * 2, 1)
    for changed in (good._replace(sides=[0, 1, 1], labels=[], b=[]), good._replace(sides=[33, 1, 1]), good._replace(sides=[2, 1, 255]),
                    good._replace(levels=0), good._replace(levels=7), good._replace(labels=[0, 3]), good._replace(labels=[255, 0])):
        yield frame(good) + frame(changed)
    for cut in (1, 5, 6, 7, 8, 15, 23):
        yield frame(good) + frame(good)[:cut]



# ---------------------------------------------------------------- comparing

def both(options, given):
    ours = programs.run(programs.harness("onecycle"), given)
    theirs = programs.run([options.program, "--onecycle"], given)
    return ours.split("\n")[:-1], theirs.split("\n")[:-1]


def named(made, element):
    """The cast to which a printed element belongs, and its cell."""
    for number, cast in enumerate(made):
        if element < len(cast.labels):
            return f"cast {number} ({'x'.join(map(str, cast.sides))}, {cast.levels} levels), cell {element}"
        element -= len(cast.labels)
    return "behind the last cast"


def compare(options):
    made = list(casts(options.seed, options.count))
    ours, theirs = both(options, b"".join(frame(cast) for cast in made))
    for element, (a, b) in enumerate(zip(ours, theirs)):
        if a != b:
            print(f"onecycle: differs at {named(made, element)}: ours {a}, the separate implementation's {b}")
            return 1
    elements = sum(len(cast.labels) for cast in made)
    if not len(ours) == len(theirs) == elements:
        print(f"onecycle: {elements} elements were asked for, ours has {len(ours)}, the separate implementation's {len(theirs)}")
        return 1
    seen, at = collections.Counter(), 0
    for cast in made:
        seen.update(traits(cast, ours[at:at + len(cast.labels)]))
        at += len(cast.labels)
    missing = [trait for trait in WANTED if not seen[trait]]
    if missing or len(made) < 500:
        print(f"onecycle: too little was covered: {len(made)} casts, without {', '.join(missing) or 'any of those asked for missing'}")
        return 1
    refused = list(bad_frames())
    for number, given in enumerate(refused):
        a, b = both(options, given)
        if a != b or a[-1] != "frame=bad" or len(a) != 3:
            print(f"onecycle: bad frame {number}: ours {a}, the separate implementation's {b}")
            return 1
    print("onecycle: " + "; ".join(f"{trait}: {seen[trait]}" for trait in WANTED))
    print(f"onecycle: {len(made)} casts with {elements} elements agree bit for bit ({seen['32x32x32']} of them 32x32x32), and {len(refused)} bad frames, seed {options.seed}")
    return 0


# ---------------------------------------------------------------- timing

def timed_casts(side):
    """A room of air with a face of openings, and one with walls and openings strewn in."""
    cells, rng = side ** 3, random.Random(f"time {side}")
    room = [OPENING if cell < side * side else AIR for cell in range(cells)]
    strewn = rng.choices([AIR, OPENING, WALL], [0.85, 0.03, 0.12], k=cells)
    b = [bits_of(float(rng.randint(-1000, 1000))) for _ in range(cells)]
    return {"room": Cast([side] * 3, LEVELS, room, b, 1), "strewn": Cast([side] * 3, LEVELS, strewn, b, 1)}


def seconds(words, cast, times):
    """The processor time of a run; time of the clock would count whatever else the machine does."""
    before = resource.getrusage(resource.RUSAGE_CHILDREN)
    programs.run(words, frame(cast._replace(times=times)))
    after = resource.getrusage(resource.RUSAGE_CHILDREN)
    return after.ru_utime + after.ru_stime - before.ru_utime - before.ru_stime


def cycle_times(commands, cast, turns, runs):
    """The time of one cycle of each program: the median over runs with many cycles less that over runs with one. The programs run in turn."""
    few, many = collections.defaultdict(list), collections.defaultdict(list)
    for _ in range(runs):
        for name, words in commands.items():
            few[name].append(seconds(words, cast, 1))
            many[name].append(seconds(words, cast, 1 + turns))
    return {name: (statistics.median(many[name]) - statistics.median(few[name])) / turns for name in commands}


def measure(options):
    commands = {"ours": programs.harness("onecycle"), "separate": programs.separate(options.program) + ["--onecycle"]}
    slower = 20 if programs.emulated() else 1
    for family in ("room", "strewn"):
        took = {side: cycle_times(commands, timed_casts(side)[family], turns // slower, options.runs) for side, turns in ((16, 800), (32, 100))}
        for side in (16, 32):
            ours, theirs = took[side]["ours"], took[side]["separate"]
            print(f"{family} {side}x{side}x{side}, {LEVELS} levels: ours {1e3 * ours:.3f} ms, separate {1e3 * theirs:.3f} ms, ratio {ours / theirs:.2f}")
        growth = {name: took[32][name] / took[16][name] for name in commands}
        print(f"{family} 32x32x32 to 16x16x16: ours {growth['ours']:.2f}, separate {growth['separate']:.2f}")
    return 0


def arguments():
    parser = argparse.ArgumentParser(description="One cycle, compared, or timed.")
    parser.add_argument("--program", required=True, help="the separate implementation, built")
    parser.add_argument("--seed", default="1")
    parser.add_argument("--count", type=int, default=1200)
    parser.add_argument("--time", action="store_true")
    parser.add_argument("--runs", type=int, default=9)
    return parser.parse_args()


def main():
    options = arguments()
    return measure(options) if options.time else compare(options)


if __name__ == "__main__":
    sys.exit(main())
