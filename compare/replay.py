#!/usr/bin/env python3
"""Whole solves, through the library and by the separate implementation, on generated sessions, sound and damaged: byte for byte.

replay.py --program AIRWAY [--seed S] [--sessions N]     compares; status 1 where a print differs, a room is broken or something to be covered is missing
replay.py --program AIRWAY --time [--runs R]             answers, rounds and times at 8x8x8, 16x16x16 and 32x32x32 with 6 levels, and the ratios"""
import argparse
import collections
import random
import resource
import statistics
import struct
import sys

sys.dont_write_bytecode = True
import example
import generate
import programs

AIR, OPENING, WALL = generate.AIR, generate.OPENING, generate.WALL
LEAST = 3000                # sessions, fewer are no comparison
LONGEST = 94 + 5 * 32 ** 3  # bytes of a header and a body; one more is always too long
LEVELS = 6


# ---------------------------------------------------------------- sessions

def great_session(number, seed):
    """Some hundred to 32,768 cells, few rounds: all numbers of levels, the last ones 32x32x32."""
    rng = random.Random(f"great {seed}/{number}")
    sides = [(8, 8, 8), (12, 11, 13), (32, 1, 32), (31, 17, 9), (16, 16, 16), (5, 32, 7), (32, 32, 32), (1, 31, 32)][number // LEVELS % 8]
    build = rng.choice([generate.throat_within, generate.maze_within, strewn_within, room_within])
    shape = build(rng, *sides)
    tolerance, rounds = rng.choice([(0, 3), (3, 4), (100, 6), (0, 1), (1000000, 2), (5, 8)])
    return generate.session_bytes(*sides, rng.choice(["big", "little"]), tolerance, number % LEVELS + 1, rounds, shape.labels, generate.random_values(rng, shape.labels))


def strewn_within(rng, nx, ny, nz):
    labels = rng.choices([AIR, OPENING, WALL], [0.82, 0.03, 0.15], k=nx * ny * nz)
    return generate.walled_off(generate.Shape(nx, ny, nz, labels))


def room_within(rng, nx, ny, nz):
    """All air, but a window in two opposite corners."""
    labels = [AIR] * (nx * ny * nz)
    labels[0] = labels[-1] = OPENING
    return generate.Shape(nx, ny, nz, labels)


def alike(label, value):
    """A cast of one label alone, where the settings are sound."""
    return generate.session_bytes(3, 2, 5, "big", 4, 2, 9, [label] * 30, [value] * 30)


def long_sessions():
    """Sessions that are longer than a header and a body can be; what is beyond the first 163,935 bytes is read and dropped."""
    nine = generate.session_bytes(3, 1, 1, "big", 0, 1, 5, [1, 0, 1], [10, 0, 20])
    full = generate.session_bytes(32, 32, 32, "little", 1000000, 1, 0, [OPENING] + [AIR] * 32767, [5] + [0] * 32767)
    longest = full.replace(b"tolerance=1000000", b"tolerance=9999999").replace(b"levels=1", b"levels=9999999").replace(b"rounds=0", b"rounds=9999999")
    for whole in (nine, full, longest):
        for size in (LONGEST, LONGEST + 1, LONGEST + 2, 200000):
            yield whole + b"\x01" * (size - len(whole))
    yield full
    yield full[:-1]
    yield full + b"\0"
    yield nine + b"\0" * 1000000
    yield b"n" * 9999999


def made_sessions(seed, count):
    """The run-only cases, casts of one label, the longest, the great ones, and so many from the generator."""
    wholes = [session for _, session, _ in example.cases()]
    wholes += [alike(AIR, 5), alike(WALL, 0), alike(OPENING, 7), alike(OPENING, -1000000)]
    wholes += list(long_sessions())
    wholes += [great_session(number, seed) for number in range(8 * LEVELS)]
    return wholes + list(generate.sessions(seed, max(0, count - len(wholes)), 1000, "all"))



# ---------------------------------------------------------------- what was covered

def read(whole):
    """Sides, settings, labels and values of a session that the reader took."""
    lines = whole.split(b"\n", 7)
    content = [line.split(b"=")[1].decode() for line in lines[:7]]
    nx, ny, nz, tolerance, levels, rounds = (int(content[n]) for n in (0, 1, 2, 4, 5, 6))
    cells = nx * ny * nz
    spelling = (">" if content[3] == "big" else "<") + f"{cells}i"
    return (nx, ny, nz), content[3], (tolerance, levels, rounds), lines[7][:cells], struct.unpack(spelling, lines[7][cells:])


def size_traits(tolerance, rounds):
    yield "tolerance 0" if tolerance == 0 else "tolerance 1 to 100" if tolerance <= 100 else "tolerance over 100,000" if tolerance > 100000 else "tolerance over 100"
    if rounds in (0, 1, 1000):
        yield f"limit {rounds}"


def cast_traits(sides, labels, values):
    cells = len(labels)
    yield "32x32x32" if sides == (32, 32, 32) else "more than 1,000 cells" if cells > 1000 else "up to 1,000 cells"
    for axis, side in zip("xyz", sides):
        if side % 2 and side > 1:
            yield f"an odd side along {axis}"
    if OPENING not in labels:
        yield "walls alone" if AIR not in labels else "air and no opening"
    for label, limit, name in ((OPENING, 1000000, "level"), (AIR, 1000, "source")):
        for sign, extreme in (("", limit), ("-", -limit)):
            if any(value == extreme and own == label for own, value in zip(labels, values)):
                yield f"{name} {sign}{limit:,}"


def answer_traits(number, rounds, depth):
    yield f"answer {number}"
    if number in (0, 8, 9) and rounds >= 10:
        yield f"answer {number} after 10 rounds or more"
    if number in (0, 8, 9) and depth >= 30:
        yield "depth of 30 or more"


def traits(whole, block):
    """What a session and its print stand for."""
    fields = dict(line.split("=") for line in block[:8])
    number = int(fields["answer"])
    yield from answer_traits(number, int(fields["rounds"]), int(fields["depth"]))
    if number not in (0, 6, 7, 8, 9):
        return
    sides, order, (tolerance, levels, rounds), labels, values = read(whole)
    yield f"order {order}"
    yield f"{levels} levels"
    yield from size_traits(tolerance, rounds)
    yield from cast_traits(sides, labels, values)


# Answer 2 is not among these: with room for the greatest cast no session is too large. `edges` makes it.
WANTED = ([f"answer {number}" for number in (0, 1, 3, 4, 5, 6, 7, 8, 9, 10, 11)]
          + [f"answer {number} after 10 rounds or more" for number in (0, 8, 9)] + ["depth of 30 or more", "order big", "order little"]
          + [f"{levels} levels" for levels in range(1, LEVELS + 1)]
          + ["tolerance 0", "tolerance 1 to 100", "tolerance over 100", "tolerance over 100,000", "limit 0", "limit 1", "limit 1000"]
          + ["up to 1,000 cells", "more than 1,000 cells", "32x32x32"] + [f"an odd side along {axis}" for axis in "xyz"]
          + ["walls alone", "air and no opening", "level 1,000,000", "level -1,000,000", "source 1,000", "source -1,000"])


# ---------------------------------------------------------------- comparing

def both(options, given):
    return programs.run(programs.harness("replay"), given), programs.run([options.program, "--replay"], given)


def blocks_of(printed):
    """The lines of each session's print, without the line session=."""
    return [block.split("\n")[1:-1] for block in printed.split("session=")[1:]]


def bad_frames():
    """Frames that are not of the form, each behind a session that is answered."""
    nine = generate.framed(generate.session_bytes(3, 1, 1, "big", 0, 1, 5, [1, 0, 1], [10, 0, 20]))
    for line in (b"bytes=", b"bytes=\n", b"bytes=03\n123", b"bytes=00\n", b"bytes=12345678\n", b"bytes=3\r\n123", b"bytes=3", b"bytes=+3\n123", b"bytes=-1\n", b"bytes= 3\n123",
                 b"Bytes=3\n123", b" bytes=3\n123", b"byte=3\n123", b"\n", b"\nbytes=3\n123", b"\0", b"bytes=3 \n123", b"size=3\n123", b"bytes=3\0\n12", b"bytes=99999999999999999999\n"):
        yield nine + line
    for cut in (b"bytes=1\n", b"bytes=7\n123456", b"bytes=163935\n" + b"x" * 163934, b"bytes=163936\n" + b"x" * 163935, b"bytes=9999999\n" + b"x" * 200000):
        yield nine + cut


def compare_bad_frames(options):
    """How many bad frames both refuse in the same words; None where they do not."""
    refused = list(bad_frames())
    for number, given in enumerate(refused):
        ours, theirs = both(options, given)
        if ours != theirs or not ours.endswith("rooms=kept\nframe=bad\n") or ours.count("session=") != 1:
            print(f"replay: bad frame {number}: ours ends in {ours[-60:]!r}, the separate implementation's in {theirs[-60:]!r}")
            return None
    return len(refused)


def run_only_differs(blocks):
    """The first of document 01's run-only cases whose print is not what it says."""
    for block, (name, _, want) in zip(blocks, example.cases()):
        if "\n".join(block) + "\n" != want + "rooms=kept\n":
            return name
    return None


def compare(options):
    wholes = made_sessions(options.seed, options.sessions)
    ours, theirs = both(options, b"".join(map(generate.framed, wholes)))
    difference = programs.first_difference(ours, theirs)
    if difference is not None:
        print(f"replay: differs {difference}")
        return 1
    blocks = blocks_of(ours)
    kept = sum(block[-1] == "rooms=kept" for block in blocks)
    if not len(wholes) == len(blocks) == kept or len(wholes) < LEAST:
        print(f"replay: {len(wholes)} sessions were made, {len(blocks)} answered, {kept} with their rooms kept; {LEAST} are the least")
        return 1
    case = run_only_differs(blocks)
    if case is not None:
        print(f"replay: {case} is not answered as document 01 says")
        return 1
    seen = collections.Counter(trait for whole, block in zip(wholes, blocks) for trait in traits(whole, block))
    missing = [trait for trait in WANTED if not seen[trait]]
    if missing:
        print(f"replay: too little was covered: nothing with {', '.join(missing)}")
        return 1
    refused = compare_bad_frames(options)
    if refused is None:
        return 1
    print("replay: " + "; ".join(f"{trait}: {seen[trait]}" for trait in WANTED))
    print(f"replay: {len(wholes)} sessions agree byte for byte, {ours.count(chr(10) + 'cell=')} pressures among them, every one with its rooms kept, and {refused} bad frames, seed {options.seed}")
    return 0


# ---------------------------------------------------------------- timing

def timed_shapes(side):
    """The four casts of a side that are timed."""
    rng = random.Random(f"time {side}")
    sides = (side, side, side)
    strewn = rng.choices([AIR, OPENING, WALL], [0.7, 0.03, 0.27], k=side ** 3)
    return {"open room": room_within(rng, *sides), "rubble": generate.walled_off(generate.Shape(*sides, strewn)),
            "winding throat": generate.throat_within(rng, *sides), "maze": generate.maze_within(rng, *sides)}


def timed_session(side, shape):
    """Tolerance 6: what rounding alone can leave at a cell."""
    rng = random.Random(f"values {side}")
    values = [rng.randint(-1000000, 1000000) if label == OPENING else rng.randint(-1000, 1000) if label == AIR else 0 for label in shape.labels]
    return generate.session_bytes(side, side, side, "big", 6, LEVELS, 1000, shape.labels, values)


def seconds(words, given):
    """The processor time of a run; time of the clock would count whatever else the machine does."""
    before = resource.getrusage(resource.RUSAGE_CHILDREN)
    programs.run(words, given)
    after = resource.getrusage(resource.RUSAGE_CHILDREN)
    return after.ru_utime + after.ru_stime - before.ru_utime - before.ru_stime


def session_times(commands, whole, runs):
    """The time of one session by each program, the programs in turn: the median over runs with several copies less that over runs with one. A session that takes
    half a second is timed by itself, since starting a program takes some milliseconds."""
    frame = generate.framed(whole)
    once = seconds(commands["separate"], frame)
    copies = 0 if once > 0.5 else min(400, 1 + int(0.6 / max(once, 0.001)))
    one, more = collections.defaultdict(list), collections.defaultdict(list)
    for _ in range(runs):
        for name, words in commands.items():
            one[name].append(seconds(words, frame))
            more[name].append(seconds(words, frame * (1 + copies)) if copies else 0.0)
    if not copies:
        return {name: statistics.median(one[name]) for name in commands}
    return {name: (statistics.median(more[name]) - statistics.median(one[name])) / copies for name in commands}


def measure(options):
    commands = {"ours": programs.harness("replay"), "separate": programs.separate(options.program) + ["--replay"]}
    print("| cast | air cells | depth | answer | rounds | replay | separate | ratio |\n|---|---|---|---|---|---|---|---|")
    for side in (8, 16, 32):
        for name, shape in timed_shapes(side).items():
            whole = timed_session(side, shape)
            ours, theirs = both(options, generate.framed(whole))
            if ours != theirs:
                print(f"replay: differs {programs.first_difference(ours, theirs)}")
                return 1
            fields = dict(line.split("=") for line in blocks_of(ours)[0][:8])
            took = session_times(commands, whole, options.runs)
            print(f"| {name} {side}×{side}×{side} | {fields['interior']} | {fields['depth']} | {fields['answer']} | {fields['rounds']} "
                  f"| {1e3 * took['ours']:.2f} ms | {1e3 * took['separate']:.2f} ms | {took['ours'] / took['separate']:.2f} |", flush=True)
    return 0


def arguments():
    parser = argparse.ArgumentParser(description="Whole solves, compared, or timed.")
    parser.add_argument("--program", required=True, help="the separate implementation, built")
    parser.add_argument("--seed", default="1")
    parser.add_argument("--sessions", type=int, default=4000)
    parser.add_argument("--time", action="store_true")
    parser.add_argument("--runs", type=int, default=7)
    return parser.parse_args()


def main():
    options = arguments()
    return measure(options) if options.time else compare(options)


if __name__ == "__main__":
    sys.exit(main())
