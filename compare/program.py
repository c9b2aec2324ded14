#!/usr/bin/env python3
"""The program, compared with the separate implementation, one session a run.

    program.py --program OUT [--seed S] [--count N]

Runs ./airway on the sample sessions of examples/ and on document 01's own cases, and the built program on generated sessions, sound and
damaged, on a sample session cut at many places, on inputs of a megabyte, and on two that a shorter buffer would cut; ./airway --large on some of these and on casts up to
32x32x32. Each must print what OUT prints; document 01's example its nine lines, and those two their answers.
"""
import argparse
import os
import random
import subprocess
import sys

sys.dont_write_bytecode = True
import example
import generate
import make_examples
import programs
import replay

SCRIPT = os.path.join(programs.ROOT, "airway")
MEGABYTE = 1_000_000


def by_script():
    """Sessions for ./airway, by name, with what is to be printed where document 01 says so."""
    for name, session, want in example.cases():
        yield name, session, want
    for name, want in (("example", example.NINE), ("throat", None)):
        with open(os.path.join(make_examples.FOLDER, name + ".session"), "rb") as file:
            yield f"examples/{name}.session", file.read(), want


def by_program(seed, count):
    """Sessions for the built program, by name."""
    rng = random.Random(seed)
    for k, session in enumerate(generate.sessions(seed, count)):
        yield f"generated session {k}", session
    throat = make_examples.throat()
    for at in sorted(rng.sample(range(len(throat)), 60)):
        yield f"the throat cut at {at}", throat[:at]
    header = generate.session_bytes(10, 10, 10, "big", 0, 1, 5, [], [])
    noise = rng.randbytes(MEGABYTE)
    yield "a megabyte of noise", noise
    yield "a header and a megabyte of noise", header + noise
    yield "a megabyte of digits", b"nx=" + b"1" * MEGABYTE
    full = generate.session_bytes(10, 10, 10, "big", 0, 2, 5, [1] + [0] * 999, [7] + [0] * 999)
    for name, session in (("1,000 cells", full), ("one byte more", full + b"\0"), ("one byte less", full[:-1]), ("a megabyte more", full + noise)):
        yield name, session


def at_the_end():
    """Sessions of the built program's 1,000 cells whose last bytes decide, by name, with what is to be printed."""
    labels, values = [1] + [0] * 999, [7] + [0] * 999
    more = generate.session_bytes(10, 10, 10, "little", 1_000_000, 6, 1000, labels, values) + b"\0"
    assert len(more) == 5071
    yield "5,071 bytes, one too many", more, example.refused(11, 0)
    wide = generate.session_bytes(10, 10, 10, "little", 9_999_999, 9_999_999, 9_999_999, labels, values)
    assert len(wide) == 5079
    yield "5,079 bytes, settings out of range", wide, example.refused(3, 0)


def by_large(seed):
    """Sessions for ./airway --large, by name: some small ones, and casts with more than 1,000 cells."""
    for k, session in enumerate(generate.sessions(seed, 20)):
        yield f"large: generated session {k}", session
    for number in range(48):
        yield f"large: great session {number}", replay.great_session(number, seed)
    for k, session in enumerate(replay.long_sessions()):
        yield f"large: long session {k}", session


def main():
    parser = argparse.ArgumentParser()
    parser.add_argument("--program", required=True)
    parser.add_argument("--seed", type=int, default=1)
    parser.add_argument("--count", type=int, default=400)
    chosen = parser.parse_args()
    wrong = runs = 0

    def compare(name, session, words, want, room=()):
        nonlocal wrong, runs
        runs += 1
        # a program that knows its answer reads no further, so what it is given may be more than it takes
        ours = subprocess.run(words, input=session, stdout=subprocess.PIPE, check=True).stdout.decode("ascii")
        theirs = programs.run([chosen.program, *room], session)
        if ours != theirs or (want is not None and ours != want):
            wrong += 1
            print(f"{name}: {programs.first_difference(ours, want if want is not None else theirs)}")

    for name, session, want in by_script():
        compare(name, session, [SCRIPT], want)
    for name, session in by_program(chosen.seed, chosen.count):
        compare(name, session, programs.command("airway"), None)
    for name, session, want in at_the_end():
        compare(name, session, programs.command("airway"), want)
    for name, session in by_large(chosen.seed):
        compare(name, session, [SCRIPT, "--large"], None, ("--room", "32768"))
    if make_examples.differing():
        wrong += 1
        print("examples/ is not what make_examples.py writes")
    print(f"program: {runs} sessions, {wrong} differ")
    return 1 if wrong else 0


if __name__ == "__main__":
    sys.exit(main())
