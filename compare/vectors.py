#!/usr/bin/env python3
"""The definitions against vectors: random cases, answered by the separate implementation, judged by the checker.

Makes a temporary repository with the crates `laws` and `method` (definitions alone, no hand cases) and a generated crate
that holds one small computed declaration for each vector, and has `rt check` judge them. It lies outside of this checkout,
where `rt ci` takes a file of a crate that it knows nothing of for a fault.

Exit status 0: every vector computes to what the separate implementation gives.
            1: a vector differs; it is named, with what it was made from.
            3: no verdict (a step limit, an error of this script or of its tools): never a pass, and never a catch.
"""
import argparse
import concurrent.futures
import os
import random
import re
import shutil
import struct
import subprocess
import sys
import tempfile

sys.dont_write_bytecode = True
import generate

HERE = os.path.dirname(os.path.abspath(__file__))
ROOT = os.path.dirname(HERE)
CRATE = "vectors"   # the generated crate
CHUNK = 12          # declarations in a module
LARGE = 16          # cells times rounds: above this a cast is large


class NoVerdict(Exception):
    pass


# ---------------------------------------------------------------- the separate implementation

class Separate:
    def __init__(self, program):
        self.program = program

    def run(self, arguments, given):
        done = subprocess.run([self.program] + arguments, input=given, stdout=subprocess.PIPE, check=False)
        if done.returncode != 0:
            raise NoVerdict(f"the separate implementation ended with {done.returncode} on {arguments}")
        return done.stdout.decode("ascii")

    def print_of(self, session, room=1000):
        return self.run(["--room", str(room)], session)

    def piece(self, name, words):
        return self.run(["--piece", name], " ".join(str(w) for w in words).encode("ascii")).split()


def field_of(printed, key):
    return int(re.search(rf"^{key}=(-?\d+)$", printed, re.M).group(1))


# ---------------------------------------------------------------- antt's terms

def listed(terms):
    return "(" + "".join(f"{t} ∷ " for t in terms) + "[])"


def bits_of(x):
    return struct.pack(">d", x).hex()


def float_term(bits):
    """A binary64, given by its bits in hex or as `nan`, in the one way that antt writes it: with an odd significand."""
    if bits == "nan":
        return "nan"
    b = int(bits, 16)
    sign, exponent, m = "true" if b >> 63 else "false", (b >> 52) & 0x7FF, b & ((1 << 52) - 1)
    if exponent == 0x7FF:
        return f"inf {sign}" if m == 0 else "nan"
    if exponent == 0 and m == 0:
        return f"fin {sign} 0 (pos 0)"
    if exponent:
        m, e = m | (1 << 52), exponent - 1075
    else:
        e = -1074
    while m % 2 == 0:
        m, e = m // 2, e + 1
    return f"fin {sign} {m} ({'pos ' + str(e) if e >= 0 else 'negsuc ' + str(-e - 1)})"


def whole_term(z):
    return f"pos {z}" if z >= 0 else f"negsuc {-z - 1}"


def floats(bits):
    return listed(f"({float_term(b)})" if b != "nan" else "nan" for b in bits)


def numbers(ns):
    return listed(ns)


def bools(words):
    return listed("true" if w == "1" else "false" for w in words)


def quoted(printed):
    return 'text "' + printed.replace("\n", "\\n") + '"'


def sides_term(nx, ny, nz):
    return f"(record {{ nx = {nx}; ny = {ny}; nz = {nz} }})"


# ---------------------------------------------------------------- vectors

class Vector:
    def __init__(self, kind, got, want, story):
        self.kind, self.got, self.want, self.story = kind, got, want, story


def printed_vector(separate, session, kind, story):
    want = separate.print_of(session)
    return Vector(kind, f"program {numbers(session)}", quoted(want), f"{story}: {field_of(want, 'answer')}")


def cast_sessions(separate, rng, count):
    """Small casts whose answers cover what the issue names: each answer, levels 1 to 3, limits, a pass at the limit, 9 against 8."""
    made, seen = [], {}
    large = 0

    def take(key, session, most):
        if seen.get(key, 0) < most:
            seen[key] = seen.get(key, 0) + 1
            made.append((key, session))

    share = max(2, count // 15)
    for _ in range(200 * count):
        if len(made) >= count + 6 and seen.get("levels", 0) >= count // 3 and seen.get("stall and limit", 0) >= 2:
            break
        nx, ny, nz, labels, values = generate.small_cast(rng, 27)
        levels = rng.choice([1, 2, 2, 3])
        cells = nx * ny * nz
        if not 2 <= cells <= (27 if levels == 1 else 20):
            continue
        tolerance = rng.choice([0, 0, 1, 3, 50])
        limit = rng.choice([0, 1, 2, 3])
        order = rng.choice(["big", "little"])
        if rng.random() < 0.08:
            labels = list(labels)
            labels[rng.randrange(cells)] = rng.choice([3, 7, 255])
        if rng.random() < 0.08:
            values = list(values)
            values[rng.randrange(cells)] = rng.choice([1001, -1001, 1000001, -1000001, -2**31])

        def session(limit):
            return generate.session_bytes(nx, ny, nz, order, tolerance, levels, limit, labels, values)
        printed = separate.print_of(session(limit))
        answer, rounds = field_of(printed, "answer"), field_of(printed, "rounds")
        odd = any(side % 2 for side in (nx, ny, nz) if side > 1)
        # what the checker computes grows with cells and rounds: few of the largest show as much as many
        if cells * rounds > LARGE:
            large += 1
            if large > max(6, count // 10):
                continue
        if answer == 9 and seen.get("stall and limit", 0) < 2:
            seen["stall and limit"] = seen.get("stall and limit", 0) + 1
            made.append(("9 in the last round", session(rounds + 1)))
            made.append(("8 in its place", session(rounds)))
        if answer == 0 and 0 < rounds == limit:
            take("pass at the limit", session(limit), share)
        elif limit == 0:
            take("limit 0", session(limit), share)
        elif levels > 1 and odd and answer in (0, 8, 9):
            take("levels", session(limit), count // 2)
        else:
            take(f"answer {answer}", session(limit), share)
    return made


def byte_sessions(separate, rng, seed, count):
    """Sessions of bytes, most of them damaged: each refusal at several places, both orders."""
    made, seen = [], {}
    share = max(3, count // 8)
    for number in range(400 * count):
        if len(made) >= count and all(seen.get(a, 0) >= 2 for a in (0, 1, 2, 3, 4, 5, 10, 11)):
            break
        session = generate.generated(f"vectors {seed}", number, 8, "damaged")
        if len(session) > 220:
            continue
        printed = separate.print_of(session)
        answer, place = field_of(printed, "answer"), field_of(printed, "place")
        key = (answer, place) if answer == 10 else answer
        if seen.get(key, 0) < (2 if answer == 10 else share):
            seen[key] = seen.get(key, 0) + 1
            seen[answer] = seen.get(answer, 0) + (answer == 10)
            made.append((f"session, answer {answer}", session))
    return made


DAMAGES = [lambda w: b"0" + w, lambda w: b"00000001", lambda w: b"+" + w, lambda w: b"", lambda w: w + b" ", lambda w: w + b"\r"]


def form_sessions(rng, count):
    """A header line spelled wrongly: each way of spelling, on one number's line after another."""
    whole = generate.session_bytes(3, 1, 1, rng.choice(["big", "little"]), 4, 1, 5, [1, 0, 1], [10, 0, 20])
    made = []
    for k in range(count):
        lines = whole.split(b"\n", 7)
        at = [0, 1, 2, 4, 5, 6][k % 6]
        key, word = lines[at].split(b"=")
        lines[at] = key + b"=" + DAMAGES[(k + k // 6) % 6](word)
        made.append((f"line {at + 1} spelled wrongly", b"\n".join(lines)))
    return made


def rewritten(rng, number):
    """An accepted session: what the writer makes of it in each order, with what the output holds beyond."""
    nx, ny, nz, labels, values = generate.small_cast(rng, 8)
    settings = (rng.choice([0, 9, 10, 1000000]), rng.randint(1, 6), rng.choice([0, 10, 1000]))
    made = []
    for order in ("big", "little"):
        session = generate.session_bytes(nx, ny, nz, order, *settings, labels, values)
        cast = f"record {{ sides = {sides_term(nx, ny, nz)}; labels = {numbers(labels)}; values = {listed('(' + whole_term(v) + ')' for v in values)} }}"
        setting = "record {{ tolerance = {}; levels = {}; rounds = {} }}".format(*settings)
        lent = len(session) + number % 3
        want = numbers(list(session) + [7] * (lent - len(session)))
        made.append(Vector("written", f"(writing (record {{ cast = {cast}; order = {order.capitalize()}; settings = {setting}; output = replicate {lent} 7 }})).output",
                           want, f"{nx}x{ny}x{nz} {order}"))
        made.append(Vector("read", f"(reading (record {{ bytes = {numbers(session)}; values = replicate {nx * ny * nz} (pos 7) }})).values",
                           listed('(' + whole_term(v) + ')' for v in values), f"{nx}x{ny}x{nz} {order}"))
    return made


def room(rng, least, most):
    """A room with mostly odd sides, mostly air, some openings and walls."""
    while True:
        nx, ny, nz = rng.choice([1, 3, 5, 7]), rng.choice([1, 2, 3, 5]), rng.choice([1, 2, 3])
        if least <= nx * ny * nz <= most:
            break
    thin = rng.choice([0.0, 0.1, 0.3])
    labels = [0 if rng.random() >= thin else rng.choice([1, 2]) for _ in range(nx * ny * nz)]
    return nx, ny, nz, labels


def random_floats(rng, count, at=None):
    return [bits_of(rng.uniform(-1000, 1000)) if at is None or at[c] == 0 else "0" * 16 for c in range(count)]


PIECES = ["coarse", "band", "restrict", "prolong", "up", "down", "bandup", "banddown", "jacobi", "residual", "cycle", "depth", "exact"]


def piece_vector(separate, rng, name):
    most = {"cycle": 24, "bandup": 45, "banddown": 45, "depth": 40}.get(name, 105)
    nx, ny, nz, labels = room(rng, most // 2 if rng.random() < 0.5 else 3, most)
    n, s, ls = nx * ny * nz, sides_term(nx, ny, nz), numbers(labels)
    head = [nx, ny, nz] + labels
    story = f"{nx}x{ny}x{nz}"
    if name == "coarse":
        return Vector(name, f"coarse {s} {ls}", numbers(separate.piece(name, head)), story)
    if name == "band":
        return Vector(name, f"tab {n} (in_band {s} {ls})", bools(separate.piece(name, head)), story)
    if name == "depth":
        word, number = separate.piece(name, head)
        found = f"Some {number}" if word == "sealed" else "None"
        if word == "sealed":
            return Vector(name, f"sealed {s} {ls}", found, f"{story} sealed")
        return Vector(name, f"depth {s} {ls}", number, story)
    if name == "exact":
        values = [rng.randint(-1000, 1000) if l == 0 else rng.randint(-10**6, 10**6) if l == 1 else 0 for l in labels]
        ps = [rng.randint(-2**41, 2**41) if l == 0 else v for l, v in zip(labels, values)]
        terms = [listed("(" + whole_term(z) + ")" for z in zs) for zs in (values, ps)]
        want = separate.piece(name, head + values + ps)
        return Vector(name, f"tab {n} (λ c. cond (is_air {ls} c) (residual {s} {ls} (field {terms[0]}) (field {terms[1]}) c) (pos 0))",
                      listed("(" + whole_term(int(z)) + ")" for z in want), story)
    if name in ("restrict", "prolong"):
        at = labels if name == "restrict" else [int(l) for l in separate.piece("coarse", head)]
        u = random_floats(rng, len(at), at)
        got = {"restrict": "restricted", "prolong": "prolongated"}[name]
        return Vector(name, f"{got} {s} {ls} {floats(u)}", floats(separate.piece(name, head + u)), story)
    if name == "cycle":
        levels = rng.choice([1, 2, 3])
        b = random_floats(rng, n, labels)
        return Vector(name, f"cycle 0 {levels - 1} {s} {ls} {floats(b)}", floats(separate.piece(name, head + [levels] + b)), f"{story} {levels} levels")
    b, u = random_floats(rng, n, labels), random_floats(rng, n, labels)
    got = {"up": f"ascending {s} {ls} (is_air {ls})", "down": f"descending {s} {ls} (is_air {ls})",
           "bandup": f"ascending {s} {ls} (in_band {s} {ls})", "banddown": f"descending {s} {ls} (in_band {s} {ls})",
           "jacobi": f"jacobi {s} {ls}", "residual": f"residue {s} {ls}"}[name]
    return Vector(name, f"{got} {floats(b)} {floats(u)}", floats(separate.piece(name, head + b + u)), story)


def tick_vector(separate, rng):
    near = [rng.randint(-50, 50) + rng.choice([0.5, -0.5, 0.25, 0.49999999999999994]) for _ in range(8)]
    edge = [0.49999999999999994, -0.49999999999999994, 2.0**41, 2.0**41 + 0.25, 2.0**41 + 0.5, -2.0**41 - 0.25, -2.0**41 - 1, 5e-324, 1e300,
            float("inf"), float("-inf"), 2.0**53 + 2]
    ties = [rng.choice([1, -1]) * (2.0 ** rng.randint(1, 41) + rng.choice([-0.5, 0.5, 1.5])) for _ in range(8)]
    xs = [bits_of(x) for x in near + edge + ties]
    want = separate.piece("tick", [1, 1, 1, 0] + xs)
    return Vector("tick", f"map tick {floats(xs)}", listed("None" if w == "none" else f"Some ({whole_term(int(w))})" for w in want), "ticks")


def require(condition, what):
    if not condition:
        raise NoVerdict(f"this seed and size make no vector for: {what}")


def covered(vectors):
    """What the vectors must hold, whatever the seed."""
    casts = [v.story for v in vectors if v.kind == "cast"]
    sessions = [v.story for v in vectors if v.kind == "session"]
    for answer in (0, 4, 5, 6, 7, 8, 9):
        require(any(s.endswith(f": {answer}") for s in casts), f"a cast with answer {answer}")
    for key in ("pass at the limit", "limit 0", "9 in the last round", "8 in its place", "levels"):
        require(any(s.startswith(key) for s in casts), key)
    require(len(casts) < 60 or sum(s.startswith("levels") for s in casts) >= 20, "20 casts with two or three levels and odd sides")
    for answer in (0, 1, 2, 3, 4, 5, 10, 11):
        require(sum(s.endswith(f": {answer}") for s in sessions) >= 2, f"two sessions with answer {answer}")


def all_vectors(separate, seed, casts, sessions, pieces):
    rng = random.Random(f"vectors {seed}")
    made = [printed_vector(separate, s, "cast", key) for key, s in cast_sessions(separate, rng, casts)]
    made += [printed_vector(separate, s, "session", key) for key, s in byte_sessions(separate, rng, seed, sessions)]
    made += [printed_vector(separate, s, "session", key) for key, s in form_sessions(rng, max(12, sessions // 4))]
    for number in range(max(1, sessions // 8)):
        made += rewritten(rng, number)
    made += [piece_vector(separate, rng, PIECES[k % len(PIECES)]) for k in range(pieces)]
    made += [tick_vector(separate, rng) for _ in range(max(1, pieces // 20))]
    covered(made)
    return made


# ---------------------------------------------------------------- the temporary repository

USES = """use Rattle.std.specs.Prelude.{◌≡◌, refl, true, false, cond, [], ◌∷◌, map, replicate, pos, negsuc, Some, None}
use Rattle.std.specs.Float.{nan, inf, fin}
use Rattle.laws.specs.Lists.{tab}
use Rattle.laws.specs.Text.{text}
use Rattle.method.specs.declared.Sides.{Sides}
use Rattle.method.specs.declared.Order.{Order}
use Rattle.method.specs.declared.Order.TheVariants.{Big, Little}
use Rattle.method.specs.Cast.{is_air, field, residual}
use Rattle.method.specs.Walks.{depth, sealed}
use Rattle.method.specs.Levels.{coarse}
use Rattle.method.specs.Transfers.{restricted, prolongated}
use Rattle.method.specs.Cycle.{in_band}
use Rattle.method.specs.Cycle.{ascending, descending, jacobi, residue, cycle}
use Rattle.method.specs.Ticks.{tick}
use Rattle.method.specs.Reading.{reading}
use Rattle.method.specs.Writing.{writing}
use Rattle.method.specs.Program.{program}
use Rattle.method.specs.Computing.{computing}
"""


def write(path, text):
    os.makedirs(os.path.dirname(path), exist_ok=True)
    with open(path, "w", encoding="utf-8") as out:
        out.write(text)


def founded(folder):
    """The crates that the vectors stand on: `laws`, and `method` without its hand cases."""
    for crate in ("laws", "method"):
        shutil.copytree(os.path.join(ROOT, "crates", crate), os.path.join(folder, "crates", crate), ignore=shutil.ignore_patterns("must-fail", "out"))
    shutil.rmtree(os.path.join(folder, "crates", "method", "proofs"))


def edited(folder, edit):
    path, old, new = edit
    path = os.path.join(folder, "crates", path)
    with open(path, encoding="utf-8") as given:
        text = given.read()
    if text.count(old) != 1:
        raise NoVerdict(f"the edit's text stands {text.count(old)} times in {edit[0]}: {old}")
    write(path, text.replace(old, new))


def laid_out(folder, vectors):
    write(os.path.join(folder, "crates.txt"), f"laws:\nmethod: laws\n{CRATE}: laws method\n")
    numbered = list(enumerate(vectors))
    modules = [numbered[k:k + CHUNK] for k in range(0, len(numbered), CHUNK)]
    own = os.path.join(folder, "crates", CRATE)
    write(os.path.join(own, "src", "lib.rt"), "// Vectors.\n#![tactic(auto)]\n")
    write(os.path.join(own, "specs", "Lib.antt"), "".join(f"pub mod M{k}\n" for k in range(len(modules))))
    for k, module in enumerate(modules):
        text = USES + "".join(f"\nv{n} : {v.got} ≡ {v.want}\nunfolding computing\nv{n} = refl\n" for n, v in module)
        write(os.path.join(own, "specs", f"M{k}.antt"), text)


# how the checker says that the two sides of an equation have different values
DIFFERS = r"(as printed, |computed as far as they go, )?the two types (first )?differ|expected type `"


def checked(folder, crate, *flags):
    return subprocess.run(["rt", "check", *flags], cwd=os.path.join(folder, "crates", crate), stdin=subprocess.DEVNULL, stdout=subprocess.PIPE,
                          stderr=subprocess.STDOUT, check=False)


def judged(folder, *flags):
    """The vectors that differ. Anything else that is not a clean pass is no verdict."""
    done = checked(folder, CRATE, *flags)
    said = done.stdout.decode("utf-8", "replace")
    if done.returncode == 0:
        if not said.rstrip("\n").split("\n")[-1].startswith("logic=proved "):
            raise NoVerdict("rt check said nothing of its crate")
        return []
    errors = [line for line in said.split("\n") if re.search(r": error: ", line)]
    differing, other = [], []
    for line in errors:
        hit = re.search(r"/specs/M\d+\.antt:\d+:\d+: error: `v(\d+)`: (.*)", line)
        if hit and re.match(DIFFERS, hit.group(2)):
            differing.append(int(hit.group(1)))
        else:
            other.append(line)
    if other or not differing or done.returncode != 1:
        tail = "\n".join((other or said.split("\n")[-12:])[:6])
        raise NoVerdict(f"rt check ended with {done.returncode}, and not by vectors that differ alone\n{tail}")
    return sorted(set(differing))


def vectors_of(separate, options):
    return all_vectors(separate, options.seed, options.casts, options.sessions, options.pieces)


def compared(separate, options):
    """All vectors against the definitions as they stand, or with the one edit that was asked for."""
    vectors = vectors_of(separate, options)
    folder = tempfile.mkdtemp(prefix="vectors")
    try:
        founded(folder)
        if options.edit:
            edited(folder, options.edit)
        laid_out(folder, vectors)
        return vectors, judged(folder)
    finally:
        if options.keep:
            print(f"kept: {folder}", file=sys.stderr)
        else:
            shutil.rmtree(folder)


def edits_in(folder):
    """Edits in the form of the crates' must-fail edits, the file given from crates/ on, with the kinds of vectors to judge them by."""
    made = []
    for name in sorted(os.listdir(folder)):
        with open(os.path.join(folder, name), encoding="utf-8") as given:
            lines = dict(line.rstrip("\n").split(": ", 1) for line in given if ": " in line)
        made.append((name.rsplit(".", 1)[0], (lines["file"], lines["old"], lines["new"]), lines["kinds"].split()))
    return made


def caught(base, vectors, name, edit, kinds):
    """What is to be said of one edit, and 0 where a vector differs, 1 where none does, 3 where there is no verdict."""
    vectors = [v for v in vectors if v.kind in kinds]
    with tempfile.TemporaryDirectory(prefix="vectors") as folder:
        shutil.copytree(base, folder, symlinks=True, dirs_exist_ok=True)
        try:
            edited(folder, edit)
            laid_out(folder, vectors)
            differing = judged(folder, "--jobs", "1")
        except NoVerdict as error:
            return f"wrong edit {name}: no verdict: {error}", 3
    if not differing:
        return f"wrong edit {name}: NOT CAUGHT", 1
    n = differing[0]
    return f"wrong edit {name}: caught by v{n} ({vectors[n].kind}: {vectors[n].story}), {len(differing)} of {len(vectors)} differ", 0


def wrong_edits(separate, options):
    """Each edit must be caught by a vector that differs; as many at a time as the machine has processors. 0: all were; 1: one was not;
    3: no verdict on one. The vectors are made once, and `laws`, which no edit touches, is proved once."""
    vectors, worst = vectors_of(separate, options), 0
    with tempfile.TemporaryDirectory(prefix="vectors") as base, concurrent.futures.ThreadPoolExecutor(len(os.sched_getaffinity(0))) as pool:
        founded(base)
        write(os.path.join(base, "crates.txt"), "laws:\nmethod: laws\n")
        if checked(base, "laws").returncode != 0:
            raise NoVerdict("laws is not proved")
        for said, status in pool.map(lambda made: caught(base, vectors, *made), edits_in(options.wrong)):
            print(said, flush=True)
            worst = max(worst, status)
    return worst


def counted(vectors):
    kinds = {}
    for v in vectors:
        kinds[v.kind] = kinds.get(v.kind, 0) + 1
    return ", ".join(f"{kinds[k]} {k}" for k in sorted(kinds))


def arguments():
    parser = argparse.ArgumentParser(description="The definitions against vectors.")
    parser.add_argument("--program", required=True, help="the separate implementation, built")
    parser.add_argument("--seed", default="1")
    parser.add_argument("--casts", type=int, default=66)
    parser.add_argument("--sessions", type=int, default=48)
    parser.add_argument("--pieces", type=int, default=52)
    parser.add_argument("--edit", nargs=3, metavar=("FILE", "OLD", "NEW"), help="judge a copy of the crates with this edit")
    parser.add_argument("--wrong", metavar="FOLDER", help="judge each edit of the folder: each must be caught")
    parser.add_argument("--keep", action="store_true", help="keep the temporary repository")
    parser.add_argument("--stories", action="store_true", help="list the vectors")
    return parser.parse_args()


def main():
    options = arguments()
    separate = Separate(os.path.abspath(options.program))
    try:
        if options.wrong:
            return wrong_edits(separate, options)
        vectors, differing = compared(separate, options)
    except (NoVerdict, OSError, ValueError, AttributeError) as error:
        print(f"vectors: no verdict: {error}")
        return 3
    if options.stories:
        for n, v in enumerate(vectors):
            print(f"v{n} {v.kind}: {v.story}")
    for n in differing:
        print(f"vectors: v{n} differs ({vectors[n].kind}: {vectors[n].story})")
    print(f"vectors: {len(vectors) - len(differing)} of {len(vectors)} agree ({counted(vectors)}), seed {options.seed}")
    return 1 if differing else 0


if __name__ == "__main__":
    sys.exit(main())
