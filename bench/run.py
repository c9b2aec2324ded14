#!/usr/bin/env python3
"""Our solver beside Eigen's ICPCG, CG and LDLT, on the casts that compare/replay.py times: one run prints the tables.

    python3 bench/run.py [--runs R] [--seconds S] [--sides 8,16,32]

Builds bench/eigen.cpp into target/bench. Installs nothing and says what is missing: g++, Eigen (Debian's libeigen3-dev), or our library (bash compare/build target/compare)."""
import argparse
import os
import subprocess
import sys

sys.dont_write_bytecode = True
ROOT = os.path.dirname(os.path.dirname(os.path.abspath(__file__)))
sys.path.insert(0, os.path.join(ROOT, "compare"))
import generate
import programs
import replay

METHODS = ("ICPCG", "CG", "LDLT")
CROSS = "x86_64-linux-gnu-g++"
BUILT = os.path.join(ROOT, "target", "bench")


def missing():
    """What has to be there besides Eigen and its compiler, which bench/build looks for."""
    if programs.emulated() and programs.shutil.which("qemu-x86_64") is None:
        return "qemu-x86_64 (Debian: qemu-user)"
    if not os.path.exists(os.path.join(ROOT, "target", "compare", "harness")):
        return "our library behind its harness, target/compare/harness: bash compare/build target/compare"
    return None


def eigen_command():
    """Builds Eigen's side for the processor that our programs run on (elsewhere than on x86-64 both run under qemu-x86_64); None where that fails."""
    emulated = programs.emulated()
    named = dict(os.environ, CXX=CROSS, NAME="eigen-x86-64") if emulated else dict(os.environ)
    if subprocess.run(["bash", os.path.join(ROOT, "bench", "build"), BUILT], env=named).returncode != 0:
        return None
    if emulated:
        return emulated + ["-L", programs.CROSS_LIBRARY, os.path.join(BUILT, "eigen-x86-64")]
    return [os.path.join(BUILT, named.get("NAME", "eigen"))]


def cast_words(whole):
    """A session as the words that bench/eigen.cpp reads."""
    sides, _, (tolerance, _, _), labels, values = replay.read(whole)
    return " ".join(map(str, [*sides, tolerance, *labels, *values])).encode("ascii")


def by_eigen(words, whole, options):
    """The milliseconds of the matrix, and for each method its fastest variant: (milliseconds, iterations, name)."""
    lines = programs.run(words + [str(options.runs), str(options.seconds)], cast_words(whole)).split("\n")[:-1]
    best = {}
    for line in lines[1:]:
        name, prepare, solve, iterations, reached = line.split(" ")
        took = (float(prepare) + float(solve), int(iterations), name.split("/")[1])
        method = name.split("/")[0]
        if reached == "accepted" and (method not in best or took < best[method]):
            best[method] = took
    return float(lines[0].split(" ")[1]), best


def by_ours(whole, runs):
    """The fields of our answer, and the milliseconds of the whole session."""
    words = programs.harness("replay")
    fields = dict(line.split("=") for line in replay.blocks_of(programs.run(words, generate.framed(whole)))[0] if "cell=" not in line)
    # timed as compare/replay.py times it, which wants the name of a second program; here it is ours again
    took = replay.session_times({"separate": words}, whole, runs)
    return fields, 1e3 * took["separate"]


def measure(words, options):
    rows = []
    for side in options.sides:
        for name, shape in replay.timed_shapes(side).items():
            whole = replay.timed_session(side, shape)
            fields, ours = by_ours(whole, options.runs)
            matrix, best = by_eigen(words, whole, options)
            rows.append((f"{name} {side}×{side}×{side}", int(fields["interior"]), int(fields["answer"]), int(fields["rounds"]), ours, matrix, best))
            print(f"bench: {rows[-1][0]}", file=sys.stderr, flush=True)
    return rows


def milliseconds(best, method):
    if method not in best:
        return "not reached"
    took, iterations, variant = best[method]
    return f"{took:.2f} ({variant})" if method == "LDLT" else f"{took:.2f} ({iterations}, {variant})"


def tables(rows):
    yield "| cast | air cells | answer | rounds | ours, ms | " + " | ".join(f"{method}, ms" for method in METHODS) + " | matrix, ms | " + " | ".join(f"ours / {method}" for method in METHODS) + " |"
    yield "|---" * (6 + 2 * len(METHODS)) + "|"
    for name, air, answer, rounds, ours, matrix, best in rows:
        more = "" if answer == 0 else "over "
        ratios = [f"{more}{ours / best[method][0]:.2f}" if method in best else "" for method in METHODS]
        yield f"| {name} | {air} | {answer} | {rounds} | {ours:.2f} | " + " | ".join(milliseconds(best, method) for method in METHODS) + f" | {matrix:.2f} | " + " | ".join(ratios) + " |"
    yield ""
    yield "| cast | ours, ns for each air cell and round |"
    yield "|---|---|"
    for name, air, _, rounds, ours, _, _ in rows:
        yield f"| {name} | {1e6 * ours / (air * max(1, rounds)):.1f} |"


def arguments():
    parser = argparse.ArgumentParser(description="Our solver beside Eigen's.")
    parser.add_argument("--runs", type=int, default=7, help="runs, of which the median is printed")
    parser.add_argument("--seconds", type=float, default=6.0, help="no further run of an Eigen method starts after so many seconds")
    parser.add_argument("--sides", type=lambda text: [int(side) for side in text.split(",")], default=[8, 16, 32])
    return parser.parse_args()


def main():
    options = arguments()
    lacks = missing()
    if lacks is not None:
        print(f"bench: missing: {lacks}", file=sys.stderr)
        return 1
    words = eigen_command()
    if words is None:
        return 1
    for line in tables(measure(words, options)):
        print(line)
    return 0


if __name__ == "__main__":
    sys.exit(main())
