"""Runs a built program of ours: as it is on x86-64, elsewhere under qemu-x86_64."""
import os
import platform
import shutil
import subprocess

ROOT = os.path.dirname(os.path.dirname(os.path.abspath(__file__)))
CROSS = "x86_64-linux-gnu-gcc"
CROSS_LIBRARY = "/usr/x86_64-linux-gnu"


def emulated():
    """The words that run an x86-64 program here: none on x86-64, the emulator elsewhere."""
    return [] if platform.machine() == "x86_64" else [shutil.which("qemu-x86_64") or "qemu-x86_64"]


def command(name):
    """The words that run target/bin/NAME, as `./airway --build` left it."""
    return crossed() + [os.path.join(ROOT, "target", "bin", name)]


def compiler():
    """The C compiler for what links against our library, which is for x86-64."""
    return CROSS if emulated() else "gcc"


def crossed():
    """The words that run a program that needs a C library: none on x86-64, the emulator with Debian's cross C library elsewhere."""
    return emulated() + ["-L", CROSS_LIBRARY] if emulated() else []


def harness(name):
    """The words that run the comparison NAME through the C interface (compare/harness.c, as compare/build left it)."""
    return crossed() + [os.path.join(ROOT, "target", "compare", "harness"), name]


def separate(program):
    """The words that run the separate implementation for the same processor as our programs, so that times compare: as it was
    built on x86-64; elsewhere built anew by Debian's cross compiler, beside it, and run under the emulator too."""
    if not emulated():
        return [program]
    crossed = program + "-x86-64"
    subprocess.run(["bash", os.path.join(ROOT, "compare", "build"), os.path.dirname(crossed)], check=True,
                   env=dict(os.environ, CC=CROSS, NAME=os.path.basename(crossed), ONLY="separate"))
    return emulated() + ["-L", CROSS_LIBRARY, crossed]


def run(words, given):
    return subprocess.run(words, input=given, stdout=subprocess.PIPE, check=True).stdout.decode("ascii")


def first_difference(ours, theirs):
    """The first line in which two prints differ, with the last session= or call before it; None where they are equal."""
    where = "the beginning"
    a, b = ours.split("\n"), theirs.split("\n")
    for k in range(max(len(a), len(b))):
        x, y = (a[k] if k < len(a) else "(nothing)"), (b[k] if k < len(b) else "(nothing)")
        if x != y:
            return f"after {where}: ours {x[:200]}, the separate implementation's {y[:200]}"
        if x.split("=")[0] in ("session", "call", "writer", "reader"):
            where = x
    return None
