#!/usr/bin/env python3
"""The C library as its users have it: the header as C and C++, each struct's layout, the examples in C and Python, threads, and valgrind.

library.py --program AIRWAY     status 1 where something is not as it should be; what is missing on the machine is said and is no reason to fail"""
import argparse
import os
import shutil
import subprocess
import sys
import tempfile

sys.dont_write_bytecode = True
import edges
import example
import generate
import many
import programs

ROOT = programs.ROOT
LIBRARY = os.path.join(ROOT, "target", "library")
STRICT = ["-Wall", "-Wextra", "-Werror", "-pedantic", "-I", LIBRARY]

# What include/quetzalcup.h declares: each struct's size, then place and size of each field, counted by hand for x86-64.
LAYOUT = """quetz_sides has 12
quetz_sides.nx at 0 of 4
quetz_sides.ny at 4 of 4
quetz_sides.nz at 8 of 4
quetz_settings has 12
quetz_settings.tolerance at 0 of 4
quetz_settings.levels at 4 of 4
quetz_settings.rounds at 8 of 4
quetz_task has 24
quetz_task.sides at 0 of 12
quetz_task.settings at 12 of 12
quetz_answer has 32
quetz_answer.number at 0 of 4
quetz_answer.place at 4 of 4
quetz_answer.rounds at 8 of 4
quetz_answer.worst at 12 of 4
quetz_answer.worstcell at 16 of 4
quetz_answer.worstvalue at 20 of 4
quetz_answer.interior at 24 of 4
quetz_answer.depth at 28 of 4
quetz_session has 72
quetz_session.answer at 0 of 32
quetz_session.sides at 32 of 12
quetz_session.order at 44 of 4
quetz_session.settings at 48 of 12
quetz_session.start at 64 of 8
quetz_old_session has 56
quetz_old_session.answer at 0 of 32
quetz_old_session.sides at 32 of 12
quetz_old_session.unit at 44 of 4
quetz_old_session.start at 48 of 8
quetz_written has 40
quetz_written.answer at 0 of 32
quetz_written.count at 32 of 8
read 0: sides 2 3 1, order 1, settings 4 5 6, start 58
read 10, place 2
written 0, count 88
needs 28 112 12
"""


def failed(what):
    print(f"library: {what}")
    return 1


def compiled(words, folder):
    """Whether a compiler takes what it is given without a word."""
    done = subprocess.run(words, cwd=folder, stdout=subprocess.PIPE, stderr=subprocess.STDOUT)
    if done.returncode != 0 or done.stdout:
        print(done.stdout.decode(errors="replace"))
        return False
    return True


def header_differs(compiler, folder):
    """The header by itself, as C17 and as C++17."""
    for name, words in (("header.c", ["-std=c17", "-x", "c"]), ("header.cc", ["-std=c++17", "-x", "c++"])):
        with open(os.path.join(folder, name), "w", encoding="ascii") as file:
            file.write('#include "quetzalcup.h"\n#include "quetzalcup.h"\nint nothing;\n')
        if not compiled([compiler, *words, *STRICT, "-c", name, "-o", name + ".o"], folder):
            return name
    return None


def solved_by(program):
    """The last line of the layout run, by the separate implementation."""
    session = generate.session_bytes(6, 1, 1, "big", 4, 5, 6, [1, 0, 0, 0, 0, 0], [1000, -7, 3, 0, 5, 9])
    fields = dict(line.split("=") for line in programs.run([program], session).split("\n")[:8])
    return "solved {answer}, place {place}, rounds {rounds}, worst {worst}, worstcell {worstcell}, worstvalue {worstvalue}, interior {interior}, depth {depth}\n".format(**fields)


def example_differs(compiler, folder, runs):
    """The examples in C and Python on document 01's example and run-only cases: each prints what the document says."""
    if not compiled([compiler, "-std=c17", "-O2", *STRICT, os.path.join(ROOT, "examples", "solve.c"), os.path.join(LIBRARY, "libquetzalcup.a"), "-o", "solve"], folder):
        return "examples/solve.c"
    ways = {"examples/solve.c": runs + [os.path.join(folder, "solve")]}
    if not runs:
        ways["examples/solve.py"] = [sys.executable, os.path.join(ROOT, "examples", "solve.py")]
    for number, (name, session, want) in enumerate(example.cases()):
        path = os.path.join(folder, f"{number}.session")
        with open(path, "wb") as file:
            file.write(session)
        for way, words in ways.items():
            if programs.run(words + [path], b"") != want:
                return f"{way} on {name}"
    return None


THREADS = r"""
#include <pthread.h>
#include <stdio.h>
#include <stdlib.h>
#include <string.h>
#include "quetzalcup.h"
enum { SIDE = 9, CELLS = SIDE * SIDE * SIDE, THREADS = 4 };
static const quetz_task task = {{SIDE, SIDE, SIDE}, {6, 6, 200}};
static uint8_t labels[CELLS];
static int32_t values[CELLS];
static int64_t pressures[THREADS + 1][CELLS];
static void *run(void *own) {
    size_t b = quetz_byte_need(task.sides), f = quetz_float_need(task.sides), w = quetz_word_need(task.sides);
    uint8_t *bytes = malloc(b);
    double *floats = malloc(f * sizeof *floats);
    uint32_t *words = malloc(w * sizeof *words);
    quetz_answer a = {99, 0, 0, 0, 0, 0, 0, 0};
    for (int k = 0; k < 20; k++) {
        a = quetz_solve(task, labels, CELLS, values, CELLS, own, CELLS, bytes, b, floats, f, words, w);
    }
    free(bytes); free(floats); free(words);
    return a.number == 0 ? own : NULL;
}
int main(void) {
    pthread_t threads[THREADS];
    pthread_attr_t small;
    for (int c = 0; c < CELLS; c++) {
        labels[c] = c % 40 == 0 ? 1 : c % 7 == 0 ? 2 : 0;
        values[c] = labels[c] == 1 ? 1000 * c - 300000 : labels[c] == 0 ? c % 1000 : 0;
    }
    int wrong = run(pressures[THREADS]) == NULL || pthread_attr_init(&small) != 0 || pthread_attr_setstacksize(&small, 65536) != 0;
    for (int k = 0; k < THREADS; k++) wrong |= pthread_create(&threads[k], &small, run, pressures[k]) != 0;
    for (int k = 0; k < THREADS; k++) {
        void *answered = NULL;
        pthread_join(threads[k], &answered);
        wrong |= answered == NULL || memcmp(pressures[k], pressures[THREADS], sizeof pressures[k]) != 0;
    }
    puts(wrong ? "differ" : "agree");
    return 0;
}
"""


def threads_differ(compiler, folder, runs):
    """Four threads at once, each with slices and 64 KiB of stack of its own, against one alone."""
    with open(os.path.join(folder, "threads.c"), "w", encoding="ascii") as file:
        file.write(THREADS)
    if not compiled([compiler, "-std=c17", "-O2", *STRICT, "threads.c", os.path.join(LIBRARY, "libquetzalcup.a"), "-pthread", "-o", "threads"], folder):
        return True
    return programs.run(runs + [os.path.join(folder, "threads")], b"") != "agree\n"


def broken_rooms_missed():
    """The rooms spoilt as a library that clears one element less, or writes one byte too far, would leave them: each must be reported."""
    session = generate.framed(generate.session_bytes(3, 1, 1, "big", 0, 1, 5, [1, 0, 1], [10, 0, 20]))
    for what in ("bytes", "floats", "words", "guard"):
        done = subprocess.run(programs.harness("replay"), input=session, stdout=subprocess.PIPE, env=dict(os.environ, QUETZ_BREAK=what), check=True)
        if not done.stdout.endswith(b"rooms=broken\n"):
            return what
    return None


def valgrind_line(program):
    """Some hundred sessions and all fixed direct calls, of many sets too, with exactly sized heap blocks, under valgrind; None where it finds an error or a print differs."""
    if programs.emulated() or shutil.which("valgrind") is None:
        return "valgrind is missing on this machine or cannot run here: not run"
    sessions = [whole for whole in generate.sessions("valgrind", 120, 200, "all")]
    calls = [call for call in edges.fixed_calls() if call.sides != (32, 32, 32)]
    sets = [call for call in many.fixed_calls() if call.sides != (32, 32, 32)]
    given = {"replay": b"".join(map(generate.framed, sessions)), "edges": b"".join(map(edges.frame, calls)), "many": b"".join(map(many.frame, sets))}
    for name, frames in given.items():
        words = ["valgrind", "--quiet", "--error-exitcode=9", "--leak-check=full", "--errors-for-leak-kinds=definite", *programs.harness(name)]
        done = subprocess.run(words, input=frames, stdout=subprocess.PIPE, env=dict(os.environ, QUETZ_EXACT="1"))
        if done.returncode != 0 or done.stdout.decode("ascii") != programs.run([program, "--" + name], frames):
            print(f"library: {name} under valgrind: status {done.returncode}")
            return None
    return f"valgrind finds nothing in {len(sessions)} sessions, {len(calls)} direct calls and {len(sets)} of many sets"


def main():
    parser = argparse.ArgumentParser(description="The C library as its users have it.")
    parser.add_argument("--program", required=True, help="the separate implementation, built")
    options = parser.parse_args()
    compiler, runs = programs.compiler(), programs.crossed()
    if runs and shutil.which(compiler) is None:
        return failed(f"{compiler} is missing on this machine")
    with tempfile.TemporaryDirectory() as folder:
        differs = header_differs(compiler, folder)
        if differs:
            return failed(f"the header is not taken as {differs}")
        if programs.run(programs.harness("layout"), b"") != LAYOUT + solved_by(options.program):
            return failed("the layout is not what the header declares: " + programs.run(programs.harness("layout"), b""))
        differs = example_differs(compiler, folder, runs)
        if differs:
            return failed(f"{differs} prints something else")
        if threads_differ(compiler, folder, runs):
            return failed("threads at once do not give what one alone gives")
    missed = broken_rooms_missed()
    if missed:
        return failed(f"a room whose {missed} were spoilt is not reported")
    line = valgrind_line(options.program)
    if line is None:
        return 1
    print(f"library: header as C17 and C++17, layout, examples in C and Python, four threads at once on 64 KiB of stack each, four kinds of broken rooms reported; {line}")
    return 0


if __name__ == "__main__":
    sys.exit(main())
