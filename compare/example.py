#!/usr/bin/env python3
"""Document 01's run-only cases and its example, by a built program: example.py PROGRAM"""
import subprocess
import sys

sys.dont_write_bytecode = True
import generate

NINE = "answer=0\nplace=0\nrounds=1\nworst=0\nworstcell=1\nworstvalue=0\ninterior=1\ndepth=1\ncell=10\ncell=15\ncell=20\n"


def refused(number, place):
    return f"answer={number}\nplace={place}\nrounds=0\nworst=0\nworstcell=0\nworstvalue=0\ninterior=0\ndepth=0\n"


def cases():
    nine = generate.session_bytes(3, 1, 1, "big", 0, 1, 5, [1, 0, 1], [10, 0, 20])
    line = generate.session_bytes(32, 1, 1, "little", 0, 6, 5, [1] + [0] * 30 + [1], [0] * 32)
    yield "the example", nine, NINE
    yield "side 32", line, "answer=0\nplace=0\nrounds=0\nworst=0\nworstcell=1\nworstvalue=0\ninterior=30\ndepth=15\n" + "cell=0\n" * 32
    yield "side 33", generate.session_bytes(33, 1, 1, "big", 0, 1, 5, [1] + [0] * 32, [0] * 33), refused(1, 0)
    yield "nx=03", nine.replace(b"nx=3", b"nx=03"), refused(10, 1)
    yield "a body one byte short", nine[:-1], refused(11, 0)
    yield "an empty input", b"", refused(10, 1)


def main():
    wrong = 0
    for name, session, want in cases():
        got = subprocess.run([sys.argv[1]], input=session, stdout=subprocess.PIPE, check=True).stdout.decode("ascii")
        if got != want:
            print(f"{name}: printed\n{got}and not\n{want}")
            wrong = 1
    print("example: " + ("differs" if wrong else "as document 01 says"))
    return wrong


if __name__ == "__main__":
    sys.exit(main())
