#!/usr/bin/env python3
"""Reader, writer and walks, through the library and by the separate implementation, on generated sessions: byte for byte.

reread.py --program AIRWAY [--seed S] [--count N] [--max-cells M]"""
import argparse
import sys

sys.dont_write_bytecode = True
import generate
import programs


def arguments():
    parser = argparse.ArgumentParser(description="Reader, writer and walks, compared.")
    parser.add_argument("--program", required=True, help="the separate implementation, built")
    parser.add_argument("--seed", default="1")
    parser.add_argument("--count", type=int, default=2400)
    parser.add_argument("--max-cells", type=int, default=1000)
    return parser.parse_args()


def main():
    options = arguments()
    wholes = list(generate.sessions(options.seed, options.count, options.max_cells))
    given = b"".join(len(w).to_bytes(4, "big") + w for w in wholes)
    ours = programs.run(programs.harness("reread"), given)
    theirs = programs.run([options.program, "--reread"], given)
    seen = ours.count("session=")
    if seen != len(wholes):
        print(f"reread: only {seen} of {len(wholes)} sessions were answered")
        return 1
    difference = programs.first_difference(ours, theirs)
    if difference is not None:
        print(f"reread: differs {difference}")
        return 1
    accepted = sum(1 for block in ours.split("session=")[1:] if "\nanswer=0\n" in block)
    print(f"reread: {seen} sessions and the direct calls agree ({accepted} read, {seen - accepted} refused), seed {options.seed}")
    return 0


if __name__ == "__main__":
    sys.exit(main())
