#!/usr/bin/env python3
"""Runs the commands that the pages show, and holds what they print to what the pages say.

    docs.py [PAGE..]            status 1 where a page says something else than its command prints
    docs.py --write [PAGE..]    writes what the commands print into the pages

A command stands behind '$ ' in a block that begins with ```console (and goes on behind '> ' where its line ends in a backslash), what it prints, on standard output and
standard error, in the lines below it.
Commands run in the repository's root, one after the other; what they make goes to target/walk, which is empty at the start of each page."""
import argparse
import os
import shutil
import subprocess
import sys

sys.dont_write_bytecode = True
ROOT = os.path.dirname(os.path.dirname(os.path.abspath(__file__)))
PAGES = ("README.md", "docs/SESSION.md", "docs/ANSWERS.md", "docs/WALK.md", "docs/TRUST.md")
FENCE = "```"


def printed(command):
    """What a command prints, as lines."""
    done = subprocess.run(["bash", "-c", command], cwd=ROOT, stdin=subprocess.DEVNULL, stdout=subprocess.PIPE, stderr=subprocess.STDOUT,
                          env=dict(os.environ, LC_ALL="C.UTF-8", PYTHONIOENCODING="utf-8", PYTHONDONTWRITEBYTECODE="1"))
    return done.stdout.decode("utf-8", "replace").split("\n")[:-1]


def renewed(lines):
    """The lines of a page with what its commands print now, and how many commands it has."""
    out, inside, commands, command = [], False, 0, ""
    for line in lines:
        if inside and (line.startswith("$ ") or (command and line.startswith("> "))):
            out.append(line)
            command += line[2:] + "\n"
            if not line.endswith("\\"):
                commands += 1
                out.extend(printed(command))
                command = ""
        elif line.startswith(FENCE):
            inside = line == FENCE + "console"
            out.append(line)
        elif not inside:
            out.append(line)
    return out, commands


def first_difference(old, new):
    for number, (was, now) in enumerate(zip(old, new), 1):
        if was != now:
            return f"line {number} is '{was}', printed is '{now}'"
    return f"the page has {len(old)} lines, with what is printed {len(new)}"


def page(name, write):
    """Whether a page says what its commands print."""
    path = os.path.join(ROOT, name)
    shutil.rmtree(os.path.join(ROOT, "target", "walk"), ignore_errors=True)
    os.makedirs(os.path.join(ROOT, "target", "walk"))
    with open(path, encoding="utf-8") as file:
        old = file.read().split("\n")
    new, commands = renewed(old)
    if old == new:
        print(f"docs: {name}: {commands} commands print what it says")
        return True
    if write:
        with open(path, "w", encoding="utf-8") as file:
            file.write("\n".join(new))
        print(f"docs: {name}: written anew")
        return True
    print(f"docs: {name}: {first_difference(old, new)}; python3 tools/docs.py --write {name} writes it anew")
    return False


def main():
    parser = argparse.ArgumentParser(description="Runs the commands that the pages show.")
    parser.add_argument("--write", action="store_true")
    parser.add_argument("pages", nargs="*", default=PAGES)
    options = parser.parse_args()
    return 0 if all([page(name, options.write) for name in options.pages]) else 1


if __name__ == "__main__":
    sys.exit(main())
