#!/usr/bin/env python3
"""The table of all sessions of a folder, one CSV row each, on standard output.

    table.py FOLDER [--jobs N] [--pattern '*.session'] [--large]
    table.py FILE.. [--no-header] [--large]

Each session is answered by ./airway. A damaged one stands in the table with its answer, its reason and its place, and has no pressures. `bound` is the proved bound on the error
of each pressure (docs/ANSWERS.md), `least` and `greatest` are pressures of what is not wall. A line of progress goes to standard error.

One session is one process and nothing is shared, so a shelf can be split as one likes. Over many machines, each with a clone of the same state in ~/quetzalcup where
`./airway --build --large` was run once, by GNU parallel, from such a clone:

    python3 tools/table.py examples/example.session | head -n 1 > table.csv
    find shelf -name '*.session' | sort | parallel --keep-order --sshloginfile machines --workdir quetzalcup --transferfile {} --cleanup \\
        python3 tools/table.py --no-header --large {} >> table.csv"""
import argparse
import concurrent.futures
import csv
import fnmatch
import os
import subprocess
import sys

sys.dont_write_bytecode = True
import form

# The columns in their order: those that the print has by the print's own names. A field that the print gains is one name here.
PRINTED = ("rounds", "worst", "worstcell", "worstvalue", "interior", "depth")
COLUMNS = ("file", "sides", "order", "answer", "words", "place", *PRINTED, "bound", "least", "greatest")


def named(whole):
    """Sides and order as the header has them; nothing where it is not of the form."""
    try:
        contents, _ = form.header_of(whole)
    except form.Fault:
        return None, ""
    return form.sides_of(contents), contents["order"]


def words(number, whole):
    """The answer's words, and what is known besides of a header or a length."""
    said = form.WORDS.get(number, "")
    if number in (10, 11):
        try:
            form.read(whole)
        except form.Fault as fault:
            said += " (" + str(fault) + ")"
    return said


def place(fields, sides):
    """A cell's place as (i,j,k), a line's number; nothing where the answer has no place."""
    if fields["answer"] in form.AT_CELL and sides is not None:
        return "(" + ",".join(map(str, form.place_of(sides, fields["place"]))) + ")"
    return f"line {fields['place']}" if fields["answer"] == 10 else ""


def row(path, large):
    """The row of one file, by column; a file that cannot be read stands in the table too."""
    try:
        whole = form.read_file(path)
    except form.Fault as fault:
        return {"file": path, "words": f"the file cannot be read ({fault})"}
    sides, order = named(whole)
    fields, pressures = form.run(whole, large)
    number = fields["answer"]
    cells = {"file": path, "sides": "x".join(map(str, sides)) if sides else "", "order": order, "answer": number, "words": words(number, whole), "place": place(fields, sides)}
    if number in (0, 8, 9):
        cells.update((name, fields[name]) for name in PRINTED if name in fields and (number == 0 or not name.startswith("worst")))
    if number == 0:
        open_air = [pressure for pressure, label in zip(pressures, form.read(whole).labels) if label != form.WALL]
        cells.update(bound=form.bound(fields), least=min(open_air), greatest=max(open_air))
    return cells


def files(options):
    """The files to be answered: those given, and those of folders that fit the pattern, in the order of their names."""
    for given in options.given:
        if os.path.isdir(given):
            for name in sorted(os.listdir(given)):
                if fnmatch.fnmatch(name, options.pattern) and os.path.isfile(os.path.join(given, name)):
                    yield os.path.join(given, name)
        else:
            yield given


def progress(done, of):
    """One line that is written anew; on what is no terminal the last one alone."""
    if sys.stderr.isatty():
        print(f"\rtable: {done} of {of}", end="" if done < of else "\n", file=sys.stderr, flush=True)
    elif done == of:
        print(f"table: {done} of {of}", file=sys.stderr)


def arguments():
    parser = argparse.ArgumentParser(description="The table of all sessions of a folder, as CSV.")
    parser.add_argument("given", nargs="+", metavar="FOLDER", help="folders, or files")
    parser.add_argument("--jobs", type=int, default=1, metavar="N", help="sessions answered at the same time")
    parser.add_argument("--pattern", default="*.session", help="which files of a folder are sessions")
    parser.add_argument("--large", action="store_true", help="room for 32,768 cells")
    parser.add_argument("--no-header", action="store_true", help="rows alone")
    options = parser.parse_args()
    if options.jobs < 1:
        parser.error("--jobs is 1 or more")
    return options


def main():
    options = arguments()
    paths = list(files(options))
    # proved and built once, before several ask for it
    if subprocess.run([form.SCRIPT, "--build"] + (["--large"] if options.large else []), stdin=subprocess.DEVNULL).returncode != 0:
        return 1
    table = csv.DictWriter(sys.stdout, COLUMNS, restval="", lineterminator="\n")
    if not options.no_header:
        table.writeheader()
    try:
        with concurrent.futures.ThreadPoolExecutor(options.jobs) as pool:
            for done, cells in enumerate(pool.map(lambda path: row(path, options.large), paths), 1):
                table.writerow(cells)
                progress(done, len(paths))
        sys.stdout.flush()
    except form.Fault as fault:
        print(f"table: {fault}", file=sys.stderr)
        return 1
    except OSError as error:
        print(f"table: the table could not be written: {error.strerror}", file=sys.stderr)
        return 1
    return 0


if __name__ == "__main__":
    sys.exit(main())
