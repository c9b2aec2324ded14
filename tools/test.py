#!/usr/bin/env python3
"""Tests of the tools and of the script ./airway: python3 tools/test.py [-v]. Needs the built programs airway, airway_large, airway_old and airway_renew."""
import csv
import io
import os
import platform
import pty
import re
import shutil
import struct
import subprocess
import sys
import tempfile
import time
import unittest
import zlib

sys.dont_write_bytecode = True
import answers
import docs
import explain
import form
import session
import table
from form import AIR, OPENING, WALL, Fault, Session

EXAMPLE = os.path.join(form.ROOT, "examples", "example.session")
THROAT = os.path.join(form.ROOT, "examples", "throat.session")
SLICES = [os.path.join(form.ROOT, "examples", "slices", f"{k}.pgm") for k in range(3)]
NAMED = ["--order", "little", "--air", "255", "--wall", "60", "--wall", "0", "--opening", "120=0", "--opening", "180=-90000", "--tolerance", "3"]
NOBODY = 65534


def content(path):
    with open(path, "rb") as file:
        return file.read()


def crates():
    """Name -> what it stands on, as crates.txt has them."""
    on = {}
    with open(os.path.join(form.ROOT, "crates.txt"), encoding="utf-8") as file:
        for line in file:
            if not line.startswith("#") and ":" in line:
                name, _, rest = line.partition(":")
                on[name.split()[0]] = rest.split()
    return on


def small():
    """1 0 2 0 2, case d: cell 3 is sealed."""
    return Session((5, 1, 1), "big", 0, 1, 5, [OPENING, AIR, WALL, AIR, WALL], [0] * 5)


class Case(unittest.TestCase):
    def setUp(self):
        self.folder = tempfile.mkdtemp()
        os.chmod(self.folder, 0o755)
        self.addCleanup(self.removed)

    def removed(self):
        subprocess.run(["chmod", "-R", "u+w", self.folder], check=False)
        shutil.rmtree(self.folder, ignore_errors=True)

    def path(self, *names):
        return os.path.join(self.folder, *names)

    def file(self, name, whole):
        with open(self.path(name), "wb") as file:
            file.write(whole)
        return self.path(name)

    def tool(self, name, *words):
        """Status, standard output and standard error of a tool."""
        done = subprocess.run([sys.executable, os.path.join(form.ROOT, "tools", name), *words], stdin=subprocess.DEVNULL, stdout=subprocess.PIPE, stderr=subprocess.PIPE,
                              env=dict(os.environ, PYTHONIOENCODING="utf-8"))
        return done.returncode, done.stdout.decode(), done.stderr.decode()


class Form(Case):
    def test_places(self):
        for sides in ((3, 4, 5), (32, 1, 2), (1, 1, 1)):
            for cell in range(sides[0] * sides[1] * sides[2]):
                self.assertEqual(form.cell_of(sides, *form.place_of(sides, cell)), cell)
        self.assertEqual(form.spoken((10, 5, 6), 27), "27 (7,2,0)")

    def test_written_is_read(self):
        for path in (EXAMPLE, THROAT):
            self.assertEqual(form.read(content(path)).bytes(), content(path))

    def test_header_faults(self):
        whole = content(EXAMPLE)
        for damaged, said in ((whole.replace(b"nx=3\n", b"nx=3\r\n"), "CR LF"), (b"\xef\xbb\xbf" + whole, "byte order mark"), (whole.replace(b"nx=3", b"nx = 3"), "'nx='"),
                              (b"", "'nx='"), (b"nx=3", "ends before"), (whole.replace(b"nx=3", b"nx=03"), "leading zero"), (whole.replace(b"big", b"Big"), "neither"),
                              (b"size=3x1x1\nunit=1\n", "old form"), (whole.replace(b"nx=3", b"nx=12345678"), "7 digits"), (whole.replace(b"nx=3", "nx=٣".encode()), "7 digits")):
            with self.assertRaises(Fault) as caught:
                form.read(damaged)
            self.assertIn(said, str(caught.exception))

    def test_length_faults(self):
        whole = content(EXAMPLE)
        for damaged, said in ((whole + b"\n", "newline"), (whole[:-1], "missing: 1"), (whole[:-6], "16-bit"), (whole + b"ab", "too many: 2")):
            with self.assertRaises(Fault) as caught:
                form.read(damaged)
            self.assertIn(said, str(caught.exception))


class Make(Case):
    def made(self, *words):
        out = self.path("made.session")
        status, _, said = self.tool("session.py", "make", out, *words)
        self.assertEqual((status, said), (0, ""))
        return content(out)

    def refused(self, status, said, *words):
        got = self.tool("session.py", "make", self.path("made.session"), *words)
        self.assertEqual(got[0], status)
        self.assertIn(said, got[2])
        self.assertFalse(os.path.exists(self.path("made.session")))

    def rows(self):
        return [session.pgm_rows(content(path)) for path in SLICES]

    def test_all_kinds_alike(self):
        plain = self.made(*SLICES, *NAMED)
        self.assertEqual(form.read(plain).sides, (12, 7, 3))
        stack = self.rows()
        raw = [self.file(f"{k}.raw", b"P5 # a comment\n12 7 255\n" + bytes(sum(rows, []))) for k, rows in enumerate(stack)]
        wide = [self.file(f"{k}.wide", b"P5\n12 7\n65535\n" + struct.pack(">84H", *sum(rows, []))) for k, rows in enumerate(stack)]
        texts = [self.file(f"{k}.csv", "\n".join(",".join(map(str, row)) for row in rows).encode() + b"\n") for k, rows in enumerate(stack)]
        flat = [self.npy(f"{k}.npy", "|u1", (7, 12), bytes(sum(rows, []))) for k, rows in enumerate(stack)]
        for paths in (raw, wide, texts, flat):
            self.assertEqual(self.made(*paths, *NAMED), plain)
        zyx = self.npy("zyx.npy", "<i2", (3, 7, 12), struct.pack("<252h", *sum((sum(rows, []) for rows in stack), [])))
        xyz = self.npy("xyz.npy", ">i4", (12, 7, 3), struct.pack(">252i", *[stack[k][j][i] for i in range(12) for j in range(7) for k in range(3)]))
        self.assertEqual(self.made(zyx, "--axes", "zyx", *NAMED), plain)
        self.assertEqual(self.made(xyz, "--axes", "xyz", *NAMED), plain)

    def npy(self, name, kind, shape, numbers):
        told = repr({"descr": kind, "fortran_order": False, "shape": shape}).encode()
        told += b" " * (-(10 + len(told) + 1) % 64) + b"\n"
        return self.file(name, b"\x93NUMPY\x01\x00" + struct.pack("<H", len(told)) + told + numbers)

    def test_nothing_guessed(self):
        self.refused(2, "--order", *SLICES, *NAMED[2:])
        self.refused(1, "not named, the first of them 88 (4,0,1): 60", *SLICES, *[word for word in NAMED if word != "60"][:4], "--wall", "0", *NAMED[8:])
        cube = self.npy("cube.npy", "|u1", (3, 7, 12), bytes(252))
        self.refused(1, "--axes", cube, *NAMED)

    def test_refused(self):
        self.refused(1, "needs its level", *SLICES, "--order", "big", "--opening", "120")
        self.refused(1, "named twice", *SLICES, *NAMED, "--air", "60")
        self.refused(1, "out of range for opening", *SLICES, "--order", "big", "--opening", "120=1000001")
        self.refused(1, "out of range for wall", *SLICES, "--order", "big", "--wall", "0=1")
        self.refused(1, "levels is 1 to 6", *SLICES, *NAMED, "--levels", "7")
        self.refused(1, "differ in size", SLICES[0], self.file("a.csv", b"0,0\n0,0\n"), *NAMED)
        self.refused(1, "neither a PGM", self.file("a.txt", b"hello"), *NAMED)
        self.refused(1, "33 cells along x", self.file("b.csv", b",".join([b"0"] * 33)), *NAMED)
        self.refused(1, "No such file", self.path("none.pgm"), *NAMED)
        self.refused(1, "with 3 numbers", self.file("c.pgm", b"P2 2 2 255 0 0 0"), *NAMED)

    def test_accepted_by_the_program(self):
        fields, pressures = form.run(self.made(*SLICES, *NAMED))
        self.assertEqual((fields["answer"], fields["interior"], len(pressures)), (0, 43, 252))


class Show(Case):
    def test_slices(self):
        status, said, _ = self.tool("session.py", "show", self.file("d.session", small().bytes()))
        self.assertEqual((status, said), (0, "'.' air, 'O' opening, '#' wall\nslice 0 (x to the right, y down)\n  O.#.#\n"))

    def test_colours(self):
        """On a terminal the same marks, each on its colour."""
        plain, coloured = (list(session.drawn(small(), [], 0, colours)) for colours in (False, True))
        self.assertEqual(re.sub(r"\x1b\[[0-9;]*m", "", coloured[1]), plain[1])
        self.assertIn("48;2;40;40;48m#", coloured[1])

    def test_pressures(self):
        answer = self.file("print", subprocess.run([form.SCRIPT], input=content(EXAMPLE), stdout=subprocess.PIPE, check=True).stdout)
        want = "0 to 9: pressures from 10 to 20; '#' wall\nslice 0 (x to the right, y down)\n  059\n"
        self.assertEqual(self.tool("session.py", "show", EXAMPLE, "--answer", answer)[1], want)
        self.assertEqual(self.tool("session.py", "show", EXAMPLE, "--solve")[1], want)
        self.assertIn("another session's", self.tool("session.py", "show", THROAT, "--answer", answer)[2])
        self.assertIn("answer=7", self.tool("session.py", "show", self.file("d.session", small().bytes()), "--solve")[2])
        self.assertIn("no slice 6", self.tool("session.py", "show", THROAT, "--slice", "6")[2])

    def test_png(self):
        out = self.path("p.png")
        self.assertEqual(self.tool("session.py", "show", EXAMPLE, "--solve", "--png", out)[0], 0)
        width, height, rows = self.decoded(content(out))
        self.assertEqual((width, height), (36, 12))
        middle = [tuple(rows[6][3 * x:3 * x + 3]) for x in (6, 18, 30)]
        self.assertEqual(middle, [session.colour(0), session.colour(0.5), session.colour(1)])
        self.assertEqual(tuple(rows[0][:3]), session.EDGE)

    def decoded(self, whole):
        """Width, height and rows of a PNG, its chunks' sums tried."""
        self.assertEqual(whole[:8], b"\x89PNG\r\n\x1a\n")
        at, parts = 8, {}
        while at < len(whole):
            size = struct.unpack(">I", whole[at:at + 4])[0]
            kind, inner = whole[at + 4:at + 8], whole[at + 8:at + 8 + size]
            self.assertEqual(struct.unpack(">I", whole[at + 8 + size:at + 12 + size])[0], zlib.crc32(kind + inner))
            parts[kind] = inner
            at += 12 + size
        width, height, depth, colours = struct.unpack(">IIBB", parts[b"IHDR"][:10])
        self.assertEqual((depth, colours), (8, 2))
        pixels = zlib.decompress(parts[b"IDAT"])
        self.assertEqual(len(pixels), height * (1 + 3 * width))
        return width, height, [pixels[y * (1 + 3 * width) + 1:(y + 1) * (1 + 3 * width)] for y in range(height)]


class Check(Case):
    def lines(self, whole):
        status, said, _ = self.tool("session.py", "check", self.file("s.session", whole))
        return status, said.split("\n")

    def test_sound(self):
        status, lines = self.lines(content(THROAT))
        self.assertEqual((status, lines[-2]), (0, "0 findings"))

    def test_all_bad_cells(self):
        bad = Session((2, 2, 2), "big", 0, 1, 5, [OPENING, 49, AIR, WALL, 7, AIR, OPENING, AIR], [1000001, 0, 1001, 1, 0, -1001, -1000000, 1000])
        status, lines = self.lines(bad.bytes())
        self.assertEqual(status, 1)
        self.assertEqual([line.split(":")[0] for line in lines if line.startswith("cell ")],
                         ["cell 0 (0,0,0)", "cell 1 (1,0,0)", "cell 2 (0,1,0)", "cell 3 (1,1,0)", "cell 4 (0,0,1)", "cell 5 (1,0,1)"])
        self.assertIn("cell 1 (1,0,0): label 49 is above 2, the character '1'", lines)

    def test_all_pockets(self):
        cast = Session((7, 1, 2), "little", 0, 1, 5, [AIR, AIR, WALL, AIR, WALL, AIR, OPENING] + [WALL] * 7, [0] * 14)
        status, lines = self.lines(cast.bytes())
        self.assertEqual((status, lines[:2]), (1, ["sealed pocket of 2 air cells: 0 (0,0,0), 1 (1,0,0)", "sealed pocket of 1 air cell: 3 (3,0,0)"]))

    def test_agrees_with_the_program(self):
        """The first bad cell and the first sealed cell are the program's place."""
        for cast in (small(), Session((3, 1, 1), "big", 0, 1, 5, [1, 3, 0], [0] * 3), Session((3, 1, 1), "big", 0, 1, 5, [1, 0, 2], [0, 0, 4])):
            fields, _ = form.run(cast.bytes())
            self.assertIn(form.spoken(cast.sides, fields["place"]), next(session.findings(cast)))

    def test_orders_are_shown_and_not_chosen(self):
        both = Session((3, 1, 1), "big", 6, 1, 5, [1, 0, 1], [512, 0, 131072])
        _, lines = self.lines(both.bytes())
        self.assertIn("values read as big: 0 to 131072, all in range; this is what the header says", lines)
        self.assertIn("values read as little: 0 to 131072, all in range", lines)

    def test_settings_and_no_air(self):
        _, lines = self.lines(Session((1, 1, 2), "big", 1000001, 7, 1001, [WALL, OPENING], [0, 0]).bytes())
        self.assertEqual(lines[:4], ["tolerance=1000001 is not 0 to 1,000,000", "levels=7 is not 1 to 6", "rounds=1001 is not 0 to 1,000", "there is no air cell"])


class Convert(Case):
    def test_there_and_back(self):
        self.assertEqual(self.tool("session.py", "convert", THROAT, self.path("b"), "--to", "big")[0], 0)
        self.assertEqual(self.tool("session.py", "convert", self.path("b"), self.path("l"), "--to", "little")[0], 0)
        self.assertEqual(content(self.path("l")), content(THROAT))
        self.assertNotEqual(content(self.path("b")), content(THROAT))
        self.assertEqual(form.run(content(self.path("b"))), form.run(content(THROAT)))

    def test_refused(self):
        for whole, said in ((content(THROAT).replace(b"order=little", b"order=?"), "neither"), (content(THROAT)[:-1], "missing: 1")):
            status, _, errors = self.tool("session.py", "convert", self.file("s", whole), self.path("out"), "--to", "big")
            self.assertEqual(status, 1)
            self.assertIn(said, errors)
            self.assertFalse(os.path.exists(self.path("out")))
        self.assertEqual(self.tool("session.py", "convert", THROAT, self.path("out"))[0], 2)


class Table(Case):
    def rows(self, *words):
        status, said, errors = self.tool("table.py", *words)
        self.assertEqual(status, 0, errors)
        return list(csv.DictReader(io.StringIO(said))), errors

    def test_folder(self):
        shutil.copy(EXAMPLE, self.path("a.session"))
        self.file("b.session", small().bytes())
        self.file("c.session", content(THROAT)[:-1])
        self.file("d.session", content(EXAMPLE).replace(b"\n", b"\r\n", 1))
        self.file("e.session", Session((11, 10, 10), "big", 6, 6, 1000, [OPENING] + [AIR] * 1099, [7] * 1 + [0] * 1099).bytes())
        self.file("f.session", Session((3, 1, 1), "big", 0, 1, 5, [1, 0, 1], [0, 1, 0]).bytes())
        self.file("notes.txt", b"not a session")
        rows, errors = self.rows(self.folder)
        self.assertEqual([os.path.basename(row["file"]) for row in rows], [f"{name}.session" for name in "abcdef"])
        self.assertEqual([row["answer"] for row in rows], ["0", "7", "11", "10", "2", "9"])
        self.assertEqual([row["place"] for row in rows], ["", "(3,0,0)", "", "line 1", "", ""])
        self.assertEqual([rows[0][name] for name in ("sides", "order", "words", "rounds", "worst", "bound", "least", "greatest")], ["3x1x1", "big", "accepted", "1", "0", "0", "10", "20"])
        self.assertTrue(all(row[name] == "" for row in rows[1:] for name in ("bound", "least", "greatest", "worst", "worstcell", "worstvalue")))
        self.assertIn("CR LF", rows[3]["words"])
        self.assertEqual((rows[3]["sides"], rows[5]["rounds"]), ("", "1"))
        self.assertIn("table: 6 of 6", errors)
        self.assertEqual(self.rows(self.folder, "--jobs", "4")[0], rows)
        large, _ = self.rows(self.folder, "--large")
        self.assertEqual((large[4]["answer"], large[4]["interior"]), ("0", "1099"))

    def test_files_and_failures(self):
        self.assertEqual(self.tool("table.py", "--no-header", EXAMPLE)[1].count("\n"), 1)
        self.assertIn("cannot be read", self.rows(EXAMPLE, self.path("none.session"))[0][1]["words"])
        with open("/dev/full", "wb") as full:
            self.assertEqual(subprocess.run([sys.executable, os.path.join(form.ROOT, "tools", "table.py"), EXAMPLE], stdout=full, stderr=subprocess.DEVNULL).returncode, 1)

    def test_columns_are_of_the_print(self):
        fields, _ = form.run(content(EXAMPLE))
        self.assertTrue(set(table.PRINTED) <= set(fields))


class Explain(Case):
    def test_every_answer_has_words(self):
        self.assertEqual(set(explain.LINES), set(form.WORDS))

    def test_sealed(self):
        done = subprocess.run([form.SCRIPT, "--explain"], input=small().bytes(), stdout=subprocess.PIPE, stderr=subprocess.PIPE, check=True)
        self.assertEqual(done.stderr.decode(), "answer=7: cell 3 (3,0,0) has no way through air to an opening; it has no level at all.\n")
        self.assertEqual(done.stdout, subprocess.run([form.SCRIPT], input=small().bytes(), stdout=subprocess.PIPE, check=True).stdout)

    def test_longest(self):
        """What is beyond the greatest session changes nothing."""
        full = Session((32, 32, 32), "little", 1000000, 1, 0, [OPENING] + [AIR] * 32767, [5] + [0] * 32767).bytes()
        for whole, number in ((full, 0), (full + b"x" * 100000, 11), (content(EXAMPLE) + b"\n", 11)):
            for words in ([], ["--explain"]):
                done = subprocess.run([form.SCRIPT, "--large", *words], input=whole, stdout=subprocess.PIPE, stderr=subprocess.DEVNULL, check=True)
                self.assertEqual(form.parse_print(done.stdout)[0]["answer"], number)


class Pages(Case):
    def test_a_page_that_says_something_else(self):
        page = ["# A page", "```console", "$ echo one; echo two", "one", "three", "$ printf '%s\\n' \\", "> four", "four", "```", "$ false"]
        self.assertEqual(docs.renewed(page), (page[:4] + ["two"] + page[5:], 2))

    def test_an_answer_that_is_another(self):
        self.assertTrue(answers.fits("`answer=10`, `place=1`", {"answer": 10, "place": 1}))
        self.assertTrue(answers.fits("`answer=9`, or `answer=8`", {"answer": 8, "place": 0}))
        self.assertFalse(answers.fits("`answer=10`, `place=1`", {"answer": 10, "place": 2}))
        self.assertFalse(answers.fits("`answer=10`, `place=1`", {"answer": 11, "place": 1}))
        self.assertFalse(answers.fits("nothing", {"answer": 0, "place": 0}))

    def test_exact_solution(self):
        """1 0 0 1 with levels 0 and 30, case f: 10 and 20; with 1 and 0 two thirds and one third."""
        cast = Session((4, 1, 1), "big", 0, 1, 5, [OPENING, AIR, AIR, OPENING], [0, 0, 0, 30])
        self.assertEqual(answers.exact(cast), {1: 10, 2: 20})
        cast.values = [1, 0, 0, 0]
        self.assertEqual([3 * pressure for pressure in (answers.exact(cast)[1], answers.exact(cast)[2])], [2, 1])


class Script(Case):
    def run_script(self, *words, script=form.SCRIPT, **how):
        how.setdefault("stdin", subprocess.DEVNULL)
        return subprocess.run([script, *words], stdout=how.pop("stdout", subprocess.PIPE), stderr=subprocess.PIPE, **how)

    def test_usage(self):
        for words in (["examples/throat.session"], ["--what"], ["-h"]):
            done = self.run_script(*words)
            self.assertEqual((done.returncode, done.stdout), (2, b""))
            self.assertIn(b"Usage: ./airway", done.stderr)
        done = self.run_script("--help")
        self.assertEqual((done.returncode, done.stderr), (0, b""))
        self.assertTrue(done.stdout.startswith(b"Usage: ./airway"))

    # ---- the old form

    def old(self, unit=b"10", body=b"\0\1\0\0\0\2\1\0\1"):
        """Document 01's example in the old form, or a damaged one, as a file."""
        return self.file("old", b"size=3x1x1\nunit=" + unit + b"\n" + body)

    def on(self, path, *words, **how):
        with open(path, "rb") as given:
            return self.run_script(*words, stdin=given, **how)

    def test_old_is_answered(self):
        done = self.on(self.old(), "--old", "0", "1", "5")
        self.assertEqual((done.returncode, done.stderr), (0, b""))
        self.assertEqual(done.stdout, self.on(EXAMPLE).stdout)
        for words, number in ((("0", "7", "5"), 3), (("9999999", "1", "5"), 3), (("0", "1", "0"), 8)):
            done = self.on(self.old(), "--old", *words)
            self.assertEqual((done.returncode, done.stdout.split(b"\n")[0]), (0, b"answer=%d" % number))
        self.assertEqual(self.on(EXAMPLE, "--old", "0", "1", "5").stdout[:18], b"answer=10\nplace=1\n")
        self.assertEqual(self.on(self.old(unit=b"01"), "--old", "0", "1", "5").stdout[:18], b"answer=10\nplace=2\n")

    def test_old_is_explained(self):
        done = self.on(EXAMPLE, "--explain", "--old", "0", "1", "5")
        self.assertEqual((done.returncode, done.stdout[:9]), (0, b"answer=10"))
        self.assertIn("session of the new form", done.stderr.decode())
        done = self.on(self.old(body=b"\0\1\0\0\0\2\1\0\7"), "--old", "0", "1", "5", "--explain")
        self.assertIn("cell 2 (2,0,0) has a label above 2", done.stderr.decode())

    def test_old_is_renewed(self):
        done = self.on(self.old(), "--renew", "big", "0", "1", "5")
        self.assertEqual((done.returncode, done.stdout, done.stderr), (0, content(EXAMPLE), b""))
        little = form.read(content(EXAMPLE))
        little.order = "little"
        self.assertEqual(self.on(self.old(), "--renew", "little", "0", "1", "5").stdout, little.bytes())
        for path, words, number in ((self.old(), ("big", "0", "7", "5"), 3), (EXAMPLE, ("big", "0", "1", "5"), 10)):
            done = self.on(path, "--renew", *words)
            self.assertEqual((done.returncode, done.stdout, done.stderr.split(b"\n")[0]), (3, b"", b"answer=%d" % number))
        with open("/dev/full", "wb") as full:
            done = self.on(self.old(), "--renew", "big", "0", "1", "5", stdout=full)
            self.assertEqual(done.returncode, 1)
            self.assertIn(b"could not be written", done.stderr)

    def test_old_usage(self):
        for words in (["--old"], ["--old", "0", "1"], ["--old", "00", "1", "5"], ["--old", "0", "-1", "5"], ["--old", "0", "1", "12345678"], ["--old", "0", "1", "5\n"], ["--old", "", "1", "5"],
                      ["--renew", "0", "1", "5"], ["--renew", "Big", "0", "1", "5"], ["--renew", "big", "0", "1", "5", "--explain"], ["--old", "0", "1", "5", "--large"]):
            done = self.run_script(*words)
            self.assertEqual((done.returncode, done.stdout), (2, b""), words)
            self.assertIn(b"Usage: ./airway", done.stderr)

    def test_failed_writes(self):
        with open(THROAT, "rb") as given, open("/dev/full", "wb") as full:
            done = self.run_script(stdin=given, stdout=full)
            self.assertEqual(done.returncode, 1)
            self.assertIn(b"could not be written", done.stderr)
        for words in ("", "--explain"):
            done = subprocess.run(["bash", "-c", f'"$1" {words} < "$2" >&-', "bash", form.SCRIPT, THROAT], stderr=subprocess.PIPE)
            self.assertEqual(done.returncode, 1)
            self.assertIn(b"could not be written", done.stderr)
        with open("/dev/full", "wb") as full:
            self.assertNotEqual(self.run_script("--help", stdout=full).returncode, 0)

    def test_terminal(self):
        master, slave = pty.openpty()
        process = subprocess.Popen([form.SCRIPT], stdin=slave, stdout=subprocess.PIPE, stderr=subprocess.PIPE)
        os.close(slave)
        self.assertIn(b"waiting for a session", process.stderr.readline())
        os.write(master, b"\x04")
        printed, _ = process.communicate(timeout=20)
        os.close(master)
        self.assertTrue(printed.startswith(b"answer=10\nplace=1\n"))

    def test_closed_input(self):
        done = subprocess.run(["bash", "-c", '"$1" <&-', "bash", form.SCRIPT], stdout=subprocess.PIPE, stderr=subprocess.PIPE, timeout=20)
        self.assertEqual((done.returncode, done.stdout), (1, b""))
        self.assertIn(b"standard input is closed", done.stderr)

    # ---- in a clone of its own

    def clone(self, built=True):
        """As much of a clone as the script looks at."""
        root = self.path("clone")
        os.makedirs(os.path.join(root, "crates", "airway", "src"))
        for name in ("airway", "crates.txt", "crates/airway/src/main.rt"):
            shutil.copy(os.path.join(form.ROOT, name), os.path.join(root, name))
        for name in crates():
            os.makedirs(os.path.join(root, "crates", name, "src"), exist_ok=True)
        shutil.copytree(os.path.join(form.ROOT, "tools"), os.path.join(root, "tools"), ignore=shutil.ignore_patterns("__pycache__"))
        past = time.time() - 1000
        for name in ("crates.txt", "crates/airway/src/main.rt"):
            os.utime(os.path.join(root, name), (past, past))
        if built:
            os.makedirs(os.path.join(root, "target", "bin"))
            shutil.copy(os.path.join(form.ROOT, "target", "bin", "airway"), os.path.join(root, "target", "bin", "airway"))
        return root

    def kit(self, program):
        """A folder with an rt that proves nothing: in a crate's folder it says what rt says, and as the program hands out the one built already."""
        os.makedirs(self.path("kit", "bin"))
        if os.path.exists(program):
            program = shutil.copy(program, self.path("kit", "airway"))
        with open(self.path("kit", "bin", "rt"), "w") as file:
            file.write("#!/bin/sh\nhere=${PWD##*/}\n[ -z \"$RT_FAILS\" ] || [ $here != $RT_FAILS ] || { echo logic=not-proved; exit 1; }\n"
                       "mkdir -p out\necho \"fn $here::all: proved\"\ncase \"$here $1\" in\n"
                       f"  'airway run') cp '{program}' out/; [ -z \"$RT_ENDS\" ] || exit $RT_ENDS ;;\n  'airway lib' | *' run') exit 2 ;;\n  *' lib') ;;\n  *) exit 2 ;;\nesac\necho logic=proved\n")
        os.chmod(self.path("kit", "bin", "rt"), 0o755)
        return self.path("kit", "bin")

    def bare_path(self):
        """A PATH with what the script needs, and no rt."""
        os.makedirs(self.path("bin"))
        for name in ("bash", "sh", "env", "dirname", "readlink", "find", "uname", "head", "mktemp", "cat", "grep", "ls", "awk", "sleep", "touch", "mkdir", "cp", "chmod", "rm", "python3", "qemu-x86_64"):
            if shutil.which(name) is not None:
                os.symlink(os.path.realpath(shutil.which(name)) if name != "python3" else sys.executable, self.path("bin", name))
        return self.path("bin")

    def as_another(self):
        """Root may write everywhere, so there it is run as nobody."""
        return {"user": NOBODY, "group": NOBODY, "extra_groups": []} if os.geteuid() == 0 else {}

    def answered(self, root, **how):
        with open(EXAMPLE, "rb") as given:
            return self.run_script(script=os.path.join(root, "airway"), stdin=given, **how)

    def test_clone_that_may_not_be_written_to(self):
        root = self.clone()
        subprocess.run(["chmod", "-R", "a-w,a+rX", root], check=True)
        done = self.answered(root, **self.as_another())
        self.assertEqual((done.returncode, done.stdout[:9], done.stderr), (0, b"answer=0\n", b""))

    def test_built_in_a_copy_of_ones_own(self):
        root = self.clone(built=False)
        kit = self.kit(os.path.join(form.ROOT, "target", "bin", "airway"))
        subprocess.run(["chmod", "-R", "a-w,a+rX", root], check=True)
        os.makedirs(self.path("cache"))
        os.chmod(self.path("cache"), 0o777)
        here = dict(os.environ, PATH=kit + ":" + os.environ["PATH"], XDG_CACHE_HOME=self.path("cache"))
        for _ in range(2):
            done = self.answered(root, env=here, **self.as_another())
            self.assertEqual((done.returncode, done.stdout[:9]), (0, b"answer=0\n"), done.stderr)
        self.assertEqual(done.stderr, b"")

    def test_without_rt(self):
        if platform.machine() != "x86_64" and shutil.which("qemu-x86_64") is None:
            self.skipTest("no emulator")
        root = self.clone()
        done = self.answered(root, env=dict(os.environ, PATH=self.bare_path()))
        self.assertEqual((done.returncode, done.stdout[:9], done.stderr), (0, b"answer=0\n", b""))
        os.utime(os.path.join(root, "crates", "airway", "src", "main.rt"))
        os.utime(os.path.join(root, "target", "bin", "airway"), (1, 1))
        done = self.answered(root, env=dict(os.environ, PATH=self.path("bin")))
        self.assertEqual((done.returncode, done.stdout), (1, b""))
        self.assertIn(b"rt, the Rattle toolchain, is missing", done.stderr)

    def test_progress(self):
        root = self.clone(built=False)
        with open(os.path.join(root, "crates.txt"), "w") as file:
            file.write("# a comment\nlaws:\nmethod: laws\nelse: laws\nairway: laws method io\n")
        here = dict(os.environ, PATH=self.kit(os.path.join(form.ROOT, "target", "bin", "airway")) + ":" + os.environ["PATH"])
        done = self.answered(root, env=here)
        self.assertEqual((done.returncode, done.stdout[:9]), (0, b"answer=0\n"), done.stderr)
        self.assertEqual(done.stderr.decode(), "proving 1 of 3: laws\nproving 2 of 3: method\nproving 3 of 3: airway\n")
        self.assertIn("fn method::all: proved", content(os.path.join(root, "target", "airway.log")).decode())
        self.assertEqual(self.answered(root, env=here).stderr, b"")

    def test_refused_build(self):
        """Where a library or the program is not proved there is no program, also where one stands in out/ from before; a status of the program's own is none of rt's."""
        root = self.clone(built=False)
        program = os.path.join(form.ROOT, "target", "bin", "airway")
        here = dict(os.environ, PATH=self.kit(program) + ":" + os.environ["PATH"])
        os.makedirs(os.path.join(root, "crates", "airway", "out"))
        shutil.copy(program, os.path.join(root, "crates", "airway", "out", "airway"))
        for crate in ("laws", "airway"):
            done = self.answered(root, env=dict(here, RT_FAILS=crate))
            self.assertEqual((done.returncode, done.stdout), (1, b""))
            self.assertIn(b"was not proved and built", done.stderr)
            self.assertFalse(os.path.exists(os.path.join(root, "target", "bin", "airway")))
        self.assertEqual(self.answered(root, env=dict(here, RT_ENDS="1")).stdout[:9], b"answer=0\n")

    def test_crates_are_counted(self):
        """The crates that the script has proved for a program are what rt checks, each after those that it stands on."""
        on = crates()
        for crate in ("airway", "airway_large", "airway_old", "airway_renew", "quetzalcup"):
            need, edge = set(), [crate]
            while edge:
                name = edge.pop()
                if name in on and name not in need:
                    need.add(name)
                    edge.extend(on[name])
            script = content(form.SCRIPT).decode()
            counting = script[script.index("stands_on() {"):script.index("# Proves a crate and leaves")]
            done = subprocess.run(["bash", "-c", f'root=$1\n{counting}\nstands_on "$2"', "bash", form.ROOT, crate], stdout=subprocess.PIPE, check=True)
            listed = done.stdout.decode().split("\n")[:-1]
            self.assertEqual((set(listed), len(listed)), (need, len(need)))
            for number, name in enumerate(listed):
                self.assertTrue(all(below in listed[:number] for below in on[name] if below in on), name)


if __name__ == "__main__":
    unittest.main()
