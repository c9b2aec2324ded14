#!/usr/bin/env python3
"""Respells this repository's own names of specs/ and proofs/: words and lemmas in snake case, facts and types in camel case.

usage: python3 tools/port_names.py [--list]      at the top of the repository, once, after the kit's port.py; --list changes nothing
       python3 tools/port_names.py --deep        after it, once: the same for the lemmas inside of lemmas and of modules in modules

A name is one that specs/*.antt or proofs/*.antt of a crate states, or a field or a constructor there: `labelAt` becomes `label_at`,
`place-inside` becomes `place_inside`. What the check itself makes (proofs/F/ of a function F: the names of goals), and functions,
types and fields of src/ keep their names. Names of the commit that had landed are respelled in the must-fail edits and the edits of
compare/wrong too, in the kit's words as well. It stops where two names fall together.
"""

import collections
import glob
import re
import subprocess
import sys

LANDED = "fdda0fd6c06b8f80472195c4382a199d69d29ae7"
# Names with a word of the older library, facts that were spelled as words, and names that would fall together with another.
BY_HAND = {
    "getD-tab": "get_or_tab",
    "mem-getD": "mem_get_or",
    "get_d_any": "get_or_any",
    "sealedAs": "SealedAs",
    "tickAs": "TickAs",
    "is-air": "first_is_air",
    "in-air": "at_air",
    "sides-fit": "fit_sides",
    "worst-cell": "worst_cell_is_air",
    "worst-value": "worst_value_is_left",
    "xOf": "turn_x",
    "cell-of": "cell_of_parts",
    "first-of": "first_holds",
    "le-z": "le_of_both",
    "lt-z": "lt_of_both",
}
# Lemmas of proofs/ that the kit's script gave the name of a definition: as in CONTRACT_STYLE, such a lemma ends in `_lem`.
LEMMAS = {
    "is_digit": "is_digit_lem",
    "is-number": "is_number_lem",
    "is_read": "is_read_lem",
    "is-written": "is_written_lem",
    "labels_in": "labels_in_lem",
    "steps-of": "steps_of_lem",
    "value_in": "value_in_lem",
    "is-at": "is_at_lem",
}
# Where these names are others' own.
NOT_LEMMAS = {"value_in": ("crates/theory/proofs/Worst.antt", "crates/worst/proofs/Laws.antt")}
# What the older library's words became, for texts that the kit's scripts do not turn.
WORDS = {
    "getD": "get_or",
    "natAbs": "nat_abs",
    "_≡_": "◌≡◌",
    "_+_": "◌+◌",
    "_*_": "◌*◌",
    "_-_": "◌-◌",
    "_∷_": "◌∷◌",
    "_++_": "◌++◌",
}
SIGNATURE = re.compile(r"^(\s*)((?:abbrev |unfoldable |pub )*)([^\s(){}\[\],.;:\"]+)(?: \{[^}]*\})*\s*:\s")
NAMED = re.compile(r"^(\s*)(?:pub )?(?:record|data|ruleset|constructor)\s+([^\s(){}\[\],.;:\"]+)")
# What a file brings from a library keeps the library's spelling.
LIBRARY = re.compile(r"^use (?:native|lib|mathlib|borrow|Prim|mir|denote|Rattle\.std)\b[^{\n]*\{([^}]*)\}", re.M)
TOKEN = re.compile(r"[^\s(){}\[\],.;:\"`]+")


def names_of(texts, depth=4):
    """The names that the lines of these texts state, up to that many blanks from the left."""
    found = set()
    for text in texts:
        for line in text.splitlines():
            if line.lstrip().startswith("--"):
                continue
            m = SIGNATURE.match(line)
            if m and len(m[1]) <= depth and m[3] not in ("|", "let"):
                found.add(m[3])
            m = NAMED.match(line)
            if m:
                found.add(m[2])
    return found


def snake(name):
    """A word in snake case; a name that is no word, or a type's, as it is."""
    if name in BY_HAND:
        return BY_HAND[name]
    if not re.match(r"^[a-z][A-Za-z0-9_'-]*$", name):
        return name
    name = re.sub(r"(?<=[a-z0-9])([A-Z])", r"_\1", name)
    return name.replace("-", "_").lower()


def tokens(text):
    return TOKEN.findall(text)


def replace(text, table, comments, lemmas=()):
    """The text with the table's names, each as a whole token; a dash in a comment is English, but for what stands in backticks.
    Names of lemmas without a dash are respelled where they stand alone, and not as a part of a path."""

    def one(m):
        t = m[0]
        if t in lemmas and ("-" in t or "." not in (m.string[m.start() - 1 : m.start()], m.string[m.end() : m.end() + 1])):
            return lemmas[t]
        return table.get(t, t)

    out = []
    for line in text.split("\n"):
        at = re.search(comments, line)
        code, note = (line[: at.start()], line[at.start():]) if at else (line, "")
        code = TOKEN.sub(one, code)
        if note:
            parts = note.split("`")
            for i, p in enumerate(parts):
                if i % 2:
                    parts[i] = TOKEN.sub(one, p)
                else:
                    parts[i] = TOKEN.sub(lambda m: table.get(m[0], m[0]) if re.search(r"[a-z][A-Z]", m[0]) else m[0], p)
            note = "`".join(parts)
        out.append(code + note)
    return "\n".join(out)


def tight(text):
    """The lines of an edit of specs/ with projections as they are written now: `(a .cast)` becomes `a.cast`."""
    if not re.search(r"^file: .*\.antt$", text, re.M):
        return text
    text = re.sub(r"\(([\w']+)((?: \.[\w']+)+)\)", lambda m: m[1] + m[2].replace(" ", ""), text)
    return re.sub(r"(?<=[\w)]) (\.[a-z])", r"\1", text)


def read(path):
    with open(path, encoding="utf-8") as f:
        return f.read()


def own(paths):
    return sorted(p for p in paths if "/out/" not in p)


def landed():
    """The texts of specs/ and proofs/*.antt as they had landed."""
    listed = subprocess.run(["git", "ls-tree", "-r", "--name-only", LANDED], capture_output=True, text=True, check=True).stdout.split()
    for p in listed:
        if re.match(r"crates/\w+/(specs/.*|proofs/[^/]*)\.antt$", p):
            yield subprocess.run(["git", "show", f"{LANDED}:{p}"], capture_output=True, text=True, check=True).stdout


def main():
    dry = "--list" in sys.argv[1:]
    specs = own(glob.glob("crates/*/specs/**/*.antt", recursive=True) + glob.glob("crates/*/proofs/*.antt"))
    antt = own(glob.glob("crates/*/specs/**/*.antt", recursive=True) + glob.glob("crates/*/proofs/**/*.antt", recursive=True))
    code = own(glob.glob("crates/*/src/**/*.rt", recursive=True))
    edits = own(glob.glob("crates/*/must-fail/*.edit") + glob.glob("compare/wrong/*.edit"))
    deep = "--deep" in sys.argv[1:]
    here = names_of((read(p) for p in specs), 40 if deep else 4)
    if deep:
        LEMMAS.clear()
    table = {n: snake(n) for n in here if snake(n) != n}
    for n in sorted(table):
        # a lemma about a word has the word's name with dashes
        if "-" in n and n not in BY_HAND and any(table[m] == table[n] for m in table if m != n and "-" not in m):
            LEMMAS[n] = table[n] + "_lem"
    for n in LEMMAS:
        table.pop(n, None)
    used = collections.Counter(t for p in antt + code for t in set(tokens(read(p))))
    new = collections.defaultdict(list)
    for n in table:
        new[table[n]].append(n)
    for n in LEMMAS:
        new[LEMMAS[n]].append(n)
    bad = [(n, new[n]) for n in sorted(new) if len(new[n]) > 1]
    for n, olds in bad:
        print(f"falls together: {' '.join(olds)} -> {n}")
    for n in sorted(new):
        if used[n]:
            print(f"stands already: {new[n][0]} -> {n}: {used[n]} files{', a name of ours' if n in here else ''}")
    older = {n: snake(n) for n in names_of(landed()) if snake(n) != n}
    older.update(WORDS)
    print(f"{len(table)} names here, {len(older)} in edits")
    if dry:
        return 0
    if bad:
        return 1
    for p in antt:
        text = read(p)
        borrowed = {n for m in LIBRARY.findall(text) for n in tokens(m)}
        lemmas = {n: LEMMAS[n] for n in LEMMAS if p not in NOT_LEMMAS.get(n, ())}
        turned = replace(text, {n: table[n] for n in table if n not in borrowed}, r"(?<!\S)--\s", lemmas)
        if turned != text:
            with open(p, "w", encoding="utf-8") as f:
                f.write(turned)
    for p in code:
        text = read(p)
        turned = replace(text, table, r"//")
        if turned != text:
            with open(p, "w", encoding="utf-8") as f:
                f.write(turned)
    for p in [] if deep else edits:
        text = read(p)
        turned = tight(replace(text, older, r"\Z."))
        if turned != text:
            with open(p, "w", encoding="utf-8") as f:
                f.write(turned)
    return 0


if __name__ == "__main__":
    sys.exit(main())
