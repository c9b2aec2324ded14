#!/usr/bin/env python3
"""Reader and writer of the old session form, through the library and by the separate implementation compare/old_form.c, on generated calls, sound
and damaged, also in several ways at once: byte for byte. Then the programs behind ./airway --old and --renew, on such sessions and on greater ones, one a run:
what they print and write must be what the separate implementations make of the session, read by old_form.c and solved by airway.c.

old.py --folder FOLDER [--seed S] [--count N] [--runs R]     (FOLDER: where the separate implementations are built)"""
import argparse
import os
import random
import struct
import subprocess
import sys

sys.dont_write_bytecode = True
import example
import generate
import programs

MOST = 1000
WIDEST = {0: 1000, 1: 1000000, 2: 0}
NOT_NUMBERS = ["", "00", "01", "-1", "+1", " 1", "1 ", "12345678", "0x1", "1\r", "a", "1.0"]


def build(folder):
    os.makedirs(folder, exist_ok=True)
    program = os.path.join(folder, "old_form")
    source = os.path.join(programs.ROOT, "compare", "old_form.c")
    subprocess.run(["gcc", "-std=c17", "-O2", "-Wall", "-Wextra", "-Werror", "-o", program, source], check=True)
    return program


def sides(pick):
    if pick.random() < 0.5:
        return [pick.randint(1, 4), pick.randint(1, 4), pick.randint(1, 4)]
    while True:
        three = [pick.choice([1, 1, 2, 3, 9, 10, 31, 32]) for _ in range(3)]
        if three[0] * three[1] * three[2] <= MOST:
            return three


def unit(pick):
    return pick.choice([1, 1, 2, 7, 10, 999, 1000, pick.randint(1, 1000)])


def stored(pick, label, u):
    """A number to be stored that is in its label's range, often at its edge."""
    most = min(32767, WIDEST[label] // u)
    least = -min(32768, WIDEST[label] // u)
    return pick.choice([0, most, least, pick.randint(least, most), pick.randint(least, most)])


def cast(pick):
    three, u = sides(pick), unit(pick)
    n = three[0] * three[1] * three[2]
    labels = [pick.choice([0, 0, 1, 2]) for _ in range(n)]
    return three, u, labels, [stored(pick, label, u) for label in labels]


def frame(content):
    return f"bytes={len(content)}\n".encode() + content


def settings(pick, sound):
    if sound or pick.random() < 0.6:
        return [pick.choice([0, 1000000]), pick.choice([1, 6]), pick.choice([0, 1000])]
    return pick.choice([[1000001, 1, 0], [0, 0, 0], [0, 7, 0], [0, 1, 1001], [2**32 - 1] * 3])


def session(pick):
    """Settings, room and an old session: in half of them up to three faults."""
    three, u, labels, numbers = cast(pick)
    n = len(labels)
    words = [str(s) for s in three] + [str(u)]
    room = n + pick.choice([0, 0, 1, 5])
    lines = [None, None]
    faults = [] if pick.random() < 0.5 else pick.choices(["number", "line", "side", "unit", "body", "room", "settings", "label", "value"], k=pick.randint(1, 3))
    if "number" in faults:
        words[pick.randrange(4)] = pick.choice(NOT_NUMBERS)
    if "side" in faults:
        words[pick.randrange(3)] = pick.choice(["0", "33", "9999999", "32"])
    if "unit" in faults:
        words[3] = pick.choice(["0", "1001", "9999999"])
    if "label" in faults:
        labels[pick.randrange(n)] = pick.choice([3, 7, 255])
    if "value" in faults:
        numbers[pick.randrange(n)] = pick.choice([32767, -32768, 1001, -1])
    lines[0] = f"size={words[0]}x{words[1]}x{words[2]}\n"
    lines[1] = f"unit={words[3]}\n"
    if "line" in faults:
        k = pick.randrange(2)
        lines[k] = pick.choice([lines[k].replace("x", "X"), lines[k].upper(), lines[k][:-1], lines[k].replace("\n", "\r\n"), lines[1 - k], " " + lines[k], "",
                                "nx=3\nny=1\n"])
    body = b"".join(struct.pack(">h", v) for v in numbers) + bytes(labels)
    if "body" in faults:
        body = pick.choice([body[:-1], body + b"\0", b"", body + body])
    if "room" in faults:
        room = max(0, n - pick.randint(1, 2))
    return settings(pick, "settings" not in faults), room, "".join(lines).encode() + body


def call(passed, room, whole):
    return frame(b"R" + struct.pack(">4I", *passed, room) + whole)


def reader(pick):
    return call(*session(pick))


def writer(pick):
    """A call of the writer: in half of them up to three faults."""
    three, u, labels, numbers = cast(pick)
    n = len(labels)
    values = [v * u for v in numbers]
    need = len(f"size={three[0]}x{three[1]}x{three[2]}\nunit={u}\n") + 3 * n
    room = need + pick.choice([0, 0, 1, 30])
    faults = [] if pick.random() < 0.5 else pick.choices(["side", "unit", "labels", "values", "room", "label", "value", "multiple", "large"], k=pick.randint(1, 3))
    if "multiple" in faults and u > 1:
        for _ in range(pick.randint(1, 2)):
            c = pick.randrange(n)
            values[c] += pick.choice([1, -1, u - 1])
    if "large" in faults:
        c = pick.randrange(n)
        labels[c], values[c] = 1, pick.choice([32768 * u, -32769 * u, -32768 * u, 32767 * u])
    if "label" in faults:
        labels[pick.randrange(n)] = pick.choice([3, 7, 255])
    if "value" in faults:
        values[pick.randrange(n)] = pick.choice([2**31 - 1, -2**31, 1000001, -1000001, 1001, -1001])
    if "labels" in faults:
        labels = pick.choice([labels[:-1], labels + [0], []])
    if "values" in faults:
        values = pick.choice([values[:-1], values + [0], []])
    if "room" in faults:
        room = max(0, need - pick.randint(1, 3))
    if "side" in faults:
        three[pick.randrange(3)] = pick.choice([0, 33, 2**32 - 1])
    if "unit" in faults:
        u = pick.choice([0, 1001, 2**32 - 1])
    head = struct.pack(">7I", *three, u, len(labels), len(values), room)
    return frame(b"W" + head + bytes(labels) + struct.pack(f">{len(values)}i", *values))


def great(pick):
    """A sound old session with more cells than the first program has room for, and what it names."""
    three = pick.choice([[32, 32, 32], [20, 11, 7], [1, 32, 32], [17, 16, 5]])
    n = three[0] * three[1] * three[2]
    u = unit(pick)
    labels = [1] + [pick.choice(kinds) for kinds in [pick.choice([[0, 0, 0, 2], [0] * 50 + [1]])] for _ in range(n - 1)]
    values = [u * stored(pick, label, u) for label in labels]
    head = f"size={three[0]}x{three[1]}x{three[2]}\nunit={u}\n".encode()
    return head + b"".join(struct.pack(">h", v // u) for v in values) + bytes(labels), three, labels, values


def header_lines(order, passed):
    """The caller's order and settings as the programs take them."""
    return "nx=1\nny=1\nnz=1\norder={}\ntolerance={}\nlevels={}\nrounds={}\n".format(order, *passed)


def known(block):
    """What old_form.c says of a session: answer and place; sides, labels and values."""
    field = dict(part.split("=", 1) for part in block.split("\n") if "=" in part)
    labels = list(bytes.fromhex(field["labels"]))
    values = [struct.unpack(">i", bytes.fromhex(field["values"][8 * c:8 * c + 8]))[0] for c in range(len(labels))]
    return int(field["answer"]), int(field["place"]), [int(field[name]) for name in ("nx", "ny", "nz")], labels, values


def runs(pick, count, folder):
    """For each run: settings, order, the old session, its print and the same session in the new form (None where it is refused)."""
    some = [(passed, whole) for passed, _, whole in (session(pick) for _ in range(count)) if max(passed) < 10**7]
    told = programs.run([os.path.join(folder, "old_form")], b"".join(call(passed, MOST + 100, whole) for passed, whole in some)).split("call=")[1:]
    told = [known(block) for block in told]
    for _ in range(max(4, count // 20)):
        whole, three, labels, values = great(pick)
        some.append(([6, pick.randint(1, 6), 40], whole))
        told.append((0, 0, three, labels, values))
    # one byte too many, a megabyte too many, and an input of the new form
    whole, three, labels, values = great(pick)
    for more in (b"\0", pick.randbytes(1_000_000)):
        some.append(([6, 2, 40], whole + more))
        told.append((11, 0, three, labels, values))
    some.append(([6, 2, 40], generate.session_bytes(3, 1, 1, "big", 0, 1, 5, [1, 0, 1], [10, 0, 20])))
    told.append((10, 1, [0, 0, 0], [], []))
    for (passed, whole), (number, place, three, labels, values) in zip(some, told, strict=True):
        order = pick.choice(["big", "little"])
        if number:
            yield passed, order, whole, example.refused(number, place), None
            continue
        anew = generate.session_bytes(*three, order, *passed, labels, values)
        yield passed, order, whole, programs.run([os.path.join(folder, "airway"), "--room", "32768"], anew), anew


def compare_programs(pick, count, folder):
    """How many runs of the two programs there were, and how many of them differ."""
    done = wrong = 0
    for passed, order, whole, print_due, anew in runs(pick, count, folder):
        lines = header_lines(order, passed)
        done += 1
        ours = subprocess.run(programs.command("airway_old") + [lines], input=whole, stdout=subprocess.PIPE, check=True).stdout.decode("ascii")
        if ours != print_due:
            wrong += 1
            print(f"old program, run {done}: {programs.first_difference(ours, print_due)}")
        new = subprocess.run(programs.command("airway_renew") + [lines], input=whole, stdout=subprocess.PIPE, stderr=subprocess.PIPE, check=True)
        if (new.stdout, new.stderr.decode("ascii")) != ((anew, "") if anew is not None else (b"", print_due)):
            wrong += 1
            print(f"renewed, run {done}: {len(new.stdout)} bytes and on standard error {new.stderr[:60]}, due {0 if anew is None else len(anew)} bytes")
    return done, wrong


def main():
    parser = argparse.ArgumentParser(description="The old session form, compared.")
    parser.add_argument("--folder", required=True)
    parser.add_argument("--seed", default="1")
    parser.add_argument("--count", type=int, default=4000)
    parser.add_argument("--runs", type=int, default=150)
    options = parser.parse_args()
    program = build(options.folder)
    pick = random.Random("old " + options.seed)
    given = b"".join((reader if k % 2 else writer)(pick) for k in range(options.count))
    ours = programs.run(programs.harness("old"), given)
    theirs = programs.run([program], given)
    seen = ours.count("call=")
    if seen != options.count:
        print(f"old: only {seen} of {options.count} calls were answered")
        return 1
    difference = programs.first_difference(ours, theirs)
    if difference is not None:
        print(f"old: differs {difference}")
        return 1
    numbers = {}
    for block in theirs.split("call=")[1:]:
        number = int(block.split("\nanswer=")[1].split("\n")[0])
        numbers[number] = numbers.get(number, 0) + 1
    missing = [k for k in (0, 1, 2, 3, 4, 5, 10, 11, 13) if numbers.get(k, 0) < 10]
    if missing:
        print(f"old: the calls hardly reach the answers {missing}")
        return 1
    print(f"old: {seen} calls agree, by answer {dict(sorted(numbers.items()))}, seed {options.seed}")
    done, wrong = compare_programs(random.Random("old programs " + options.seed), options.runs, options.folder)
    print(f"old programs: {done} sessions each, {wrong} differ")
    return 1 if wrong else 0


if __name__ == "__main__":
    sys.exit(main())
