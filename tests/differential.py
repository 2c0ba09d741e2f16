#!/usr/bin/env python3
"""Compares the library with tests/independent.py on many random samples, lawful and damaged.

    tests/differential.py [SEED [COUNT]]          (after tools/run samples)

It writes tables as crates/samples has them, with the verdicts of the independent reading, and runs the program `samples` on them. It is no part of the
gate. With `tables` as its first word it checks the stored tables of crates/samples instead.
"""
import os
import random
import subprocess
import sys
import tempfile

import independent

ROOT = os.path.dirname(os.path.dirname(os.path.abspath(__file__)))
PROGRAM = os.path.join(ROOT, "crates", "samples", "out", "samples")
TABLES = os.path.join(ROOT, "crates", "samples", "data")
READINGS = {"texts.txt": independent.text, "bundles.txt": independent.bundle, "books.txt": independent.book, "profiles.txt": independent.profile}
BYTES = b'{}[]",:\\ \n0123456789-+.eEtrufalsn/u"a\x00\x1f\x80'


def written(s):
    return "".join(chr(b) if 32 <= b < 127 and b != 37 else f"%{b:02x}" for b in s)


def unwritten(line):
    out, i = bytearray(), 0
    while i < len(line):
        if line[i] == "%":
            out.append(int(line[i + 1 : i + 3], 16))
            i += 3
        else:
            out.append(ord(line[i]))
            i += 1
    return bytes(out)


def samples_of(name):
    with open(os.path.join(TABLES, name), encoding="ascii") as table:
        for line in table:
            number, cause, place, rest = line.rstrip("\n").split(" ", 3)
            yield (int(number), int(cause), int(place)), unwritten(rest)


def damaged(s):
    s = bytearray(s)
    for _ in range(random.randint(1, 3)):
        i, kind = random.randrange(len(s) + 1), random.random()
        if kind < 0.4 and i < len(s):
            del s[i]
        elif kind < 0.8 or i == len(s):
            s.insert(i, random.choice(BYTES))
        else:
            s[i] = random.choice(BYTES)
    return bytes(s)


def value(depth=0):
    kind = random.random()
    if depth > 4 or kind < 0.35:
        return random.choice(["1", "-0", "0.5", "1e3", '"a"', '""', "null", "true", "false", '"\\u0041"', "12345678901234567890"])
    if kind < 0.65:
        return "[" + ",".join(value(depth + 1) for _ in range(random.randint(0, 3))) + "]"
    return "{" + ",".join(f'"{random.choice(["a", "b", "c", "aa", ""])}":{value(depth + 1)}' for _ in range(random.randint(0, 4))) + "}"


def path():
    return random.choice(["/a", "/b", "/c/d", "x", "/", "/a/"]) if random.random() < 0.3 else f"/q{random.randrange(40)}"


def new_bundle():
    count = random.randint(0, random.choice([4, 30]))
    s = bytearray(b"CAP\x00\x01" + count.to_bytes(2, "big"))
    for _ in range(count):
        name, body = path().encode(), b"q" * random.randint(0, 3)
        s += bytes([len(name)]) + name + len(body).to_bytes(4, "big") + body
    for _ in range(random.choice([0, 0, 1, 2])):
        s[random.randrange(len(s))] = random.choice([0, 1, 2, 47, 97, 255])
    return bytes(s[: random.randrange(len(s) + 1)] if random.random() < 0.2 else s)


def new_book():
    members = ",".join(f'"{path()}":{value(2)}' for _ in range(random.randint(0, random.choice([3, 25]))))
    s = ("{" + members + "}").encode()
    return damaged(s) if random.random() < 0.2 else s


def of_members(stored):
    """A text of the table with some members moved from another: keeps the shapes of profiles, and breaks their order."""
    a, b = random.choice(stored).decode("ascii", "replace"), random.choice(stored).decode("ascii", "replace")
    i, j = a.rfind("{", 0, random.randrange(1, len(a) + 1)), b.rfind("{", 0, random.randrange(1, len(b) + 1))
    if i < 0 or j < 0:
        return a.encode("ascii", "replace")
    end = b.find("}", j)
    inside = b[j + 1 : end if end >= 0 else len(b)]
    joint = "," if inside and not a[i + 1 :].startswith("}") else ""
    return (a[: i + 1] + inside + joint + a[i + 1 :]).encode("ascii", "replace")


def new_sample(name, stored):
    kind = random.random()
    if name == "bundles.txt":
        return new_bundle()
    if name == "books.txt":
        return new_book()
    if name == "profiles.txt":
        s = of_members(stored)
        return damaged(s) if kind < 0.1 else s
    if kind < 0.6:
        return damaged(random.choice(stored))
    s = value().encode()
    return damaged(s) if kind < 0.9 else s


def check_tables():
    differ = 0
    for name, reading in READINGS.items():
        for verdict, sample in samples_of(name):
            if reading(sample) != verdict:
                differ += 1
                print(f"{name}: {verdict} in the table, {reading(sample)} by the independent reading: {written(sample)[:80]}")
    print(f"tables: {differ} differ")
    return differ == 0


def check_random(seed, count):
    random.seed(seed)
    with tempfile.TemporaryDirectory() as folder:
        for name, reading in READINGS.items():
            stored = [s for _, s in samples_of(name) if 0 < len(s) < 2000]
            with open(os.path.join(folder, name), "w", encoding="ascii") as out:
                for _ in range(count):
                    s = new_sample(name, stored)
                    out.write("%d %d %d %s\n" % (*reading(s), written(s)))
        done = subprocess.run([PROGRAM], cwd=folder, capture_output=True, text=True, check=True)
    lines = [line for line in done.stdout.splitlines() if ".txt: " in line]
    print("\n".join(lines[:40]))
    return all(line.endswith(" 0 differ") for line in lines)


def main():
    if sys.argv[1:2] == ["tables"]:
        good = check_tables()
    else:
        numbers = [int(word) for word in sys.argv[1:3]]
        good = check_random(*(numbers + [1, 20000][len(numbers) :]))
    sys.exit(0 if good else 1)


main()
