#!/usr/bin/env python3
"""Random containers of every root go through `adbdump`, `adbgen` and `adbdump` again, by the built program.

Each container is laid out at random (docs/formats.md, "Values"): values are shared or repeated, numbers and lengths have any
width, objects and arrays any trailing nulls, and runs lie in any order. Its dump is generated; that container must have the
same dump, and be generated from that again byte for byte. The last line counts containers and differences. The status is 0
if there is none.

usage: tests/model/regenerate.py PROGRAM [COUNT [SEED]]   (1000 containers of each root, seed 1)
"""
import os
import random
import struct
import subprocess
import sys
import tempfile

# The tables of docs/formats.md, "Schemas": n a number, t a text, h a hash, a name a table, -NAME an array of it.
TABLES = {
    "dependency": ["t", "t", "n"],
    "acl": ["n", "t", "t", "-t"],
    "info": ["t", "t", "h", "t", "t", "t", "t", "t", "t", "h", "n", "n", "n", "n", "-dependency", "-dependency", "-dependency",
             "-dependency", "-dependency", "n", "-t", "n"],
    "file": ["t", "acl", "n", "n", "h", "t", "n"],
    "folder": ["t", "acl", "-file"],
    "scripts": ["t"] * 7,
    "package": ["info", "-folder", "scripts", "-t", "n"],
    "index": ["t", "-info", "t"],
    "database": ["-package"],
    "intent": ["-t", "-t"],
}
ROOTS = {"package": b"pckg", "index": b"indx", "database": b"idb\0", "intent": b"intt"}


class Layout:
    """A payload that is laid out at random."""

    def __init__(self, rng):
        self.rng = rng
        self.bytes = bytearray(8)
        self.known = {"t": [], "n": []}

    def put(self, data):
        self.bytes += bytes(self.rng.randrange(3)) + data
        return len(self.bytes) - len(data)

    def number(self):
        rng = self.rng
        value = rng.choice([0, 1, rng.randrange(256), rng.randrange(1 << 28), rng.randrange(1 << 32), rng.randrange(1 << 64)])
        if value < 1 << 28 and rng.random() < 0.7:
            return 0x10000000 | value
        if value < 1 << 32 and rng.random() < 0.7:
            return 0x20000000 | self.put(struct.pack("<I", value))
        return 0x30000000 | self.put(struct.pack("<Q", value))

    def blob(self):
        rng = self.rng
        kind = rng.randrange(6)
        if kind == 0:
            data = b""
        elif kind == 1:
            data = bytes(rng.randrange(256) for _ in range(rng.randrange(40)))
        elif kind == 2:
            data = rng.choice([b"null", b" a", b"a ", b'"', b"\\", b"a\nb", b"-", b"#", b"a: b", b"\x7f", b"\xc3\xa9"])
        elif kind == 3:
            data = b"x" * rng.choice([255, 256, 300])
        else:
            data = bytes(rng.choice(b"abcdefghij0123456789.-_") for _ in range(rng.randrange(1, 12)))
        width = rng.choice([w for w in (8, 9, 10) if len(data) < (256 if w == 8 else 65536)])
        head = struct.pack({8: "<B", 9: "<H", 10: "<I"}[width], len(data))
        return width << 28 | self.put(head + data)

    def run(self, kind, words):
        return kind << 28 | self.put(struct.pack("<%dI" % (len(words) + 1), len(words) + 1, *words))

    def value(self, shape, depth):
        rng = self.rng
        if rng.random() < 0.3:
            return 0
        again = self.known.setdefault(shape, [])
        if again and rng.random() < 0.2:
            return rng.choice(again)
        if shape == "n":
            word = self.number()
        elif shape in ("t", "h"):
            word = self.blob()
        elif shape.startswith("-"):
            most = 4 if depth < 4 else 2
            word = self.run(0xD, [self.value(shape[1:], depth + 1) for _ in range(rng.randrange(most))] + [0] * rng.randrange(2))
        else:
            fields = [self.value(field, depth + 1) for field in TABLES[shape]]
            cut = rng.randrange(len(fields) + 1) if rng.random() < 0.3 else len(fields)
            word = self.run(0xE, fields[:cut] + [0] * (rng.randrange(3) if cut == len(fields) else 0))
        again.append(word)
        return word


def container(rng, table):
    layout = Layout(rng)
    root = layout.value(table, 0)
    layout.bytes[4:8] = struct.pack("<I", root)
    raw = len(layout.bytes) + 4
    block = struct.pack("<I", raw) + bytes(layout.bytes)
    return b"ADB." + ROOTS[table] + block + bytes(-len(block) % 8)


def run(program, *words):
    done = subprocess.run([program, *words], stdout=subprocess.PIPE, stderr=subprocess.PIPE)
    return done.returncode, done.stdout, done.stderr


def main():
    program = os.path.abspath(sys.argv[1])
    count = int(sys.argv[2]) if len(sys.argv) > 2 else 1000
    rng = random.Random(int(sys.argv[3]) if len(sys.argv) > 3 else 1)
    wrong = done = 0
    with tempfile.TemporaryDirectory() as folder:
        os.chdir(folder)
        for table in ROOTS:
            for number in range(count):
                made = container(rng, table)
                with open("a.adb", "wb") as file:
                    file.write(made)
                first = run(program, "adbdump", "a.adb")
                with open("a.txt", "wb") as file:
                    file.write(first[1])
                second = run(program, "adbgen", "a.txt")
                with open("b.adb", "wb") as file:
                    file.write(second[1])
                third = run(program, "adbdump", "b.adb")
                with open("b.txt", "wb") as file:
                    file.write(third[1])
                fourth = run(program, "adbgen", "b.txt")
                done += 1
                if first[0] or second[0] or third[0] or fourth[0] or first[1] != third[1] or second[1] != fourth[1]:
                    wrong += 1
                    print("a difference: container %d of table %s" % (number, table), first[2][:200], second[2][:200])
    print("%d containers of %d roots, %d with a difference" % (done, len(ROOTS), wrong))
    return 1 if wrong or not done else 0


sys.exit(main())
