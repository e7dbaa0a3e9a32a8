#!/usr/bin/env python3
"""Rows of random containers for the topic `damage` of crates/container_tests, with the answers of
verify.py.

    python3 tests/model/random_rows.py SEED COUNT [ODDS]

prints COUNT containers, each with its rows `verify`, `pieces` and `dump`. They are of all four
schemas, with values of every width, shared and unaligned ones, blocks of every kind and order. With
the odds ODDS (0.02 if not given) each text, number or list is one that a rule refuses; and some
files have up to eight changes in their bytes and words. One seed gives the same rows each time.
"""

import random
import struct
import sys

import verify
from verify import ADB_BLOCK, CONTENTS, DATABASE, INDEX, INTENT, PACKAGE, SIGNATURE

PACKAGE_NAMES = [b"a", b"b", b"c", b"libc", b"so:x", b"_x", b"a.b-c", b"x" * 255]
BAD_NAMES = [b"", b"!a", b"x" * 256, b"\x7f", b"~a", b"a~", b"a=", b"a>b", b"a<", b"a@b", b"a b",
             b"\xc3\xa9", b"a\0", b" ", b"a\x1f"]
ONLY_NEEDED = [b"-a", b".a", b"a/b", b"/bin/sh"]
VERSIONS = [b"0", b"1", b"1.0-r0", b"01.02", b"1" * 18, b"1a", b"1p", b"1_p", b"1p_p", b"1_pre2",
            b"1_p_p3", b"1~af", b"1~0-r1", b"1.2.3.4z_alpha_beta1_hg~0f-r12", b"1_git20200101",
            b"1_svn" + b"9" * 18, b"1-r" + b"0" * 18]
BAD_VERSIONS = [b"1" * 19, b"1ab", b"1~", b"1~AF", b"1~g", b"1-r", b"1-1", b"1-r1-r2", b"1-r1~a",
                b"1.", b".1", b"1.a", b"1_rcx", b"1_", b"1_pr", b"1_p1a", b"1_alphabeta", b"1A",
                b"a", b"1 ", b"1\n", b"1\0", b"1~a~b", b"1.1a.1", b"1_svn" + b"9" * 19,
                b"1-r" + b"0" * 19]
FOLDERS = [b"", b"usr", b"usr/bin", b"lib", b"lib/apk", b"lib/apk/db", b"lib/apk/stage", b"etc",
           b"etc/apk", b"...", b".a", b"a..b", b"\xc3\xa9", b"\xf4\x8f\xbf\xbf", b"x" * 1000,
           b"y/" * 511 + b"yy", b"a\n", b"\x01\x7f"]
BAD_PATHS = [b"/usr", b"usr/", b"usr//b", b".", b"..", b"a/..", b"a/./b", b"./a", b"a\0b", b"/",
             b"x" * 1025, b"\xff", b"\x80", b"a/\xff", b"\xc0\x80", b"\xe0\x80\x80", b"\xe2\x82",
             b"\xed\xa0\x80", b"\xed\xbf\xbf", b"\xf4\x90\x80\x80", b"\xf8\x88\x80\x80\x80"]
PARTS = [b"f", b"g", b"h", b"world", b"intent", b"db", b"stage", b"installed", b"x" * 23,
         b"x" * 24, b"...", b".x", b"\xc3\xa9", b"x" * 1024, b" "]
BAD_PARTS = [b"", b"a/b", b".", b"..", b"\xff", b"a\0", b"x" * 1025, b"/", b"/a", b"a/", b"\xc3"]
CHANGED = [b"a", b"b", b"c/d", b"lib/apk", b"lib/apk/db/installed", b"lib/apk/stagex",
           b"lib/apk/inten", b"etc/apk/world", b"x" * 1024, b"lib/apk/stage.d/x"]
BAD_CHANGED = BAD_PATHS + [b"", b"lib/apk/intent", b"lib/apk/stage", b"lib/apk/stage/1"]
TARGETS = [b"\x00\xa0x", b"\x00\xa0\x00", b"\x00\xa0\xc3\xa9", b"\x00\xa0/..//"]
BAD_TARGETS = [b"\x00\xa0", b"\xa0\x00x", b"x", b"\x00", b"\x00\xa0\xff", b"\x00\xa1x",
               b"\x00\x80x", b"\x00\xa0\xed\xa0\x80"]
TEXTS = [b"", b"t", b"null", b"nullx", b" x", b"x ", b"\"q", b"a\"b", b"\\", b"\n", b"\xff\x00",
         b"x" * 256, b"#", b"x: y", b"~", b"\x7f", b"- a"]
NUMBERS = [0, 1, 2, 3, 5, 31, 2**28 - 1, 2**28, 2**32 - 1, 2**32, 2**64 - 1]
MATCHES = [0, 1, 2, 3, 4, 5, 7, 8, 9, 15, 16, 23, 29, 31]
BAD_MATCHES = [6, 14, 22, 30, 32, 33, 2**28, 2**32 + 1]
SPECS = [b"", b"${name}-${version}.apk"]
BAD_SPECS = [b"x", b"${name}-${version}.apk ", b"${name}-${version}.ap"]
BAD_LENGTHS = [0, 1, 19, 20, 21, 31, 32, 33, 63, 64, 65]
SCHEMAS = {root: schema for schema, root in verify.ROOTS.items()}


class Maker(verify.Payload):
    """Makes one random container."""

    def __init__(self, rng, odds):
        super().__init__()
        self.rng, self.odds = rng, odds
        self.shares, self.aligns = self.happens(0.7), self.happens(0.8)
        if self.happens(0.1):
            self.bytes[1:4] = rng.randbytes(3)

    def happens(self, odds):
        return self.rng.random() < odds

    def is_odd(self):
        return self.happens(self.odds)

    def one_of(self, good, bad):
        return self.rng.choice(bad if self.is_odd() else good)

    def several(self, most=3):
        return range(self.rng.choice([0, 0, 1, 1, 2, most]))

    def some_of(self, good, most=3):
        """Different ones of a list, and at the odds one of them twice."""
        found = self.rng.sample(good, self.rng.randrange(most + 1))
        if found and self.is_odd():
            found.append(self.rng.choice(found))
        return found

    # Words of values

    def put(self, kind, data, alignment):
        if not self.shares:
            self.words.pop((kind, data), None)
        return super().put(kind, data, alignment if self.aligns else 1)

    def text(self, data):
        if data == b"" and self.happens(0.7):
            return 0
        widths = [width for width in (1, 2, 4) if len(data) < 256**width]
        return self.blob(data, widths[0] if self.happens(0.8) else self.rng.choice(widths))

    def any_text(self):
        return self.text(self.rng.choice(TEXTS))

    def number(self, number):
        if number == 0 and self.happens(0.6):
            return 0
        if number < 2**28 and self.happens(0.8):
            return self.int(number)
        return self.int(number, 4 if number < 2**32 and self.happens(0.8) else 8)

    def any_number(self):
        return self.number(self.rng.choice(NUMBERS))

    def fields(self, *words):
        """An object, with the NULLs at its end or without, or with entries that have no field."""
        words = list(words)
        if self.happens(0.7):
            while words and words[-1] == 0:
                words.pop()
        elif self.happens(0.3):
            words += [self.rng.getrandbits(32) for _ in range(self.rng.randrange(3))]
        return 0 if not words and self.happens(0.7) else self.object(*words)

    def entries(self, words):
        words = list(words)
        if not words and self.happens(0.7):
            return 0
        return self.array(*words + [0] if self.is_odd() else words)

    def any_texts(self):
        return self.entries([self.any_text() for _ in self.several()])

    def any_digest(self, lengths):
        return self.rng.randbytes(self.one_of(lengths, BAD_LENGTHS))

    # Objects

    def dependency(self):
        if self.is_odd():
            return 0
        return self.fields(self.text(self.one_of(PACKAGE_NAMES + ONLY_NEEDED, BAD_NAMES)),
                           self.text(self.one_of([b""] + VERSIONS, BAD_VERSIONS)),
                           self.number(self.one_of(MATCHES, BAD_MATCHES)))

    def info(self, root, name):
        if self.is_odd():
            return 0
        words = [self.text(self.one_of([name], BAD_NAMES + ONLY_NEEDED)),
                 self.text(self.one_of(VERSIONS, BAD_VERSIONS + [b""])),
                 self.text(self.any_digest([20, 32] if root == INDEX else [0, 20, 32, 64]))]
        if self.happens(0.5):
            words += [self.any_text() for _ in range(6)] + [self.text(self.any_digest([0, 2]))]
            words += [self.any_number() for _ in range(4)]
            words += [self.entries([self.dependency() for _ in self.several()]) for _ in range(5)]
            words += [self.any_number(), self.any_texts(), self.any_number()]
        return self.fields(*words)

    def acl(self):
        if self.happens(0.4):
            return 0
        return self.fields(self.any_number(), self.any_text(), self.any_text(), self.any_texts())

    def file(self, root, name):
        """A file, and the bytes of its block of contents if it has one."""
        if self.is_odd():
            return 0, None
        data = self.rng.randbytes(self.rng.choice([0, 1, 3, 9]))
        target = self.one_of(TARGETS, BAD_TARGETS) if self.happens(0.2) else b""
        digest = verify.digest_of(self.rng.choice([20, 32, 64]))(data).digest()
        if self.is_odd():
            digest = self.any_digest(BAD_LENGTHS)
        if (not data or root == DATABASE) and self.happens(0.4):
            digest = b""
        size = self.one_of([len(data)], NUMBERS)
        word = self.fields(self.text(self.one_of([name], BAD_PARTS)), self.acl(),
                           self.number(size), self.any_number(), self.text(digest),
                           self.text(target), self.any_number() if self.happens(0.2) else 0)
        return word, data if size and not target else None

    def file_name(self, root, folder, name, paths):
        """This name, or one that no package has yet."""
        path = verify.join(folder, name)
        stands = path in paths or verify.is_at_or_below(path, verify.RESERVED)
        if root == DATABASE and stands and not self.is_odd():
            name = b"u%d" % self.rng.randrange(10**6)
        paths.add(verify.join(folder, name))
        return name

    def package(self, root, name, paths):
        """A package, and the contents of its files."""
        folders, contents = [], []
        for i, folder in enumerate(self.some_of(FOLDERS), 1):
            folder, files = self.one_of([folder], BAD_PATHS), []
            for j, part in enumerate(self.some_of(PARTS if self.happens(0.2) else PARTS[:8]), 1):
                word, data = self.file(root, self.file_name(root, folder, part, paths))
                files.append(word)
                if data is not None:
                    contents.append(verify.contents(i, j, data, self.happens(0.2)))
            folders.append(self.fields(self.text(folder), self.acl(), self.entries(files)))
        scripts = self.fields(*[self.any_text() for _ in range(7)]) if self.happens(0.5) else 0
        word = self.fields(self.info(root, name), self.entries(folders), scripts, self.any_texts(),
                           self.any_number())
        return word, contents

    def root(self, root):
        """The root value of a schema, and the blocks of contents."""
        if root == PACKAGE:
            return self.package(root, self.rng.choice(PACKAGE_NAMES), set())
        if root == INDEX:
            infos = [self.info(root, self.rng.choice(PACKAGE_NAMES)) for _ in self.several()]
            spec = self.text(self.one_of(SPECS, BAD_SPECS))
            return self.fields(self.any_text(), self.entries(infos), spec), []
        if root == DATABASE:
            paths = set()
            names = self.some_of(PACKAGE_NAMES)
            return self.fields(self.entries(
                [self.package(root, name, paths)[0] for name in names])), []
        paths = [self.text(self.one_of([path], BAD_CHANGED)) for path in self.some_of(CHANGED, 6)]
        cut = self.rng.randrange(len(paths) + 1)
        return self.fields(self.entries(paths[:cut]), self.entries(paths[cut:])), []

    # The file

    def blocks(self, root):
        word, contents = self.root(root)
        if contents and self.is_odd():
            contents.pop(self.rng.randrange(len(contents)))
        if contents and self.is_odd():
            contents.append(self.rng.choice(contents))
        if self.is_odd():
            self.rng.shuffle(contents)
        if self.is_odd():
            contents.append(verify.block(CONTENTS, bytes(self.rng.randrange(12))))
        signatures = [verify.block(SIGNATURE, self.rng.randbytes(self.rng.randrange(14)),
                                   self.happens(0.2)) for _ in self.several(2)]
        blocks = [verify.block(ADB_BLOCK, self.end(word), self.happens(0.2))]
        blocks += signatures + contents
        if self.is_odd():
            self.rng.shuffle(blocks)
        return blocks

    def file_of(self, root):
        schema = self.one_of([SCHEMAS[root]], list(SCHEMAS.values()) + [5])
        file = bytearray(verify.container(schema, *self.blocks(root)))
        if self.happens(0.2):
            del file[len(file) - self.rng.randrange(8):]
        if self.happens(0.4):
            for _ in range(self.rng.choice([1, 1, 2, 3, 8])):
                self.change(file)
        return bytes(file)

    def change(self, file):
        """Changes a byte, or a word to another of the file, to one of any kind, or by little."""
        words = len(file) // 4
        if self.happens(0.4):
            file[self.rng.randrange(len(file))] ^= 1 << self.rng.randrange(8)
        elif words > 2:
            at = 4 * self.rng.randrange(2, words)
            old = struct.unpack_from("<I", file, at)[0]
            other = struct.unpack_from("<I", file, 4 * self.rng.randrange(2, words))[0]
            made = self.rng.randrange(16) << 28 | self.rng.choice([0, 8, self.rng.randrange(
                len(file)), 2**28 - 1])
            new = self.rng.choice([other, made, old + self.rng.choice([-4, -1, 1, 4])])
            struct.pack_into("<I", file, at, new % 2**32)


def text_of(test, file):
    try:
        return test(file)
    except verify.Fault as fault:
        return fault.text


def main(words):
    rng, odds = random.Random(int(words[0])), float(words[2]) if len(words) > 2 else 0.02
    print("topic damage ->")
    for _ in range(int(words[1])):
        file = Maker(rng, odds).file_of(rng.choice([PACKAGE, PACKAGE, INDEX, DATABASE, INTENT]))
        answer = verify.answer_text(text_of(verify.verify, file))
        print(f"container {verify.row_text(file)} ->")
        print(f"verify -> {answer}\\n\npieces -> {answer}\\n")
        print(f"dump -> {verify.answer_text(text_of(verify.dump, file))}\\n")


if __name__ == "__main__":
    main(sys.argv[1:])
