#!/usr/bin/env python3
"""A second reader of containers, written from docs/formats.md alone, and the rows of the topic
`damage` of crates/container_tests that it works out.

    python3 tests/model/verify.py                                writes the rows to the file `stdin`
    python3 tests/model/verify.py rows                           prints the rows
    python3 tests/model/verify.py verify FILE                    the first failed test, or `sound`
    python3 tests/model/verify.py dump FILE                      the text, or the first failed test
    python3 tests/model/verify.py answers NAME SWEEP [dump]      every answer of a sweep
    python3 tests/model/verify.py file NAME                      the bytes of a container

NAME is package, index, database or intent; SWEEP is changes, words or cuts. Without `dump` the
answers are those of `verify`. The rows take a few minutes.

It shares no code with the program: where the two differ, one of them is wrong.
"""

import hashlib
import os
import re
import struct
import sys

# ---------------------------------------------------------------------------------------------
# Tables ("Schemas")

INT, TEXT, HASH = "int", "text", "hash"


def array(of):
    return ("array", of)


def table(number):
    return ("object", number)


TABLES = {
    1: [("name", TEXT), ("version", TEXT), ("match", INT)],
    2: [("mode", INT), ("user", TEXT), ("group", TEXT), ("xattrs", array(TEXT))],
    3: [("name", TEXT), ("version", TEXT), ("hashes", HASH), ("description", TEXT),
        ("arch", TEXT), ("license", TEXT), ("origin", TEXT), ("maintainer", TEXT), ("url", TEXT),
        ("repo-commit", HASH), ("build-time", INT), ("installed-size", INT), ("file-size", INT),
        ("provider-priority", INT), ("depends", array(table(1))), ("provides", array(table(1))),
        ("replaces", array(table(1))), ("install-if", array(table(1))),
        ("recommends", array(table(1))), ("layer", INT), ("tags", array(TEXT)), ("unused", INT)],
    4: [("name", TEXT), ("acl", table(2)), ("size", INT), ("mtime", INT), ("hashes", HASH),
        ("target", TEXT), ("unused", INT)],
    5: [("name", TEXT), ("acl", table(2)), ("files", array(table(4)))],
    6: [("trigger", TEXT), ("pre-install", TEXT), ("post-install", TEXT), ("pre-deinstall", TEXT),
        ("post-deinstall", TEXT), ("pre-upgrade", TEXT), ("post-upgrade", TEXT)],
    7: [("info", table(3)), ("paths", array(table(5))), ("scripts", table(6)),
        ("triggers", array(TEXT)), ("replaces-priority", INT)],
    8: [("description", TEXT), ("packages", array(table(3))), ("pkgname-spec", TEXT)],
    9: [("packages", array(table(7)))],
    10: [("removals", array(TEXT)), ("writes", array(TEXT))],
}

PACKAGE, INDEX, DATABASE, INTENT = 7, 8, 9, 10
KINDS_OF_WORDS = {INT: (1, 2, 3), TEXT: (8, 9, 10), HASH: (8, 9, 10), "array": (13,),
                  "object": (14,)}
ROOTS = {0x676B6370: PACKAGE, 0x78646E69: INDEX, 0x00626469: DATABASE, 0x74746E69: INTENT}
MOST_VISITS = 4_194_304


class Fault(Exception):
    """A failed test: its text, and its kind, which is the text without numbers."""

    def __init__(self, kind, text=None):
        super().__init__(text or kind)
        self.kind = kind
        self.text = text or kind


def truncated(at):
    return Fault("truncated", f"truncated at {at}")


def bad_field(place):
    return Fault("bad field", f"bad field {place}")


def repeated(place, first, second):
    return Fault("field repeated", f"field {place} repeated at {first} and {second}")


# ---------------------------------------------------------------------------------------------
# The file's header and its blocks ("Container")

ADB_BLOCK, SIGNATURE, CONTENTS = 0, 1, 2


def schema_of(file):
    if len(file) < 4:
        raise truncated(0)
    if file[:4] in (b"ADBd", b"ADBc"):
        raise Fault("compressed ADB file")
    if file[:4] != b"ADB.":
        raise Fault("not an ADB file")
    if len(file) < 8:
        raise truncated(0)
    return struct.unpack_from("<I", file, 4)[0]


def blocks_of(file):
    """Each block as its offset, its kind and its payload."""
    at, last = 8, None
    while at < len(file):
        left = len(file) - at
        if left < 4:
            raise truncated(at)
        head = struct.unpack_from("<I", file, at)[0]
        kind, size, head_len = head >> 30, head & 0x3FFFFFFF, 4
        if kind == 3:
            if left < 16:
                raise truncated(at)
            kind, head_len = size, 16
            size = struct.unpack_from("<Q", file, at + 8)[0]
        if kind > CONTENTS:
            raise Fault("block out of order", f"block out of order at {at}")
        if (last is None) != (kind == ADB_BLOCK) or (last is not None and kind < last):
            raise Fault("block out of order", f"block out of order at {at}")
        if size < head_len or size > left:
            raise truncated(at)
        if kind == ADB_BLOCK and size - head_len < 8:
            raise truncated(at)
        yield at, kind, file[at + head_len:at + size]
        last = kind
        at = (at + size + 7) // 8 * 8
    if last is None:
        raise truncated(8)


# ---------------------------------------------------------------------------------------------
# The values of a payload ("Values", "The shape")

class Shape:
    """Walks the words of a payload depth first and makes their plain values: None, an int, bytes,
    or a list, which for an object has a place for each field of its table."""

    def __init__(self, payload):
        self.payload = payload
        self.visits = 0

    def outside(self, word):
        return Fault("value points outside", f"value {word:08x} points outside")

    def run(self, word):
        at, size = word & 0x0FFFFFFF, len(self.payload)
        if at + 4 > size:
            raise self.outside(word)
        count = struct.unpack_from("<I", self.payload, at)[0]
        if count == 0 or at + 4 * count > size:
            raise self.outside(word)
        return struct.unpack_from(f"<{count - 1}I", self.payload, at + 4)

    def blob(self, word):
        at, size = word & 0x0FFFFFFF, len(self.payload)
        width = {8: 1, 9: 2, 10: 4}[word >> 28]
        if at + width > size:
            raise self.outside(word)
        length = int.from_bytes(self.payload[at:at + width], "little")
        if at + width + length > size:
            raise self.outside(word)
        return self.payload[at + width:at + width + length]

    def number(self, word):
        at = word & 0x0FFFFFFF
        if word >> 28 == 1:
            return at
        width = {2: 4, 3: 8}[word >> 28]
        if at + width > len(self.payload):
            raise self.outside(word)
        return int.from_bytes(self.payload[at:at + width], "little")

    def value(self, word, shape):
        self.visits += 1
        if self.visits > MOST_VISITS:
            raise Fault("values are too many", f"{self.visits} values are too many")
        if word == 0:
            return None
        kind = word >> 28
        if kind not in KINDS_OF_WORDS[shape if isinstance(shape, str) else shape[0]]:
            raise Fault("value has the wrong kind", f"value {word:08x} has the wrong kind")
        if shape == INT:
            return self.number(word)
        if shape in (TEXT, HASH):
            return self.blob(word) or None
        run = self.run(word)
        if shape[0] == "array":
            return [self.value(entry, shape[1]) for entry in run] or None
        fields = TABLES[shape[1]]
        found = [self.value(entry, field[1]) for entry, field in zip(run, fields)]
        if all(entry is None for entry in found):
            return None
        return found + [None] * (len(fields) - len(found))


# ---------------------------------------------------------------------------------------------
# The rules of texts and numbers ("The texts")

VERSION = re.compile(
    rb"[0-9]{1,18}(\.[0-9]{1,18})*[a-z]?"
    rb"(_(alpha|beta|pre|rc|cvs|svn|git|hg|p)([0-9]{1,18})?)*(~[0-9a-f]+)?(-r[0-9]{1,18})?")
DEPENDENCY_NAME = re.compile(rb"[^\x00-\x20\x7f-\xff!<=>@~]{1,255}")
RESERVED = (b"etc/apk/world", b"lib/apk/intent", b"lib/apk/stage", b"lib/apk/db")
OF_THE_JOURNAL = (b"lib/apk/intent", b"lib/apk/stage")


def is_version(text):
    return VERSION.fullmatch(text) is not None


def is_dependency_name(text):
    return DEPENDENCY_NAME.fullmatch(text) is not None


def is_package_name(text):
    return is_dependency_name(text) and b"/" not in text and text[:1] not in (b"-", b".")


def is_utf8(text):
    try:
        text.decode("utf-8")
        return True
    except UnicodeDecodeError:
        return False


def is_path(text):
    return (1 <= len(text) <= 1024 and is_utf8(text) and b"\0" not in text
            and all(part not in (b"", b".", b"..") for part in text.split(b"/")))


def is_at_or_below(path, names):
    return any(path == name or path.startswith(name + b"/") for name in names)


def join(folder, name):
    return folder + b"/" + name if folder else name


def is_target(text):
    return text == b"" or (text[:2] == b"\x00\xa0" and len(text) > 2 and is_utf8(text[2:]))


class Texts:
    """Tests the plain value of a container of a schema by the rules of its fields, in the order in
    which the words are visited."""

    def __init__(self, root):
        self.root = root

    def test(self, value):
        self.test_object(value, self.root, None)

    def test_object(self, value, number, folder):
        fields = TABLES[number]
        value = value or [None] * len(fields)
        for i, (_, shape) in enumerate(fields):
            self.test_field(value, number, i + 1, shape, folder)

    def test_field(self, value, number, field, shape, folder):
        place, found = 100 * number + field, value[field - 1]
        if shape in (TEXT, HASH):
            if not self.is_good_text(place, found or b"", value, folder):
                raise bad_field(place)
        elif shape == INT:
            if place == 103 and ((found or 0) >= 32 or (found or 0) % 16 in (6, 14)):
                raise bad_field(place)
        elif shape[0] == "object":
            self.test_object(found, shape[1], None)
        elif shape[1] == TEXT:
            for entry in found or []:
                if not self.is_good_text(place, entry or b"", value, folder):
                    raise bad_field(place)
        else:
            folder = value[0] or b"" if number == 5 else None
            for entry in found or []:
                self.test_object(entry, shape[1][1], folder)

    def is_good_text(self, place, text, value, folder):
        if place == 101:
            return is_dependency_name(text)
        if place == 102:
            return text == b"" or is_version(text)
        if place == 301:
            return is_package_name(text)
        if place == 302:
            return is_version(text)
        if place == 303:
            return len(text) in ((20, 32) if self.root == INDEX else (0, 20, 32, 64))
        if place == 401:
            path = join(folder, text)
            return (b"/" not in text and is_path(text) and len(path) <= 1024
                    and not (self.root == DATABASE and is_at_or_below(path, RESERVED)))
        if place == 405:
            if self.root != DATABASE and has_contents(value):
                return len(text) in (20, 32, 64)
            return len(text) in (0, 20, 32, 64)
        if place == 406:
            return is_target(text)
        if place == 501:
            return text == b"" or is_path(text)
        if place == 803:
            return text in (b"", b"${name}-${version}.apk")
        if place in (1001, 1002):
            return is_path(text) and not is_at_or_below(text, OF_THE_JOURNAL)
        return True


def has_contents(file):
    """Whether a file has a size above 0 and no target."""
    return bool(file[2]) and not file[5]


# ---------------------------------------------------------------------------------------------
# Names that stand twice

def field_of(value, i):
    """A field of an object, which may be None."""
    return value[i] if value else None


def pairs_in(names):
    """For each name that stood before: its position, the first one, counted from 1."""
    first = {}
    for i, name in enumerate(names, 1):
        if name in first:
            yield i, first[name]
        else:
            first[name] = i


def report_least(place, lists):
    pairs = [pair for names in lists for pair in pairs_in(names)]
    if pairs:
        second, first = min(pairs)
        raise repeated(place, first, second)


def test_names_twice(root, value):
    if root == INTENT:
        removals, writes = field_of(value, 0) or [], field_of(value, 1) or []
        return report_least(1002, [removals + writes])
    if root == INDEX:
        return None
    packages = [value] if root == PACKAGE else field_of(value, 0) or []
    paths = [field_of(package, 1) or [] for package in packages]
    report_least(501, [[field_of(folder, 0) or b"" for folder in folders] for folders in paths])
    report_least(401, [[field_of(file, 0) for file in field_of(folder, 2) or []]
                       for folders in paths for folder in folders])
    if root == DATABASE:
        report_least(901, [[field_of(field_of(package, 0), 0) for package in packages]])
        owners = {}
        for i, folders in enumerate(paths, 1):
            for folder in folders:
                for file in field_of(folder, 2) or []:
                    path = join(field_of(folder, 0) or b"", field_of(file, 0) or b"")
                    owners.setdefault(path, []).append(i)
        pairs = [(found[1], found[0]) for found in owners.values() if len(found) > 1]
        if pairs:
            second, first = min(pairs)
            raise repeated(401, first, second)
    return None


# ---------------------------------------------------------------------------------------------
# The blocks behind the values ("The other blocks")

def digest_of(length):
    return {20: hashlib.sha1, 32: hashlib.sha256, 64: hashlib.sha512}[length]


def wrong_contents(found, wanted):
    return Fault("contents where others were expected",
                 f"contents {found[0]}.{found[1]} where {wanted[0]}.{wanted[1]} was expected")


def files_with_contents(value):
    for i, folder in enumerate(field_of(value, 1) or [], 1):
        for j, file in enumerate(field_of(folder, 2) or [], 1):
            if has_contents(file):
                yield (i, j), file


def test_contents(blocks, files):
    """Tests the blocks behind the first, where these files are to have contents."""
    files = list(files)
    for at, kind, payload in blocks:
        if kind != CONTENTS:
            continue
        if len(payload) < 8:
            raise truncated(at)
        found = struct.unpack_from("<II", payload)
        wanted, file = files.pop(0) if files else ((0, 0), None)
        if found != wanted or file is None:
            raise wrong_contents(found, wanted)
        size, hash_ = file[2], file[4]
        if len(payload) - 8 != size:
            raise Fault("contents of another length",
                        f"contents of {len(payload) - 8} bytes where {size} were expected")
        digest = digest_of(len(hash_))(payload[8:]).digest()
        if digest != hash_:
            raise Fault("hash where another was expected",
                        f"hash {digest.hex()} where {hash_.hex()} was expected")
    if files:
        raise wrong_contents((0, 0), files[0][0])


# ---------------------------------------------------------------------------------------------
# The tests in their order

def read_values(file):
    """The root's table, the plain value of the first block, and the blocks behind it."""
    schema = schema_of(file)
    if schema not in ROOTS:
        raise Fault("wrong schema", f"wrong schema {schema:08x}")
    root = ROOTS[schema]
    blocks = blocks_of(file)
    _, _, payload = next(blocks)
    if payload[0] != 0:
        raise Fault("incompatible version")
    value = Shape(payload).value(struct.unpack_from("<I", payload, 4)[0], table(root))
    return schema, root, value, blocks


def verify(file):
    _, root, value, blocks = read_values(file)
    Texts(root).test(value)
    test_names_twice(root, value)
    test_contents(blocks, files_with_contents(value) if root == PACKAGE else [])
    return "sound"


# ---------------------------------------------------------------------------------------------
# The text of a value ("Dump text")

def dump(file):
    schema, root, value, blocks = read_values(file)
    for _ in blocks:
        pass
    lines = [f"#%SCHEMA: {schema:08x}"] + lines_of_object(value, root, 0)
    return "".join(line + "\n" for line in lines)


def lines_of_object(value, number, depth):
    lines = []
    for (name, shape), found in zip(TABLES[number], value or []):
        if found is None:
            continue
        indent = "  " * depth
        if isinstance(shape, str):
            lines.append(f"{indent}{name}: {scalar_text(found, shape)}")
            continue
        lines.append(f"{indent}{name}:")
        if shape[0] == "object":
            lines += lines_of_object(found, shape[1], depth + 1)
        else:
            for entry in found:
                lines += lines_of_entry(entry, shape[1], depth + 1)
    return lines


def lines_of_entry(entry, shape, depth):
    indent = "  " * depth
    if entry is None:
        return [f"{indent}- null"]
    if isinstance(shape, str):
        return [f"{indent}- {scalar_text(entry, shape)}"]
    lines = lines_of_object(entry, shape[1], depth + 1)
    return [indent + "- " + lines[0][len(indent) + 2:]] + lines[1:]


def scalar_text(value, shape):
    if shape == INT:
        return str(value)
    if shape == HASH:
        return value.hex()
    plain = (all(0x20 <= byte <= 0x7E for byte in value) and value[0] != 0x20 and value[-1] != 0x20
             and value[0] != 0x22 and value != b"null")
    if plain:
        return value.decode("ascii")
    return '"' + "".join(escaped(byte) for byte in value) + '"'


def escaped(byte):
    if byte == 0x0A:
        return "\\n"
    if byte in (0x22, 0x5C):
        return "\\" + chr(byte)
    if 0x20 <= byte <= 0x7E:
        return chr(byte)
    return f"\\x{byte:02x}"


# ---------------------------------------------------------------------------------------------
# Small containers. They are not all canonical: values have every width, and blocks both headers.

class Payload:
    """Lays values one behind the other, aligned as the canonical layout says, and none twice."""

    def __init__(self):
        self.bytes = bytearray(8)
        self.words = {}

    def put(self, kind, data, alignment):
        if (kind, data) not in self.words:
            while len(self.bytes) % alignment:
                self.bytes.append(0)
            self.words[kind, data] = kind << 28 | len(self.bytes)
            self.bytes += data
        return self.words[kind, data]

    def blob(self, data, width=1):
        kind = {1: 8, 2: 9, 4: 10}[width]
        return self.put(kind, len(data).to_bytes(width, "little") + data, width)

    def int(self, number, width=0):
        if width == 0:
            return 1 << 28 | number
        return self.put({4: 2, 8: 3}[width], number.to_bytes(width, "little"), width)

    def run(self, kind, words):
        return self.put(kind, struct.pack(f"<{len(words) + 1}I", len(words) + 1, *words), 4)

    def array(self, *words):
        return self.run(13, words)

    def object(self, *words):
        return self.run(14, words)

    def end(self, root):
        struct.pack_into("<I", self.bytes, 4, root)
        return bytes(self.bytes)


def block(kind, payload, extended=False):
    if extended:
        data = struct.pack("<IIQ", 3 << 30 | kind, 0, 16 + len(payload)) + payload
    else:
        data = struct.pack("<I", kind << 30 | 4 + len(payload)) + payload
    return data + bytes(-len(data) % 8)


def container(schema, *blocks):
    return b"ADB." + struct.pack("<I", schema) + b"".join(blocks)


def contents(folder, file, data, extended=False):
    return block(CONTENTS, struct.pack("<II", folder, file) + data, extended)


def package():
    """Two folders, three files, and a link; digests of each kind; a signature, an extended header,
    and no padding at the end."""
    p = Payload()
    name = p.blob(b"a")
    depends = p.array(p.object(p.blob(b"b"), p.blob(b"1.2"), p.int(5)))
    info = p.object(name, p.blob(b"1.0-r0"), 0, 0, 0, 0, p.blob(b"ab", 2), 0, 0, 0, p.int(9, 4),
                    p.int(6), 0, 0, depends)
    acl = p.object(p.int(493), p.blob(b"root"))
    f = p.object(p.blob(b"f"), acl, p.int(3), p.int(1 << 32, 8),
                 p.blob(hashlib.sha1(b"abc").digest()))
    link = p.object(p.blob(b"l"), acl, 0, 0, 0, p.blob(b"\x00\xa0f"))
    x = p.object(p.blob(b"x"), 0, p.int(2, 4), 0, p.blob(hashlib.sha256(b"xy").digest()))
    y = p.object(p.blob(b"y", 4), 0, p.int(1), 0, p.blob(hashlib.sha512(b"z").digest()))
    paths = p.array(p.object(0, acl, p.array(f, link)),
                    p.object(p.blob(b"u/b"), acl, p.array(x, y)))
    scripts = p.object(p.blob(b"#!t"), 0, p.blob(b"\n"))
    root = p.object(info, paths, scripts, p.array(p.blob(b"/u/*")), p.int(7))
    file = container(0x676B6370, block(ADB_BLOCK, p.end(root)), block(SIGNATURE, b"sig"),
                     contents(1, 1, b"abc"), contents(2, 1, b"xy", True), contents(2, 2, b"z"))
    return file[:len(file) - 3]


def index():
    """Two packages, with fields of each kind and dependencies with several operators."""
    p = Payload()

    def dependency(name, version=None, match=None):
        words = [p.blob(name), p.blob(version) if version else 0, p.int(match) if match else 0]
        return p.object(*words)

    a = p.object(p.blob(b"a"), p.blob(b"1.2_rc1-r3"), p.blob(bytes(range(20))),
                 p.blob(b" t\xc3\xa9"), p.blob(b"noarch"), p.blob(b"MIT"), p.blob(b"a"),
                 p.blob(b"m"), p.blob(b"u:"), p.blob(b"\x01\x02"), p.int(1 << 33, 8), p.int(4096),
                 p.int(1 << 28, 4), p.int(1),
                 p.array(dependency(b"b", b"2~af", 13), dependency(b"so:c")),
                 p.array(dependency(b"v", b"1")), p.array(dependency(b"a", b"0", 2)),
                 p.array(dependency(b"/i", None, 23)), p.array(dependency(b"r")), p.int(2),
                 p.array(p.blob(b"t"), p.blob(b"null")), p.int(3))
    b = p.object(p.blob(b"b"), p.blob(b"02.1a"), p.blob(bytes(range(100, 132))))
    root = p.object(p.blob(b"d"), p.array(a, b), p.blob(b"${name}-${version}.apk"))
    return container(0x78646E69, block(ADB_BLOCK, p.end(root), True), block(SIGNATURE, b""))


def database():
    """Two packages with a folder of one name, a file whose name is nearly reserved, and files that
    differ in one byte of their names."""
    p = Payload()
    acl = p.object(p.int(0o644, 4), p.blob(b"r"), p.blob(b"r"), p.array(p.blob(b"k=v")))
    a = p.object(p.blob(b"a"), p.blob(b"1"), p.blob(bytes(20)))
    b = p.object(p.blob(b"b"), p.blob(b"1"), p.blob(bytes(32)))
    f = p.object(p.blob(b"f"), acl, p.int(3), 0, p.blob(bytes(20)))
    g = p.object(p.blob(b"g"), acl)
    h = p.object(p.blob(b"dc"), acl, p.int(5))
    i = p.object(p.blob(b"h"))
    usr = p.object(p.blob(b"u"), acl, p.array(f, g))
    apk = p.object(p.blob(b"lib/apk"), 0, p.array(h))
    also = p.object(p.blob(b"u"), acl, p.array(i))
    root = p.object(p.array(p.object(a, p.array(usr, apk), p.object(0, p.blob(b"s")),
                                     p.array(p.blob(b"/u")), p.int(2)),
                            p.object(b, p.array(also))))
    return container(0x00626469, block(ADB_BLOCK, p.end(root)))


def intent():
    """Names to be removed and written that differ in one byte, and one that is nearly the
    intent's own."""
    p = Payload()
    removals = p.array(p.blob(b"b"), p.blob(b"lib/apk/stagf"))
    writes = p.array(p.blob(b"c"), p.blob(b"c/d", 2), p.blob(b"lib/apk/inten"))
    return container(0x74746E69, block(ADB_BLOCK, p.end(p.object(removals, writes))))


CONTAINERS = {"package": package, "index": index, "database": database, "intent": intent}


# ---------------------------------------------------------------------------------------------
# Sweeps

KINDS = ["sound", "not an ADB file", "compressed ADB file", "truncated", "block out of order",
         "incompatible version", "wrong schema", "value points outside",
         "value has the wrong kind", "values are too many", "bad field", "field repeated",
         "contents where others were expected", "contents of another length",
         "hash where another was expected"]


def changed_files(file):
    for at in range(len(file)):
        for value in range(256):
            yield f"{at} {value}", file[:at] + bytes([value]) + file[at + 1:]


def word_files(file):
    for at in range(0, len(file) - 3, 4):
        for start in range(0, len(file) - 3, 4):
            yield f"{at} {start}", file[:at] + file[start:start + 4] + file[at + 4:]


def cut_files(file):
    for length in range(len(file) + 1):
        yield f"{length}", file[:length]


def answers(test, files):
    """Each answer as its kind and a line."""
    for front, file in files:
        try:
            found, kind = test(file), "sound"
        except Fault as fault:
            found, kind = fault.text, fault.kind
        yield kind, f"{front} {found}\n"


def sweep_answer(test, files):
    """How many answers there are of each kind, and the SHA-256 of all lines."""
    counts, lines = dict.fromkeys(KINDS, 0), hashlib.sha256()
    for kind, line in answers(test, files):
        counts[kind] += 1
        lines.update(line.encode("ascii"))
    found = ", ".join(f"{kind} {count}" for kind, count in counts.items() if count)
    return f"{found}, {lines.hexdigest()}"


def row_text(data):
    """Bytes as a word of a row."""
    return "".join(chr(b) if 0x21 <= b <= 0x7E and b != 0x5C else f"\\x{b:02x}" for b in data)


def answer_text(text):
    """A text as the wanted answer of a row."""
    return text.replace("\\", "\\\\").replace("\n", "\\n")


SWEEPS = {"changes": changed_files, "words": word_files, "cuts": cut_files}
TESTS = {"verify": verify, "dump": dump}


STDIN = os.path.join(os.path.dirname(os.path.abspath(__file__)),
                     "../../crates/container_tests/stdin")
TOPIC = "topic damage ->\n"


def rows():
    """The rows of the topic `damage`, in several texts."""
    yield (TOPIC + "\n"
           "# Each byte of a small container set to each value, each word to each other, each cut.\n"
           "# The answers are those of tests/model/verify.py, which writes these rows.\n"
           "# `tests/lines.md` describes the form.\n")
    for name, make in CONTAINERS.items():
        file = make()
        yield f"\n# {name}: {len(file)} bytes.\ncontainer {row_text(file)} ->\n"
        yield f"verify -> sound\\n\npieces -> sound\\n\ndump -> {answer_text(dump(file))}\\n\n"
        for sweep_name, sweep in SWEEPS.items():
            answer = sweep_answer(verify, sweep(file))
            yield f"verify_{sweep_name} -> {answer}\npieces_{sweep_name} -> {answer}\n"
            yield f"dump_{sweep_name} -> {sweep_answer(dump, sweep(file))}\n"


def write_rows():
    """Replaces the rows of the topic `damage`, which are the last ones of the file `stdin`."""
    with open(STDIN, encoding="utf-8") as opened:
        others, topic, _ = opened.read().partition(TOPIC)
    if not topic:
        sys.exit(f"{STDIN} has no topic `damage`")
    found = "".join(rows())
    with open(STDIN, "w", encoding="utf-8") as opened:
        opened.write(others + found)


def main(words):
    if not words:
        return write_rows()
    if words[0] == "rows":
        for text in rows():
            sys.stdout.write(text)
            sys.stdout.flush()
    elif words[0] in TESTS:
        with open(words[1], "rb") as opened:
            file = opened.read()
        for kind, line in answers(TESTS[words[0]], [("", file)]):
            sys.stdout.write(line[1:])
    elif words[0] == "answers":
        test = TESTS[words[3]] if len(words) > 3 else verify
        for _, line in answers(test, SWEEPS[words[2]](CONTAINERS[words[1]]())):
            sys.stdout.write(line)
    elif words[0] == "file":
        sys.stdout.buffer.write(CONTAINERS[words[1]]())
    return None


if __name__ == "__main__":
    main(sys.argv[1:])
