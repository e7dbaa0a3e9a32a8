"""Containers as apk-v3(5) lays them out, and the time that a command takes; for the scripts beside this file."""
import hashlib
import os
import resource
import struct
import subprocess
import time


class Payload:
    """Writes values one behind another; each call answers the value's word."""

    def __init__(self):
        self.bytes = bytearray(8)

    def pad(self, align):
        self.bytes += bytes(-len(self.bytes) % align)

    def blob(self, data):
        kind, form = (8, "<B") if len(data) < 1 << 8 else (9, "<H") if len(data) < 1 << 16 else (10, "<I")
        word = kind << 28 | len(self.bytes)
        self.bytes += struct.pack(form, len(data)) + data
        return word

    def int(self, number):
        if number < 1 << 28:
            return 0x10000000 | number
        self.pad(4)
        word = 0x20000000 | len(self.bytes)
        self.bytes += struct.pack("<I", number)
        return word

    def array(self, words):
        return self.run(0xD0000000, words)

    def object(self, words):
        return self.run(0xE0000000, words)

    def run(self, kind, words):
        self.pad(4)
        word = kind | len(self.bytes)
        self.bytes += struct.pack("<%dI" % (len(words) + 1), len(words) + 1, *words)
        return word

    def done(self, root):
        self.bytes[4:8] = struct.pack("<I", root)
        return bytes(self.bytes)


def block(kind, payload):
    """A block with its padding: 0 holds values, 2 the contents of a file."""
    raw = len(payload) + 4
    head = struct.pack("<I", kind << 30 | raw) if raw < 1 << 30 else struct.pack("<IIQ", 3 << 30 | kind, 0, raw + 12)
    return head + payload + bytes(-(len(head) + len(payload)) % 8)


def package(files, name=b"bench"):
    """The pieces of a package with these files, (name, bytes) each, in its root folder."""
    payload = Payload()
    info = payload.object([payload.blob(name), payload.blob(b"1")])
    entries = [
        payload.object([payload.blob(name), 0, payload.int(len(data)), 0, payload.blob(hashlib.sha256(data).digest())])
        for name, data in files
    ]
    folder = payload.object([0, 0, payload.array(entries)])
    yield b"ADB.pckg" + block(0, payload.done(payload.object([info, payload.array([folder])])))
    for i, (_, data) in enumerate(files):
        yield block(2, struct.pack("<II", 1, i + 1) + data)


def index_entry(payload, i, packages):
    name = b"package-%05d" % i
    fields = [0] * 15
    fields[0] = payload.blob(name)
    fields[1] = payload.blob(b"1.%d.%d-r%d" % (i % 7, i % 13, i % 3))
    fields[2] = payload.blob(hashlib.sha256(name).digest())
    fields[3] = payload.blob(b"A package that shows how long a test takes")
    fields[4] = payload.blob(b"x86_64")
    fields[5] = payload.blob(b"MIT")
    fields[11] = payload.int(i % 100000)
    needs = [payload.object([payload.blob(b"package-%05d" % ((i * k) % packages))]) for k in (3, 5, 7)]
    fields[14] = payload.array(needs)
    return payload.object(fields)


def index(packages):
    """An index of so many packages, with three dependencies each."""
    payload = Payload()
    infos = [index_entry(payload, i, packages) for i in range(packages)]
    return b"ADB.indx" + block(0, payload.done(payload.object([0, payload.array(infos)])))


def database(packages, files):
    """A database of so many packages, with so many files each."""
    payload = Payload()
    entries = []
    for i in range(packages):
        name = b"package-%05d" % i
        info = payload.object([payload.blob(name), payload.blob(b"1"), payload.blob(hashlib.sha256(name).digest())])
        listed = [
            payload.object([payload.blob(b"file-%02d" % k), 0, payload.int(100), 0, payload.blob(hashlib.sha256(b"%d %d" % (i, k)).digest())])
            for k in range(files)
        ]
        folder = payload.object([payload.blob(b"usr/share/" + name), 0, payload.array(listed)])
        entries.append(payload.object([info, payload.array([folder])]))
    return b"ADB.idb\0" + block(0, payload.done(payload.object([payload.array(entries)])))


def sharing_database(packages, size):
    """A database of so many packages, whose description, whose script and the version of what they replace are three texts of this size."""
    payload = Payload()
    description, script = payload.blob(b"d" * size), payload.blob(b"s" * size)
    replaced = payload.array([payload.object([payload.blob(b"a"), payload.blob(b"1" + b".1" * (size // 2))])])
    scripts = payload.object([0, 0, script])
    entries = []
    for i in range(packages):
        name = b"package-%05d" % i
        first = [payload.blob(name), payload.blob(b"1"), payload.blob(hashlib.sha256(name).digest()), description]
        entries.append(payload.object([payload.object(first + [0] * 12 + [replaced]), 0, scripts]))
    return b"ADB.idb\0" + block(0, payload.done(payload.object([payload.array(entries)])))


def index_of_one(payload, packages, provides):
    """An index in which one package, which provides all this, stands at so many places."""
    info = [payload.blob(b"a"), payload.blob(b"1"), payload.blob(bytes(32))] + [0] * 12 + [payload.array(provides)]
    packages = payload.array([payload.object(info)] * packages)
    return b"ADB.indx" + block(0, payload.done(payload.object([0, packages])))


def shared_versions(versions, packages, provides):
    """An index of packages times provides places, which share so many versions in turn."""
    payload = Payload()
    name = payload.blob(b"a")
    words = [payload.object([name, payload.blob(version)]) for version in versions]
    return index_of_one(payload, packages, [words[i % len(words)] for i in range(provides)])


def overlapping_versions(text, starts):
    """An index with a version behind each of these offsets of one text; the two bytes at the offset are its length."""
    payload = Payload()
    name = payload.blob(b"a")
    at = len(payload.bytes)
    payload.bytes += text
    return index_of_one(payload, 1, [payload.object([name, 0x90000000 | at + start]) for start in starts])


def options_that_overlap(text, starts):
    """An index of packages of one name, each of the version behind one of these offsets of one text, as above."""
    payload = Payload()
    name, digest = payload.blob(b"a"), payload.blob(bytes(32))
    at = len(payload.bytes)
    payload.bytes += text
    packages = payload.array([payload.object([name, 0x90000000 | at + start, digest]) for start in starts])
    return b"ADB.indx" + block(0, payload.done(payload.object([0, packages])))


def equal_in_other_bytes(count):
    """Of half of so many packages of one name the version is `1_p01_p01..`, of the others `1_p1_p1..`: in pairs their tokens are equal, and
    no byte behind the third. All have 12 kB at least, and overlap."""
    half = count // 2
    first, second = b"_p01" * (half + 3200), b"_p1" * (half + 9700)
    return options_that_overlap(first + second, [4 * i + 1 for i in range(half)] + [len(first) + 3 * i for i in range(half)])


def overlapping_names(text, starts):
    """A package whose one folder has a file with a name behind each of these offsets of one text, as with versions."""
    payload = Payload()
    at = len(payload.bytes)
    payload.bytes += text
    info = payload.object([payload.blob(b"a"), payload.blob(b"1")])
    entries = [payload.object([0x90000000 | at + start]) for start in starts]
    folder = payload.object([0, 0, payload.array(entries)])
    return b"ADB.pckg" + block(0, payload.done(payload.object([info, payload.array([folder])])))


def tags_that_overlap(payload, count):
    """So many tags of 4 MB, each of which begins four bytes behind the one before: its length is there. So all are equal."""
    payload.pad(4)
    at = len(payload.bytes)
    payload.bytes += struct.pack("<I", 4 << 20) * (count + (1 << 20) + 1)
    return payload.array([0xA0000000 | at + 4 * i for i in range(count)])


def overlapping_tags(count):
    """An index of one package with so many tags that overlap."""
    payload = Payload()
    info = [payload.blob(b"a"), payload.blob(b"1"), payload.blob(bytes(32))] + [0] * 17
    packages = payload.array([payload.object(info + [tags_that_overlap(payload, count)])])
    return b"ADB.indx" + block(0, payload.done(payload.object([0, packages])))


def package_of(payload, fields, folders=()):
    """A package with these fields of its information, and these folders."""
    return b"ADB.pckg" + block(0, payload.done(payload.object([payload.object(fields), payload.array(list(folders))])))


def package_of_patterns(pattern, count, folder):
    """The pieces of a package with a trigger script, whose triggers are so many places of one pattern, and a file of one byte in this folder."""
    payload = Payload()
    info = payload.object([payload.blob(b"a"), payload.blob(b"1")])
    file = payload.object([payload.blob(b"f"), 0, payload.int(1), 0, payload.blob(hashlib.sha256(b"x").digest())])
    paths = payload.array([payload.object([payload.blob(folder), 0, payload.array([file])])])
    scripts = payload.object([payload.blob(b"true")])
    triggers = payload.array([payload.blob(pattern)] * count)
    yield b"ADB.pckg" + block(0, payload.done(payload.object([info, paths, scripts, triggers])))
    yield block(2, struct.pack("<II", 1, 1) + b"x")


def shared_tags(size, places):
    """A package in which so many tags share a text of this size."""
    payload = Payload()
    info = [payload.blob(b"a"), payload.blob(b"1")] + [0] * 18
    return package_of(payload, info + [payload.array([payload.blob(b"t" * size)] * places)])


def package_of_overlapping_tags(count):
    """A package with so many tags that overlap."""
    payload = Payload()
    info = [payload.blob(b"a"), payload.blob(b"1")] + [0] * 18
    return package_of(payload, info + [tags_that_overlap(payload, count)])


def distant_tags(copies, count):
    """A package with so many tags of 23 kB, which begin and end alike. Each stands at as many places as there are copies of one text, none near another."""
    payload = Payload()
    info = [payload.blob(b"a"), payload.blob(b"1")] + [0] * 18
    payload.pad(2)
    size = 0x5A5A  # the two bytes at the offset of a tag are its length, so both are b"Z"
    text = b"Z" * (size + 2) + b"a" + b"Z" * (2 * count - 1)
    at = len(payload.bytes)
    payload.bytes += text * copies
    words = [0x90000000 | at + len(text) * copy + 2 * i for copy in range(copies) for i in range(count)]
    return package_of(payload, info + [payload.array(words)])


def write(path, *pieces):
    """Writes a file of these pieces, and the folders above it."""
    os.makedirs(os.path.dirname(path), exist_ok=True)
    with open(path, "wb") as file:
        for piece in pieces:
            file.write(piece)


def run(folder, *command):
    """Runs a command in a folder; what it prints goes nowhere."""
    subprocess.run(command, cwd=folder, check=True, stdout=subprocess.DEVNULL)


def best_of(times, command, folder):
    """The least processor time in seconds that a command takes of so many runs."""
    return best_of_each(times, [command], folder)[0]


def best_of_each(times, commands, folder):
    """The least processor time in seconds that each of these commands takes of so many runs. They run in turn, so that a slow
    spell of the machine meets all of them. Other work only adds to a time, so the least is the nearest to the program's own."""
    best = [None] * len(commands)
    for _ in range(times):
        for i, command in enumerate(commands):
            took = processor_time(command, folder)
            best[i] = took if best[i] is None else min(best[i], took)
    return best


def processor_time(command, folder):
    """The processor time in seconds of one run of a command."""
    before = resource.getrusage(resource.RUSAGE_CHILDREN)
    subprocess.run(command, cwd=folder, check=True, stdout=subprocess.DEVNULL)
    after = resource.getrusage(resource.RUSAGE_CHILDREN)
    return after.ru_utime + after.ru_stime - before.ru_utime - before.ru_stime


def greatest_memory(command, folder):
    """The greatest memory in kB that a command has taken (VmHWM), as it was last told before the command ended."""
    greatest = 0
    with subprocess.Popen(command, cwd=folder, stdout=subprocess.DEVNULL) as process:
        while process.poll() is None:
            with open("/proc/%d/status" % process.pid) as status:
                for line in status:
                    if line.startswith("VmHWM:"):
                        greatest = int(line.split()[1])
            time.sleep(0.001)
        if process.returncode != 0:
            raise subprocess.CalledProcessError(process.returncode, command)
    return greatest


def best_wall_of(times, run):
    """The least time on the clock in seconds that a call takes of so many."""
    best = None
    for _ in range(times):
        start = time.perf_counter()
        run()
        took = time.perf_counter() - start
        best = took if best is None else min(best, took)
    return best
