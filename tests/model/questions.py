"""The answers of the commands that only report, written from docs/commands.md alone: `info`,
`audit`, `manifest`, `list`, `search` and `policy`.

They are worked out from the files of a root, as bytes, and from nothing else: the database and the
indexes are read by verify.py.
"""

import re
from dataclasses import dataclass

import verify
from packages import Entry, are_same
from versions import greater_first, is_match

DATABASE, WORLD, REPOSITORIES, INTENT, STAGE = (
    "lib/apk/db/installed.adb", "etc/apk/world", "etc/apk/repositories", "lib/apk/intent",
    "lib/apk/stage/")
TEXT_DATABASE = "lib/apk/db/installed"
OPERATORS = {1: b"=", 2: b"<", 3: b"<=", 4: b">", 5: b">=", 9: b"~", 11: b"<~", 13: b">~"}


class Refused(Exception):
    """A command that is refused: the text of its reason, and what it printed before."""

    def __init__(self, text, printed=()):
        super().__init__(text)
        self.text, self.printed = text, list(printed)


# ---------------------------------------------------------------------------------------------
# What the files say

def read_container(file, root):
    """The value of a container of this kind, which passes all tests."""
    schema = verify.schema_of(file)
    if verify.ROOTS.get(schema) != root:
        raise verify.Fault("wrong schema", f"wrong schema {schema:08x}")
    verify.verify(file)
    return verify.read_values(file)[2]


def fields(value, count):
    """The fields of an object, which may be None or short."""
    value = list(value or [])
    return value + [None] * (count - len(value))


@dataclass
class Record:
    """A package of the database. `files` are the paths and the entries in their order."""
    info: list
    files: list

    @property
    def name(self):
        return self.info[0]

    def title(self):
        return title(self.info)


def title(info):
    return info[0] + b"-" + info[1]


def records(database):
    found = []
    for package in fields(database, 1)[0] or []:
        info, folders = fields(package, 2)[:2]
        files = []
        for folder in folders or []:
            name, _, entries = fields(folder, 3)[:3]
            for file in entries or []:
                part, _, size, _, digest, target = fields(file, 6)[:6]
                files.append((verify.join(name or b"", part),
                              Entry(size or 0, digest or b"", target or b"")))
        found.append(Record(fields(info, 22), files))
    return found


def dependency_text(value):
    """The text of a dependency of a package ("Dependencies")."""
    name, version, match = fields(value, 3)[:3]
    bits = (match or 0) & 15
    text = (b"!" if (match or 0) & 16 else b"") + name
    if not version or bits in (7, 15):
        return text
    return text + OPERATORS[{0: 1, 8: 9, 10: 11, 12: 13}.get(bits, bits)] + version


TAG = rb"@[A-Za-z0-9_.-]+"
WORLD_TEXT = re.compile(rb"!?([^\x00-\x20\x7f-\xff!<=>@~]{1,255})(" + TAG + rb")?"
                        rb"((>=|<=|<~|>~|=~|~=|[<>=~])(?P<version>[^@]*))?(?P<tag>" + TAG + rb")?")


def test_world(text):
    names = set()
    for number, line in enumerate(text.split(b"\n"), 1):
        for each in re.split(rb"[ \t]+", line.strip(b" \t")):
            if not each:
                continue
            found = WORLD_TEXT.fullmatch(each)
            version = found and found["version"]
            if (not found or found[1] in names or (found[2] and found["tag"])
                    or (version is not None and not verify.is_version(version))):
                raise Refused(f"etc/apk/world: line {number}")
            names.add(found[1])


def read_repositories(text):
    """The tag and the path of each repository."""
    found = []
    for number, line in enumerate(text.split(b"\n"), 1):
        line = line.strip(b" \t")
        if not line or line.startswith(b"#"):
            continue
        tag, path = None, line
        if line.startswith(b"@"):
            parts = re.fullmatch(rb"@([A-Za-z0-9_.-]+)[ \t]+(.*)", line, re.DOTALL)
            tag, path = parts.groups() if parts else (None, b"")
        path = path[1:] if path.startswith(b"/") else path
        if not verify.is_path(path):
            raise Refused(f"etc/apk/repositories: line {number}")
        found.append((tag, path))
    return found


@dataclass
class Choice:
    """A candidate: `repository` counts from 0, and is None for an installed package alone."""
    info: list
    repository: int
    is_installed: bool
    place: int

    def order(self):
        name, version = self.info[0], self.info[1]
        return name, greater_first(version.decode()), version, self.place

    def provided(self):
        values = [fields(each, 3) for each in self.info[15] or []]
        return [value[0] for value in values if not (value[2] or 0) & 16]


class Root:
    """The files of a root, by their paths."""

    def __init__(self, files):
        self.files = files

    def read_database(self):
        intent = self.files.get(INTENT)
        if intent is not None:
            try:
                read_container(intent, verify.INTENT)
            except verify.Fault as fault:
                raise Refused(f"{INTENT}: {fault.text}") from fault
            raise NotImplementedError("an interrupted change")
        database = self.files.get(DATABASE)
        if database is None:
            raise Refused("no package database")
        try:
            return records(read_container(database, verify.DATABASE))
        except verify.Fault as fault:
            raise Refused(f"package database: {fault.text}") from fault

    def read_all(self, is_trusted):
        """The repositories, and the candidates in the order of queries."""
        installed = self.read_database()
        test_world(self.files.get(WORLD, b""))
        repositories = read_repositories(self.files.get(REPOSITORIES, b""))
        if repositories and not is_trusted:
            raise Refused("repositories need --allow-untrusted")
        indexes = [self.files.get(path.decode()) for _, path in repositories]
        if None in indexes:
            raise Refused(f"repository {indexes.index(None) + 1}: no such index")
        choices = []
        for i, index in enumerate(indexes):
            try:
                value = read_container(index, verify.INDEX)
            except verify.Fault as fault:
                raise Refused(f"repository {i + 1}: {fault.text}") from fault
            for info in fields(value, 2)[1] or []:
                info = fields(info, 22)
                choices.append(Choice(info, i, any(is_one(info, each.info) for each in installed),
                                      len(choices)))
        for each in installed:
            if not any(is_one(choice.info, each.info) for choice in choices
                       if choice.repository is not None):
                choices.append(Choice(each.info, None, True, len(choices)))
        if len(choices) > 65_536:
            raise Refused(f"{len(choices)} candidates are too many")
        return repositories, sorted(choices, key=Choice.order)


def is_one(info, other):
    """Whether an installed package is one of an index."""
    return info[:2] == other[:2] and are_same(info[2], other[2])


# ---------------------------------------------------------------------------------------------
# Answers

@dataclass
class Question:
    """A command line without its words: the places count from 1."""
    applet: str
    kind: str
    operands: list
    places: list
    is_trusted: bool


def answer(question, files):
    """The status, standard output and standard error."""
    try:
        lines = ANSWERS[question.applet](question, Root(files))
        return 0, text_of(lines), b""
    except Refused as refusal:
        return 1, text_of(refusal.printed), f"ERROR: {refusal.text}\n".encode()


def text_of(lines):
    return b"".join(line + b"\n" for line in lines)


def named(question, installed):
    """The installed packages that the operands name."""
    known = {record.name: record for record in installed}
    for operand, place in zip(question.operands, question.places):
        if operand not in known:
            raise Refused(f"word {place}: not installed")
    return [known[operand] for operand in question.operands]


def info(question, root):
    installed = root.read_database()
    if question.kind == "-W":
        path = question.operands[0]
        path = path[1:] if path.startswith(b"/") else path
        for record in installed:
            if any(each == path for each, _ in record.files):
                return [b"/" + path + b" is owned by " + record.title()]
        raise Refused(f"word {question.places[0]}: not installed")
    if question.kind == "-e":
        names = {record.name for record in installed}
        lines = [operand for operand in question.operands if operand in names]
        for operand, place in zip(question.operands, question.places):
            if operand not in names:
                raise Refused(f"word {place}: not installed", lines)
        return lines
    if not question.operands:
        return sorted(record.name for record in installed)
    lines = []
    for record in named(question, installed):
        if question.kind == "-L":
            lines += [record.title() + b" contains:"] + [path for path, _ in record.files]
        elif question.kind == "-R":
            lines += [record.title() + b" depends on:"]
            lines += [dependency_text(each) for each in record.info[14] or []]
        else:
            lines += [record.title() + b" description:", record.info[3] or b""]
        lines.append(b"")
    return lines


def audit(question, root):
    lines = []
    for record in root.read_database():
        for path, entry in record.files:
            data = root.files.get(path.decode())
            if data is None:
                lines.append((path, b"X "))
            elif not entry.lists(data):
                lines.append((path, b"U "))
    return [mark + path for path, mark in sorted(lines)]


def manifest(question, root):
    lines = []
    for record in named(question, root.read_database()):
        for path, entry in record.files:
            name = {0: b"none", 20: b"sha1:", 32: b"sha256:", 64: b"sha512:"}[len(entry.digest)]
            lines.append(name + entry.digest.hex().encode() + b"  " + path)
    return lines


def line_of_list(choice):
    arch, license_, origin = choice.info[4:7]
    return (title(choice.info) + (b" " + arch if arch else b"")
            + (b" {" + origin + b"}" if origin else b"")
            + (b" (" + license_ + b")" if license_ else b"")
            + (b" [installed]" if choice.is_installed else b""))


def list_(question, root):
    _, choices = root.read_all(question.is_trusted)
    patterns = question.operands
    return [line_of_list(choice) for choice in choices
            if (choice.is_installed or not question.kind)
            and (not patterns or any(is_match(each, choice.info[0]) for each in patterns))]


def search(question, root):
    _, choices = root.read_all(question.is_trusted)
    patterns = [b"*" + each + b"*" for each in question.operands]
    return [title(choice.info) for choice in choices if choice.repository is not None
            and any(is_match(pattern, name) for pattern in patterns
                    for name in [choice.info[0]] + choice.provided())]


def policy(question, root):
    repositories, choices = root.read_all(question.is_trusted)
    lines = []
    for name in question.operands:
        lines.append(name + b" policy:")
        of_name = [choice for choice in choices if choice.info[0] == name]
        for version in dict.fromkeys(choice.info[1] for choice in of_name):
            here = [choice for choice in of_name if choice.info[1] == version]
            lines.append(b"  " + version + b":")
            if any(choice.is_installed for choice in here):
                lines.append(b"    lib/apk/db/installed")
            for i, (tag, path) in enumerate(repositories):
                if any(choice.repository == i for choice in here):
                    lines.append(b"    " + (b"@" + tag + b" " if tag else b"") + path)
    return lines


ANSWERS = {"info": info, "audit": audit, "manifest": manifest, "list": list_, "search": search,
           "policy": policy}
