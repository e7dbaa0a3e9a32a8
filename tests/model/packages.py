"""Packages, the entries of their files, and their containers, written from docs/formats.md."""

import hashlib
from dataclasses import dataclass, field

from verify import (ADB_BLOCK, HASH, INT, TABLES, TEXT, Payload, block, container, contents,
                    digest_of, table)

SCRIPTS = ["trigger", "pre-install", "post-install", "pre-deinstall", "post-deinstall",
           "pre-upgrade", "post-upgrade"]


@dataclass(frozen=True)
class Link:
    target: str


def bytes_of(content):
    """What is in the tree for a file or a link of a package."""
    return b"!<symlink>" + content.target.encode() if isinstance(content, Link) else content


@dataclass(frozen=True)
class Entry:
    """What a package or a database lists for the bytes of a file. `digest` and `target` are empty
    if there is none."""
    size: int
    digest: bytes
    target: bytes

    def lists(self, data):
        """Whether these bytes are as listed ("What a change does with files")."""
        if self.target:
            return data == b"!<symlink>" + self.target[2:]
        if self.digest:
            return digest_of(len(self.digest))(data).digest() == self.digest
        return self.size == 0 and data == b""


def word_of(payload, value, shape):
    """Writes a plain value."""
    if value is None:
        return 0
    if shape == INT:
        return payload.int(value)
    if shape in (TEXT, HASH):
        return payload.blob(value, 1 if len(value) < 256 else 2)
    kind, of = shape
    if kind == "array":
        return payload.array(*[word_of(payload, entry, of) for entry in value])
    words = [word_of(payload, entry, each) for entry, (_, each) in zip(value, TABLES[of])]
    while words and words[-1] == 0:
        words.pop()
    return payload.object(*words) if words else 0


def payload_of(value, root):
    payload = Payload()
    return payload.end(word_of(payload, value, table(root)))


def file_of(schema, value, root):
    """A container of one block."""
    return container(schema, block(ADB_BLOCK, payload_of(value, root)))


def are_same(one, other):
    """Whether two ids are the same: an index may have 20 of 32 bytes."""
    return bool(one and other) and (one.startswith(other) or other.startswith(one))


@dataclass
class Package:
    """`files` are in the order of its folders; `digests` are those of the files that have one.
    `acls` are those of files, by their paths, and of folders, by their names and a slash."""
    name: str
    version: str
    files: dict = field(default_factory=dict)
    digests: dict = field(default_factory=dict)
    texts: dict = field(default_factory=dict)
    depends: list = field(default_factory=list)
    provides: list = field(default_factory=list)
    replaces: list = field(default_factory=list)
    install_if: list = field(default_factory=list)
    scripts: dict = field(default_factory=dict)
    triggers: list = field(default_factory=list)
    replaces_priority: int = 0
    provider_priority: int = 0
    id_length: int = 32
    acls: dict = field(default_factory=dict)

    def __post_init__(self):
        self.size = sum(len(c) for c in self.files.values() if not isinstance(c, Link))
        self.entries = {path: self.entry(path) for path in self.files}
        self.payload = payload_of(self.value(None, self.files), 7)
        self.id = hashlib.sha256(self.payload).digest()

    def index_id(self):
        return self.id[:self.id_length]

    def entry(self, path):
        content = self.files[path]
        if isinstance(content, Link):
            return Entry(0, b"", b"\x00\xa0" + content.target.encode())
        return Entry(len(content), self.digests.get(path, b""), b"")

    def folders(self):
        names = list(dict.fromkeys(path.rpartition("/")[0] for path in self.files))
        return [(name, [path for path in self.files if path.rpartition("/")[0] == name])
                for name in names]

    def information(self, identity):
        lists = [[each.value() for each in texts] or None
                 for texts in (self.depends, self.provides, self.replaces, self.install_if)]
        texts = [self.texts.get(name) for name in
                 ("description", "arch", "license", "origin", "maintainer", "url")]
        return ([self.name.encode(), self.version.encode(), identity] + texts
                + [None, None, self.size or None, None, self.provider_priority or None] + lists)

    def value(self, identity, owned):
        """As a table: with its identity in a database, and of its files the owned ones."""
        paths = [[name.encode() or None, self.acls.get(name + "/"),
                  [self.file_value(path) for path in paths if path in owned] or None]
                 for name, paths in self.folders()]
        paths = [entry if any(entry) else None for entry in paths]
        scripts = [self.scripts.get(name) for name in SCRIPTS]
        return [self.information(identity), paths or None,
                scripts if any(scripts) else None,
                [pattern.encode() for pattern in self.triggers] or None,
                self.replaces_priority or None]

    def file_value(self, path):
        entry, name = self.entries[path], path.rpartition("/")[2].encode()
        return [name, self.acls.get(path), entry.size or None, None, entry.digest or None,
                entry.target or None]

    def container(self):
        blocks = [block(ADB_BLOCK, self.payload)]
        for i, (_, paths) in enumerate(self.folders()):
            for j, path in enumerate(paths):
                content = self.files[path]
                if content and not isinstance(content, Link):
                    blocks.append(contents(i + 1, j + 1, content))
        return container(0x676B6370, *blocks)

    def names(self, other):
        """Whether a `replaces` of it is met by another package."""
        return any(not each.conflict and each.is_met_by(other.name, other.version)
                   for each in self.replaces)

    def beats(self, other):
        if not self.names(other):
            return False
        mine = (self.replaces_priority, self.name)
        return not other.names(self) or mine > (other.replaces_priority, other.name)
