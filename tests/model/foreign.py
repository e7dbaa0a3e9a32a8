"""Databases and indexes that this program does not write, but reads: of another program, or of
version 2."""

import base64
import copy
import hashlib

from packages import Entry, file_of
from versions import dependencies

MATCHES = [number for number in range(32) if number % 16 not in (6, 14)]


def change_dependencies(maker, info):
    """Other match numbers, some of which mean the same as others."""
    for each in info[14] or []:
        if maker.some(0.4):
            each[2] = maker.one(None, *MATCHES)
    for each in info[15] or []:
        if maker.some(0.2):
            each[2] = maker.one(None, 0, 1, 5, 7, 16, 17, 23)


def installed(maker, root):
    """The root with other ids, digests, sizes and texts in its database, and in another order."""
    root = root.copy()
    for i, (package, paths) in enumerate(root.installed):
        package = copy.copy(package)
        known = package.id or hashlib.sha256(package.payload).digest()
        package.id = maker.one(known, known, known[:20], None, known[:19] + b"x",
                               (known + bytes(44))[:64])
        package.entries = {path: entry_of(maker, entry) for path, entry in package.entries.items()}
        package.texts = {**package.texts, "arch": maker.one(None, b"arch of the database"),
                         "description": maker.one(None, b"x" * 300, b"two\nlines", b"\xff")}
        root.installed[i] = package, paths
    maker.random.shuffle(root.installed)
    return root


def entry_of(maker, entry):
    digest, size = entry.digest, entry.size
    if maker.some(0.25):
        digest = maker.one(b"", *(kind(maker.one(b"", b"1")).digest() for kind in
                                  (hashlib.sha1, hashlib.sha256, hashlib.sha512)))
    if maker.some(0.15):
        size = maker.one(0, 1, 7)
    return Entry(size, digest, entry.target)


def database(maker, root):
    """A database with another package, other match numbers and numbers 0."""
    values = [package.value(package.id, paths) for package, paths in root.installed]
    if maker.some(0.5):
        other = maker.package(maker.one(*maker.names) + "-own", maker.one(*maker.versions))
        values.append(other.value(other.id, [path for path in other.files if maker.some(0.2)]))
    for info, folders, *_ in values:
        more = dependencies(maker.dependency(0.3, 0, 0.7) for _ in range(maker.one(0, 2, 4)))
        info[14] = (info[14] or []) + [each.value() for each in more] or None
        change_dependencies(maker, info)
        for folder in folders or []:
            for file in (folder[2] if folder else None) or []:
                if maker.some(0.1):
                    file[2] = 0
    maker.random.shuffle(values)
    return file_of(0x00626469, [values or None], 9)


def index(maker, repository):
    """The packages of a repository with other ids, versions and match numbers, in another order."""
    infos = [package.information(maker.one(package.id, package.id, package.id[:20]))
             for package in repository.packages]
    for info in infos:
        change_dependencies(maker, info)
        info[4] = maker.one(info[4], b"arch of the index")
        if maker.some(0.15):
            # the id of one package, and the version or the name of another
            info[1] = maker.one(*maker.versions).encode()
        if maker.some(0.05):
            info[0] = maker.one(*maker.names).encode()
    maker.random.shuffle(infos)
    return file_of(0x78646E69, [maker.one(None, b"an index"), infos or None], 8)


# ---------------------------------------------------------------------------------------------
# "Text database of version 2"

def digest_text(digest):
    return b"Q1" + base64.b64encode(digest)


def with_text_database(maker, root):
    """The root with a text of version 2 as its database."""
    lines, root = [], root.copy()
    for i, (package, paths) in enumerate(root.installed):
        package = copy.copy(package)
        package.id = maker.one(None, hashlib.sha1(package.payload).digest(), package.payload[-20:])
        package.texts = {name: text.replace(b"\n", b" ") for name, text in package.texts.items()
                         if text and maker.some(0.8)}
        package.scripts, package.triggers, package.acls = {}, [], {}
        package.entries = {path: text_entry(maker, content)
                           for path, content in package.files.items()}
        lines += [b""] * maker.one(0, 0, 0, 1) + record(maker, package) + [b""]
        for name, listed in package.folders():
            lines.insert(-1, b"F:" + name.encode())
            lines[-1:-1] = acl_lines(maker, package, b"M", name + "/")
            for path in listed:
                if path in paths:
                    lines.insert(-1, b"R:" + path.rpartition("/")[2].encode())
                    lines[-1:-1] = acl_lines(maker, package, b"a", path)
                    digest = package.entries[path].digest
                    lines[-1:-1] = [b"Z:" + digest_text(digest)] if digest else []
        root.installed[i] = package, paths
    root.text = b"".join(line + b"\n" for line in lines)
    return root


def record(maker, package):
    """The lines of a package, apart from those of its files."""
    lines = [b"P:" + package.name.encode(), b"V:" + package.version.encode(), b"X:skipped",
             b"I:%d" % package.size]
    lines += [b"C:" + digest_text(package.id)] if package.id else []
    letters = {"description": b"T:", "arch": b"A:", "license": b"L:", "origin": b"o:"}
    lines += [letters[name] + text for name, text in package.texts.items() if text]
    lines += [b"k:%d" % package.provider_priority] if package.provider_priority else []
    lines += [b"q:%d" % package.replaces_priority] if package.replaces_priority else []
    for letter, each in zip((b"D:", b"p:", b"r:", b"i:"),
                            (package.depends, package.provides, package.replaces,
                             package.install_if)):
        texts = [one.text().encode() for one in each]
        cut = maker.random.randrange(len(texts) + 1)
        several = [texts[:cut], texts[cut:]]
        lines += [letter + b" ".join(some) for some in several if some]
    return lines


def acl_lines(maker, package, letter, path):
    if maker.some(0.7):
        return []
    package.acls[path] = [0o755, b"0", b"01"]
    return [letter + b":0:01:755"]


def text_entry(maker, content):
    """A text has neither sizes nor links."""
    has_digest = isinstance(content, bytes) and maker.some(0.8)
    return Entry(0, hashlib.sha1(content).digest() if has_digest else b"", b"")
