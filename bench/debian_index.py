"""An index of the packages in the lists that `apt-get update` left, for the scripts beside this file."""
import glob
import hashlib
import itertools
import re
import subprocess

import containers

LISTS = "/var/lib/apt/lists/*_main_binary-*_Packages*"
ATOM = re.compile(r"\s*([^\s:(\[|]+)(?::\S+)?\s*(?:\(\s*(<<|<=|=|>=|>>)\s*([^)\s]+)\s*\))?")
MATCH = {"<<": 2, "<=": 3, "=": 1, ">=": 5, ">>": 4}


class Once(containers.Payload):
    """Stores equal values once."""

    def __init__(self):
        super().__init__()
        self.seen = {}

    def once(self, key, write):
        if key not in self.seen:
            self.seen[key] = write()
        return self.seen[key]

    def blob(self, data):
        return self.once(data, lambda: super(Once, self).blob(data)) if data else 0

    def run(self, kind, words):
        return self.once((kind, tuple(words)), lambda: super(Once, self).run(kind, words))


def paragraphs():
    """The packages of all lists, the first of each name."""
    seen = set()
    for path in sorted(glob.glob(LISTS)):
        text = subprocess.run(["/usr/lib/apt/apt-helper", "cat-file", path], stdout=subprocess.PIPE, check=True).stdout.decode()
        for paragraph in text.split("\n\n"):
            fields = dict(re.findall(r"^([A-Za-z-]+): (.*)$", paragraph, re.M))
            if fields and fields["Package"] not in seen:
                seen.add(fields["Package"])
                yield fields


def version(text):
    """The numbers in front of a version."""
    found = re.match(r"\d+(\.\d+)*", (text or "").rpartition(":")[2])
    return found.group() if found else "1"


def dependency(clause):
    """The first alternative: its name, its operator in Debian's form or None, and its version."""
    name, operator, wanted = ATOM.match(clause).groups()
    return name, operator, version(wanted) if operator else ""


def dependencies(fields):
    """What a package depends on."""
    clauses = [clause for key in ("Pre-Depends", "Depends") for clause in fields.get(key, "").split(",") if clause.strip()]
    return [dependency(clause) for clause in clauses]


def packages():
    """The name, the version and the dependencies of each package."""
    for fields in paragraphs():
        yield fields["Package"], version(fields["Version"]), dependencies(fields)


def word_of(payload, name, operator, wanted):
    """The word of a dependency."""
    fields = [payload.blob(name.encode())]
    if operator:
        fields += [payload.blob(wanted.encode()), payload.int(MATCH[operator])]
    return payload.object(fields)


def debian(count=None):
    """The index of all packages, or of the first ones."""
    payload = Once()
    infos = []
    for fields in itertools.islice(paragraphs(), count):
        texts = [fields.get(key, "").encode() for key in ("Description", "Architecture", "Homepage", "Source", "Maintainer", "Homepage")]
        info = [payload.blob(fields["Package"].encode()), payload.blob(version(fields["Version"]).encode()), payload.blob(hashlib.sha256(fields["Package"].encode()).digest())]
        info += [payload.blob(text) for text in texts] + [0, 0, 0, payload.int(int(fields.get("Size", 0))), 0]
        words = [word_of(payload, *found) for found in dependencies(fields)]
        info.append(payload.array(words) if words else 0)
        infos.append(payload.object(info))
    return b"ADB.indx" + containers.block(0, payload.done(payload.object([0, payload.array(infos)])))
