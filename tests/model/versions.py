"""Versions, dependencies and patterns, written from docs/formats.md alone."""

import functools
import re
from dataclasses import dataclass

# ---------------------------------------------------------------------------------------------
# Versions ("Versions")

SUFFIXES = ["alpha", "beta", "pre", "rc", "cvs", "svn", "git", "hg", "p"]
(PRE_RELEASE, END, REVISION, HASH_TOKEN, SUFFIX_NUMBER, SUFFIX, LETTER, COMPONENT,
 FIRST) = range(9)
PARTS = re.compile(r"\.(?P<component>[0-9]+)|_(?P<suffix>[a-z]+)(?P<number>[0-9]*)"
                   r"|~(?P<hash>[0-9a-f]+)|-r(?P<revision>[0-9]+)|(?P<letter>[a-z])")


@functools.lru_cache(None)
def tokens(version):
    """The tokens of a version, each as its kind and its value."""
    first = re.match(r"[0-9]+", version).group()
    found = [(FIRST, first)]
    for part in PARTS.finditer(version, len(first)):
        if part["component"]:
            found.append((COMPONENT, part["component"]))
        elif part["suffix"]:
            place = SUFFIXES.index(part["suffix"])
            found.append((PRE_RELEASE if place < 4 else SUFFIX, place))
            if part["number"]:
                found.append((SUFFIX_NUMBER, part["number"]))
        elif part["hash"]:
            found.append((HASH_TOKEN, part["hash"]))
        elif part["revision"]:
            found.append((REVISION, part["revision"]))
        else:
            found.append((LETTER, part["letter"]))
    return found + [(END, 0)]


def order_of(a, b):
    return (a > b) - (a < b)


def token_order(a, b):
    if a[0] != b[0]:
        return order_of(a[0], b[0])
    kind, x, y = a[0], a[1], b[1]
    if kind == COMPONENT and (x.startswith("0") or y.startswith("0")):
        return order_of(x, y)
    if kind in (FIRST, COMPONENT, REVISION, SUFFIX_NUMBER):
        return order_of(int(x), int(y))
    return order_of(x, y)


@functools.lru_cache(None)
def version_order(a, b):
    """Below 0, 0 or above 0: the order of two versions."""
    for x, y in zip(tokens(a), tokens(b)):
        found = token_order(x, y)
        if found:
            return found
    return 0


def fits(version, wanted):
    """The fuzzy match: whether the version begins with the tokens of the wanted one."""
    found, sought = tokens(version)[:-1], tokens(wanted)[:-1]
    if len(found) < len(sought):
        return False
    for x, y in zip(found, sought):
        if x[0] == y[0] == COMPONENT and x[1].startswith("0") and y[1].startswith("0"):
            x = (COMPONENT, x[1][:len(y[1])])
        if token_order(x, y):
            return False
    return True


# Greater versions first.
greater_first = functools.cmp_to_key(lambda a, b: version_order(b, a))

# ---------------------------------------------------------------------------------------------
# Dependencies ("Dependencies")

OPERATORS = {"=": 1, "<": 2, "<=": 3, ">": 4, ">=": 5, "~": 9, "<~": 11, ">~": 13}
DEPENDENCY = re.compile(
    r"(!?)([^!<=>@~]+)(?:@([\w.-]+))?(?:(>=|<=|<~|>~|[<>=~])([0-9].*))?$")


@dataclass(frozen=True)
class Dependency:
    conflict: bool
    name: str
    tag: str
    operator: str
    version: str

    def is_met_by(self, name, version):
        if name != self.name or self.operator is None:
            return name == self.name
        if version is None:
            return False
        order = version_order(version, self.version)
        bits = OPERATORS[self.operator]
        return (bits & (1 if order == 0 else 2 if order < 0 else 4) != 0
                or (bits & 8 != 0 and fits(version, self.version)))

    def value(self):
        bits = OPERATORS.get(self.operator, 7 if self.conflict else 1)
        bits += 16 if self.conflict else 0
        version = self.version.encode() if self.version else None
        return [self.name.encode(), version, None if bits == 1 else bits]

    def text(self):
        return (("!" if self.conflict else "") + self.name + (f"@{self.tag}" if self.tag else "")
                + (self.operator + self.version if self.operator else ""))


def dependency(text):
    conflict, name, tag, operator, version = DEPENDENCY.match(text).groups()
    return Dependency(conflict == "!", name, tag, operator, version)


def dependencies(texts):
    return [dependency(text) for text in texts]


# ---------------------------------------------------------------------------------------------
# Patterns ("Patterns")

@functools.lru_cache(None)
def expression(pattern):
    return re.compile(b".*".join(map(re.escape, pattern.split(b"*"))), re.DOTALL)


def is_match(pattern, text):
    """Whether some bytes for each `*` of the pattern make it the text."""
    return expression(pattern).fullmatch(text) is not None
