#!/usr/bin/env python3
"""Rows of random repositories for crates/solver_tests, with the selections of changes.py.

    python3 tests/model/selections.py SEED COUNT | crates/solver_tests/out/solver_tests

prints COUNT rows, each with a question `select`. In some repositories the packages need ranges of
each other's versions, so that a search has many dead ends: chains of packages, layers of providers,
and clauses of three literals. What meets a need, and which option is better, are asked of changes.py.
The search of this file learns nothing: it goes back to the latest choice and tries the next option. A
repository for which it takes too long is left out, and another one is drawn. One seed gives the same
rows each time.
"""

import random
import sys

from changes import Candidate, Search
from packages import Package
from versions import dependencies

# The most steps that the search takes for a row.
MOST_STEPS = 5000

OPERATORS = ["=", "<", "<=", ">", ">=", "~"]


class Offered(Package):
    """A package without its container, which no selection looks at."""

    def __post_init__(self):
        pass


class Maker:
    def __init__(self, seed):
        self.rng = random.Random(seed)

    def one(self, *options):
        return self.rng.choice(options)

    def chance(self, odds):
        return self.rng.random() < odds

    def need(self, names, most, odds=0.5):
        """A dependency on one of these names, with odds on a range of versions up to `most`."""
        name = self.one(*names)
        return name + (self.one(*OPERATORS) + str(self.rng.randint(1, most)) if self.chance(odds) else "")

    def some(self, counts, make):
        """Dependencies, one for each name."""
        made = [make() for _ in range(self.one(*counts))]
        return list({each.name: each for each in dependencies(made)}.values())

    def package(self, name, version, depends, provides=(), install_if=(), priority=0):
        return Offered(name, str(version), depends=list(depends), provides=list(provides), install_if=list(install_if), provider_priority=priority)

    def mixed(self):
        """Packages of a few names with everything that a selection looks at."""
        names = "abcdefg"[:self.rng.randint(3, 7)]
        virtual = "uvw"
        most = self.rng.randint(1, 4)
        rates = (self.rng.random() * 0.3, self.rng.random() * 0.5)
        packages = []
        for name in names:
            for version in self.rng.sample(range(1, most + 1), self.rng.randint(1, most)):
                depends = self.some((0, 1, 1, 2, 3), lambda: self.one("", "", "", "!") * self.chance(0.5) + self.need(names + virtual, most))
                provides = self.some((1, 2) if self.chance(rates[1]) else (0,), lambda: self.one(*virtual, *names) + self.one("", f"={self.rng.randint(1, most)}"))
                asks = self.some((1, 2) if self.chance(rates[0]) else (0,), lambda: self.need(names, most, 0.2))
                packages.append(self.package(name, version, depends, provides, asks, self.one(0, 0, 0, 1, 2)))
        world = self.some((1, 2, 3, 4), lambda: self.one("", "", "", "", "", "!") + self.need(names + virtual, most, 0.3))
        return packages, world

    def layers(self):
        """Each name needs ranges of names of later layers, so that most dead ends are found late."""
        layers, most = self.rng.randint(3, 6), self.rng.randint(2, 4)
        packages = []
        for i in range(layers):
            for j in range(self.rng.randint(1, 3)):
                for version in range(1, most + 1):
                    later = [f"n{k}{l}" for k in range(i + 1, min(layers + (i + 1 == layers), i + 3)) for l in range(3)]
                    depends = self.some((0, 1, 1, 2), lambda: self.need(later, most, 0.9)) if later else []
                    provides = self.some((0, 0, 0, 1), lambda: f"n{i}{self.rng.randint(0, 2)}" + self.one("", f"={version}"))
                    packages.append(self.package(f"n{i}{j}", version, depends, provides))
        return packages, self.some((2, 3, 4), lambda: self.need([f"n{i}{j}" for i in range(2) for j in range(3)], most, 0.3))

    def clauses(self):
        """Variables with two versions, and clauses of two or three literals that need one."""
        variables = self.rng.randint(3, 7)
        order = self.one("av", "va")
        packages = [self.package(f"{order[0]}{i}", value, []) for i in range(variables) for value in (1, 2)]
        clauses = self.rng.randint(2, variables * 5)
        for i in range(clauses):
            for literal in self.rng.sample(range(variables), self.one(2, 3, 3)):
                name = f"{order[1]}c{i}"
                packages.append(self.package(f"{name}l{literal}", 1, dependencies([f"{order[0]}{literal}={self.one(1, 2)}"]), dependencies([name])))
        world = [f"{order[0]}{i}" for i in range(variables)] * self.one(0, 1) + [f"{order[1]}c{i}" for i in range(clauses)]
        return packages, dependencies(world)

    def drawn(self):
        packages, world = self.one(self.mixed, self.mixed, self.layers, self.clauses)()
        self.rng.shuffle(packages)
        kept = {}
        for each in packages:
            kept.setdefault((each.name, each.version), each)
        return list(kept.values()), world


def shown(package):
    parts = [f"{package.name}={package.version}"]
    for letter, texts in (("d", package.depends), ("p", package.provides), ("i", package.install_if)):
        if texts:
            parts.append(f"{letter}:" + ",".join(each.text() for each in texts))
    if package.provider_priority:
        parts.append(f"k:{package.provider_priority}")
    return " ".join(parts)


class TooLong(Exception):
    """A search that takes too many steps."""


class Plain:
    """A search over sets of candidates as bits of numbers."""

    def __init__(self, packages, world):
        self.rules = Search([Candidate(package, 1, None, False, place) for place, package in enumerate(packages)], world, lambda name: False)
        self.candidates = self.rules.candidates
        self.bits = {each: 1 << i for i, each in enumerate(self.candidates)}
        self.known = {}
        self.world = self.needs_of(world)
        self.depends = {each: self.needs_of(each.package.depends) for each in self.candidates}
        self.apart = {each: 0 for each in self.candidates}
        occupants = {}
        for each in self.candidates:
            for name in each.single_names():
                occupants[name] = occupants.get(name, 0) | self.bits[each]
        for each in self.candidates:
            for name in each.single_names():
                self.apart[each] |= occupants[name] & ~self.bits[each]
            for conflict in (dependency for dependency in each.package.depends if dependency.conflict):
                for other in self.need(conflict)[1]:
                    if other is not each:
                        self.apart[each] |= self.bits[other]
                        self.apart[other] |= self.bits[each]
        self.asking = sorted((each.package.name, [self.need(entry)[0] for entry in each.package.install_if], self.need(each.package.name))
                             for each in self.candidates if each.package.install_if and not any(entry.conflict for entry in each.package.install_if))
        self.steps = 0

    def needs_of(self, texts):
        return [self.need(each) for each in texts if not each.conflict]

    def need(self, need):
        """The candidates that meet a need: as bits, and best first."""
        key = need if isinstance(need, str) else (need.text(),)
        if key not in self.known:
            options = [each for each in self.candidates if each.meets(need)]
            self.known[key] = sum(self.bits[each] for each in options), sorted(options, key=lambda each: self.rules.rank(need, each))
        return self.known[key]

    def next_need(self, chosen, bits):
        for need in self.world:
            if not need[0] & bits:
                return need
        for each in chosen:
            for need in self.depends[each]:
                if not need[0] & bits:
                    return need
        for _, entries, need in self.asking:
            if all(entry & bits for entry in entries) and not need[0] & bits:
                return need
        return None

    def walk(self, chosen=(), bits=0, passed_over=0):
        self.steps += 1
        if self.steps > MOST_STEPS:
            raise TooLong
        need = self.next_need(chosen, bits)
        if need is None:
            return chosen
        for option in need[1]:
            bit = self.bits[option]
            if not (bit & passed_over or self.apart[option] & bits):
                found = self.walk(chosen + (option,), bits | bit, passed_over)
                if found is not None:
                    return found
            passed_over |= bit
        return None


def row(number, maker):
    """The lines of a row."""
    packages, world = maker.drawn()
    found = Plain(packages, sorted(world, key=lambda each: each.name)).walk()
    answer = "none" if found is None else " ".join(f"{each.package.name}-{each.package.version}" for each in found)
    return [f"row r{number}: ", "repository " + ";".join(map(shown, packages)), "world " + " ".join(each.text() for each in world), "$ select", f"> {answer}"]


def main():
    maker = Maker(int(sys.argv[1]))
    made = 0
    while made < int(sys.argv[2]):
        try:
            lines = row(made, maker)
        except TooLong:
            continue
        made += 1
        print("\n".join(lines))


if __name__ == "__main__":
    main()
