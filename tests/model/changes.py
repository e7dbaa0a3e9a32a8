#!/usr/bin/env python3
"""A second program that changes packages and reports on them, written from docs/commands.md,
docs/selection.md and docs/formats.md, and random cases with what they come to by it.

    python3 tests/model/changes.py SEED COUNT [sweep] | crates/command_tests/out/command_tests

prints COUNT pairs of rows for crates/command_tests (tests/rows.md): repositories of a few packages, an
installation, further changes and questions; then files that the user changed, other packages in a
repository, and more of both. With `sweep` about half of the command lines are stopped after each
call, and meet a fault at each.

    python3 tests/model/changes.py run PROGRAM SEED COMMANDS [FOLDER [UNTIL]]

runs PROGRAM on a folder of the host, on random cases of more kinds, until it has run COMMANDS
command lines, or until the time UNTIL (HH:MM). It compares standard output, standard error, the
status and all files with its own. It prints each difference, and last how many command lines of
each kind it ran. The status is 1 if there is a difference. Cases are made in a new folder below
FOLDER (/tmp, if not given); a folder in memory is faster. The files before a difference are kept
in FOLDER/different-SEED-NUMBER. tests/rows.md, "The second program", lists what is covered.

The modules:

    versions.py   versions, dependencies and patterns
    packages.py   packages and their containers
    changes.py    selection and changes
    questions.py  `info`, `audit`, `manifest`, `list`, `search` and `policy`, from the files alone
    cases.py      random packages, repositories and command lines, and rows of them
    foreign.py    databases and indexes of other programs, and of version 2
    folders.py    the program on a folder
    verify.py     a reader of containers

They share no code with the program: where the two differ, one of them is wrong. One seed gives the
same cases each time.
"""

import sys
from dataclasses import dataclass, field

from packages import SCRIPTS, Package, are_same, bytes_of, file_of
from questions import DATABASE, TEXT_DATABASE, WORLD
from versions import dependencies, greater_first, is_match, version_order

# ---------------------------------------------------------------------------------------------
# Selection

@dataclass(eq=False)
class Candidate:
    package: Package
    repository: int
    tag: str
    is_installed: bool
    place: int

    def version_for(self, need):
        """Whether it meets a dependency, and the version under which it does."""
        package = self.package
        if need.is_met_by(package.name, package.version):
            return True, package.version
        for each in package.provides:
            if not each.conflict and need.is_met_by(each.name, each.version):
                return True, each.version
        return False, None

    def meets(self, need):
        if isinstance(need, str):
            return self.package.name == need
        return self.version_for(need)[0]

    def is_apart_from(self, other):
        if any(each.conflict and other.meets(each) for each in self.package.depends):
            return True
        return bool(self.single_names() & other.single_names())

    def single_names(self):
        """The names that no other member may have or provide with a version."""
        return {self.package.name} | {each.name for each in self.package.provides
                                      if not each.conflict and each.version is not None}


class Search:
    """The first preferred selection, by trying the options of each need in their order."""

    def __init__(self, candidates, world, is_upgraded):
        self.world = world
        self.is_upgraded = is_upgraded
        used = {each.tag for each in world if each.tag is not None}
        self.candidates = [each for each in candidates
                           if (each.is_installed or each.tag is None or each.tag in used)
                           and not any(w.conflict and each.meets(w) for w in world)]
        self.steps = 0

    def rank(self, need, candidate):
        package = candidate.package
        name = need if isinstance(need, str) else need.name
        version = package.version if isinstance(need, str) else candidate.version_for(need)[1]
        pinned = candidate.tag is not None and any(
            each.name == package.name and each.tag == candidate.tag for each in self.world)
        stays = candidate.is_installed and not self.is_upgraded(package.name)
        return (not pinned, candidate.tag is not None, package.name != name, not stays,
                version is None, greater_first(version or "0"), -package.provider_priority,
                package.name, greater_first(package.version), package.version,
                candidate.repository is None, candidate.repository or 0, candidate.place)

    def next_need(self, chosen):
        """The first need that no choice meets: of the world, of a choice, or by an install-if."""
        asked = self.world + [each for member in chosen for each in member.package.depends]
        for need in asked:
            if not need.conflict and not any(member.meets(need) for member in chosen):
                return need
        names = [each.package.name for each in self.candidates if self.is_triggered(each, chosen)]
        return min((name for name in names
                    if all(member.package.name != name for member in chosen)), default=None)

    def is_triggered(self, candidate, chosen):
        asked = candidate.package.install_if
        return bool(asked) and all(not each.conflict and any(m.meets(each) for m in chosen)
                                   for each in asked)

    def walk(self, chosen=(), passed_over=frozenset()):
        self.steps += 1
        if self.steps > 20_000:
            raise TooLong
        need = self.next_need(chosen)
        if need is None:
            return list(chosen)
        options = [each for each in self.candidates if each.meets(need)]
        for option in sorted(options, key=lambda each: self.rank(need, each)):
            is_free = option not in passed_over and not any(
                option.is_apart_from(m) or m.is_apart_from(option) for m in chosen)
            found = self.walk(chosen + (option,), passed_over) if is_free else None
            if found is not None:
                return found
            passed_over = passed_over | {option}
        return None


class TooLong(Exception):
    """A search that takes too many steps for a row."""


# ---------------------------------------------------------------------------------------------
# Changes

class Refused(Exception):
    pass


@dataclass
class Root:
    """Files apart from the database and world, and the installed packages in the order of the
    database, each with the paths that it owns. `text` is a database of version 2, if it is one."""
    files: dict = field(default_factory=dict)
    installed: list = field(default_factory=list)
    world: list = field(default_factory=list)
    has_database: bool = False
    has_world: bool = False
    text: bytes = None

    def copy(self):
        return Root(dict(self.files), list(self.installed), list(self.world), self.has_database,
                    self.has_world, self.text)

    def all_files(self, is_converted=False):
        """All files. If `is_converted` a database of version 2 is replaced by the one to which
        it is converted."""
        found = dict(self.files)
        if self.has_world:
            found[WORLD] = "".join(each.text() + "\n" for each in self.world).encode()
        if self.text is not None and not is_converted:
            found[TEXT_DATABASE] = self.text
        elif self.has_database:
            packages = [package.value(package.id, paths) for package, paths in self.installed]
            found[DATABASE] = file_of(0x00626469, [packages or None], 9)
        return found


@dataclass
class Repository:
    folder: str
    tag: str
    packages: list

    def path(self, package):
        return f"{self.folder}/{package.name}-{package.version}.apk"


@dataclass
class Command:
    applet: str
    options: list
    words: list

    def line(self):
        return [self.applet] + self.options + self.words

    def place(self, number):
        return 2 + len(self.options) + number


@dataclass
class Step:
    """What becomes of one package."""
    verb: str
    old: Package
    new: Package
    repository: int

    def line(self):
        package = self.new or self.old
        if self.verb in ("Upgrading", "Downgrading", "Replacing"):
            return f"{self.verb} {package.name} ({self.old.version} -> {self.new.version})"
        return f"{self.verb} {package.name} ({package.version})"

    def script(self):
        """The script that it asks for, if there is one."""
        names = {"Installing": SCRIPTS[1:3], "Purging": SCRIPTS[3:5]}.get(self.verb, SCRIPTS[5:7])
        package = self.new or self.old
        return next((name for name in names if package.scripts.get(name)), None)


class Change:
    """One change: `packages` are the files of packages, by the paths of their folders, name and
    version."""

    def __init__(self, root, command, repositories, packages):
        self.root, self.command = root, command
        self.repositories, self.packages = repositories, packages
        self.old = {package.name: package for package, _ in root.installed}
        self.old_paths = {package.name: paths for package, paths in root.installed}

    def run(self):
        """The report, and the root after the change."""
        world = self.new_world()
        selection = Search(self.candidates(), world, self.is_upgraded).walk()
        if selection is None:
            raise Refused("unable to select packages")
        self.new = {each.package.name: each for each in selection}
        self.steps = [step for name in sorted(set(self.old) | set(self.new))
                      for step in self.steps_of(name)]
        total = sum(each.package.size for each in selection)
        last = f"OK: {total} bytes in {len(selection)} packages"
        report = [f"({i + 1}/{len(self.steps)}) {step.line()}" for i, step in enumerate(self.steps)]
        report += self.stays()
        if "--simulate" in self.command.options:
            return report + [last], self.root
        self.test_packages()
        self.find_owners()
        files = self.files_after()
        self.test_reserved()
        self.test_clashes()
        self.test_owners()
        triggers = self.due_triggers()
        root = Root(files, [(self.after[name], self.paths_of(name)) for name in sorted(self.after)],
                    world, True, self.root.has_world or bool(world))
        notes = {path: f"{path}.apk-new installed; {path} was changed" for path in self.aside}
        notes.update({path: f"{path} kept; it was changed" for path in self.kept})
        return report + [notes[path] for path in sorted(notes)] + triggers + [last], root

    # -- which packages

    def new_world(self):
        applet, words = self.command.applet, self.command.words
        world = list(self.root.world)
        if applet == "add":
            for each in dependencies(words):
                world = [other for other in world if other.name != each.name] + [each]
            return sorted(world, key=lambda each: each.name)
        known = set(self.old) | ({each.name for each in world} if applet == "del" else set())
        for i, word in enumerate(words):
            if word not in known:
                raise Refused(f"word {self.command.place(i)}: not installed")
        return [each for each in world if applet != "del" or each.name not in words]

    def is_upgraded(self, name):
        command = self.command
        return command.applet == "upgrade" and (not command.words or name in command.words)

    def is_installed(self, package):
        """Whether a package of an index is the installed one."""
        old = self.old.get(package.name)
        return (old is not None and old.version == package.version
                and are_same(old.id, package.index_id()))

    def candidates(self):
        found = []
        for i, repository in enumerate(self.repositories):
            for package in repository.packages:
                found.append(Candidate(package, i, repository.tag, self.is_installed(package),
                                       len(found)))
        known = {each.package.name for each in found if each.is_installed}
        for package, _ in self.root.installed:
            if package.name not in known:
                found.append(Candidate(package, None, None, True, len(found)))
        return found

    def steps_of(self, name):
        old, new = self.old.get(name), self.new.get(name)
        if new is None:
            return [Step("Purging", old, None, None)]
        if old is None:
            return [Step("Installing", None, new.package, new.repository)]
        order = version_order(old.version, new.package.version)
        if new.is_installed:
            asked = self.command.applet == "fix" and name in self.command.words
            verb = "Reinstalling" if asked else None
        else:
            verb = "Upgrading" if order < 0 else "Downgrading" if order > 0 else "Replacing"
        return [Step(verb, old, new.package, new.repository)] if verb else []

    def stays(self):
        """The packages that `del` cannot take away."""
        lines = []
        for name in sorted(set(self.command.words)) if self.command.applet == "del" else []:
            if name in self.old and name in self.new:
                needed = [other for other, each in sorted(self.new.items()) if other != name
                          and any(not d.conflict and self.new[name].meets(d)
                                  for d in each.package.depends)]
                lines.append(f"{name} stays"
                             + (f"; required by: {' '.join(needed)}" if needed else ""))
        return lines

    def test_packages(self):
        for step in self.steps:
            if step.new is not None:
                new = step.new
                title = f"{new.name}-{new.version}"
                found = (None if step.repository is None else self.packages.get(
                    (self.repositories[step.repository].folder, new.name, new.version)))
                if found is None:
                    raise Refused(f"{title}: no such package file")
                if not are_same(found.id, new.index_id()):
                    raise Refused(f"{title}: differs from its index: {new.index_id().hex()}, "
                                  f"{found.id.hex()}")
            script = step.script()
            if script is not None and "--no-scripts" not in self.command.options:
                raise Refused(f"{(step.new or step.old).name}: script {script} needs --no-scripts")

    # -- which files

    def find_owners(self):
        self.coming = {step.new.name: step.new for step in self.steps if step.new is not None}
        self.after = {name: self.coming.get(name, self.old.get(name)) for name in self.new}
        self.claims = {}
        for name in sorted(self.after):
            paths = self.coming[name].files if name in self.coming else self.old_paths[name]
            for path in paths:
                self.claims.setdefault(path, []).append(name)
        self.owner = {}
        for path, names in self.claims.items():
            for name in names:
                if all(name == other or self.after[name].beats(self.after[other])
                       for other in names):
                    self.owner[path] = name

    def test_owners(self):
        for path in sorted(self.claims):
            if path not in self.owner:
                first, *others = self.claims[path]
                second = next(other for other in others
                              if not self.after[first].beats(self.after[other]))
                raise Refused(f"{path}: {first} and {second} both have it")

    def paths_of(self, name):
        """The paths that a package owns after the change."""
        listed = self.after[name].files if name in self.coming else self.old_paths[name]
        return [path for path in listed if self.owner.get(path) == name]

    def files_after(self):
        before = self.root.files
        listed = {path: package.entries[path] for package, paths in self.root.installed
                  for path in paths}
        files = dict(before)
        self.written, self.removed, self.aside, self.kept = set(), set(), [], []
        for path, name in self.owner.items():
            if name not in self.coming:
                continue
            new, old = self.coming[name].entries[path], listed.get(path)
            data, here = bytes_of(self.coming[name].files[path]), before.get(path)
            if not path.startswith("etc/") or here is None or new.lists(here) or (
                    old is not None and old.lists(here)):
                files[path] = data
                self.written.add(path)
            elif old != new and path + ".apk-new" not in self.claims:
                files[path + ".apk-new"] = data
                self.written.add(path + ".apk-new")
                self.aside.append(path)
        for path, old in listed.items():
            if path in self.claims or path in self.written:
                continue
            changed = path in before and not old.lists(before[path])
            if path.startswith("etc/") and changed and "--purge" not in self.command.options:
                self.kept.append(path)
            else:
                files.pop(path, None)
                self.removed.add(path)
        self.listed = listed
        return files

    def test_reserved(self):
        """No package may list one of the package keeper's own names."""
        for path in sorted(path for package in self.coming.values() for path in package.files):
            if is_at_or_below(path, ("etc/apk/world", "lib/apk/intent", "lib/apk/stage",
                                     "lib/apk/db")):
                raise Refused(f"{path}: reserved name")

    def test_clashes(self):
        """No name may be a folder of another one."""
        firm = {path for package in self.coming.values() for path in package.files}
        firm |= {path + ".apk-new" for path in self.aside} | {DATABASE, WORLD}
        names = {path for path in self.root.files
                 if path not in self.listed or path in self.claims} | set(self.kept) | firm
        for path in sorted(names):
            for other in sorted(names):
                if other.startswith(path + "/") and (path in firm or other in firm):
                    raise Refused(f"{path}: is a folder of {other}")

    def due_triggers(self):
        folders = sorted({path.rpartition("/")[0] for path in self.written | self.removed})
        due = [(name, folder) for name, package in sorted(self.after.items())
               if package.scripts.get("trigger") for folder in folders
               if any(is_folder_of(pattern, folder) for pattern in package.triggers)]
        if due and "--no-scripts" not in self.command.options:
            raise Refused(f"{due[0][0]}: its trigger needs --no-scripts")
        return [f"{name}: trigger due for {folder or '/'}" for name, folder in due]


def is_at_or_below(path, names):
    return any(path == name or path.startswith(name + "/") for name in names)


def is_folder_of(pattern, folder):
    pattern = pattern.removeprefix("/")
    parts, found = pattern.split("/"), folder.split("/")
    if not pattern or not folder:
        return pattern == folder
    return len(parts) == len(found) and all(
        is_match(part.encode(), each.encode()) for part, each in zip(parts, found))


def main():
    # both import this module
    import cases
    import folders
    if sys.argv[1] == "run":
        sys.exit(folders.run(*sys.argv[2:]))
    maker = cases.RowsMaker(int(sys.argv[1]), sys.argv[3:] == ["sweep"])
    for number in range(int(sys.argv[2])):
        maker.case(number)
    print("\n".join(maker.lines))


if __name__ == "__main__":
    main()
