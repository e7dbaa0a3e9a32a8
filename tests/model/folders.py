"""Runs a program on a folder of the host, on random cases. What it prints and leaves is compared
with what changes.py and questions.py expect."""

import hashlib
import os
import re
import shutil
import subprocess
import tempfile
import time
from collections import Counter

import foreign
import questions
from cases import APPLETS, NAMES, VERSIONS, Maker
from changes import Change, Refused, Repository, Root, TooLong, is_at_or_below
from packages import file_of
from questions import DATABASE, INTENT, REPOSITORIES, STAGE, TEXT_DATABASE, WORLD

WAITS = b"apk: waits for another run in this folder\n"
LISTED = ["usr/x", "usr/y", "bin/z", "etc/c", "etc/d/e", "f", "usr/share/m", "usr/share/n", "bin/l"]
FAULTS = [b"", b"x", b"ADB.", b"ADBd", b"ADB.pckg", b"ADB.indx\x0c\x00\x00\x00\x00\x00\x00\x00"]
BAD_WORLDS = [b"a\nb\na\n", b"!\n", b"\n\na b a\n", b"a=\n", b"a@\n", b"a\r\n", b"a><1\n", b"a=x"]
GOOD_WORLDS = [b"", b"\n", b"zz\t!yy  xx@none>=1\n\n", b"a>=1@edge", b"a=~1 b~=1"]
BAD_LISTS = [b"../x\n", b"@edge\n", b"\n#x\n@ repo\n", b"/\n", b"a//b\n", b"\xff\n",
             b"@e/dge repo/index.adb\n"]


class Different(Exception):
    """The end of a case: what is printed or left is not what was expected."""


class Folder:
    """A folder of the host with the files of a root."""

    def __init__(self, program, parent):
        self.program = os.path.abspath(program)
        self.path = tempfile.mkdtemp(prefix="root-", dir=parent)
        self.files = {}

    def clear(self):
        shutil.rmtree(self.path)
        os.mkdir(self.path)
        self.files = {}

    def put(self, files):
        """Changes the folder so that it has these files and no others."""
        for path in [path for path in self.files if path not in files]:
            os.remove(os.path.join(self.path, path))
            self.drop_empty(os.path.dirname(path))
        for path, data in files.items():
            if self.files.get(path) == data:
                continue
            name = os.path.join(self.path, path)
            if os.path.isdir(name):
                shutil.rmtree(name)
            os.makedirs(os.path.dirname(name), exist_ok=True)
            with open(name, "wb") as file:
                file.write(data)
        self.files = dict(files)

    def drop_empty(self, path):
        """Removes a folder if it is empty, and those above it."""
        while path:
            try:
                os.rmdir(os.path.join(self.path, path))
            except OSError:
                return
            path = os.path.dirname(path)

    def found(self):
        """The files that are there."""
        files = {}
        for folder, _, names in os.walk(self.path):
            for name in names:
                path = os.path.join(folder, name)
                with open(path, "rb") as file:
                    files[os.path.relpath(path, self.path)] = file.read()
        return files

    def run(self, words):
        done = subprocess.run([self.program] + words, cwd=self.path, stdin=subprocess.DEVNULL,
                              capture_output=True, check=False)
        return done.returncode, done.stdout, done.stderr


class Runner(Maker):
    """Makes cases and runs them."""

    def __init__(self, program, seed, parent):
        super().__init__(seed)
        self.seed, self.parent = seed, parent
        self.folder = Folder(program, parent)
        self.ran, self.answers, self.reasons, self.steps = (Counter() for _ in range(4))
        self.differences = 0

    # -- what is compared

    def run(self, applet, words, wanted, files):
        """Runs a command line. After it the folder has these files."""
        self.ran[applet] += 1
        self.answers[applet, wanted[0], bool(wanted[1])] += 1
        if wanted[2]:
            self.reasons[reason(wanted[2].decode())] += 1
        before = dict(self.folder.files)
        found = self.folder.run(words)
        if found[2].startswith(WAITS):
            # a program that gets no processor for a second prints this too
            self.steps["lines about waiting for another run"] += 1
            found = found[0], found[1], found[2][len(WAITS):]
        if wanted[0] == 2 or b"ERROR: usage error" in wanted[2]:
            # the further lines are texts for a reader, of the host or of the help
            found = found[0], found[1], found[2].split(b"\n")[0] + b"\n"
        elif wanted[0] == 1 and found[2]:
            # lines after the first that say what its numbers stand for
            first, *others = found[2].splitlines(keepends=True)
            found = found[0], found[1], first + b"".join(it for it in others if not it.startswith(b"apk: "))
        for name, one, other in zip(("status", "standard output", "standard error"), found, wanted):
            if one != other:
                self.differ(words, before, f"{name}: found {one!r}\n  instead of {other!r}")
        left = self.folder.found()
        if left != files:
            paths = sorted(path for path in set(left) | set(files)
                           if left.get(path) != files.get(path))
            self.differ(words, before, "files: " + "\n  ".join(
                f"{path}: found {left.get(path)!r}\n  instead of {files.get(path)!r}"
                for path in paths))
        self.folder.files = left

    def differ(self, words, before, text):
        self.differences += 1
        copy = f"{self.parent}/different-{self.seed}-{self.differences}"
        shutil.rmtree(copy, ignore_errors=True)
        other = Folder(self.folder.program, self.parent)
        other.put(before)
        os.rename(other.path, copy)
        print(f"DIFFERENT {copy}: seed {self.seed}, apk {words}\n  {text}", flush=True)
        raise Different

    def change(self, root, repositories, packages):
        command = self.command(root)
        self.folder.put(root.all_files())
        try:
            report, after = Change(root, command, repositories, packages).run()
            wanted = 0, "".join(line + "\n" for line in report).encode(), b""
        except TooLong:
            return root
        except Refused as refusal:
            after, wanted = root, (1, b"", f"ERROR: {refusal}\n".encode())
        if self.some(0.05):
            self.folder.put(self.interrupted(root.all_files()))
        self.run(command.applet, command.line(), wanted, after.all_files())
        return after

    def ask(self, root, files, applets, converted=None):
        """Asks on a folder that has these files. The answers are worked out from the files
        `converted`, if they are given."""
        converted = files if converted is None else converted
        self.folder.put(files)
        for applet in applets:
            words, question = self.question(root, applet)
            wanted = questions.answer(question, converted)
            if self.some(0.03):
                # a file that was left in the staging area is removed, unless the intent is bad
                self.steps["staged files"] += 1
                self.folder.put({**files, STAGE + self.one("0", "7", "x/y"): b"staged"})
            elif INTENT not in files and self.some(0.03):
                self.folder.put(self.interrupted(files))
            is_kept = f"ERROR: {INTENT}".encode() in wanted[2]
            self.run(applet, words, wanted, self.folder.files if is_kept else files)
        if self.some(0.2):
            words, place = self.usage_error()
            wanted = 1, b"", f"ERROR: usage error at word {place}\n".encode()
            self.run(words[0], words, wanted, self.folder.files)

    def interrupted(self, files):
        """A moment in a change that leaves these files, after its journal entry was made."""
        self.steps["interrupted changes"] += 1
        found = dict(files)
        writes = sorted(self.random.sample(sorted(files), min(len(files), self.one(0, 1, 2, 4))))
        removals = sorted(path for path in self.random.sample(LISTED + ["usr/old", "new/x"], 3)
                          if not any(is_at_or_below(path, (each,)) or is_at_or_below(each, (path,))
                                     for each in list(files)))
        done = self.random.randrange(len(removals) + len(writes) + 1)
        for path in removals[done:]:
            found[path] = b"old"
        for i, path in list(enumerate(writes, 1))[max(done - len(removals), 0):]:
            found[f"{STAGE}{i}"] = found.pop(path)
            if self.some(0.5):
                found[path] = b"old"
        found[INTENT] = file_of(
            0x74746E69, [[path.encode() for path in removals] or None,
                         [path.encode() for path in writes] or None], 10)
        return found

    def usage_error(self):
        """A wrong command line, and the place of its first wrong word."""
        applet = self.one("audit", "manifest", "list", "search", "policy")
        if applet in ("manifest", "search", "policy") and self.some(0.2):
            words = [applet] + ["--no-scripts"] * self.one(0, 1)
            return words, len(words) + 1
        good = [] if applet == "audit" else [self.one(*self.names) for _ in range(self.one(1, 2))]
        bad = {"audit": ["a", ""], "list": ["a b", "", "\x7f", "a\xe9"],
               "search": ["a b", "", " ", "a\n"], "manifest": ["a/b", "", "a=1", "!a", ".a"],
               "policy": ["a/b", "", "a b", "a@edge", "a>"]}[applet]
        words = [applet, "--allow-untrusted"] + good
        at = self.random.randrange(1, len(words) + 1)
        words.insert(at, self.one(*bad, "-x", "--none", "--simulate", "-W"))
        return words, at + 1

    def ask_of_others(self, root, repositories):
        """Asks on a database and indexes that another program may have written."""
        self.steps["other databases"] += 1
        root = foreign.installed(self, root)
        files = root.all_files()
        if self.some(0.8):
            files[DATABASE] = foreign.database(self, root)
        for repository in repositories:
            files[f"{repository.folder}/index.adb"] = foreign.index(self, repository)
        self.ask(root, files, APPLETS + ["info", "info", "info", "manifest"])

    def ask_of_bad_text(self, root):
        """Asks on a root whose database is a text of version 2 with a bad line."""
        self.steps["bad databases of version 2"] += 1
        found, lines = root.all_files(), root.text.split(b"\n")
        at = self.random.randrange(len(lines))
        found[TEXT_DATABASE] = b"\n".join(
            lines[:at] + [self.one(b"P", b"Xx", b"I:01", b"V:x", b"C:Q1", b"F:/", b"D:a@b", b"k:x")]
            + lines[at:])
        self.folder.put(found)
        words, question = self.question(root, self.one(*APPLETS))
        wanted = 1, b"", f"ERROR: package database: bad line {at + 1}\n".encode()
        self.run(question.applet, words, wanted, self.folder.files)

    def ask_of_link(self, root):
        """Asks on a root in which a link is at the path of a file."""
        owned = [path for _, paths in root.installed for path in paths]
        path = self.one(*owned) if owned else None
        if path not in root.files:
            return
        self.steps["links"] += 1
        self.folder.put(root.all_files())
        name = os.path.join(self.folder.path, path)
        os.remove(name)
        os.symlink("z", name)
        found, wanted = self.folder.run(["audit"]), (2, b"", b"ERROR: the tree failed")
        self.ran["audit"] += 1
        os.remove(name)
        del self.folder.files[path]
        if (found[0], found[1], found[2].split(b"\n")[0]) != wanted:
            self.differ(["audit"], self.folder.files, f"a link at {path}: found {found!r}")

    def put_empty_folders(self, root):
        """Puts empty folders where files may come."""
        for path in LISTED:
            if path not in root.files and self.some(0.1):
                try:
                    os.makedirs(os.path.join(self.folder.path, path), exist_ok=True)
                    self.steps["empty folders"] += 1
                except OSError:
                    pass

    # -- a case

    def repository_lines(self, repository):
        line = super().repository_lines(repository)
        if self.some(0.2):
            line = self.one(" ", "\t") + line[:-1] + " \n"
        if self.some(0.1) and not repository.tag:
            line = "/" + line.lstrip()
        if self.some(0.1) and repository.tag:
            line = line.replace(" ", " \t ", 1)
        return self.one("", "", "", "\n", "# a comment\n", "  #\n") + line

    def repositories(self):
        found = [Repository("repo", None, self.repository_packages())]
        for folder in ("more", "third/folder"):
            if self.some(0.5):
                tag = self.one(None, "edge", "edge", "b-1.x")
                packages = self.repository_packages()
                if self.some(0.3):
                    packages += [package for package in found[0].packages if self.some(0.5)]
                self.random.shuffle(packages)
                found.append(Repository(folder, tag, packages))
        if self.some(0.1):
            found.append(Repository("repo", self.one(None, "edge"), found[0].packages))
        return found

    def user_files(self, root):
        """The user edits files, removes some, and puts folders in the place of others."""
        files = dict(root.files)
        for path in sorted(set(root.files) | set(self.random.sample(LISTED, 2))):
            if path.startswith(("repo/", "more/", "third/", "etc/apk/")) or not self.some(0.4):
                continue
            kind = self.random.randrange(6)
            if kind < 3:
                if not any(each.startswith(path + "/") or path.startswith(each + "/")
                           for each in files):
                    self.steps["edited files"] += 1
                    files[path] = self.one(b"1", b"2", b"user", b"", b"!<symlink>z", b"text\n")
            elif kind < 5:
                self.steps["removed files"] += path in files
                files.pop(path, None)
            elif path in files:
                self.steps["files replaced by folders"] += 1
                del files[path]
                files[path + self.one("/u", "/y", "/u/v")] = b"u"
        root = root.copy()
        root.files = files
        return root

    def other_repositories(self, root, repositories, packages):
        """The first repository has other packages."""
        old = repositories[0].packages
        new = self.other_packages(repositories[0])
        self.random.shuffle(new)
        repositories = [Repository(each.folder, each.tag, new if each.packages is old
                                   else each.packages) for each in repositories]
        packages = {**packages, **self.package_files(repositories[:1])}
        return self.with_repositories(root, repositories, packages), repositories, packages

    def with_repositories(self, root, repositories, packages):
        root = root.copy()
        root.files = {path: data for path, data in root.files.items()
                      if not path.startswith(("repo/", "more/", "third/"))}
        root.files.update(self.repository_files(repositories, packages))
        return root

    def with_faults(self, files, repositories):
        """Some of the files that are read are absent, folders, or no good ones."""
        files = dict(files)
        indexes = [f"{each.folder}/index.adb" for each in repositories]
        for path in dict.fromkeys([INTENT, DATABASE, WORLD, REPOSITORIES] + indexes):
            if not self.some(0.06 if path in (INTENT, DATABASE) else 0.35):
                continue
            data = files.pop(path, None)
            kind = self.random.randrange(4)
            if path == INTENT:
                files[path] = self.one(*FAULTS, files[indexes[0]] if indexes[0] in files else b"")
            elif path == WORLD:
                files[path] = self.one(*BAD_WORLDS, *GOOD_WORLDS)
            elif path == REPOSITORIES:
                files[path] = self.one(*BAD_LISTS, b"none\n" + data, data + b"\n@x none/index.adb")
            elif kind == 0:
                files[path + "/u"] = b"u"
            elif kind == 1:
                files[path] = self.one(*FAULTS)
            elif kind == 2 and data:
                # a byte or two of it changed
                data = bytearray(data)
                for _ in range(self.one(1, 1, 2)):
                    data[self.random.randrange(len(data))] = self.one(0, 1, 0x31, 0x62, 0x80, 255)
                files[path] = bytes(data)
        return files

    def case(self):
        self.folder.clear()
        self.names, self.versions = self.one(*NAMES), self.one(*VERSIONS)
        repositories = self.repositories()
        packages = self.package_files(repositories)
        root = self.with_repositories(Root(), repositories, packages)
        root = self.user_files(root)
        if self.some(0.1):
            self.ask(root, root.all_files(), self.random.sample(APPLETS, 3))
        for _ in range(8):
            if not root.installed:
                root = self.change(root, repositories, packages)
        if not root.has_database:
            return self.ask(root, root.all_files(), APPLETS)
        for _ in range(self.one(2, 3, 4, 5)):
            for _ in range(self.one(1, 1, 2)):
                root = self.change(root, repositories, packages)
                if self.some(0.4):
                    self.ask(root, root.all_files(), APPLETS, root.all_files(is_converted=True))
            root = self.user_files(root)
            if root.text is None and self.some(0.15):
                self.steps["databases of version 2"] += 1
                root = foreign.with_text_database(self, root)
            elif root.text is None and self.some(0.15):
                self.steps["changed databases"] += 1
                root = foreign.installed(self, root)
            self.folder.put(root.all_files())
            self.put_empty_folders(root)
            self.ask(root, root.all_files(), APPLETS + ["audit", "list", "search", "policy"],
                     root.all_files(is_converted=True))
            if root.text is not None:
                self.ask_of_bad_text(root)
                continue
            if self.some(0.25):
                self.ask_of_others(root, repositories)
            if self.some(0.3):
                self.ask_of_link(root)
            if self.some(0.4):
                self.ask(root, self.with_faults(root.all_files(), repositories),
                         self.random.sample(APPLETS, 4))
            if self.some(0.4):
                root, repositories, packages = self.other_repositories(
                    root, repositories, packages)
                self.ask(root, root.all_files(), ["list", "search", "policy", "list"])


    def large_case(self):
        """As many candidates as there may be, and one more."""
        self.folder.clear()
        self.names = ["p1", "p10", "p65535", "q", "p"]
        for count in (65_536, 65_537):
            infos = [[b"p%d" % i, b"1", hashlib.sha256(b"%d" % i).digest()] for i in range(count)]
            files = {DATABASE: file_of(0x00626469, [None], 9), REPOSITORIES: b"repo/index.adb",
                     "repo/index.adb": file_of(0x78646E69, [None, infos], 8)}
            self.ask(Root(), files, APPLETS)


def reason(text):
    """The text of a refusal without its numbers, names and paths."""
    whole = ("ERROR: package database: ", "ERROR: repository ", f"ERROR: {INTENT}: ")
    if text.startswith(whole):
        text = re.sub(r"\b[0-9a-f]{8}\b", "W", text)
        return re.sub(r"\d+", "N", text).strip()
    text = re.sub(r"\b(word|line) \d+", r"\1 N", text)
    for pattern, plain in (
            (r"ERROR: \S+: (no such package file|its trigger|reserved name)", r"ERROR: NAME: \1"),
            (r"differs from its index.*", "differs from its index"),
            (r"ERROR: \S+: is a folder of .*", "ERROR: PATH: is a folder of OTHER"),
            (r"ERROR: .* both have it", "ERROR: PATH: FIRST and SECOND both have it"),
            (r"ERROR: \S+: script \S+", "ERROR: NAME: script SCRIPT"),
            (r"ERROR: \S+: differs", "ERROR: NAME: differs")):
        text = re.sub(pattern, plain, text)
    return text.strip()


def run(program, seed, commands, parent="/tmp", until=None):
    runner = Runner(program, int(seed), parent)
    cases = 0
    while sum(runner.ran.values()) < int(commands):
        if until and time.strftime("%H:%M") >= until:
            break
        cases += 1
        try:
            runner.large_case() if cases == 20 else runner.case()
        except Different:
            pass
    shutil.rmtree(runner.folder.path)
    for (applet, status, is_printed), count in sorted(runner.answers.items()):
        print(f"{applet}: status {status}, {'some' if is_printed else 'no'} output: {count}")
    for text, count in sorted(runner.reasons.items()):
        print(f"{text}: {count}")
    for text, count in sorted(runner.steps.items()):
        print(f"{text}: {count}")
    print(f"seed {seed}: {sum(runner.ran.values())} command lines in {cases} cases, "
          f"{runner.differences} differences")
    return 1 if runner.differences else 0
