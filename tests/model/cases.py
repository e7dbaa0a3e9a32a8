"""Random cases for changes.py: packages, repositories, changes, questions, and rows of them."""

import hashlib
import random

import questions
import verify
from changes import Change, Command, Refused, Repository, Root, TooLong
from packages import SCRIPTS, Link, Package, file_of
from questions import DATABASE, REPOSITORIES, Question
from versions import dependencies

PATHS = {"usr/x": 6, "usr/y": 6, "bin/z": 6, "etc/c": 9, "etc/c.apk-new": 2, "etc/d/e": 6, "f": 4,
         "usr": 1, "usr/x/y": 1, "etc/d": 1, "usr/share/m": 5, "usr/share/n": 5,
         "etc/c.apk-new/x": 0.5, "lib/apk/db/z": 0.2}
TRIGGERS = [["/usr/*"], ["usr"], ["/etc", "/bin"], ["/"], ["/*"], ["/usr/share"], ["u*r/*"]]
SWEPT = ["stop each", "fail each"]
APPLETS = ["info", "audit", "manifest", "list", "search", "policy"]

PLAIN_NAMES = ["a", "b", "c", "d", "e"]
NAMES = [PLAIN_NAMES, PLAIN_NAMES, ["lib", "lib-a", "lib-b", "so:lib", "b"],
         ["a", "aa", "aba", "ab", "bab"], ["a+b", "a.b", "A", "_", "0"],
         ["a*", "*", "a?", "[a]", "a"], ["x-1", "x", "x-1-r0", "1", "x-"]]
PLAIN_VERSIONS = ["1", "2", "3"]
VERSIONS = [PLAIN_VERSIONS, ["1", "01", "2", "3"], ["1", "01", "001", "2"],
            ["1.0-r0", "1.0-r00", "1.0-r1", "1.1"], ["1_p1", "1_p01", "1_rc1", "1"],
            ["1.02", "1.2", "1.025", "1.2a"], ["1.02", "1.025", "1.0250", "1.25"],
            ["2~ab", "2~b", "2", "2-r1"],
            ["1_alpha", "1_alpha1", "1_p", "1.0"], ["10", "9", "1", "1.10"]]
DIGESTS = [hashlib.sha256, hashlib.sha256, hashlib.sha256, hashlib.sha1, hashlib.sha512]


class Maker:
    """Makes the parts of a case."""

    def __init__(self, seed):
        self.random = random.Random(seed)
        self.names = self.known = PLAIN_NAMES
        self.versions = PLAIN_VERSIONS

    def some(self, odds):
        return self.random.random() < odds

    def one(self, *choices):
        return self.random.choice(choices)

    # -- packages and repositories

    def dependency(self, conflicts, tags, versions):
        name = self.one(*self.known) if self.some(0.9) else self.one("v", "w", *self.names)
        tag = self.one("@edge", "@edge", "@b-1.x") if self.some(tags) else ""
        version = (self.one(">=", ">=", "<=", "~", "~", "=", ">", "<", "<~", ">~")
                   + self.one(*self.versions) if self.some(versions) else "")
        return ("!" if self.some(conflicts) else "") + name + tag + version

    def provided(self):
        version = self.one(*self.versions)
        return self.one("v", "w", f"v={version}", f"v={version}", f"w={version}",
                        f"{self.names[0]}={version}", self.names[2], "!v", f"!w={version}",
                        "cmd:v", f"so:w={version}")

    def digest(self, content):
        """Of a file with contents its digest; of an empty one nearly always none."""
        if content or self.some(0.2):
            content = b"other" if not content and self.some(0.2) else content
            return self.one(*DIGESTS)(content).digest()
        return b""

    def package(self, name, version):
        files = {}
        for _ in range(self.one(0, 1, 1, 2, 2, 3)):
            path = self.random.choices(list(PATHS), PATHS.values())[0]
            files[path] = self.one(b"", b"1", b"2", b"text\n", b"x")
        if self.some(0.1):
            files["bin/l"] = Link(self.one("z", "q"))
        digests = {path: self.digest(content) for path, content in files.items()
                   if not isinstance(content, Link)}
        texts = {"description": self.one(None, b"a package", b"d\xc3\xa9", b" [installed]"),
                 "arch": self.one(None, b"x86_64", b"noarch"),
                 "license": self.one(None, None, b"MIT", b"GPL-2.0 OR (MIT)"),
                 "origin": self.one(None, None, b"o", name.encode())}
        scripts = {self.one(*SCRIPTS[1:]): b"x"} if self.some(0.15) else {}
        triggers = self.one(*TRIGGERS) if self.some(0.2) else []
        if triggers and self.some(0.8):
            scripts["trigger"] = b"x"
        depends = {each.name: each for each in dependencies(
            self.dependency(0.15, 0, 0.3) for _ in range(self.one(0, 0, 0, 1, 1, 2)))}
        return Package(
            name, version, files, digests, texts, list(depends.values()),
            dependencies(self.provided() for _ in range(self.one(0, 0, 0, 1, 1, 2))),
            dependencies(self.one("", "", "", "!") + name
                         + self.one("", "", ">" + self.versions[0]) for name
                         in self.random.sample(self.names, self.one(0, 1, 1, 2, 3))),
            dependencies([self.one(*self.names), self.one("", "", "!") + self.one(*self.names)]
                         if self.some(0.15) else []),
            scripts, triggers, self.one(0, 0, 1), self.one(0, 0, 1, 2),
            self.one(32, 32, 32, 20),
            {path: [0o644, b"root", b"root"] for path in files if self.some(0.2)})

    def repository_packages(self):
        count = self.one(*range(2, 9))
        titles = sorted({(self.one(*self.names), self.one(*self.versions)) for _ in range(count)})
        titles += titles[:1] if self.some(0.1) else []
        self.known = sorted({name for name, _ in titles}) + ["v"]
        return [self.package(*title) for title in sorted(titles)]

    def other_packages(self, repository):
        """Some of the packages of a repository, and others."""
        kept = [package for package in repository.packages if self.some(0.6)]
        titles = {(package.name, package.version) for package in kept}
        kept += [package for package in self.repository_packages()
                 if (package.name, package.version) not in titles]
        return sorted(kept, key=lambda package: (package.name, package.version))

    def package_files(self, repositories):
        """Nearly all packages have a file, and nearly all of these are as their index says. Of two
        packages of one name and version the later one has it."""
        return {(repository.folder, package.name, package.version):
                package if self.some(0.98) else self.package(package.name, package.version)
                for repository in repositories for package in repository.packages
                if self.some(0.97)}

    def repository_files(self, repositories, packages):
        """The files of repositories, and the list of them."""
        files = {}
        for repository in repositories:
            for package in repository.packages:
                found = packages.get((repository.folder, package.name, package.version))
                if found is not None:
                    files[repository.path(package)] = found.container()
            index = [package.information(package.index_id()) for package in repository.packages]
            files[f"{repository.folder}/index.adb"] = file_of(0x78646E69, [None, index or None], 8)
        files[REPOSITORIES] = "".join(self.repository_lines(each) for each in repositories).encode()
        return files

    def repository_lines(self, repository):
        tag = f"@{repository.tag} " if repository.tag else ""
        return f"{tag}{repository.folder}/index.adb\n"

    # -- command lines

    def command(self, root):
        applet = ("add" if not root.has_database
                  else self.one("add", "add", "del", "upgrade", "upgrade", "fix"))
        names = [package.name for package, _ in root.installed] + [self.names[4]]
        options = ["--allow-untrusted"]
        if applet == "add" and (not root.has_database or self.some(0.2)):
            options.append("--initdb")
        if self.some(0.75):
            options.append("--no-scripts")
        if self.some(0.08):
            options.append("--simulate")
        if applet == "add":
            count = self.one(1, 2, 2, 3) if not root.has_database else self.one(0, 1, 1, 2)
            return Command(applet, options,
                           [self.dependency(0.08, 0.2, 0.2) for _ in range(count)])
        if applet == "del":
            names += [each.name for each in root.world]
            options += ["--purge"] if self.some(0.3) else []
        count = self.one(0, 0, 1, 2) if applet == "upgrade" else self.one(1, 1, 2)
        return Command(applet, options, [self.one(*names) for _ in range(count)])

    def pattern(self):
        name = self.one(*self.names, "v", "cmd:v", "so:w")
        kind = self.random.randrange(7)
        if kind == 0:
            return self.one("*", "**", "?", "*-*", "[a-z]", ".*", "-*", "*:*")
        if kind == 1:
            return name
        if kind == 2:
            cut = self.random.randrange(len(name) + 1)
            return self.one(name[:cut] + "*", "*" + name[cut:], name[:cut] or "*")
        if kind == 3:
            return "".join("*" if self.some(0.4) else byte for byte in name)
        if kind == 4:
            at = self.random.randrange(len(name) + 1)
            return name[:at] + self.one("*", "*", "**", "x") + name[at:]
        alphabet = "".join(self.names) + "***?v"
        return "".join(self.one(*alphabet) for _ in range(self.one(1, 2, 3, 4)))

    def operands(self, applet, kind, root):
        installed = [package.name for package, _ in root.installed]
        if applet == "audit" or (applet in ("info", "list") and not kind and self.some(0.35)):
            return []
        if kind == "-W":
            owned = [path for _, paths in root.installed for path in paths]
            path = self.one(*owned if owned and self.some(0.7) else PATHS)
            return [self.one("", "/") + path]
        if applet in ("list", "search"):
            least = 1 if applet == "search" else 0
            return [self.pattern() for _ in range(self.one(least, 1, 1, 2, 3))]
        some = installed if installed and kind != "-e" and self.some(0.8) else (
            installed * 3 + self.names + ["v", "none"])
        return [self.one(*some) for _ in range(self.one(1, 1, 2, 3))]

    def question(self, root, applet):
        """A command line that only reports, as words and as what they ask."""
        kind, flags = None, []
        if applet == "info":
            kind = self.one(None, None, "-e", "-L", "-R", "-W")
            long = {"-e": "--installed", "-L": "--contents", "-R": "--depends",
                    "-W": "--who-owns"}
            flags = [self.one(kind, long[kind])] if kind else []
        if applet == "list" and self.some(0.5):
            kind, flags = "-I", [self.one("-I", "--installed")] * self.one(1, 1, 1, 2)
        operands = self.operands(applet, kind, root)
        is_trusted = self.some(0.95)
        first, later = [], flags
        for option in ["--allow-untrusted"] * is_trusted + ["--no-scripts"] * self.some(0.1):
            (first if self.some(0.2) else later).append(option)
        # up to `--` operands and options in any order; after it operands alone
        cut = next((i for i, word in enumerate(operands) if word[0] == "-" and len(word) > 1),
                   len(operands))
        after = self.random.randrange(cut + 1) if cut < len(operands) or self.some(0.1) else cut
        ends = after < len(operands) or self.some(0.05)
        early = operands[:after]
        marks = [True] * len(early) + [False] * len(later)
        self.random.shuffle(marks)
        words, places = first + [applet], []
        early, later = iter(early), iter(later)
        for mark in marks:
            words.append(next(early if mark else later))
            places += [len(words)] if mark else []
        if ends:
            words.append("--")
            for word in operands[after:]:
                words.append(word)
                places.append(len(words))
        return words, Question(applet, kind, [word.encode() for word in operands], places,
                               is_trusted)


class RowsMaker(Maker):
    """Makes rows, line by line."""

    def __init__(self, seed, sweep):
        super().__init__(seed)
        self.sweep = sweep
        self.lines = []

    def put(self, word, path, data):
        if path == DATABASE or path.endswith("/index.adb"):
            self.lines.append(f"{word} {path} dump")
            self.lines += ["| " + line for line in verify.dump(data).splitlines()]
            return
        self.lines.append(f"{word} {path} hex")
        if data:
            self.lines.append("| " + data.hex())

    def begin(self, name, root, files, origin=None):
        """A row with these files."""
        self.lines.append(f"row {name}: A random change.")
        if origin:
            self.lines.append(f"from {origin}")
        for path, data in files.items():
            self.put("file", path, data)
        root.files.update(files)

    def end(self, root, count, repositories, packages):
        """So many changes, each with a few questions, and what they come to."""
        for _ in range(count):
            root = self.run(root, self.command(root), repositories, packages)
            for applet in self.random.sample(APPLETS, self.one(0, 1, 2, 3)):
                self.ask(root, applet)
        self.lines += ["$ apk version -t 1 1", "> =", ""]
        return root

    def command_line(self, words):
        return "$ apk " + " ".join(f"'{word}'" for word in words)

    def run(self, root, command, repositories, packages):
        swept = SWEPT if self.sweep and self.some(0.5) else []
        try:
            report, after = Change(root, command, repositories, packages).run()
        except TooLong:
            return root
        except Refused as refusal:
            self.lines += swept + [self.command_line(command.line()), f"! ERROR: {refusal}",
                                   "status 1", "writes 0"]
            return root
        self.lines += swept + [self.command_line(command.line())]
        self.lines += ["> " + line for line in report]
        if after is not root:
            self.show(root.all_files(), after.all_files())
        return after

    def ask(self, root, applet):
        words, question = self.question(root, applet)
        status, out, err = questions.answer(question, root.all_files())
        swept = SWEPT if self.sweep and self.some(0.3) else []
        self.lines += swept + [self.command_line(words)]
        self.lines += ["> " + line for line in out.decode().split("\n")[:-1]]
        self.lines += ["! " + line for line in err.decode().split("\n")[:-1]]
        self.lines += [f"status {status}"] if status else []
        self.lines.append("writes 0")

    def show(self, before, after):
        """The files that a change leaves."""
        for path in sorted(set(before) | set(after)):
            if path not in after:
                self.lines.append(f"then {path} absent")
            elif before.get(path) != after[path]:
                self.put("then", path, after[path])

    def case(self, number):
        root = Root()
        self.names = self.one(*NAMES[:5])
        self.versions = self.one(*VERSIONS)
        repositories = [Repository("repo", None, self.repository_packages())]
        if self.some(0.5):
            tag = self.one(None, "edge", "edge")
            repositories.append(Repository("more", tag, self.repository_packages()))
        packages = self.package_files(repositories)
        files = self.repository_files(repositories, packages)
        for path in ("usr/x", "etc/c", "etc/d/e", "usr/y"):
            if self.some(0.12):
                files[path] = self.one(b"1", b"q")
        self.begin(f"before_{number}", root, files)
        root = self.end(root, 2, repositories, packages).copy()

        # the user changes files, and the first repository has other packages
        repositories = [Repository("repo", None, self.other_packages(repositories[0]))] + (
            repositories[1:])
        packages = {**packages, **self.package_files(repositories[:1])}
        files = self.repository_files(repositories, packages)
        for path in sorted(root.files):
            if not path.startswith(("repo/", "more/", "etc/apk/")) and self.some(0.35):
                files[path] = self.one(b"1", b"2", b"user", b"")
        self.begin(f"after_{number}", root, files, f"before_{number}")
        self.end(root, 3, repositories, packages)
