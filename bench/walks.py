#!/usr/bin/env python3
"""Runs random command lines over random trees by bin/pcre2grep and by the C library's pcre2grep, and tells what differs.

A tree has files, folders, links, pipes, names that aren't text, files that may not be read, and folders that may not be listed
or not be entered; the command lines name files and folders in it, links to them, and names that aren't there. The C library's
tool goes over a copy of the tree without what `docs/pcre2grep.md`, "DIFFERENCES", says is passed over, and its messages and its
words are put into the form that this page says; the lines of both sides are compared without their order. With `-l` or `-L` our
names have to come in the order of their paths. So each run that is told has a difference that no rule explains. The seed makes
a run the same each time. Where the script is run by root it gives its rights up first.

    bench/walks.py [--program FOLDER] [--theirs COMMAND] [--trees COUNT] [--lines COUNT] [--seed N]

COUNT lines are run over each tree. Run ./build first; the C library's pcre2grep has to be on the PATH (Debian's package
pcre2-utils).
"""
import argparse
import os
import pwd
import random
import re
import shlex
import shutil
import subprocess
import sys
import tempfile

HERE = os.path.dirname(os.path.abspath(__file__))
NAMES = ["a", "b", "ab", "ba.c", "c.h", ".hid", "-x", "two words", "é", "a:b", "one.c", "sub", "in", "~", "a-1"]
ODD = [b"\xff", b"a\xfe.c", b"\xc3"]
LINES = ["red", "dark red", "blue", "Red", "", "green", "a red one", "redder", "x" * 300, "r\u00e9d"]
PATTERNS = ["red", "^red$", "b|g", "x{5}", "e+d", "nothing", "[A-Z]", "(r)(e)d", "\\bred\\b", "re|Re"]
FILTERS = ["\\.c$", "^a", "b", "^\\.", "sub", "^-", "[^a]"]


def give_up_rights():
    """Goes on as a user that isn't root."""
    if os.geteuid() == 0:
        nobody = pwd.getpwnam("nobody")
        os.setgroups([])
        os.setgid(nobody.pw_gid)
        os.setuid(nobody.pw_uid)


class Folder:
    """What a walk of ours sees of a folder: its folders by their names, and whether a name isn't text."""

    def __init__(self, listed=True):
        self.folders = {}
        self.files = []
        self.listed = listed
        self.odd = False


class Tree:
    """A tree in the folder `whole`, and in the folder `plain` the same without what ours passes over."""

    def __init__(self, choice, folder):
        self.choice = choice
        self.whole = os.path.join(folder, "whole", "top")
        self.plain = os.path.join(folder, "plain", "top")
        self.barred = []
        self.files, self.folders = [], ["."]
        self.root = Folder()
        for side in (self.whole, self.plain):
            os.makedirs(side)
            os.mkdir(os.path.join(os.path.dirname(side), "links"))
        self.fill(self.root, "", 0)
        self.link()
        for path, mode in reversed(self.barred):
            for side in (self.whole, self.plain):
                if os.path.lexists(os.path.join(side, path)):
                    os.chmod(os.path.join(side, path), mode)

    def write(self, path, sides):
        choice = self.choice
        text = "\n".join(choice.choice(LINES) for _ in range(choice.randrange(6)))
        data = text.encode() + (b"\n" if choice.randrange(4) else b"")
        if choice.randrange(12) == 0:
            data = b"red\0\n" + data
        for side in sides:
            with open(os.path.join(side, path) if isinstance(path, str) else os.path.join(os.fsencode(side), path), "wb") as out:
                out.write(data)

    def fill(self, folder, below, depth):
        choice = self.choice
        for name in choice.sample(NAMES, choice.randrange(1, 7)):
            path = os.path.join(below, name)
            kind = choice.randrange(12)
            if kind < 5 or depth > 3 and kind < 8:
                self.write(path, (self.whole, self.plain))
                folder.files.append(name)
                self.files.append(path)
                if choice.randrange(10) == 0:
                    self.barred.append((path, 0o000))
            elif kind < 8:
                self.enter(folder, path, name, depth)
            elif kind == 8:
                os.mkfifo(os.path.join(self.whole, path))
            else:
                to = choice.choice([".", "..", "nowhere", "a", name, "sub"])
                os.symlink(to, os.path.join(self.whole, path))
        if choice.randrange(10) == 0:
            folder.odd = True
            odd = os.path.join(os.fsencode(below), choice.choice(ODD))
            if choice.randrange(2):
                self.write(odd, (self.whole,))
            else:
                os.mkdir(os.path.join(os.fsencode(self.whole), odd))

    def enter(self, folder, path, name, depth):
        """Makes a folder, which sometimes may not be listed, or not be entered: nothing in that one can be looked at."""
        kind = self.choice.randrange(12)
        inner = Folder(listed=kind > 1)
        folder.folders[name] = inner
        self.folders.append(path)
        for side in (self.whole, self.plain):
            os.mkdir(os.path.join(side, path))
        if kind == 2:
            self.write(os.path.join(path, "a"), (self.whole,))
            self.barred.append((path, 0o444))
            return
        self.fill(inner, path, depth + 1)
        if kind < 2:
            self.barred.append((path, 0o111 if kind else 0o000))

    def link(self):
        """Links that are words: to a file, to a folder, and to nothing."""
        file = self.choice.choice(self.files) if self.files else "none"
        to = {"file": file, "folder": self.choice.choice(self.folders), "none": "gone"}
        for name, target in to.items():
            for side in (self.whole, self.plain):
                os.symlink(os.path.join("..", "top", target), os.path.join(os.path.dirname(side), "links", name))
        self.linked = to["folder"]

    def at(self, path):
        """The folder at a path, where the path is one's."""
        if os.path.normpath(path) == "../links/folder":
            path = self.linked
        place = self.root
        for name in os.path.normpath(path).split("/"):
            if name != ".":
                place = place.folders.get(name) if place else None
        return place


class Line:
    """A command line: the words of both sides, and what a rule adds to or takes from what theirs tells."""

    def __init__(self, choice, tree):
        self.choice, self.tree = choice, tree
        self.recursive = choice.randrange(4) > 0
        self.mode = choice.choice([[], [], [], ["-c"], ["-l"], ["-L"], ["-q"], ["-o"], ["-t"], ["-c", "-t"], ["--line-offsets"]])
        self.options = ["-r"] if self.recursive else []
        self.options += [letter for letter in ("-n", "-i", "-w", "-x", "-F", "-s") if choice.randrange(6) == 0]
        if choice.randrange(6) == 0 and not {"-o", "--line-offsets"} & set(self.mode):
            self.options.append("-v")
        if choice.randrange(6) == 0:
            self.options += ["-m", str(choice.randrange(1, 4))]
        if not {"-l", "-L"} & set(self.mode):
            self.options += choice.choice([[], [], ["-H"], ["-h"]])
        self.filters = {name: [] for name in ("--include", "--exclude", "--include-dir", "--exclude-dir")}
        for name, values in self.filters.items():
            if choice.randrange(7) == 0:
                values.append(choice.choice(FILTERS))
                self.options.append(f"{name}={values[0]}")
        self.pattern = choice.choice(PATTERNS)
        self.words = [self.word() for _ in range(choice.randrange(1, 4))]
        if self.words.count("-") > 1:
            self.words = ["-"]

    def word(self):
        """A word for a file. Under -r ours tells a name that can't be asked for its kind whatever the filters say, and theirs
        doesn't where they rule it out; without -r a folder goes by another name there. Filtered names leave such words out."""
        while True:
            word = self.any_word()
            if not any(self.filters.values()) or (self.is_there(word) if self.recursive else self.place(word.rstrip("/")) is None):
                return word

    def is_there(self, word):
        return word == "-" or os.path.exists(os.path.join(self.tree.whole, word))

    def any_word(self):
        choice, tree = self.choice, self.tree
        kind = choice.randrange(12)
        if kind < 5:
            return choice.choice(["", "./"]) + choice.choice(tree.folders) + choice.choice(["", "", "/", "//"])
        if kind < 8 and tree.files:
            return choice.choice(["", "./"]) + choice.choice(tree.files)
        if kind < 10:
            return "../links/" + choice.choice(["file", "folder", "none"])
        return "gone" if kind == 10 else "-"

    def allows(self, name):
        """Whether a folder is searched, by the last component of its path."""
        shut, only = self.filters["--exclude-dir"], self.filters["--include-dir"]
        return not any(re.search(p, name) for p in shut) and (not only or any(re.search(p, name) for p in only))

    def unnamed(self, place, path):
        """What ours tells of names that aren't text."""
        if place is None or not place.listed or not self.allows(os.path.basename(path)):
            return []
        told = [f"pcre2grep: {path}: an entry has no readable name"] if place.odd else []
        for name, inner in place.folders.items():
            told += self.unnamed(inner, f"{path}/{name}")
        return told

    def ours(self):
        return self.mode + self.options + ["--", self.pattern] + self.words

    def theirs(self):
        """Slashes at a word's end aren't shown, and without -r a folder can't be opened, as a name that isn't there."""
        words = [word.rstrip("/") for word in self.words]
        if not self.recursive:
            words = [word if self.place(word) is None else "gone=" + word.replace("/", "=") for word in words]
        return ["-D", "skip"] + self.mode + self.options + ["--", self.pattern] + words

    def place(self, word):
        return None if word == "-" else self.tree.at(word)

    def wanted(self, run):
        """What ours has to write for what theirs wrote: its lines and its messages, in an order of their own, and its status."""
        said = []
        for line in run.stderr.decode().splitlines():
            line = re.sub(r"^pcre2grep: Failed to open directory (.*): .*", r"pcre2grep: \1: cannot be listed", line)
            line = re.sub(r"^pcre2grep: Failed to open (.*): .*", r"pcre2grep: \1: cannot be opened", line)
            if line.startswith("pcre2grep: gone="):
                line = line.replace("gone=", "", 1).replace("=", "/")
            said.append(line)
        status, odd = run.returncode, []
        if self.recursive:
            for word in filter(self.is_there, self.words):
                odd += self.unnamed(self.place(word.rstrip("/")), word.rstrip("/"))
        if odd:
            status = 2
        if "-s" not in self.options:
            said += odd
        return sorted(run.stdout.splitlines()), sorted(said), status


def run(command, words, folder):
    return subprocess.run([*command, *words], cwd=folder, input=b"red\nblue\n", capture_output=True, timeout=60, check=False)


def components(line):
    """The name of a line by its parts. A binary file has a line of its own under -l too."""
    return re.sub(rb"^Binary file (.*) matches$", rb"\1", line).split(b"/")


def fault_of(line, theirs, given):
    out, said, status = line.wanted(theirs)
    if sorted(given.stdout.splitlines()) != out:
        return "other lines"
    if sorted(given.stderr.decode().splitlines()) != said:
        return f"other messages, wanted {said}"
    # The status of -L says whether a line was selected, where theirs says whether a name was written.
    if "-L" not in line.mode and given.returncode != status:
        return f"status {given.returncode}, wanted {status}"
    names = given.stdout.splitlines()
    if {"-l", "-L"} & set(line.mode) and len(line.words) == 1 and names != sorted(names, key=components):
        return "names out of order"
    return None


def tell(line, why, theirs, given):
    print(f"{why}: {shlex.join(line.ours())}")
    print(f"  ours   {given.returncode} {given.stdout[:300]!r} {given.stderr[:300]!r}")
    print(f"  theirs {theirs.returncode} {theirs.stdout[:300]!r} {theirs.stderr[:300]!r}")


def search_tree(choice, folder, given):
    """How many of the lines over one tree differ."""
    tree = Tree(choice, folder)
    wrong = 0
    for _ in range(given.lines):
        line = Line(choice, tree)
        ours = run([given.ours], line.ours(), tree.whole)
        theirs = run(given.theirs, line.theirs(), tree.plain)
        why = fault_of(line, theirs, ours)
        if why:
            wrong += 1
            tell(line, why, theirs, ours)
    return wrong


def open_all(folder):
    """Lets the folders be removed again."""
    for place, names, _ in os.walk(folder):
        for name in names:
            path = os.path.join(place, name)
            if not os.path.islink(path):
                os.chmod(path, 0o755)


def main():
    parser = argparse.ArgumentParser()
    parser.add_argument("--program", default=os.path.join(os.path.dirname(HERE), "bin"))
    parser.add_argument("--theirs", default="pcre2grep --no-jit")
    parser.add_argument("--trees", type=int, default=250)
    parser.add_argument("--lines", type=int, default=20)
    parser.add_argument("--seed", type=int, default=1)
    given = parser.parse_args()
    given.ours = os.path.abspath(os.path.join(given.program, "pcre2grep"))
    given.theirs = shlex.split(given.theirs)
    give_up_rights()
    wrong = 0
    for number in range(given.trees):
        folder = tempfile.mkdtemp()
        wrong += search_tree(random.Random(given.seed * 100_000 + number), folder, given)
        open_all(folder)
        shutil.rmtree(folder)
    print(f"{given.trees * given.lines} command lines over {given.trees} trees: {wrong} differ")
    sys.exit(1 if wrong else 0)


if __name__ == "__main__":
    main()
