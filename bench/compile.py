#!/usr/bin/env python3
"""Times to compile patterns, by bin/pcre2grep as pcre2test beside the C library's pcre2test.

Makes its scripts itself, in a temporary folder, the same at each run. The first rows are scripts of 20,000 entries,
the others one pattern each, compiled as often as makes its time tell. Prints for each entry both times in
milliseconds (processor time, user and system, the least of three, without that of an empty script), for a script
the whole's and for a pattern one compilation's, their ratio, and what is aimed at: a ratio, or milliseconds. Ends
with status 1 where an aim is missed. Run ./build first; the C library's pcre2test has to be on the PATH (Debian's
package pcre2-utils). Another program can be named as the first argument.

    bench/compile.py [PROGRAM] [--only WORD]
"""
import argparse
import os
import random
import sys
import tempfile

from grep import OURS, run
from script import make_script

THEIRS = "pcre2test"
ENTRIES = 20_000


def entries(pattern, modifiers):
    """A script of as many patterns, of which each has its number in the place of {}."""
    return "".join(f"/{pattern.replace('{}', str(i))}/{modifiers}\n\n" for i in range(ENTRIES))


def usual(folder, subjects):
    """The entries of script.py, with their subjects or without."""
    path = os.path.join(folder, "usual")
    make_script(path, ENTRIES)
    with open(path, encoding="ascii") as lines:
        text = lines.read()
    if subjects:
        return text
    return "".join(entry.split("\n")[0] + "\n\n" for entry in text.split("\n\n") if entry)


def words(count):
    choice = random.Random(5)
    lengths = [choice.randrange(4, 7) for _ in range(count)]
    return "|".join("".join(choice.choices("abcdefghijklmnopqrstuvwxyz", k=length)) for length in lengths)


def letters():
    """A class of 7,000 characters of which no two stand side by side."""
    return "".join(chr(0x4E00 + 2 * i) for i in range(4_000)) + "".join(chr(0xAC00 + 2 * i) for i in range(3_000))


def ranges():
    parts = "".join(f"\\x{{{0x100 + 37 * i:x}}}-\\x{{{0xF100 + 37 * i:x}}}" for i in range(200))
    return f"[{parts}\\p{{L}}]"


def nested(depth):
    return "(" * depth + "a" + ")" * depth


# What is compiled, its modifiers, and the ratio or the milliseconds that are aimed at.
RATIO, MILLISECONDS = "ratio", "ms"
PATTERNS = {
    r"\pL, 21,000 times": (r"\pL" * 21_000, "utf", MILLISECONDS, 20),
    r"[\w\d-], 1,000 times": (r"[\w\d-]" * 1_000, "utf,ucp", MILLISECONDS, 2),
    "a class of 7,000 characters": (f"[{letters()}]", "utf", MILLISECONDS, 2),
    "caseless": (f"[{letters()}]", "utf,caseless", MILLISECONDS, 4),
    "65,000 letters in a class": (f"[{'k' * 65_000}]", "utf,caseless", MILLISECONDS, 20),
    r"200 wide ranges with \p{L}": (ranges(), "utf,caseless", MILLISECONDS, 5),
    "32,000 bytes of text": ("abcdefg " * 4_000, "", RATIO, 4),
    "the same, caseless": ("abcdefg " * 4_000, "caseless", RATIO, 4),
    "4,300 words": (words(4_300), "", RATIO, 4),
    "the words, caseless": (words(4_300), "caseless", RATIO, 4),
    "a chain of 3,000 calls": ("".join(f"(a(?{i}))" for i in range(2, 3_001)) + "(a)", "", MILLISECONDS, 10),
    "7,000 groups": ("()" * 7_000, "", RATIO, 4),
    "219 nested groups": (nested(219), "", RATIO, 4),
    "1,900 classes alike": (r"[\w-]" * 1_900, "", RATIO, 4),
    "1,900 classes, all different": ("".join(f"[a{chr(98 + i % 20)}{i}]" for i in range(1_900)), "", RATIO, 4),
    "800 lookbehinds": ("(?<=ab)c" * 800, "", RATIO, 4),
    "5,000 callouts": ("(?C)a" * 5_000, "", RATIO, 4),
    "60 KB of comments": ("(?#comment)" * 5_500, "", RATIO, 4),
    "3,000 verbs": ("a(*PRUNE)" * 3_000, "", RATIO, 4),
}


def scripts(folder):
    """What the whole script is, its text, and the ratio that is aimed at."""
    return [
        ("a usual script of 20,000 entries", usual(folder, True), 0.8),
        ("its patterns alone", usual(folder, False), 2),
        ("its patterns' kind, utf,ucp", entries(r"a\w+\s\d{}", "utf,ucp"), 2),
        ("with a property each, utf", entries(r"\p{Lu}x{}", "utf"), 2),
    ]


def seconds(command, script, folder):
    out = os.path.join(folder, "out")
    return min(run(["timeout", "100"] + command + ["-q", script], folder, out)[0] for _ in range(3))


class Table:
    """Both tools' times for scripts, as rows that are printed at once."""

    def __init__(self, tool, folder):
        self.commands = [[tool], [THEIRS]]
        self.folder = folder
        self.missed = 0
        self.start = [seconds(command, self.script("\n"), folder) for command in self.commands]
        print(f"{'entry':34} {'ours ms':>9} {'C ms':>9} {'ratio':>7}  aim")

    def script(self, text):
        path = os.path.join(self.folder, "script")
        with open(path, "w", encoding="utf-8") as out:
            out.write(text)
        return path

    def row(self, what, text, times, unit, aim):
        path = self.script(text)
        ours, theirs = (
            max(seconds(command, path, self.folder) - start, 1e-5) * 1000 / times
            for command, start in zip(self.commands, self.start)
        )
        ratio = ours / theirs
        self.missed += (ratio if unit == RATIO else ours) > aim
        told = f"{aim}" if unit == RATIO else f"{aim} ms"
        print(f"{what:34} {ours:9.3f} {theirs:9.3f} {ratio:7.2f}  {told}", flush=True)


def main():
    asks = argparse.ArgumentParser(description=__doc__.split("\n\n", maxsplit=1)[0])
    asks.add_argument("program", nargs="?", default=OURS, help="in place of bin/pcre2grep, the program of both tools")
    asks.add_argument("--only", default="", help="the rows alone with this word in their names")
    asked = asks.parse_args()
    with tempfile.TemporaryDirectory() as folder:
        tool = os.path.join(folder, "pcre2test")
        os.symlink(os.path.abspath(asked.program), tool)
        table = Table(tool, folder)
        for what, text, aim in scripts(folder):
            if asked.only in what:
                table.row(what, text, 1, RATIO, aim)
        for what, (pattern, modifiers, unit, aim) in PATTERNS.items():
            if asked.only in what:
                table.row(what, f"~{pattern}~{modifiers}\n\n" * 20, 20, unit, aim)
    return 1 if table.missed else 0


if __name__ == "__main__":
    sys.exit(main())
