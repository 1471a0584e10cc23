#!/usr/bin/env python3
"""Times the search beside the C library's pcre2grep --no-jit -c, on 20 MB of lines, in processor time.

Makes its input itself, in a temporary folder: lines of words, letters and digits, with an address, a function head, a
quoted text and the like now and then. The lines that a pattern matches are counted by bin/pcre2grep -c, by the C library's
tool, and by the crate `measure`, which gives every line to the library. Prints the processor times (user and system, the least
of three), the ratio of the first two (below 1 is faster than the C library), and whether the counts agree. Run ./build and
`rt run` in crates/measure first; the C library's pcre2grep has to be on the PATH.
"""
import os
import random
import sys
import tempfile

from grep import HERE, OURS, THEIRS
from rewrite import best

LIBRARY = os.path.join(HERE, "..", "crates", "measure", "out", "measure")
SIZE = 20_000_000
PATTERNS = [
    r"(\w+)@(\w+)\.com",
    r"[a-f0-9]{5}[0-9]",
    r"colou?r",
    r"^\s*fn\s+(\w+)",
    r"(?:a|b)*c",
    r"(?<!\w)TODO(?=:)",
    r"\d++x",
    r'"(?>[^"\\]++|\\.)*+"',
    r"(?i)(?=.*error)(?=.*disk)^.*$",
]


def make_input(path):
    choice = random.Random(1)
    words = "the of and a to in is you that it he was for on are as with his they at be this have from color abba cab".split()
    rare = ["me@site.com", "fn main() {", "colour", "12a456", "deadbeef0", "TODO: it", r'"so \"said\" he"', "Disk error"]
    written = 0
    with open(path, "w", encoding="ascii") as out:
        while written < SIZE:
            line = " ".join(choice.choice(words) for _ in range(choice.randrange(4, 18)))
            if choice.randrange(20) == 0:
                line = choice.choice(rare) + " " + line
            out.write(line + "\n")
            written += len(line) + 1


def main():
    with tempfile.TemporaryDirectory() as folder:
        path = os.path.join(folder, "text")
        make_input(path)
        for pattern in PATTERNS:
            ours, count = best([OURS, "-c", pattern], path)
            theirs, expected = best(THEIRS + ["-c", pattern], path)
            alone, other = best([LIBRARY, "search", pattern], path)
            agrees = "same counts" if count == expected == other else "DIFFERENT"
            print(
                f"{pattern:32} ours {ours:.3f} s, theirs {theirs:.3f} s, ratio {ours / theirs:.2f}, library {alone:.3f} s, {agrees}",
                flush=True,
            )


if __name__ == "__main__":
    sys.exit(main())
