#!/usr/bin/env python3
"""Times bin/pcre2grep -c on patterns with calls of groups and verbs beside the C library's pcre2grep --no-jit, in processor time.

Makes its input itself, in a temporary folder, the same at each run: 20 MB of lines with brackets inside one another, some of
them left open, lists of numbers, and quoted texts, each a third. Prints for each pattern, counting lines and writing all texts,
the processor time of both (user and system, the least of three), their ratio (below 1 is faster than the C library), and
whether both write the same. A second table has calls inside one another, as many as letters, in pcre2test beside the C
library's: how often ours is that of the size before, and what both answer. Run ./build first; the C library's pcre2grep and
pcre2test have to be on the PATH. Another program can be named as the first argument; pcre2test has to lie beside it.

    bench/calls.py [PROGRAM]
"""
import os
import random
import sys
import tempfile

import ends
from grep import NAMES, OURS, THEIRS
from patterns import least

PATTERNS = [
    r"\((?:[^()]++|(?R))*+\)",
    r"^(?<n>\d+)(?:,(?&n))*$",
    r'"[^"]*"(*SKIP)(*FAIL)|\bword\b',
]
SIZE = 20_000_000
# A pattern that calls itself once for each letter, and how many letters there are.
NESTED = "^(a(?1)?b)"
DEPTHS = [50_000, 100_000, 200_000]


def brackets(choice, depth):
    parts = [choice.choice(NAMES)]
    for _ in range(choice.randrange(4)):
        inner = depth > 0 and choice.randrange(2) == 0
        parts.append(f"{choice.choice(NAMES)}({brackets(choice, depth - 1)})" if inner else choice.choice(NAMES))
    return ", ".join(parts)


def line(choice):
    kind = choice.randrange(3)
    if kind == 0:
        text = f"    let {choice.choice(NAMES)} = {choice.choice(NAMES)}({brackets(choice, 5)});"
        return text.replace(")", "", 1) if choice.randrange(10) == 0 else text
    if kind == 1:
        numbers = [str(choice.randrange(10_000)) for _ in range(choice.randrange(1, 16))]
        return ",".join(numbers) + choice.choice(["", "", ",", " x"])
    words = [choice.choice(NAMES) for _ in range(choice.randrange(2, 12))]
    words[choice.randrange(len(words))] = '"' + " ".join(choice.choices(NAMES, k=choice.randrange(5))) + '"'
    return " ".join(words)


def make(path):
    choice = random.Random(7)
    lines = [line(choice) + "\n" for _ in range(40_000)]
    written = 0
    with open(path, "w", encoding="ascii") as out:
        while written < SIZE:
            choice.shuffle(lines)
            out.writelines(lines)
            written += sum(map(len, lines))


def nested(program, folder, depth):
    """The processor time of so many calls inside one another, and what a program answers."""
    tool, limit = program
    with open(os.path.join(folder, "script"), "w", encoding="ascii") as out:
        out.write(f"/{NESTED}/\n    \\[a]{{{depth}}}\\[b]{{{depth}}}\\=match_limit=1000000000,{limit}=1000000000\n\n")
    spent, told = ends.used([tool, "-q", "script"], folder)
    return spent, ends.answer(told)


def time_nested(program, folder):
    ours = (os.path.join(os.path.dirname(program), "pcre2test"), "frame_limit")
    theirs = (ends.THEIRS, "depth_limit")
    print(f"{'nested calls':38} {'ours s':>7} {'theirs s':>8} {'growth':>6}  answers")
    before = None
    for depth in DEPTHS:
        mine, told = nested(ours, folder, depth)
        other, expected = nested(theirs, folder, depth)
        growth = f"{mine / before:.1f}" if before else "-"
        same = "same" if told == expected else f"{told} in place of {expected}"
        print(f"{depth:38} {mine:7.3f} {other:8.3f} {growth:>6}  {same}", flush=True)
        before = mine


def main():
    program = os.path.abspath(sys.argv[1] if len(sys.argv) > 1 else OURS)
    with tempfile.TemporaryDirectory() as folder:
        make(os.path.join(folder, "text"))
        print(f"{'options and pattern':38} {'ours s':>7} {'theirs s':>8} {'ratio':>6}  output")
        for pattern in PATTERNS:
            for option in ["-c", "-o"]:
                ours = least([program, option, pattern, "text"], folder)
                theirs = least(THEIRS + [option, pattern, "text"], folder)
                told = "same" if ours[1] == theirs[1] else "DIFFERENT"
                print(f"{option} {pattern:35} {ours[0]:7.3f} {theirs[0]:8.3f} {ours[0] / theirs[0]:6.2f}  {told}", flush=True)
        time_nested(program, folder)
    return 0


if __name__ == "__main__":
    sys.exit(main())
