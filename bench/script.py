#!/usr/bin/env python3
"""Times pcre2test on a script of 100,000 entries beside the C library's pcre2test -q, and compares what they write.

Makes its script itself, in a temporary folder, the same at each run: patterns over several delimiters, with modifiers and up
to four subject lines each, of kinds for which both tools write the same. Prints whether the outputs are the same, or the first
difference, then for both the processor time (user and system, the least of three), their ratio (below 1 is faster than the C
library), and the greatest resident size, there and on a tenth of the entries. Run ./build first; the C library's pcre2test and
`time` have to be on the PATH (Debian's packages pcre2-utils and time). Another program can be named as the first argument.

    bench/script.py [PROGRAM] [--entries COUNT]
"""
import argparse
import os
import random
import subprocess
import sys
import tempfile

from grep import OURS, first_difference

THEIRS = ["pcre2test", "-q"]
WORDS = "count index limit total buffer reader writer place line word name list table state".split()


def number(choice):
    return str(choice.randrange(10_000))


def address(choice):
    return f"{choice.choice(WORDS)}{choice.randrange(99)}@{choice.choice(WORDS)}.example"


def call(choice):
    return f"{choice.choice(WORDS)}.{choice.choice(WORDS)}({number(choice)})"


def words(choice):
    return " ".join(choice.choice(WORDS) for _ in range(choice.randrange(1, 8)))


def date(choice):
    return f"2026-{choice.randrange(1, 13):02}-{choice.randrange(1, 29):02}"


def escaped(choice):
    return f"a\\nb\\x{choice.randrange(256):02x}\\[ab]{{{choice.randrange(1, 5)}}}\\\\"


# A pattern with its modifiers, and what makes its subject lines.
KINDS = [
    (r"/(\w+)@(\w+)\.example/", address),
    (r"/(\w+)\.(\w+)\(\d+\)/", call),
    (r"!(?<year>\d{4})-(?<month>\d\d)-\d\d!", date),
    (r"/\b[a-m]\w*/g", words),
    (r"/[aeiou]*/g", words),
    (r"/(?:line|word|list)+?\b/i", words),
    (r"/^(?=.*index)(?!.*table).*$/m", words),
    (r"/(a)(b)?(c)?(d)?/", escaped),
    (r"/a.b/s", escaped),
    (r"""'(?>[^"\\]++|\\.)*+'""", escaped),
    (r"/\d+(?<=7)/", number),
    (r"/(\d)\d*\1/", number),
    (r"/[0-9]+/x,anchored", number),
    (r"/\Z|\s/g,newline=anycrlf", escaped),
]
ENDINGS = ["", "", "", "", r"\=offset=1", r"\=notempty", r"\=notbol,noteol", r"\=anchored"]


def pattern_line(choice, line):
    """The pattern, now and then with a text of its own, so that not all are alike."""
    if choice.randrange(4) == 0:
        return line[0] + choice.choice(WORDS) + "|" + line[1:]
    return line


def make_script(path, entries):
    choice = random.Random(6)
    with open(path, "w", encoding="ascii") as out:
        for _ in range(entries):
            line, subject = choice.choice(KINDS)
            out.write(pattern_line(choice, line) + "\n")
            for _ in range(choice.randrange(5)):
                out.write(subject(choice) + choice.choice(ENDINGS) + "\n")
            out.write("\n")


def run(command, script, folder, out_path):
    """Seconds of the processor, the greatest resident size in bytes, and the status. The output goes to the file."""
    # The size that the system tells of a child counts from before its start, so a small program starts it and not this one.
    told_path = os.path.join(folder, "told")
    with open(out_path, "wb") as out:
        done = subprocess.run(
            ["time", "--quiet", "-f", "%U %S %M", "-o", told_path] + command + [script],
            stdin=subprocess.DEVNULL,
            stdout=out,
            check=False,
        )
    with open(told_path, encoding="ascii") as told:
        user, system, size = told.read().split()
    return float(user) + float(system), int(size) * 1024, done.returncode


def least(command, script, folder, out_path):
    return min(run(command, script, folder, out_path) for _ in range(3))


def main():
    asks = argparse.ArgumentParser(description=__doc__.split("\n\n", maxsplit=1)[0])
    asks.add_argument("program", nargs="?", default=OURS, help="in place of bin/pcre2grep, the program of both tools")
    asks.add_argument("--entries", type=int, default=100_000, help="number of patterns (100000)")
    asked = asks.parse_args()
    program = os.path.abspath(asked.program)
    if not os.access(program, os.X_OK):
        print(f"{program} can't be run: run ./build first", file=sys.stderr)
        return 1
    same = True
    with tempfile.TemporaryDirectory() as folder:
        # By its name the program is the tool.
        tool = os.path.join(folder, "pcre2test")
        os.symlink(program, tool)
        outs = [os.path.join(folder, name) for name in ("ours", "theirs")]
        print(f"{'entries':>8} {'ours s':>7} {'theirs s':>8} {'ratio':>6} {'ours MB':>8} {'theirs MB':>9}  output")
        for entries in (max(asked.entries // 10, 1), asked.entries):
            script = os.path.join(folder, "script")
            make_script(script, entries)
            ours = least([tool, "-q"], script, folder, outs[0])
            theirs = least(THEIRS, script, folder, outs[1])
            difference = first_difference(outs[0], outs[1], True)
            if difference is None and ours[2] != theirs[2]:
                difference = f"status {ours[2]} in place of {theirs[2]}"
            same = same and difference is None
            ratio = ours[0] / theirs[0] if theirs[0] else float("nan")
            print(
                f"{entries:8} {ours[0]:7.2f} {theirs[0]:8.2f} {ratio:6.2f} {ours[1] / 1e6:8.1f} {theirs[1] / 1e6:9.1f}"
                f"  {difference or 'same'}",
                flush=True,
            )
    return 0 if same else 1


if __name__ == "__main__":
    sys.exit(main())
