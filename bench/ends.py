#!/usr/bin/env python3
"""Times the search for all ends by bin/pcre2test beside the C library's pcre2test -dfa and beside rg, in processor time.

Each pattern has repeats that multiply in an ordered search. It is anchored, and its subject is one letter 100,000,
1,000,000 and 10,000,000 times, so each state is asked at each place and no match is found. A second table has a text whose
last letter ends the match. Prints for each size the processor time of all three (user and system, the least of three), how
often ours is that of the size before, and what both pcre2test answer. Run ./build first; the C library's pcre2test has to be
on the PATH. Without rg its column is left out. Another program can be named as the first argument; it has to be named pcre2test.

    bench/ends.py [PROGRAM]
"""
import os
import resource
import shutil
import subprocess
import sys
import tempfile

HERE = os.path.dirname(os.path.abspath(__file__))
OURS = os.path.join(HERE, "..", "bin", "pcre2test")
THEIRS = "pcre2test"
# A pattern, the letter that its repeats take, and the one that ends a match.
PATTERNS = [
    (r"(a|a)*b", "a", "b"),
    (r"(a*)*b", "a", "b"),
    (r"(x+x+)+y", "x", "y"),
]
SIZES = [100_000, 1_000_000, 10_000_000]


def used(command, folder):
    """The processor time of a command, and what it writes."""
    least, told = None, b""
    for _ in range(3):
        before = resource.getrusage(resource.RUSAGE_CHILDREN)
        done = subprocess.run(command, cwd=folder, stdout=subprocess.PIPE, stderr=subprocess.DEVNULL, check=False)
        after = resource.getrusage(resource.RUSAGE_CHILDREN)
        told = done.stdout
        spent = after.ru_utime + after.ru_stime - before.ru_utime - before.ru_stime
        least = spent if least is None else min(least, spent)
    return least, told


def answer(told):
    """What a script's last entry came to, and the length of its longest end."""
    for line in told.split(b"\n"):
        if line.startswith(b" 0: "):
            return f"end {len(line) - 4}"
        if line.startswith((b"No match", b"Failed")):
            return line.decode("latin-1")
    return "no answer"


def row(ours, folder, pattern, letter, last, size):
    with open(os.path.join(folder, "script"), "w", encoding="ascii") as out:
        out.write(f"/{pattern}/\n    \\[{letter}]{{{size}}}{last}\\=dfa,anchored\n\n")
    with open(os.path.join(folder, "text"), "w", encoding="ascii") as out:
        out.write(letter * size + last + "\n")
    mine, told = used([ours, "-q", "script"], folder)
    theirs, expected = used([THEIRS, "-q", "script"], folder)
    third = "-"
    if shutil.which("rg"):
        third = f"{used(['rg', '-c', '^(?:' + pattern + ')', 'text'], folder)[0]:.3f}"
    same = "same" if answer(told) == answer(expected) else f"{answer(told)} in place of {answer(expected)}"
    return mine, theirs, third, same


def main():
    ours = os.path.abspath(sys.argv[1] if len(sys.argv) > 1 else OURS)
    with tempfile.TemporaryDirectory() as folder:
        for ended in (False, True):
            print(f"{'pattern':12} {'letters':>10} {'ours':>8} {'theirs':>8} {'rg':>8} {'growth':>7}  answers")
            for pattern, letter, end in PATTERNS:
                before = None
                for size in SIZES:
                    mine, theirs, third, same = row(ours, folder, pattern, letter, end if ended else "", size)
                    growth = f"{mine / before:.1f}" if before else "-"
                    print(f"{pattern:12} {size:10} {mine:8.3f} {theirs:8.3f} {third:>8} {growth:>7}  {same}", flush=True)
                    before = mine
    return 0


if __name__ == "__main__":
    sys.exit(main())
