#!/usr/bin/env python3
"""Times bin/pcre2grep -c on patterns with repeats beside the C library's pcre2grep --no-jit, in processor time.

Makes its input itself, in a temporary folder, the same at each run: 12 MB of source lines, 12 MB of a log, and one line of
30,000 letters. Prints for each pattern the processor time of both (user and system, the least of three), their ratio (below 1
is faster than the C library), and whether the counts agree. Run ./build first; the C library's pcre2grep has to be on the
PATH. Another program can be named as the first argument.

    bench/patterns.py [PROGRAM]
"""
import os
import random
import subprocess
import sys
import tempfile

from grep import OURS, THEIRS, log_line, source_line

SOURCE, LOG, LETTERS = "source", "log", "letters"
PATTERNS = [
    (r"(\w+)\.(\w+)\(", SOURCE),
    (r"\w+;", SOURCE),
    (r".*\.len", SOURCE),
    (r".*let.*self", SOURCE),
    (r"\w+ timeout|\w+ deadlock", SOURCE),
    (r"(?:\w+ )*peer", SOURCE),
    (r"[^ ]+ [^ ]+ \[http-3\] slow", LOG),
    (r"^\S+ \S+ WARN \d+\.(\d+)", LOG),
    (r"(\w+)@(\w+)\.example", LOG),
    (r"WARN.*status=500", LOG),
    (r"\w+@", LETTERS),
]
SIZE = 12_000_000


def make(path, line_of):
    choice = random.Random(4)
    lines = [line_of(choice) for _ in range(40_000)]
    written = 0
    with open(path, "w", encoding="ascii") as out:
        while written < SIZE:
            choice.shuffle(lines)
            out.writelines(lines)
            written += sum(map(len, lines))


def run(command, folder):
    """The processor time and the output of a command."""
    with subprocess.Popen(command, cwd=folder, stdin=subprocess.DEVNULL, stdout=subprocess.PIPE) as child:
        told = child.stdout.read()
        _, status, used = os.wait4(child.pid, 0)
        child.returncode = os.waitstatus_to_exitcode(status)
    return used.ru_utime + used.ru_stime, told


def least(command, folder):
    return min(run(command, folder) for _ in range(3))


def main():
    program = os.path.abspath(sys.argv[1] if len(sys.argv) > 1 else OURS)
    with tempfile.TemporaryDirectory() as folder:
        make(os.path.join(folder, SOURCE), lambda choice: source_line(choice) + "\n")
        make(os.path.join(folder, LOG), log_line)
        with open(os.path.join(folder, LETTERS), "w", encoding="ascii") as out:
            out.write("".join(random.Random(5).choices("abcdefghij", k=30_000)) + "\n")
        print(f"{'pattern':32} {'over':8} {'ours s':>7} {'theirs s':>8} {'ratio':>6}  counts")
        for pattern, where in PATTERNS:
            ours = least([program, "-c", pattern, where], folder)
            theirs = least(THEIRS + ["-c", pattern, where], folder)
            told = "same" if ours[1] == theirs[1] else "DIFFERENT"
            print(f"{pattern:32} {where:8} {ours[0]:7.3f} {theirs[0]:8.3f} {ours[0] / theirs[0]:6.2f}  {told}", flush=True)
    return 0


if __name__ == "__main__":
    sys.exit(main())
