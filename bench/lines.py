#!/usr/bin/env python3
"""Times the line feed beside the C library's pcre2grep --no-jit on lines of 80 bytes that no line of the pattern matches.

Makes its inputs itself, 100 MB of lines that end at LF and at CRLF, in a temporary folder. The crate `measure` counts the
lines of its standard input through the feed; pcre2grep counts those that match a word that no line holds. Prints both
processor times (user and system, the least of five) and their ratio, for LF and for ANYCRLF. Run `rt run` in crates/measure
first; the C library's pcre2grep has to be on the PATH.
"""
import os
import resource
import subprocess
import sys
import tempfile

HERE = os.path.dirname(os.path.abspath(__file__))
OURS = os.path.join(HERE, "..", "crates", "measure", "out", "measure")
SIZE = 100_000_000


def make_input(path, newline):
    line = b"the quick brown fox jumps over the lazy dog and then has a rest until the sun is low"
    line = line[: 80 - len(newline)] + newline
    with open(path, "wb") as out:
        for _ in range(SIZE // len(line) // 1000):
            out.write(line * 1000)


def best(command, path):
    times = []
    for _ in range(5):
        with open(path, "rb") as source:
            before = resource.getrusage(resource.RUSAGE_CHILDREN)
            subprocess.run(command, stdin=source, stdout=subprocess.DEVNULL, check=False)
            after = resource.getrusage(resource.RUSAGE_CHILDREN)
            times.append(after.ru_utime + after.ru_stime - before.ru_utime - before.ru_stime)
    return min(times)


def main():
    with tempfile.TemporaryDirectory() as folder:
        for kind, newline in (("lf", b"\n"), ("anycrlf", b"\r\n")):
            path = os.path.join(folder, kind)
            make_input(path, newline)
            ours = best([OURS, "lines", kind], path)
            theirs = best(["pcre2grep", "--no-jit", "-c", "-N", kind.upper(), "zqzq"], path)
            print(f"{kind:8} ours {ours:.3f} s, theirs {theirs:.3f} s, ratio {ours / theirs:.2f}")


if __name__ == "__main__":
    sys.exit(main())
