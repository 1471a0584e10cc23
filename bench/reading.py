#!/usr/bin/env python3
"""Times the reading of a pattern beside the C library's pcre2_compile, on a pattern of 64 KB with a thousand alternatives.

Makes the pattern itself. The crate `measure` reads it from its standard input, once and then 201 times more; the C library's
pcre2test compiles it with `-t 200` and tells the time of one. pcre2_compile also writes the code for its matcher, which ours
does later. Prints both times of one pattern in processor time, as pcre2test tells it (the best of five runs), and their ratio
(below 1 is faster than the C library).
Run `rt run` in crates/measure first; the C library's pcre2test has to be on the PATH.
"""
import os
import random
import re
import resource
import subprocess
import sys

HERE = os.path.dirname(os.path.abspath(__file__))
OURS = os.path.join(HERE, "..", "crates", "measure", "out", "measure")
TIMES = 200
RUNS = 5


def make_alternative(choice):
    """65 bytes with the bar: letters, escapes, a repeated type, a group. The C library needs 64 KB of code at most."""
    letters = "".join(choice.choice("abcdefghijklmnopqrstuvwxyz") for _ in range(9))
    escapes = "".join(f"\\x{choice.randrange(0x20, 0x7f):02x}" for _ in range(10))
    group = "(?:{}|{})?".format(*choice.sample("abcdefgh", 2))
    return letters + r"\d+" + escapes + group + "[ab]"


def make_pattern():
    choice = random.Random(1)
    return "|".join(make_alternative(choice) for _ in range(1000))


def processor_time():
    used = resource.getrusage(resource.RUSAGE_CHILDREN)
    return used.ru_utime + used.ru_stime


def time_ours(times, pattern):
    start = processor_time()
    told = subprocess.run([OURS, "reading", str(times)], input=pattern.encode(), stdout=subprocess.PIPE, check=True).stdout
    if not told.strip().isdigit():
        sys.exit(told.decode())
    return processor_time() - start


def time_theirs(pattern):
    script = f"/{pattern}/\n".encode()
    told = subprocess.run(["pcre2test", "-q", "-t", str(TIMES)], input=script, stdout=subprocess.PIPE, check=True).stdout
    found = re.search(rb"Compile time\s+([0-9.]+) (micro|milli)seconds", told)
    if not found:
        sys.exit(told[-200:].decode())
    return float(found[1]) / {b"micro": 1e6, b"milli": 1e3}[found[2]]


def main():
    pattern = make_pattern()
    once = min(time_ours(1, pattern) for _ in range(RUNS))
    ours = (min(time_ours(TIMES + 1, pattern) for _ in range(RUNS)) - once) / TIMES
    theirs = min(time_theirs(pattern) for _ in range(RUNS))
    print(f"{len(pattern)} bytes: ours {ours * 1e3:.3f} ms, theirs {theirs * 1e3:.3f} ms, ratio {ours / theirs:.2f}")


if __name__ == "__main__":
    sys.exit(main())
