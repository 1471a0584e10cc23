#!/usr/bin/env python3
"""Times bin/pcre2test on patterns that are made to cost much, beside the C library's pcre2test, with the greatest size of each.

Prints for each pattern what both answer, the processor time (user and system) and the greatest resident size. Run ./build
first; the C library's pcre2test and `time` have to be on the PATH (Debian's packages pcre2-utils and time). Another program
can be named as the first argument; it has to be named pcre2test.

    bench/hostile.py [PROGRAM]
"""
import os
import subprocess
import sys
import tempfile

HERE = os.path.dirname(os.path.abspath(__file__))
OURS = os.path.join(HERE, "..", "bin", "pcre2test")
THEIRS = "pcre2test"


def nested(opening, depth, inside):
    return opening * depth + inside + ")" * depth


# A name, a pattern, and a subject.
ENTRIES = [
    ("nested stars", r"(a*)*b", "a" * 30),
    ("nested stars, three deep", r"((a*)*)*b", "a" * 30),
    ("nested plus", r"(x+x+)+y", "x" * 30),
    ("alternatives that overlap", r"(a|aa)+$", "a" * 40 + "b"),
    ("five dots", r".*.*.*.*.*=", "a" * 200),
    ("counted to the end", r"(?:a?){60}a{60}", "a" * 60),
    ("a reference in a repeat", r"(a+)*\1b", "a" * 30),
    ("32,768 groups", "()" * 32768, "a"),
    ("32,768 groups without captures", "(?:)" * 16384, "a"),
    ("250 levels", nested("(", 250, "a"), "a"),
    ("251 levels", nested("(", 251, "a"), "a"),
    ("a repeat of 250 levels", nested("(?:", 249, "a*") + "*b", "a" * 30),
    ("65,530 bytes of alternatives", "(?:" + "|".join(["abcdefg"] * 8191) + ")", "x" * 1000),
    ("1 MB of alternatives", "|".join(["abcdefghi"] * 100000), "x"),
    ("249 lookaheads", nested("(?=", 249, "a"), "a"),
    ("120 pairs of lookarounds", "".join("(?=" if i % 2 else "(?<!" for i in range(240)) + "a" + ")" * 240, "a"),
    ("a lookahead in a repeat", r"(?:(?=(a+))a)*b", "a" * 2000),
    ("a lookbehind at each place", r"(?:a(?<=a)(?<!b))*c", "a" * 2000),
    ("an atomic group in a repeat", r"(?>a*?)*b|(?>(?>a+)+)c", "a" * 2000),
    ("conditions on groups", r"(?:(a)|(?(1)b|c))*d", "a" * 2000),
    ("a class of all ranges", "[" + "".join(f"\\x{{{i:02x}}}" for i in range(0, 256, 2)) + "]+z", "b" * 2000),
    ("a repeat of 65,535", r"(?:a{65535}b|a)*c", "a" * 2000),
]


def run(program, folder):
    """What the pattern and its subject come to, processor time and greatest resident size."""
    used = os.path.join(folder, "used")
    command = ["time", "--quiet", "-f", "%U %S %M", "-o", used, program, "-q", "script"]
    done = subprocess.run(command, cwd=folder, stdout=subprocess.PIPE, stderr=subprocess.DEVNULL, check=False)
    told = [line.strip() for line in done.stdout.decode("latin-1").split("\n") if line[:3] in ("Fai", "No ", " 0:", "** ")]
    with open(used, encoding="ascii") as numbers:
        user, system, size = numbers.read().split()
    answer = (told or [f"status {done.returncode}"])[0]
    if answer.startswith("0:"):
        answer = "a match"
    answer = answer.removeprefix("Failed: ").split(":")[0]
    return answer, float(user) + float(system), int(size) / 1024


def main():
    ours = os.path.abspath(sys.argv[1] if len(sys.argv) > 1 else OURS)
    print(f"{'pattern':32} {'ours':26} {'s':>6} {'MB':>6}  {'theirs':26} {'s':>6} {'MB':>6}")
    with tempfile.TemporaryDirectory() as folder:
        for name, pattern, subject in ENTRIES:
            with open(os.path.join(folder, "script"), "w", encoding="latin-1") as out:
                out.write(f"/{pattern}/\n    {subject}\n\n")
            rows = [run(program, folder) for program in (ours, THEIRS)]
            cells = [f"{answer:26} {used:6.2f} {size:6.1f}" for answer, used, size in rows]
            print(f"{name:32} {cells[0]}  {cells[1]}", flush=True)
    return 0


if __name__ == "__main__":
    sys.exit(main())
