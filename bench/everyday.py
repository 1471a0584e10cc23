#!/usr/bin/env python3
"""Times bin/pcre2grep on patterns that people type every day, beside other tools in one run, and compares counts and lines.

Makes its input itself, in a temporary folder, the same at each run: a log of 100 MB, 20 MB of source lines, 20 MB of headers,
lines of 500 KB, and 30,000 small files; and lines that are made to cost much. Prints for each command line the processor
times (user and system, the least of three) of ours, of the C library's pcre2grep --no-jit and with its JIT, of GNU grep and
of ripgrep; the ratio of the first two (below 1 is faster than the C library) beside the one that is aimed at; the greatest
resident size of ours; and whether ours writes what the C library's tool does. Run ./build first; the C library's pcre2grep
and `time` have to be on the PATH (Debian's packages pcre2-utils and time). Without grep or rg their columns are left out.

    bench/everyday.py [PROGRAM] [--log MEGABYTES] [--files COUNT] [--runs COUNT] [--only WORD]
"""
import argparse
import os
import random
import shutil
import sys
import tempfile

from grep import NAMES, OURS, THEIRS, compare, run, source_line
from tree import make_tree

LOG, SOURCE, HEADERS, LONG, TREE = "log", "source", "headers", "long", "tree"
WORDS = "timeout refused unreachable accepted closed reset queued flushed retried expired granted denied".split()
ENDINGS = ["er", "ing", "ed"]
HUNDRED = "|".join(f"{name}{kind}{i}" for name in NAMES[:10] for kind in ENDINGS[:2] for i in range(5))

# What is measured, options and pattern, where, the ratio that is aimed at, and options of GNU grep and rg where they differ.
COMMANDS = [
    ("literal", ["-n", "connection reset by peer"], LOG, 0.2, None),
    ("context", ["-C", "2", "connection reset by peer"], LOG, 0.2, None),
    ("caseless", ["-i", "CONNECTION RESET BY PEER"], LOG, 0.2, None),
    ("three words", ["timeout|refused|unreachable"], LOG, 0.1, None),
    ("100 words", ["-c", HUNDRED], LOG, 0.5, None),
    ("anchored", ["-c", "^2024-03-0[1-5]T.*ERROR"], LOG, 0.45, None),
    ("dotstar", ["-c", "WARN.*status=500"], LOG, 0.3, None),
    ("class-repeat", ["-c", "[a-f0-9]{5}[0-9] user=[a-e]+@"], LOG, 0.2, None),
    ("twelve hex digits", ["-c", "[0-9a-f]{12}"], LOG, 0.2, None),
    ("three groups", ["-c", r"(\w+)@(\w+)\.com took=(1\d\d)\."], LOG, 0.07, None),
    ("-o", ["-o", r"took=[0-9]+\.[0-9]ms"], LOG, 0.5, None),
    ("many lines", ["INFO"], LOG, 0.55, None),
    ("-v", ["-v", "ERROR|WARN"], LOG, 0.45, None),
    ("no match", ["-c", "no line has this"], LOG, 0.2, None),
    ("two runs", ["-c", r"[^ ]+ [^ ]+ \[http-3\] slow"], LOG, 1.0, None),
    ("begin and runs", ["-c", r"^\S+ WARN \[\w+-(\d+)\]"], LOG, 1.0, None),
    ("repeat of a group", ["-c", r"(?:\w+ )*peer"], LOG, 1.0, None),
    ("branches with runs", ["-c", r"\w+ timeout|\w+ deadlock"], LOG, 1.0, None),
    ("call", ["-c", r"(\w+)\.(\w+)\("], SOURCE, 0.9, None),
    ("header", ["-c", r".*\.h"], HEADERS, 0.5, None),
    ("two dotstars", ["-c", ".*foo.*bar"], HEADERS, 1.0, None),
    ("run and sign", ["-c", r"\w+;"], HEADERS, 1.0, None),
    ("500 KB lines", ["-c", "connection reset by peer"], LONG, 1.0, None),
    ("500 KB, groups", ["-c", r"(\w+)@(\w+)\.com took=(1\d\d)\."], LONG, 1.0, None),
    ("small files", ["-r", "TODO"], TREE, 0.5, []),
    ("small files, groups", ["-rc", r"(\w+)_(\w+)\("], TREE, 0.5, ["-c"]),
]
# Seconds that a run of ours may take.
LONGEST = "100"
# A line that is made to cost much, its pattern, and its name; and how many of them there are, since one alone takes less
# than the start of a program.
HOSTILE = [
    ("letters", r"\w+@", 200, lambda choice: "".join(choice.choices("abcdefghij", k=30_000))),
    ("no sign", ".*.*=.*", 2_000, lambda choice: "".join(choice.choices("abcdefghij", k=2_000))),
    ("a and b", "(a|b)*c", 5, lambda choice: "".join(choice.choices("ab", k=1_000_000))),
    ("x and y", "[xy]+z", 5, lambda choice: "".join(choice.choices("xy", k=1_000_000))),
]


def log_line(choice):
    level = choice.choices(["INFO", "DEBUG", "WARN", "ERROR"], [60, 25, 10, 5])[0]
    user = choice.choice(NAMES)
    text = choice.choices(
        [
            f"request id={choice.randrange(1 << 24):06x} user={user}@{choice.choice(NAMES)}.com took={choice.randrange(400)}."
            f"{choice.randrange(10)}ms status={choice.choice([200, 200, 304, 404, 500])}",
            f"session {choice.randrange(1 << 48):012x} {choice.choice(WORDS[3:])} for {user}",
            f"upstream {choice.choice(WORDS)} at {choice.choice(NAMES)}{choice.choice(ENDINGS)}{choice.randrange(9)}",
            "connection reset by peer",
            "slow answer of a backend",
        ],
        [50, 30, 17, 1, 2],
    )[0]
    when = f"2024-03-{choice.randrange(1, 31):02}T{choice.randrange(24):02}:{choice.randrange(60):02}:{choice.randrange(60):02}"
    return f"{when} {level} [http-{choice.randrange(8)}] {text}\n"


def header_line(choice):
    name, other = choice.choice(NAMES), choice.choice(NAMES)
    forms = [
        f"#include <{name}/{other}.h>",
        f"#define {name.upper()}_{other.upper()} {choice.randrange(4096):#x}",
        f"extern int {name}_{other}(struct {name} *{other}, unsigned flags);",
        f"\tunsigned long {name}_{other};\t/* the {name} of each {other} */",
        f"static inline void foo_{name}(struct {other} *bar)",
        " * Returns zero, or a negative number where it fails.",
        "",
    ]
    return choice.choices(forms, [5, 20, 25, 25, 2, 15, 8])[0] + "\n"


def make(path, size, line_of):
    choice = random.Random(7)
    lines = [line_of(choice) for _ in range(40_000)]
    written = 0
    with open(path, "w", encoding="ascii") as out:
        while written < size:
            choice.shuffle(lines)
            out.writelines(lines)
            written += sum(map(len, lines))


def make_long(path, size):
    choice = random.Random(8)
    with open(path, "w", encoding="ascii") as out:
        while out.tell() < size:
            text = " ".join(log_line(choice).rstrip() for _ in range(6_000))
            out.write(text[:500_000] + "\n")


def least(command, folder, out_path, runs):
    return min(run(command, folder, out_path) for _ in range(runs))


def others(options, where, of_others):
    """The command lines of GNU grep and of rg that ask for the same, where they are installed."""
    told = options if of_others is None else of_others + options[1:]
    of_grep = ["grep", "-P" if "\\" in options[-1] or "(?:" in options[-1] else "-E"]
    if where == TREE:
        return of_grep + ["-r"] + told + [where], ["rg", "-uu", "--no-heading", "-N", "--color", "never"] + told + [where]
    return of_grep + told + [where], ["rg", "--no-heading", "--color", "never"] + told + [where]


def told_time(seconds):
    return f"{seconds:8.3f}" if seconds is not None else f"{'':8}"


def measure(program, name, options, where, aim, of_others, folder, runs):
    out, expected = os.path.join(folder, "ours"), os.path.join(folder, "theirs")
    theirs = least(THEIRS + options + [where], folder, expected, runs)
    # a run that doesn't end is ended, with status 124
    ours = least(["timeout", LONGEST, program] + options + [where], folder, out, runs)
    # a tree is gone through in another order
    told = compare(options, ours, theirs, out, expected) if where != TREE else ""
    # A file takes what they write, since GNU grep stops at its first match where nothing does.
    jit = least(["pcre2grep"] + options + [where], folder, expected, runs)[0]
    of_grep, of_rg = others(options, where, of_others)
    grep = least(of_grep, folder, expected, runs)[0] if shutil.which("grep") else None
    rg = least(of_rg, folder, expected, runs)[0] if shutil.which("rg") else None
    print(
        f"{name:20} {told_time(ours[0])} {told_time(theirs[0])} {told_time(jit)} {told_time(grep)} {told_time(rg)}"
        f" {ours[0] / theirs[0]:6.2f} {aim:5.2f} {ours[1] / 1e6:6.1f}  {told}",
        flush=True,
    )
    return ours[0] / theirs[0] <= aim


def main():
    words = argparse.ArgumentParser(description=__doc__.split("\n\n", maxsplit=1)[0])
    words.add_argument("program", nargs="?", default=OURS, help="in place of bin/pcre2grep")
    words.add_argument("--log", type=int, default=100, help="size of the log in MB (100)")
    words.add_argument("--files", type=int, default=30000, help="number of small files (30000)")
    words.add_argument("--runs", type=int, default=3, help="runs of each command line (3)")
    words.add_argument("--only", default="", help="command lines whose name holds this word")
    asked = words.parse_args()
    program = os.path.abspath(asked.program)
    os.environ["LC_ALL"] = "C"
    commands = [it for it in COMMANDS if asked.only in it[0]]
    with tempfile.TemporaryDirectory() as folder:
        make(os.path.join(folder, LOG), asked.log * 1_000_000, log_line)
        make(os.path.join(folder, SOURCE), 20_000_000, lambda choice: source_line(choice) + "\n")
        make(os.path.join(folder, HEADERS), 20_000_000, header_line)
        make_long(os.path.join(folder, LONG), 20_000_000)
        if any(where == TREE for _, _, where, _, _ in commands):
            make_tree(os.path.join(folder, TREE), asked.files)
        times = " ".join(f"{tool + ' s':>8}" for tool in ["ours", "no-jit", "JIT", "grep", "rg"])
        print(f"{'command line':20} {times} {'ratio':>6} {'aim':>5} {'MB':>6}  output")
        met = sum(measure(program, *command, folder, asked.runs) for command in commands)
        print(f"{met} of {len(commands)} within the ratio that is aimed at")
        for name, pattern, count, line_of in HOSTILE:
            if asked.only not in name:
                continue
            with open(os.path.join(folder, name), "w", encoding="ascii") as out:
                choice = random.Random(5)
                out.writelines(line_of(choice) + "\n" for _ in range(count))
            measure(program, name, ["-c", pattern], name, 1.0, None, folder, 1)
    return 0


if __name__ == "__main__":
    sys.exit(main())
