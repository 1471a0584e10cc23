#!/usr/bin/env python3
"""Times bin/pcre2grep -r beside the C library's pcre2grep --no-jit -r and ripgrep, and compares what they write.

Makes its input itself, in a temporary folder, the same at each run: a tree of 30,000 source files in nested folders, some of
them hidden. Prints for each command line whether the lines are the same (as sets of lines, since the C library's tool goes
through a folder in no order), the processor times (user and system, the least of three), the ratios to both, and the greatest resident size. With
--names COUNT it also makes that many empty files and tells time and size of a run that searches them. Run ./build first; the
C library's pcre2grep, rg and `time` have to be on the PATH (Debian's packages pcre2-utils, ripgrep and time). Without rg its
columns are left out.

    bench/tree.py [PROGRAM] [--files COUNT] [--names COUNT]
"""
import argparse
import os
import random
import shutil
import sys
import tempfile

from grep import OURS, THEIRS, best, run, source_line

# Options of both pcre2grep, and those of rg that ask for the same.
COMMANDS = [
    (["-r", "TODO", "tree"], ["TODO", "tree"]),
    (["-rn", r"unwrap_or\b", "tree"], ["-n", r"unwrap_or\b", "tree"]),
    (["-rl", r"impl \w+", "tree"], ["-l", r"impl \w+", "tree"]),
    (["-rc", "struct", "tree"], ["-c", "--include-zero", "struct", "tree"]),
    (["-rL", "while", "tree"], ["--files-without-match", "while", "tree"]),
    (["-rw", "count", "tree"], ["-w", "count", "tree"]),
    (["-ri", "fixme", "tree"], ["-i", "fixme", "tree"]),
    (["-r", r"--include=\.h$", "limit", "tree"], ["-g", "*.h", "limit", "tree"]),
    (["-r", "--exclude-dir=^part1", "Err", "tree"], ["-g", "!part1*/", "Err", "tree"]),
    (["-rh", r"--include=\.rs$", "--exclude=_test", "return", "tree"], ["-I", "-g", "*.rs", "-g", "!*_test*", "return", "tree"]),
    (["-rq", "no such text", "tree"], ["-q", "no such text", "tree"]),
]
RG = ["rg", "-uu", "--sort", "path", "--no-heading", "-N", "--color", "never"]


def make_tree(folder, count):
    choice = random.Random(3)
    for i in range(count):
        below = os.path.join(folder, f"part{i % 37}", choice.choice([".cache", "src", "lib"]), f"group{i % 11}")
        os.makedirs(below, exist_ok=True)
        name = choice.choice([f"file{i}.rs", f"file{i}_test.rs", f"file{i}.h", f".file{i}", f"file{i}.md"])
        lines = [source_line(choice) for _ in range(choice.randrange(5, 200))]
        with open(os.path.join(below, name), "w", encoding="ascii") as out:
            out.write("\n".join(lines) + "\n")


def make_names(folder, count):
    for i in range(count):
        below = os.path.join(folder, f"folder{i // 1000:04}")
        if i % 1000 == 0:
            os.makedirs(below)
        with open(os.path.join(below, f"a-usual-name-{i:07}.txt"), "wb"):
            pass


def sorted_lines(path):
    with open(path, "rb") as told:
        return sorted(told)


def main():
    words = argparse.ArgumentParser(description=__doc__.split("\n\n", maxsplit=1)[0])
    words.add_argument("program", nargs="?", default=OURS, help="in place of bin/pcre2grep")
    words.add_argument("--files", type=int, default=30000, help="number of source files (30000)")
    words.add_argument("--names", type=int, default=0, help="number of empty files (0: none)")
    asked = words.parse_args()
    program = os.path.abspath(asked.program)
    has_rg = shutil.which("rg") is not None
    with tempfile.TemporaryDirectory() as folder:
        tree = os.path.join(folder, "tree")
        make_tree(tree, asked.files)
        outs = [os.path.join(folder, name) for name in ("ours", "theirs", "rg")]
        print(f"{'command':52} {'ours s':>7} {'theirs s':>8} {'rg s':>7} {'ratio':>6} {'to rg':>6} {'MB':>6}  lines")
        for options, of_rg in COMMANDS:
            theirs = best(THEIRS + options, folder, outs[1])
            ours = best([program] + options, folder, outs[0])
            rg = best(RG + of_rg, folder, outs[2]) if has_rg else None
            ours_lines = sorted_lines(outs[0])
            told = "same" if ours_lines == sorted_lines(outs[1]) and ours[2] == theirs[2] else "DIFFERENT"
            if has_rg and ours_lines != sorted_lines(outs[2]):
                told += ", rg different"
            rg_time = f"{rg[0]:7.3f}" if has_rg else f"{'-':>7}"
            rg_ratio = f"{ours[0] / rg[0]:6.2f}" if has_rg else f"{'-':>6}"
            print(
                f"{' '.join(options):52} {ours[0]:7.3f} {theirs[0]:8.3f} {rg_time} {ours[0] / theirs[0]:6.2f} {rg_ratio}"
                f" {ours[1] / 1e6:6.1f}  {told}",
                flush=True,
            )
        if asked.names:
            names = os.path.join(folder, "names")
            make_names(names, asked.names)
            seconds, size, status, _ = run([program, "-r", "TODO", "names"], folder, outs[0])
            print(f"-r over {asked.names} empty files: {seconds:.1f} s, {size / 1e6:.1f} MB, status {status}")
    return 0


if __name__ == "__main__":
    sys.exit(main())
