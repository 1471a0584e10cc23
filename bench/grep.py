#!/usr/bin/env python3
"""Times bin/pcre2grep beside the C library's pcre2grep --no-jit on usual command lines, and compares what they write.

Makes its input itself, in a temporary folder: a tree of 3,000 source files, a log of 200 MB, and a file of patterns, the same
at each run. Each command line is one run over all the files, or over the log. Prints whether output and status are the same,
or the first difference, then the processor times (user and system, the least of three), their ratio (below 1 is faster than the
C library), and the greatest resident size of each. With -C the C library's tool also writes `--` between groups of lines that touch; such a line counts as
no difference, and is told. Run ./build first; the C library's pcre2grep and `time` have to be on the PATH (Debian's packages
pcre2-utils and time). Another program can be named as the first argument.

    bench/grep.py [PROGRAM] [--log MEGABYTES] [--files COUNT]
"""
import argparse
import itertools
import os
import random
import resource
import signal
import subprocess
import sys
import tempfile

HERE = os.path.dirname(os.path.abspath(__file__))
OURS = os.path.join(HERE, "..", "bin", "pcre2grep")
THEIRS = ["pcre2grep", "--no-jit"]

# Options and pattern, and whether the files or the log are searched.
TREE, LOG = "files", "log"
COMMANDS = [
    (["-n", r"^\s*fn\s+(\w+)"], TREE),
    (["-c", r"(\w+)\.(\w+)\("], TREE),
    (["-l", r"unwrap_or\b"], TREE),
    (["-L", r"for \w+ in"], TREE),
    (["-h", r"let mut (\w+) = \1"], TREE),
    (["-H", "-w", "count"], TREE),
    (["-x", r"\s*[})]+;?"], TREE),
    (["-F", "&mut self."], TREE),
    (["-m", "1", r"struct \w+"], TREE),
    (["-C", "2", r"while .*< limit"], TREE),
    (["-A", "3", r"^impl \w+"], TREE),
    (["-B", "3", r"return Err\("], TREE),
    (["-n", "-e", "TODO", "-e", "FIXME", "-e", r"panic!\("], TREE),
    (["-n", "-f", "PATTERNS"], TREE),
    (["-q", r"no such text as this"], TREE),
    (["-c", r"ERROR|WARN"], LOG),
    (["-n", r"status=5\d\d"], LOG),
    (["-i", r"timed? ?out"], LOG),
    (["-v", r"INFO|DEBUG"], LOG),
    (["-o", r"\d+\.\d+\.\d+\.\d+"], LOG),
    (["-o1", r"user=(\w+)@(?:\w+\.)+org"], LOG),
    (["--line-offsets", r"[0-9a-f]{12}"], LOG),
    (["-c", "-N", "ANYCRLF", r"took (\d+)ms$"], LOG),
]

NAMES = "count index limit total buffer reader writer place line word name list table state".split()
TYPES = "Reader Writer Table Line Word State Buffer Index".split()


def source_line(choice):
    name, other, kind = choice.choice(NAMES), choice.choice(NAMES), choice.choice(TYPES)
    number = choice.randrange(1000)
    forms = [
        f"    let mut {name} = {other}.len() + {number};",
        f"    let {name} = self.{other}.get({number}).unwrap_or(&0);",
        f"    if {name} < {number} {{",
        "    }",
        "",
        f"    for {name} in {other}.iter() {{",
        f"    while {name} < limit {{",
        f"        {name} += {other}.{name}({number});",
        f"        &mut self.{name}",
        f"    // The {name} of the {other}, from {number} on.",
        f"fn {name}_{other}(&self, {name}: u32) -> Option<{kind}> {{",
        f"impl {kind} {{",
        f"pub struct {kind} {{",
        f"        return Err({kind}::{name}({number}));",
        "});",
    ]
    if choice.randrange(200) == 0:
        return choice.choice([f"    // TODO: {name}", f"    // FIXME: {other}", f"    panic!(\"{name}\");"])
    return choice.choice(forms)


def make_tree(folder, count):
    choice = random.Random(1)
    names = []
    for i in range(count):
        below = os.path.join("tree", f"part{i % 30}", f"group{i % 7}")
        os.makedirs(os.path.join(folder, below), exist_ok=True)
        name = os.path.join(below, f"file{i}.rs")
        lines = [source_line(choice) for _ in range(choice.randrange(20, 400))]
        with open(os.path.join(folder, name), "w", encoding="ascii") as out:
            out.write("\n".join(lines) + "\n")
        names.append(name)
    return names


def log_line(choice):
    level = choice.choices(["INFO", "DEBUG", "WARN", "ERROR"], [70, 20, 7, 3])[0]
    address = ".".join(str(choice.randrange(256)) for _ in range(4))
    texts = [
        f"request path=/{choice.choice(NAMES)}/{choice.randrange(10000)} status={choice.choice([200, 200, 200, 304, 404, 500, 503])}"
        f" took {choice.randrange(900)}ms",
        f"session user={choice.choice(NAMES)}{choice.randrange(99)}@mail.example.org id={choice.randrange(1 << 48):012x}",
        f"cache {choice.choice(NAMES)} filled to {choice.randrange(100)} percent",
        f"connection to {choice.choice(NAMES)}.internal Timed Out after {choice.randrange(60)} tries",
    ]
    text = choice.choices(texts, [60, 20, 18, 2])[0]
    return f"2026-01-{choice.randrange(1, 29):02} {choice.randrange(24):02}:{choice.randrange(60):02}:00 {level} {address} {text}\n"


def make_log(path, size):
    choice = random.Random(2)
    # 4 MB of lines, written again in another order until the size is reached.
    lines, length = [], 0
    while length < min(size, 4_000_000):
        line = log_line(choice)
        lines.append(line)
        length += len(line)
    written = 0
    with open(path, "w", encoding="ascii") as out:
        while written < size:
            choice.shuffle(lines)
            out.writelines(lines)
            written += length


def run(command, folder, out_path):
    """Processor time, the greatest resident size in bytes, the status, and the messages. The output goes to the file."""
    # The size that the system tells of a child counts from before its start, so a small program starts it and not this one.
    size_path = os.path.join(folder, "size")
    before = resource.getrusage(resource.RUSAGE_CHILDREN)
    with open(out_path, "wb") as out:
        done = subprocess.run(
            ["time", "--quiet", "-f", "%M", "-o", size_path] + command,
            cwd=folder,
            stdin=subprocess.DEVNULL,
            stdout=out,
            stderr=subprocess.PIPE,
            check=False,
        )
    after = resource.getrusage(resource.RUSAGE_CHILDREN)
    seconds = after.ru_utime + after.ru_stime - before.ru_utime - before.ru_stime
    with open(size_path, encoding="ascii") as told:
        size = int(told.read()) * 1024
    return seconds, size, done.returncode, done.stderr


def best(command, folder, out_path):
    return min(run(command, folder, out_path) for _ in range(3))


def lines_of(path, with_separators):
    with open(path, "rb") as told:
        for line in told:
            if with_separators or line != b"--\n":
                yield line


def first_difference(path, other, with_separators):
    """The first line that isn't the same, as both have it; None where all are."""
    pairs = itertools.zip_longest(lines_of(path, with_separators), lines_of(other, with_separators), fillvalue=b"")
    for number, (one, two) in enumerate(pairs, 1):
        if one != two:
            return f"line {number}: {one[:80]!r} in place of {two[:80]!r}"
    return None


def compare(options, ours, theirs, out, expected):
    if ours[2] != theirs[2]:
        return f"status {ours[2]} in place of {theirs[2]}, {ours[3][:80]!r}"
    difference = first_difference(out, expected, True)
    if difference is None:
        return "same"
    if "-C" not in options:
        return difference
    return first_difference(out, expected, False) or "same but for --"


def main():
    words = argparse.ArgumentParser(description=__doc__.split("\n\n", maxsplit=1)[0])
    words.add_argument("program", nargs="?", default=OURS, help="in place of bin/pcre2grep")
    words.add_argument("--log", type=int, default=200, help="size of the log in MB (200)")
    words.add_argument("--files", type=int, default=3000, help="number of source files (3000)")
    asked = words.parse_args()
    program = os.path.abspath(asked.program)
    if not os.access(program, os.X_OK):
        print(f"{program} can't be run: run ./build first", file=sys.stderr)
        return 1
    # A run that is ended from outside removes its folder too.
    signal.signal(signal.SIGTERM, lambda *_: sys.exit(1))
    differing = 0
    with tempfile.TemporaryDirectory() as folder:
        names = make_tree(folder, asked.files)
        make_log(os.path.join(folder, "log"), asked.log * 1_000_000)
        with open(os.path.join(folder, "PATTERNS"), "w", encoding="ascii") as out:
            out.write("TODO|FIXME\npanic!\\(\nunwrap_or\\(&\\d\\)\n")
        print(f"{'command':44} {'ours s':>8} {'theirs s':>8} {'ratio':>6} {'ours MB':>8} {'theirs MB':>9}  output")
        for options, where in COMMANDS:
            inputs = names if where == TREE else ["log"]
            out, expected = os.path.join(folder, "ours"), os.path.join(folder, "theirs")
            theirs = best(THEIRS + options + inputs, folder, expected)
            ours = best([program] + options + inputs, folder, out)
            told = compare(options, ours, theirs, out, expected)
            differing += not told.startswith("same")
            print(
                f"{' '.join(options) + ' ' + where:44} {ours[0]:8.3f} {theirs[0]:8.3f} {ours[0] / theirs[0]:6.2f}"
                f" {ours[1] / 1e6:8.1f} {theirs[1] / 1e6:9.1f}  {told}",
                flush=True,
            )
    print(f"{len(COMMANDS) - differing} of {len(COMMANDS)} command lines write the same")
    return 0


if __name__ == "__main__":
    sys.exit(main())
