#!/usr/bin/env python3
"""How the time of bin/pcre2grep grows with the pattern, the line and the captures, beside `pcre2grep --no-jit`.

Over 20 MB of a log, each command with -c, the least of three runs in processor time (user and system):
- a pattern of one word to a hundred words as alternatives;
- the same text in lines of 80 bytes to 800,000, where two patterns go over it;
- a pattern of seven pairs of digits, of which none to all are captured.

With --compile instead how the time to compile a pattern grows with its length, by pcre2test. Each
form of FORMS is doubled from 8,192 bytes to 65,536, and each length is compiled as often as makes
524,288 bytes. Prints the milliseconds for one pattern of each length, and the exponent of the
growth from the least to the greatest: 1 where the time is as the length. Last come C's
milliseconds for the least length, and the ratio there. Ends with status 1 where one exponent is
above 1.2.

    bench/growth.py [PROGRAM] [--compile]
"""
import argparse
import math
import os
import random
import sys
import tempfile

from everyday import log_line, make
from grep import OURS, THEIRS, run

GROUPS = r"(\w+)@(\w+)\.com took=(1\d\d)\."
DIGITS = "[0-9a-f]{12}"


# What a form begins with, what is written again and again, what it ends with, and its modifiers.
# A number from 1 on stands for {}, and the next one for {next}.
FORMS = {
    "text": ("", "abcdefg ", "", ""),
    "text, caseless": ("", "abcdefg ", "", "i"),
    "text, utf,caseless": ("", "abcdefg ", "", "utf,i"),
    "words": ("none", "|word{}", "", ""),
    "words, caseless": ("none", "|word{}", "", "i"),
    "alternatives of a letter": ("b", "|a", "", ""),
    "groups": ("", "(a)", "", ""),
    "groups that aren't captured": ("", "(?:a|b)", "", ""),
    "groups, perhaps": ("", "(a)?", "", ""),
    "names": ("", "(?<a{}>)", "", ""),
    "one name again": ("", "(?<a>)", "", "dupnames"),
    "names that are referred to": ("", r"(?<a{}>b)\k<a{}>", "", ""),
    "a chain of references": ("", r"(a\g{{next}})", "(a)", ""),
    "a chain of calls": ("", "(a(?{next}))", "(a)", ""),
    "a chain back": ("(a)", "(b(?{}))", "", ""),
    "references to one group": ("(a)", r"\1", "", ""),
    "calls of one group": ("(a)", "(?1)", "", ""),
    "calls of the whole": ("a?", "(?R)?", "", ""),
    "conditions": ("(a)", "(?(1)a|b)", "", ""),
    "lookaheads": ("", "(?=a)", "", ""),
    "lookbehinds": ("", "(?<=a)", "", ""),
    "alternatives of a lookbehind": ("(?<=b", "|a", ")", ""),
    "a long lookbehind": ("(?<=", "a", ")", ""),
    "atomic groups": ("", "(?>a)", "", ""),
    "repeats": ("", "a*", "", ""),
    "possessive repeats": ("", "a++", "", ""),
    "repeats of groups": ("", "(?:ab){1,3}", "", ""),
    "dots": ("", ".*", "", ""),
    "classes, alike": ("", r"[\w-]", "", ""),
    "classes, different": ("", "[a{}]", "", ""),
    "classes, ucp": ("", r"[\w\d-]", "", "utf,ucp"),
    "properties": ("", r"\pL", "", "utf"),
    "one class of letters, utf,caseless": ("[", "ak", "]", "utf,i"),
    "one class of ranges": ("[", r"\x{{}}-\x{{next}}", "]", "utf"),
    "one class of properties": ("[", r"\pL", "]", "utf"),
    "callouts": ("", "(?C)", "", ""),
    "verbs": ("", "(*PRUNE)", "", ""),
    "comments": ("", "(?#c)", "", ""),
    "options": ("", "(?i)", "", ""),
    "quotations": ("", r"\Qa\E", "", ""),
}
LENGTHS = (8_192, 16_384, 32_768, 65_536)
TOTAL = 524_288


def form_of(name, length):
    """The longest pattern of a form that isn't longer than so."""
    head, piece, tail, _ = FORMS[name]
    parts, left, at = [], length - len(head) - len(tail), 1
    while True:
        part = piece.replace("{}", str(at)).replace("{next}", str(at + 1))
        left -= len(part)
        if left < 0:
            return head + "".join(parts) + tail
        parts.append(part)
        at += 1


def compile_time(command, name, length, folder):
    """Seconds to compile so many patterns of the length that they make up TOTAL."""
    script, out = os.path.join(folder, "script"), os.path.join(folder, "out")
    with open(script, "w", encoding="ascii") as lines:
        for _ in range(TOTAL // length):
            lines.write(f"~{form_of(name, length)}~{FORMS[name][3]}\n\n")
    return min(run(["timeout", "100"] + command + ["-q", script], folder, out)[0] for _ in range(3))


def compile_growth(program, folder):
    tool = os.path.join(folder, "pcre2test")
    os.symlink(program, tool)
    lengths = "".join(f"{length:>9}" for length in LENGTHS)
    print(f"{'form':36}{lengths} {'exponent':>8} {'theirs':>9} {'ratio':>6}")
    steepest = 0
    for name in FORMS:
        seconds = [max(compile_time([tool], name, length, folder), 1e-4) for length in LENGTHS]
        exponent = 1 + math.log(seconds[-1] / seconds[0]) / math.log(LENGTHS[-1] / LENGTHS[0])
        steepest = max(steepest, exponent)
        theirs = max(compile_time(["pcre2test"], name, LENGTHS[0], folder), 1e-4)
        each = [1000 * second * length / TOTAL for second, length in zip(seconds, LENGTHS)]
        ours = "".join(f"{one:9.2f}" for one in each)
        least = 1000 * theirs * LENGTHS[0] / TOTAL
        ratio = seconds[0] / theirs
        print(f"{name:36}{ours} {exponent:8.2f} {least:9.2f} {ratio:6.1f}", flush=True)
    return 0 if steepest <= 1.2 else 1


def words(count):
    choice = random.Random(3)
    return "|".join("".join(choice.choices("abcdefghijklmnopqrstuvwxyz", k=8)) for _ in range(count))


def pairs(captured):
    ends = ["", "-", "-", "T", ":", ":", ""]
    return "".join((r"(\d\d)" if i < captured else r"(?:\d\d)") + end for i, end in enumerate(ends))


def joined(path, size, out_path):
    with open(path, encoding="ascii") as lines:
        text = lines.read().replace("\n", " ")
    with open(out_path, "w", encoding="ascii") as out:
        for at in range(0, len(text), size):
            out.write(text[at : at + size] + "\n")


def tell(what, pattern, path, program, folder):
    out = os.path.join(folder, "out")
    ours, theirs = (
        min(run(["timeout", "100"] + command + ["-c", pattern, path], folder, out) for _ in range(3))[0]
        for command in ([program], THEIRS)
    )
    print(f"{what:40} {ours:8.3f} {theirs:8.3f} {ours / theirs:6.2f}", flush=True)


def search_growth(program, folder):
    log, long = os.path.join(folder, "log"), os.path.join(folder, "long")
    make(log, 20_000_000, log_line)
    print(f"{'what':40} {'ours s':>8} {'theirs s':>8} {'ratio':>6}")
    for count in (1, 10, 100):
        tell(f"{count} words", words(count), log, program, folder)
    for size in (80, 800, 8_000, 80_000, 800_000):
        joined(log, size, long)
        tell(f"three groups, lines of {size}", GROUPS, long, program, folder)
        tell(f"twelve hex digits, lines of {size}", DIGITS, long, program, folder)
    for captured in (0, 1, 3, 7):
        tell(f"{captured} of seven pairs captured", pairs(captured), log, program, folder)


def main():
    asks = argparse.ArgumentParser(description=__doc__.split("\n\n", maxsplit=1)[0])
    asks.add_argument("program", nargs="?", default=OURS, help="in place of bin/pcre2grep, the program of both tools")
    asks.add_argument("--compile", action="store_true", help="how the time to compile grows, in place of searches")
    asked = asks.parse_args()
    program = os.path.abspath(asked.program)
    with tempfile.TemporaryDirectory() as folder:
        if asked.compile:
            return compile_growth(program, folder)
        search_growth(program, folder)
    return 0


if __name__ == "__main__":
    sys.exit(main())
