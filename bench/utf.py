#!/usr/bin/env python3
"""Times bin/pcre2grep -u beside the C library's pcre2grep --no-jit -u, in processor time.

Makes its input itself, in a temporary folder, the same at each run: 50 MB of lines of ASCII, and 50 MB of lines in several
scripts, some with addresses. Prints for each pattern over each file the processor time of both (user and system, the least
of three), their ratio (below 1 is faster than the C library), the time of ours without -u, and whether both write the same.
Run ./build first; the C library's pcre2grep has to be on the PATH. Another program can be named as the first argument.

    bench/utf.py [PROGRAM]
"""
import os
import random
import sys
import tempfile

from grep import OURS, THEIRS
from patterns import least

ASCII, MIXED = "ascii", "mixed"
PATTERNS = [r"\w+@\w+", "(?i)straße|größe", r"\p{Lu}\p{Ll}+", r"^.{20,40}$", "harbour"]
# Patterns that hold characters past ASCII mean other bytes without -u.
BYTES = [r"\w+@\w+", r"^.{20,40}$", "harbour"]
SIZE = 50_000_000
PLAIN = (
    "the of and a to in is you that it he was for on are as with his they at be this have from quartz lantern meadow "
    "copper thimble orchard velvet Harbour cinder maple London Grosse Strasse 1984 42"
).split()
OTHERS = (
    "Straße größe über schön fünf naïve café señor año leão coração żółw gęś čaj žena привет мир город Москва улица "
    "λόγος Αθήνα θάλασσα δρόμος 東京 大阪 漢字 한국어 서울 שלום ירושלים سلام القاهرة नमस्ते ไทย 🙂 €"
).split()


def line(choice, words):
    told = [choice.choice(words) for _ in range(choice.randrange(2, 16))]
    if choice.random() < 0.02:
        told.append(f"{choice.choice(PLAIN)}@{choice.choice(PLAIN)}.example")
    if choice.random() < 0.01:
        told.append("harbour")
    return " ".join(told) + "\n"


def make(path, words):
    choice = random.Random(6)
    lines = [line(choice, words).encode() for _ in range(40_000)]
    written = 0
    with open(path, "wb") as out:
        while written < SIZE:
            choice.shuffle(lines)
            out.writelines(lines)
            written += sum(map(len, lines))


def main():
    program = os.path.abspath(sys.argv[1] if len(sys.argv) > 1 else OURS)
    os.environ["LC_ALL"] = "C.UTF-8"
    with tempfile.TemporaryDirectory() as folder:
        make(os.path.join(folder, ASCII), PLAIN)
        make(os.path.join(folder, MIXED), PLAIN + OTHERS)
        print(f"{'pattern':20} {'over':6} {'ours s':>7} {'theirs s':>8} {'ratio':>6} {'bytes s':>8}  output")
        for pattern in PATTERNS:
            for where in [ASCII, MIXED]:
                ours = least([program, "-uc", pattern, where], folder)
                theirs = least(THEIRS + ["-uc", pattern, where], folder)
                plain = least([program, "-c", pattern, where], folder)[0] if pattern in BYTES else 0
                told = "same" if ours[1] == theirs[1] else "DIFFERENT"
                ratio = ours[0] / theirs[0]
                print(f"{pattern:20} {where:6} {ours[0]:7.3f} {theirs[0]:8.3f} {ratio:6.2f} {plain:8.3f}  {told}", flush=True)
    return 0


if __name__ == "__main__":
    sys.exit(main())
