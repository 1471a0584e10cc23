#!/usr/bin/env python3
"""Compares what bin/pcre2test and the C library's pcre2test make of braces, on random patterns and subjects.

Patterns hold braces with numbers, commas, spaces and tabs in any order, what a quantifier may follow, named groups and
references to them. The C library of 10.42 takes a quantifier with blanks, or without a minimum, as characters: it is given
that quantifier without blanks, and with the minimum 0. Of a refused pattern the number of the fault is compared, of others
all that is written. Prints how many patterns were compared, how many of them were refused and matched, how many differ, and
the first that do; the status is 1 where one does. Run ./build first; the C library's pcre2test has to be on the PATH
(Debian's package pcre2-utils). Another program can be named as the third argument.

    bench/braces.py [PATTERNS] [SEED] [PROGRAM]
"""
import os
import random
import re
import subprocess
import sys
import tempfile

from characters import OURS, SHOWN, THEIRS

BATCH = 2_000
COUNTED = re.compile(r"(?<!\\)\{[ \t]*(\d*)[ \t]*(?:(,)[ \t]*(\d*)[ \t]*)?\}")
FAULT = re.compile(rb"Failed: error (\d+) at offset .*")
ATOMS = ["a", "b", "1", ".", r"\w", r"\d", r"\N", r"\R", "[ab]", "[^,]", "(a|b)", "(?:ab)", "(?>a|1)", r"\x41", r"\{", "^", "|"]
BETWEEN = ["{", "}", "{", "}", ",", " ", "\t", "0", "2", "x", "+", "?"]


def blanks(choice):
    return "".join(choice.choices(" \t", k=choice.choice([0, 0, 1, 2])))


def braces(choice):
    """What may stand in braces: at most two numbers, at most two commas, and blanks beside each."""
    numbers = ["", "", "0", "1", "2", "3", "03", choice.choice(["4", "40", "65536", "1 2", "x"])]
    parts = [choice.choice(numbers) for _ in range(choice.choice([1, 2, 2, 2, 3]))]
    inside = ",".join(blanks(choice) + part + blanks(choice) for part in parts)
    return "{" + inside + "}" + choice.choice(["", "", "?", "+"])


def named(choice):
    name = choice.choice("abn_") + "".join(choice.choices("abn_0", k=choice.choice([0, 1, 5, 31])))
    return f"(?<{name}>a|b)" + choice.choice(["", rf"\k<{name}>", rf"\k{{{name}}}", rf"\g{{{name}}}"])


def pattern(choice):
    pieces = []
    for _ in range(choice.randint(1, 5)):
        kind = choice.randrange(8)
        if kind < 5:
            pieces += [choice.choice(ATOMS), braces(choice)]
        elif kind == 5:
            pieces += [named(choice), choice.choice(["", braces(choice)])]
        else:
            pieces += choice.choices(ATOMS + BETWEEN, k=3)
    return "".join(pieces)


def as_before(text):
    """The same pattern for 10.42."""

    def plain(found):
        low, comma, high = found.groups()
        return f"{{{low or '0'}{comma or ''}{high or ''}}}" if low or high else found[0]

    return COUNTED.sub(plain, text)


def subject(choice):
    return "    " + "".join(choice.choices("aaabb1A{}, 2x", k=choice.randint(1, 12))) + "."


def answers(program, folder, entries):
    """What is written for each entry, without its pattern."""
    path = os.path.join(folder, "script")
    with open(path, "w", encoding="ascii", newline="\n") as out:
        out.write("".join(f"{text}\n" + "".join(f"{it}\n" for it in subjects) + "\n" for text, subjects in entries))
    ran = subprocess.run([program, "-q", path], stdout=subprocess.PIPE, stderr=subprocess.STDOUT, check=False)
    told = (b"\n" + ran.stdout).split(b"\n/")[1:]
    if len(told) != len(entries):
        sys.exit(f"{program}: {len(told)} entries of output in place of {len(entries)}")
    return [FAULT.sub(rb"fault \1", one.split(b"\n", 1)[1]) for one in told]


def compare(program, folder, entries, counts):
    ours = answers(program, folder, entries)
    theirs = answers(THEIRS, folder, [(as_before(text), subjects) for text, subjects in entries])
    for (text, _), got, wanted in zip(entries, ours, theirs):
        counts["compared"] += 1
        counts["refused"] += got.startswith(b"fault")
        counts["matched"] += b"\n 0: " in got
        if got != wanted:
            counts["differ"] += 1
            if counts["differ"] <= SHOWN:
                print(f"{text}: {got!r:.300}\n  in place of {wanted!r:.300}")


def main():
    wanted = int(sys.argv[1]) if len(sys.argv) > 1 else 50_000
    choice = random.Random(int(sys.argv[2]) if len(sys.argv) > 2 else 1)
    program = os.path.abspath(sys.argv[3]) if len(sys.argv) > 3 else OURS
    counts = {"compared": 0, "refused": 0, "matched": 0, "differ": 0}
    entries = []
    with tempfile.TemporaryDirectory() as folder:
        while counts["compared"] < wanted:
            text = pattern(choice)
            # `\N` before a brace that is no quantifier has another fault there.
            if re.search(r"\\N\{(?!\d+(,\d*)?\})", as_before(text)):
                continue
            modifier = choice.choice(["", "", "extended", "caseless", "ungreedy"])
            entries.append((f"/{text}/{modifier}", [subject(choice) for _ in range(3)]))
            if len(entries) == min(BATCH, wanted - counts["compared"]):
                compare(program, folder, entries, counts)
                entries = []
    print(", ".join(f"{count} {name}" for name, count in counts.items()))
    return 1 if counts["differ"] else 0


if __name__ == "__main__":
    sys.exit(main())
