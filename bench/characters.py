#!/usr/bin/env python3
"""Compares bin/pcre2test with the C library's pcre2test on all characters from U+0000 to U+10FFFF, in UTF.

- literals: each character in a pattern without regard to case, on a text of itself, its other cases and its neighbours.
- others: all but a character, without regard to case, for each one that has another case, on all such characters.
- sets: each set of pcre2pattern with and without UCP, and each general category, on all characters. With UCP the word
  characters are those of later versions, L, N, Mn and Pc, so the C library is asked for these four.

The data of the two is of different versions of Unicode. So a character that is unassigned in that of Python's unicodedata
is left out, and Python has to know the version of the C library (`pcre2test -C`; Python 3.11 has 14.0). Prints for each
part how many entries were compared and how many differ, and the first that do; the status is 1 where one does. Run
./build first; the C library's pcre2test has to be on the PATH (Debian's package pcre2-utils). Another program can be named
as the first argument, and another step as the second: of so many characters one is taken.

    bench/characters.py [PROGRAM] [STEP]
"""
import os
import subprocess
import sys
import tempfile
import unicodedata

HERE = os.path.dirname(os.path.abspath(__file__))
OURS = os.path.join(HERE, "..", "bin", "pcre2test")
THEIRS = "pcre2test"
BATCH = 20_000
SHOWN = 10
CATEGORIES = "Cc Cf Co Ll Lm Lo Lt Lu Mc Me Mn Nd Nl No Pc Pd Pe Pf Pi Po Ps Sc Sk Sm So Zl Zp Zs".split()
NAMED = "alpha lower upper alnum ascii blank cntrl digit graph print punct space word xdigit".split()
SETS = [r"\d", r"\s", r"\w", r"\h", r"\v"] + [f"[[:{name}:]]" for name in NAMED]
WORDS = (r"\w", "[[:word:]]")
WORDS_OF_UNICODE = r"[\p{L}\p{N}\p{Mn}\p{Pc}]"


def assigned():
    """Every character that the version of Python's data knows, but surrogates."""
    return [c for c in range(0x110000) if unicodedata.category(chr(c)) not in ("Cn", "Cs")]


def cases(c):
    """The characters that are one letter with this one, as far as a single step of Python's cases tells."""
    one = chr(c)
    return {ord(other) for other in (one.lower(), one.upper(), one.title(), one.casefold()) if len(other) == 1}


def shown(c):
    """The character in a subject line: itself where it means nothing else there and can be printed."""
    return chr(c) if c > 0xFF and unicodedata.category(chr(c))[0] in "LMN" else f"\\x{{{c:x}}}"


def write(program, folder, lines):
    path = os.path.join(folder, "script")
    with open(path, "w", encoding="utf-8", newline="\n") as out:
        out.write("".join(f"{line}\n" for line in lines))
    ran = subprocess.run([program, "-q", path], stdout=subprocess.PIPE, stderr=subprocess.STDOUT, check=False)
    return ran.stdout.split(b"\n/")


class Part:
    """Entries of a script in batches, each compared when it is full."""

    def __init__(self, name, program, folder):
        self.name, self.program, self.folder = name, program, folder
        self.ours, self.theirs, self.entries, self.count, self.differ = [], [], 0, 0, 0

    def add(self, pattern, subjects, theirs=None):
        texts = [*[f"    {it}" for it in subjects], ""]
        self.ours += [pattern, *texts]
        self.theirs += [theirs or pattern, *texts]
        self.entries += 1
        if self.entries == BATCH:
            self.compare()

    def compare(self):
        if not self.entries:
            return
        ours, theirs = write(self.program, self.folder, self.ours), write(THEIRS, self.folder, self.theirs)
        if len(ours) != len(theirs):
            print(f"{self.name}: {len(ours)} entries of output beside {len(theirs)}")
            self.differ += 1
        for got, wanted in zip(ours, theirs):
            # the first line is the pattern
            if got.partition(b"\n")[2] != wanted.partition(b"\n")[2]:
                if self.differ < SHOWN:
                    print(f"{self.name}: {got!r:.300}\n  in place of {wanted!r:.300}")
                self.differ += 1
        self.count += self.entries
        self.ours, self.theirs, self.entries = [], [], 0

    def end(self):
        self.compare()
        print(f"{self.name}: {self.count} compared, {self.differ} differ", flush=True)
        return self.differ


def literals(part, characters, relatives):
    known = set(characters)
    for c in characters:
        near = {c, c ^ 0x20, c - 1, c + 1} | relatives.get(c, set())
        part.add(f"/\\x{{{c:x}}}/i,utf,global", ["".join(shown(it) for it in sorted(near & known))])


def others(part, cased):
    text = "".join(shown(c) for c in cased)
    for c in cased:
        part.add(f"/[^\\x{{{c:x}}}]+/i,utf,global", [text])


def sets(part, characters):
    texts = ["".join(shown(c) for c in characters[at : at + 256]) for at in range(0, len(characters), 256)]
    for one in SETS:
        for modifiers in ("utf,global", "utf,ucp,global"):
            theirs = WORDS_OF_UNICODE if "ucp" in modifiers and one in WORDS else one
            part.add(f"/(?:{one})+/{modifiers}", texts, f"/(?:{theirs})+/{modifiers}")
    for category in CATEGORIES:
        part.add(f"/\\p{{{category}}}+/utf,global", texts)


def main():
    program = os.path.abspath(sys.argv[1]) if len(sys.argv) > 1 else OURS
    step = int(sys.argv[2]) if len(sys.argv) > 2 else 1
    every = assigned()
    relatives = {}
    for c in every:
        for other in cases(c) - {c}:
            relatives.setdefault(c, set()).add(other)
            relatives.setdefault(other, set()).add(c)
    # the cases of one letter stand together where a character has more than two
    for c in list(relatives):
        relatives[c] |= {far for near in relatives[c] for far in relatives.get(near, set())}
    cased = sorted(relatives)
    print(f"Unicode {unicodedata.unidata_version}: {len(every)} characters, {len(cased)} with another case")
    differ = 0
    with tempfile.TemporaryDirectory() as folder:
        part = Part("literals", program, folder)
        literals(part, every[::step], relatives)
        differ += part.end()
        part = Part("others", program, folder)
        others(part, cased[::step])
        differ += part.end()
        part = Part("sets", program, folder)
        sets(part, every)
        differ += part.end()
    return 1 if differ else 0


if __name__ == "__main__":
    sys.exit(main())
