#!/usr/bin/env python3
"""Times a global replacement with two captures over 100 MB as one subject, beside the C library and perl.

Makes its input itself, in a temporary folder: words, with a setting such as `name=value` now and then. The crate
`measure` reads its standard input whole and writes it with each setting turned round. A small C program does the same
with pcre2_substitute of the C library, without JIT, and is compiled here by `cc`; it and libpcre2-dev have to be there.
perl gets the whole input as one text too. Prints the processor times (user and system, the best of three), the ratio of
ours to each of the others (below 1 is faster), and whether the texts agree. Run `rt run` in crates/measure first.
"""
import hashlib
import os
import random
import resource
import subprocess
import sys
import tempfile

HERE = os.path.dirname(os.path.abspath(__file__))
OURS = os.path.join(HERE, "..", "crates", "measure", "out", "measure")
SIZE = 100_000_000
PATTERN = r"(\w+)=(\w+)"
REPLACEMENT = "$2=$1"
PROGRAM = r"""
#define PCRE2_CODE_UNIT_WIDTH 8
#include <pcre2.h>
#include <stdio.h>
#include <stdlib.h>
#include <string.h>

int main(int argc, char **argv) {
    size_t room = 1 << 20, len = 0, got;
    char *text = malloc(room);
    while ((got = fread(text + len, 1, room - len, stdin)) > 0) {
        len += got;
        if (len == room)
            text = realloc(text, room *= 2);
    }
    int number;
    PCRE2_SIZE place;
    pcre2_code *code = pcre2_compile((PCRE2_SPTR)argv[1], PCRE2_ZERO_TERMINATED, 0, &number, &place, NULL);
    PCRE2_SIZE size = len + 1;
    PCRE2_UCHAR *out = malloc(size);
    int count = pcre2_substitute(code, (PCRE2_SPTR)text, len, 0, PCRE2_SUBSTITUTE_GLOBAL | PCRE2_NO_JIT, NULL, NULL,
        (PCRE2_SPTR)argv[2], strlen(argv[2]), out, &size);
    if (count < 0)
        return 1;
    return fwrite(out, 1, size, stdout) != size;
}
"""


def make_input(path):
    choice = random.Random(1)
    words = "the of and a to in is you that it he was for on are as with his they at be this have from color".split()
    block = []
    for _ in range(20_000):
        word = choice.choice(words)
        block.append(word + "=" + choice.choice(words) if choice.randrange(8) == 0 else word)
    text = (" ".join(block) + "\n").encode()
    with open(path, "wb") as out:
        for _ in range(SIZE // len(text)):
            out.write(text)


def best(command, path):
    times, told = [], None
    for _ in range(3):
        before = resource.getrusage(resource.RUSAGE_CHILDREN)
        with open(path, "rb") as source:
            done = subprocess.run(command, stdin=source, stdout=subprocess.PIPE, check=False).stdout
        after = resource.getrusage(resource.RUSAGE_CHILDREN)
        times.append(after.ru_utime + after.ru_stime - before.ru_utime - before.ru_stime)
        told = (len(done), hashlib.sha256(done).hexdigest())
    return min(times), told


def main():
    with tempfile.TemporaryDirectory() as folder:
        path = os.path.join(folder, "text")
        make_input(path)
        source = os.path.join(folder, "theirs.c")
        with open(source, "w", encoding="ascii") as out:
            out.write(PROGRAM)
        theirs = os.path.join(folder, "theirs")
        subprocess.run(["cc", "-O2", "-o", theirs, source, "-lpcre2-8"], check=True)
        ours, text = best([OURS, "rewrite", PATTERN, REPLACEMENT], path)
        print(f"ours {ours:.3f} s for {text[0]} bytes")
        others = (
            ("C library", [theirs, PATTERN, REPLACEMENT]),
            ("perl", ["perl", "-0777", "-pe", f"s/{PATTERN}/{REPLACEMENT}/g"]),
        )
        for name, command in others:
            time, other = best(command, path)
            agrees = "the texts agree" if other == text else "THE TEXTS DIFFER"
            print(f"{name} {time:.3f} s, ratio {ours / time:.2f}, {agrees}")


if __name__ == "__main__":
    sys.exit(main())
