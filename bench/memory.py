#!/usr/bin/env python3
"""Refuses memory to bin/pcre2grep and bin/pcre2test, one allocation after another, and tells what doesn't end as it should.

Each run is made once with ample memory, which gives its status, its output, its messages and the number of its allocations. Then
each allocation in turn is refused, first it alone, then it and all that follow. Each such run has to end with status 3, or with
the status of the run, and what it writes has to be the first part of what the run writes; the whole of it where its status is
that of the run. A small library, made by `cc` in a folder of its own and loaded before the C library, counts and refuses.

Prints a line for each run: its allocations, and how many of the refusals came to status 3 and to the status of the run. Run
./build first.

    bench/memory.py [PROGRAM FOLDER]
"""
import os
import subprocess
import sys
import tempfile

HERE = os.path.dirname(os.path.abspath(__file__))
SECONDS = 60
LACKS = 3

# Counts what is asked for since the program began, and refuses from the number REFUSE on, up to LAST.
LIBRARY = r"""
#define _GNU_SOURCE
#include <dlfcn.h>
#include <fcntl.h>
#include <stdio.h>
#include <stdlib.h>
#include <unistd.h>

static unsigned long asked, refuse, last;
static void *(*get)(size_t);
static void *(*grow)(void *, size_t);

__attribute__((constructor)) static void begin(void) {
    get = (void *(*)(size_t))dlsym(RTLD_NEXT, "malloc");
    grow = (void *(*)(void *, size_t))dlsym(RTLD_NEXT, "realloc");
    const char *first = getenv("REFUSE"), *end = getenv("LAST");
    refuse = first ? strtoul(first, 0, 10) : 0;
    last = end ? strtoul(end, 0, 10) : 0;
    asked = 0;
}

__attribute__((destructor)) static void tell(void) {
    const char *name = getenv("COUNT");
    char text[32];
    int file = name ? open(name, O_WRONLY | O_CREAT | O_TRUNC, 0600) : -1;
    if (file < 0)
        return;
    if (write(file, text, snprintf(text, sizeof text, "%lu", asked)) < 0)
        _exit(99);
    close(file);
}

static int is_refused(void) {
    asked++;
    return refuse && asked >= refuse && asked <= last;
}

void *malloc(size_t size) {
    if (!get)
        get = (void *(*)(size_t))dlsym(RTLD_NEXT, "malloc");
    return is_refused() ? 0 : get(size);
}

void *realloc(void *old, size_t size) {
    if (!grow)
        grow = (void *(*)(void *, size_t))dlsym(RTLD_NEXT, "realloc");
    return is_refused() ? 0 : grow(old, size);
}
"""

FILES = {
    "prose": b"The quick brown fox\njumps over\nthe lazy dog.\n" * 40,
    "code.rs": b"fn main() {\n    let x = 1;\n}\n  fn two() {}\n",
    "binary": b"a\0b\nneedle\nneedle\n",
    "patterns": b"fox$\n^jumps\n\nd.g\n",
    "folder/one.c": b"int one(void);\n" * 30,
    "folder/two.h": b"int two(void);\n",
    "folder/below/three.c": b"int three(void);\n",
    "script": b"/(?<y>\\d{4})-(?<m>\\d\\d)/\n  on 2024-05-06\n\n/nothing/\n  here\n",
}

# What a run is for, its words and its input.
RUNS = [
    ("lines with a match", ["pcre2grep", "colou?r"], b"red\ncolor\nColour\ncolour"),
    ("a call in a group", ["pcre2test", "-q"], b"/^(.|(.)(?1)\\2)$/\nabcba\n"),
    ("all ends", ["pcre2test", "-q"], b"/cat(er(pillar)?)?/\nthe caterpillar catchment\\=dfa\n"),
    ("replacements", ["pcre2test", "-q"],
     b"/x*/g,replace=-\nabc\n\n/(\\d+)-(\\d+)/replace=$2:$1\n12-34\n\n/(a)|(b)/replace=$2\na\n"),
    ("lines that are made", ["pcre2test", "-gen", "1"], b""),
    ("context of lines in two files", ["pcre2grep", "-n", "-C2", "o", "prose", "code.rs"], b""),
    ("a folder, with patterns for names", ["pcre2grep", "-r", "-c", "--include", r"\.c$", "int", "folder"], b""),
    ("patterns of a file", ["pcre2grep", "-f", "patterns", "-i", "-w", "prose"], b""),
    ("what two groups matched", ["pcre2grep", "-n", "-o1", "-o2", "--om-separator=,", r"(\w+) (\w+)", "prose"], b""),
    ("a binary file", ["pcre2grep", "needle", "binary", "prose"], b""),
    ("files with a match, and without", ["pcre2grep", "-L", "fox", "prose", "code.rs", "missing"], b""),
    ("words of a dictionary in UTF", ["pcre2grep", "-u", "-i", "-n", r"\p{Lu}\w+"], "één Ώmega\nstraße\n".encode()),
    ("a script of a file", ["pcre2test", "script"], b""),
    ("forms that look around, and verbs", ["pcre2test", "-q"],
     b"/(?<=ab|c)d(?!e)/\ncdcde\n\n/^(?(?=a)ab|c(*THEN)d)/\nab\ncd\n\n/aaa(*SKIP)b|./g,mark\naaac\n\n/(?>a+)b\\K./\naaabc\n"),
    ("classes, names and UTF", ["pcre2test", "-q"],
     b"/(?i)[\\p{L}\\x{100}-\\x{17f}]+(?<n>k)\\k<n>/utf,info\n\\x{212a}abckK\nabckk\\=offset=1\n"),
]


class Tries:
    def __init__(self, programs, folder, library):
        self.programs = programs
        self.folder = folder
        self.library = library
        self.count = os.path.join(folder, "count")
        self.failed = 0

    def run(self, words, given, refuse=0, last=0):
        """Status, output and messages of a run in which these allocations are refused."""
        how = {"LD_PRELOAD": self.library, "REFUSE": str(refuse), "LAST": str(last), "COUNT": self.count}
        command = [os.path.join(self.programs, words[0])] + words[1:]
        try:
            done = subprocess.run(command, cwd=os.path.join(self.folder, "files"), env=how, input=given, capture_output=True, timeout=SECONDS,
                                  check=False)
        except subprocess.TimeoutExpired:
            return None, b"", b""
        return done.returncode, done.stdout, done.stderr

    def tell(self, why, words, refuse, last):
        self.failed += 1
        print(f"FAILED {why}: {words!r}, refused from {refuse} to {last}", flush=True)

    def judge(self, words, wanted, got, refuse, last):
        """Whether a run for which memory was refused ended with status 3."""
        status, out, err = wanted
        if got[0] not in (status, LACKS):
            self.tell(f"status {got[0]}", words, refuse, last)
        elif not (out.startswith(got[1]) and err.startswith(got[2])):
            self.tell(f"other text, {got[1][:200]!r} and {got[2][:200]!r}", words, refuse, last)
        elif got[0] == status != LACKS and got != wanted:
            self.tell(f"a part of the text with status {status}", words, refuse, last)
        return got[0] == LACKS

    def sweep(self, name, words, given):
        wanted = self.run(words, given)
        with open(self.count, encoding="ascii") as text:
            count = int(text.read())
        alone = sum(self.judge(words, wanted, self.run(words, given, n, n), n, n) for n in range(1, count + 1))
        on = sum(self.judge(words, wanted, self.run(words, given, n, count * 4), n, count * 4) for n in range(1, count + 1))
        print(f"| {name} | {wanted[0]} | {count} | {alone} | {count - alone} | {on} | {count - on} |", flush=True)
        return count


def main():
    programs = os.path.abspath(sys.argv[1] if len(sys.argv) > 1 else os.path.join(HERE, "..", "bin"))
    with tempfile.TemporaryDirectory(prefix="memory-") as folder:
        source, library = os.path.join(folder, "refuse.c"), os.path.join(folder, "refuse.so")
        with open(source, "w", encoding="ascii") as text:
            text.write(LIBRARY)
        subprocess.run(["cc", "-O1", "-fPIC", "-shared", "-o", library, source, "-ldl"], check=True)
        for name, held in FILES.items():
            path = os.path.join(folder, "files", name)
            os.makedirs(os.path.dirname(path), exist_ok=True)
            with open(path, "wb") as file:
                file.write(held)
        tries = Tries(programs, folder, library)
        print("| run | status | allocations | one refused: 3 | its status | all from it on: 3 | its status |")
        print("|---|---|---|---|---|---|---|")
        total = sum(tries.sweep(*run) for run in RUNS)
        print(f"{len(RUNS)} runs, {total} allocations, each refused twice: {tries.failed} failed")
    return 1 if tries.failed else 0


if __name__ == "__main__":
    sys.exit(main())
