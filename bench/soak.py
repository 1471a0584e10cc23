#!/usr/bin/env python3
"""Gives strangers' patterns to bin/pcre2test and bin/pcre2grep, and tells every run that doesn't end as it should.

Patterns are random bytes, random pieces of pattern syntax, and usual patterns with pieces cut out, doubled or changed; subjects
are random too. Each run has 256 MB of address space and the ordinary stack. A run is told where it is ended by a signal, takes
longer than its limits allow, answers a status that isn't named, or writes a line that isn't one of the named ones. What it was
given is then left in the folder `soak-failed`. The seed makes a run the same each time.

    bench/soak.py [--program FOLDER] [--patterns COUNT] [--words COUNT] [--seed N]

COUNT patterns go through pcre2test, in scripts of 500, and COUNT through pcre2grep, one run each. Run ./build first.
"""
import argparse
import os
import random
import re
import resource
import subprocess
import sys
import time

HERE = os.path.dirname(os.path.abspath(__file__))
SPACE = 256 * 1024 * 1024
SCRIPT = 500
SECONDS = 60
DELIMITERS = b"/!\"'`-=_:;,%&@~"

USUAL = [
    rb"\w+@\w+\.com", rb"(\d{1,3})\.(\d{1,3})\.\d+\.\d+", rb'"(?:[^"\\]|\\.)*"', rb"^\s*fn\s+(\w+)", rb"(a|b)*c", rb"(x+x+)+y",
    rb"(?i)colou?r", rb"(?<year>\d{4})-(?<month>\d\d)", rb"(\w)\w*\1", rb"(?>a+)b", rb"a++b", rb"foo(?=bar)", rb"(?<!x)y",
    rb"(?<=ab|c)d", rb"(?(1)a|b)", rb"(a)?(?(1)b|c)", rb"(?(?=a)ab|cd)", rb"(?|(a)|(b))\1", rb"[^]a-z[:alpha:]\d]+",
    rb"\Qa.b\E+", rb"(?x) a # note\n b", rb"\R\h*\v?", rb"\bword\b", rb"\Aabc\z", rb"^.*?;$", rb"(?s).*\K.", rb"a{2,5}?b{3}",
    rb"((((a)b)c)d)\g{-2}", rb"\x41\x{42}\103\o{104}", rb"(?R)?a", rb"\((?:[^()]++|(?R))*+\)", rb"a(*SKIP)b|c", rb"(*COMMIT)x",
    rb"(?C1)a(?C'text')b", rb"(?<n>a)(?&n)", rb"(?'q'['\"]).*?\k{q}", rb"(?^x:a b)", rb"(*LIMIT_MATCH=100)a*b", rb"(*CRLF)^a$",
    rb'"[^"]*"(*SKIP)(*FAIL)|\bword\b', rb"a(*THEN:x)b|a(*MARK:y)c", rb"(?<=a(?=b)|\bc)(?<!xx|y)b", rb"(?(?C2)(?<=a)b|c)",
    "(*UTF)(?<größe>\\w)(?&größe)\\k<größe>".encode(), "(*UTF)(?(DEFINE)(?<имя>a|é))(?&имя)+".encode(),
]
PIECES = [
    b"a", b"b", b"\\w", b"\\d", b"\\s", b".", b"[ab]", b"[^a]", b"[[:digit:]-z]", b"\\b", b"^", b"$", b"(", b")", b"(?:", b"(?>",
    b"(?=", b"(?!", b"(?<=", b"(?<!", b"(?<n>", b"(?|", b"(?(1)", b"(?(<n>)", b"(?(?=", b"(?(R)", b"(?(DEFINE)", b"|", b"*", b"+",
    b"?", b"{2}", b"{0,3}", b"{1,}", b"{,2}", b"{ 1\t, }", b"{ }",
    b"*?", b"++", b"?+", b"\\1", b"\\g{1}", b"\\k<n>", b"(?1)", b"(?R)", b"(?&n)", b"(*FAIL)",
    b"(*ACCEPT)", b"(*THEN)", b"(*SKIP:n)", b"(*SKIP)", b"(*PRUNE)", b"(*COMMIT:n)", b"(*:n)", b"(?C)", b"\\K",
    "(?<größe>".encode(), "(?&größe)".encode(), "(?(<größe>)".encode(), "é".encode(), b"(*UTF)", b"(*ACCEPT:n)", b"(*PRUNE:n)",
    b"(*THEN:n)", b"(?C2)", b"(?C'text')", b"(?C{a}}b})", b"(?(?C1)(?<=",
    b"\\R", b"\\X", b"\\N", b"\\Q", b"\\E", b"(?i)", b"(?x)",
    b"(?-s)", b"(?#", b"\\x{10FFFF}", b"\\x80", b"\\p{Lu}", b"[[:foo:]]", b"\\", b"[", b"]", b"{", b"}", b"\xff", b"\0", b"\n",
]
MODIFIERS = (
    "i m s x xx n g I caseless multiline dotall extended anchored endanchored dollar_endonly dupnames firstline literal ungreedy"
    " no_auto_capture allow_empty_class match_unset_backref no_start_optimize info global notbol noteol notempty"
    " notempty_atstart offset=1 offset=9 match_limit=5 frame_limit=3 newline=crlf newline=any bsr=unicode utf ucp mark dfa"
    " dfa_shortest nosuch offset=x auto_callout auto_callout auto_callout callout_fail=1 callout_error=2 callout_none"
    " partial_soft partial_hard ps ph replace=<$0> replace=$1${n}"
).split()
OPTIONS = ["-n", "-c", "-v", "-i", "-w", "-x", "-o", "-o1", "-l", "-L", "-q", "-m2", "-A1", "-B2", "-C1", "-b", "--line-offsets",
           "--file-offsets", "-N", "-a", "-I", "-h", "-H", "-s", "-F", "--buffer-size=64", "--match-limit=1000", "--colour", "-u"]

CALLOUT = re.compile(rb"(Callout \(\d+\): | {0,2}\+?\d+ +\^| {4,}\^).*")
RESULT = re.compile(
    rb" ?\d+: .*|MK: .*|No match(, mark = .*)?|Partial match(, mark=.*)?: .*|Failed: error -?\d+: .+"
    rb"|--->.*|Callout \(\d+\): .*| {0,2}\+?\d+ +\^.*| {4,}\^.*|Latest Mark: .*"
    rb"|Failed: error (-3|\d+) at offset \d+: .+|Capture group count = \d+|Max lookbehind = \d+|May match empty string"
    rb"|\*\* (bad script line|bad subject|not built|replace with dfa|(unknown modifier|bad modifier value) .*)"
)
MATCH_ERROR = re.compile(rb": line \d+: error -\d+$")


def random_pattern(choice):
    kind = choice.randrange(4)
    if kind == 0:
        return bytes(choice.randrange(256) for _ in range(choice.randint(1, 16)))
    if kind == 1:
        return b"".join(choice.choice(PIECES) for _ in range(choice.randint(1, 12)))
    text = bytearray(choice.choice(USUAL))
    for _ in range(choice.randint(0, 3)):
        at = choice.randrange(len(text) + 1)
        to = min(len(text), at + choice.randint(0, 5))
        new = choice.choice([b"", bytes(text[at:to]) * 2, choice.choice(PIECES), bytes([choice.randrange(256)])])
        text[at:to] = new
    return bytes(text)


def random_subject(choice):
    if choice.randrange(4) == 0:
        return bytes(choice.randrange(256) for _ in range(choice.randint(0, 30)))
    return bytes(choice.choices(b"aabbcxy01. @-;\"'()\r\xe9", k=choice.randint(0, 40)))


def entry(choice):
    """The lines of an entry of a script: a pattern, its modifiers, its subjects and an empty line."""
    pattern = random_pattern(choice)
    free = [d for d in DELIMITERS if d not in pattern] or [DELIMITERS[0]]
    delimiter = bytes([choice.choice(free)])
    modifiers = ",".join(choice.sample(MODIFIERS, choice.choice([0, 0, 0, 1, 2])))
    lines = (delimiter + pattern + delimiter + modifiers.encode()).split(b"\n")
    for _ in range(choice.randint(0, 3)):
        lines.append(random_subject(choice).replace(b"\n", b"") or b"a")
    return lines + [b""]


def fits_messages(status, err):
    """Whether a status goes with these messages: a match error has one, and changes the status at the 21st alone."""
    told = [line for line in err.split(b"\n") if line.startswith(b"pcre2grep: ")]
    others = [line for line in told if not MATCH_ERROR.search(line)]
    return bool(told) if status == 2 else not others


def ends_of_results(told, at, given):
    """The places after each of the result lines that begin at a place, that place too. A callout shows the next item's text as
    it is, which may have newlines."""
    yield at
    callout = False
    while at < len(told) - 1:
        if RESULT.fullmatch(told[at]):
            callout = CALLOUT.fullmatch(told[at]) is not None
        elif not callout or told[at] not in given:
            return
        at += 1
        yield at


def limited():
    resource.setrlimit(resource.RLIMIT_AS, (SPACE, SPACE))


class Soak:
    def __init__(self, folder, seed):
        self.folder = folder
        self.seed = seed
        self.failed = 0
        self.slowest = 0.0
        self.greatest = 0

    def run(self, tool, words, given):
        """Status, output and messages of a run, where it ends in time."""
        command = [os.path.join(self.folder, tool)] + words
        begun = time.monotonic()
        child = subprocess.Popen(command, stdin=subprocess.PIPE, stdout=subprocess.PIPE, stderr=subprocess.PIPE, preexec_fn=limited)
        try:
            out, err = child.communicate(given, timeout=SECONDS)
        except subprocess.TimeoutExpired:
            child.kill()
            child.communicate()
            return None, b"", b""
        self.slowest = max(self.slowest, time.monotonic() - begun)
        return child.returncode, out, err

    def tell(self, why, words, given):
        self.failed += 1
        os.makedirs("soak-failed", exist_ok=True)
        name = os.path.join("soak-failed", f"{self.seed}-{self.failed}")
        with open(name, "wb") as out:
            out.write(given)
        print(f"FAILED {why}: {words!r}, input in {name}", flush=True)

    def script(self, number):
        choice = random.Random(f"{self.seed} script {number}")
        lines = [b"#subject match_limit=20000"]
        for _ in range(SCRIPT):
            lines += entry(choice)
        given = b"\n".join(lines) + b"\n"
        status, out, err = self.run("pcre2test", ["-q"], given)
        if status is None:
            self.tell("too slow", ["pcre2test"], given)
        elif status != 0 or err:
            self.tell(f"status {status}, {err[:200]!r}", ["pcre2test"], given)
        else:
            self.follow(lines, out.split(b"\n"), given)

    def follow(self, lines, told, given):
        """Each line of the script stands in the output, and what stands between are named lines."""
        # The places in the output at which the next line of the script may stand: a result may look like that line.
        places = {0}
        for number, line in enumerate(lines):
            later = {after for at in places if told[at] == line for after in ends_of_results(told, at + 1, given)}
            if not later:
                self.tell(f"no line {number} after {told[max(places)]!r}", ["pcre2test"], given)
                return
            places = later
        if len(told) - 1 not in places:
            self.tell(f"line {told[max(places)]!r} at the end", ["pcre2test"], given)

    def word(self, number):
        choice = random.Random(f"{self.seed} word {number}")
        words = choice.sample(OPTIONS, choice.choice([0, 1, 1, 2, 3]))
        if "-N" in words:
            words.insert(words.index("-N") + 1, choice.choice(["CR", "LF", "CRLF", "ANY", "ANYCRLF", "NUL"]))
        pattern = random_pattern(choice).replace(b"\0", b"")
        given = b"\n".join(random_subject(choice) for _ in range(choice.randint(0, 40)))
        words = [os.fsencode(w) for w in ["--match-limit=20000"] + words] + [b"-e", pattern]
        status, _, err = self.run("pcre2grep", words, given)
        if status is None:
            self.tell("too slow", words, given)
        elif status not in (0, 1, 2):
            self.tell(f"status {status}, {err[:200]!r}", words, given)
        elif not fits_messages(status, err):
            self.tell(f"status {status} with {err[:200]!r}", words, given)


def main():
    reader = argparse.ArgumentParser(description=__doc__.split("\n", maxsplit=1)[0])
    reader.add_argument("--program", default=os.path.join(HERE, "..", "bin"), help="the folder of pcre2grep and pcre2test")
    reader.add_argument("--patterns", type=int, default=1_000_000)
    reader.add_argument("--words", type=int, default=100_000)
    reader.add_argument("--seed", type=int, default=1)
    asked = reader.parse_args()
    soak = Soak(os.path.abspath(asked.program), asked.seed)
    begun = time.monotonic()
    for number in range(asked.patterns // SCRIPT):
        soak.script(number)
    slowest = soak.slowest
    soak.slowest = 0.0
    for number in range(asked.words):
        soak.word(number)
    size = resource.getrusage(resource.RUSAGE_CHILDREN).ru_maxrss / 1024
    print(f"{asked.patterns} patterns in scripts, {asked.words} as words: {soak.failed} failed; {time.monotonic() - begun:.0f} s, "
          f"slowest script {slowest:.1f} s, slowest word {soak.slowest:.1f} s, greatest size {size:.1f} MB")
    return 1 if soak.failed else 0


if __name__ == "__main__":
    sys.exit(main())
