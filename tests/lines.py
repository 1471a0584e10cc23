#!/usr/bin/env python3
"""Runs command lines of grep -P, git grep -P and pcre2grep with the stock library and with ours, and compares output
and status.

    tests/lines.py [grep] [git] [pcre2grep]

PCRE2GREP names a pcre2grep that loads the library. Patterns of forms that are left out, and lines of which only
messages differ, which have words of our own, are counted apart. In UTF the stock library's just-in-time compiler
misses some matches of \\W, and its start optimisation some of .*?o in invalid UTF."""
import os
import subprocess
import sys
import tempfile
from concurrent.futures import ThreadPoolExecutor

TOP = os.path.dirname(os.path.dirname(os.path.abspath(__file__)))
LIB = os.environ.get("LIB", f"{TOP}/lib")
PCRE2GREP = os.environ.get("PCRE2GREP", "/usr/bin/pcre2grep")

LEFT_OUT = b"not in this profile"
PATTERNS = [
    r"foo", r"\d+", r"(?i)ERROR|warn", r"^\s*$", r"\bfoo\b", r"(\w+) \1", r"(?<=key=)\w+", r"(?<!foo)bar", r"foo(?!bar)",
    r"(a+)+b", r"\d{4}-\d\d-\d\d", r"(?:\d{1,3}\.){3}\d{1,3}", r"^(?=.*error)(?=.*user)", r'"[^"]*"',
    r"\((?:[^()]|(?R))*\)", r"(?<y>\d{4})-(?<m>\d\d)", r"[[:upper:]][[:lower:]]+", r"\p{Lu}\p{Ll}+", r"\p{Greek}+",
    r"[а-яА-Я]+", r"é|ï", r".*?o", r"o$", r"^(?:int|return)", r"\x{65e5}", r"(?x) f o o # c", r"a{2,3}+", r"(?>a+)b",
    r"(foo|bar)(?(1)baz|x)", r"\Kfoo", r"foo\Kbar", r"\w+\s+\w+$", r"\h+", r"\R", r"[^\x00-\x7f]", r"\QGET\E",
    r"(?|(a)|(b))\1", r"(*UCP)\w+", r"(*UTF)\x{e9}", r"x*", r"", r"\W", r"(*FAIL)|foo", r"foo(*SKIP)(*FAIL)|bar",
    r"(?s)a.b", r"\Aline", r"foo\z", r"foo\Z", r"straße", r"(?i)STRASSE|STRAßE", r"(?i)привет", r"(?i)αβγ", r"[", r"(",
    r"a{2,1}", r"(?P<n>a)(?P=n)", r"\N{U+e9}", r"\X", r"\C", r"(*sr:foo)", r"(?<=a+)b", r"*a", r"\p{Foo}", r"foo\\",
    r"\g{1}(a)", r"(?1)(a)", r"(?i:f)oo", r"[a-f0-9]{4}", r"[^ ]+=[^ ]+", r"\d+(?=\s|$)", r"(?m)^foo", r"(?U)a+", r"\cA",
    r"\o{101}", r"\e", r"[\w.]+@[\w.]+", r"(?:(?:a|b)*)*c", r"\Gfoo", r"(?(DEFINE)(?<d>\d))(?&d)+"]

LEVELS = "INFO", "WARN", "ERROR", "error", "debug"
TEXTS = (
    "GET /foo/bar?key=value HTTP/1.1 from 192.168.0.7", "foo bar foobar barfoo", "Привет мир, ПРИВЕТ",
    "αβγ ΑΒΓ word word", "straße STRASSE Straße naïve café", 'aaab aab (a (b) c) "quoted text"',
    "日本語 the the mail a.b@c.org", "   ", "", "x\ta\x01b \x1b[0m deadbeef")
LOG = "\n".join(
    f"{y}-{m:02}-{d:02} 10:{d:02}:01 {level} user{d} {text}"
    for y, m, d, level, text in (
        (2020 + i % 5, 1 + i % 12, 1 + i % 28, LEVELS[i % 5], TEXTS[i % 10]) for i in range(300))) + "\n"
CODE = "\n".join(
    ("int main(void) {", "  return foo(bar, baz);", "}", "", "/* foo\n   bar */", "static int foobar[4] = {1, 22, 333};",
     "line foo", "  if (a == b && (c || d)) return foo\\bar;")[i % 8] for i in range(200)) + "\n"


def make_data(folder):
    def write(name, data):
        with open(f"{folder}/{name}", "wb") as file:
            file.write(data)

    write("log.txt", LOG.encode())
    write("code.c", CODE.encode())
    write("crlf.txt", CODE.replace("\n", "\r\n").encode())
    write("bad.txt", b"foo bar\nfoo \xff bar\n\xc3\xa9 caf\xc3\xa9\n\xe2\x82 foo key=1\nbar\xc3\nfoo\n")


def jobs_of(kind, folder):
    locales = ("C", "C.UTF-8")
    if kind == "grep":
        files, options = ["log.txt", "code.c", "bad.txt", "crlf.txt"], ("-nP", "-coP", "-iwP", "-xvcP")
        words = [["grep", o, "--", p, *files] for p in PATTERNS for o in options]
        return [(w, folder, loc) for w in words for loc in locales]
    if kind == "git":
        places, options = ["docs", "crates/pat_tree", "README.md"], (["-nP"], ["-coP"], ["-iwP"], ["-P", "--column"])
        words = [["git", "grep", *o, "-e", p, "--", *places] for p in PATTERNS for o in options]
        return [(w, TOP, loc) for w in words for loc in locales]
    options = ["-n"], ["-co"], ["-iw"], ["-xv"], ["-u", "-o1"], ["-M", "-n"], ["-F", "-w"], ["-Ncrlf", "-n"]
    files = ["log.txt", "code.c", "crlf.txt"]
    words = [[PCRE2GREP, "--no-jit", *o, "-e", p, *files] for p in PATTERNS for o in options]
    return [(w, folder, "C.UTF-8") for w in words]


def run(job, ours):
    words, folder, loc = job
    env = {"PATH": os.environ["PATH"], "HOME": folder, "LC_ALL": loc, "GIT_CONFIG_COUNT": "1",
           "GIT_CONFIG_KEY_0": "safe.directory", "GIT_CONFIG_VALUE_0": "*"}
    if ours:
        env["LD_LIBRARY_PATH"] = LIB
    try:
        p = subprocess.run(words, env=env, cwd=folder, capture_output=True, timeout=120, stdin=subprocess.DEVNULL)
        return (p.returncode, p.stdout), p.stderr
    except subprocess.TimeoutExpired:
        return ("timeout", b""), b""


def compare(kind, folder):
    jobs, counts = jobs_of(kind, folder), {"same": 0, "left out": 0, "other messages": 0, "other output or status": 0}
    with ThreadPoolExecutor(int(os.environ.get("LANES", "2"))) as lanes:
        for job, (a, told_a), (b, told_b) in lanes.map(lambda job: (job, run(job, False), run(job, True)), jobs):
            left_out = LEFT_OUT in told_b
            other = "other output or status" if a != b else "other messages" if told_a != told_b else "same"
            what = "left out" if left_out else other
            counts[what] += 1
            if what.startswith("other"):
                told = a[0], len(a[1]), told_a[:90], "|", b[0], len(b[1]), told_b[:90]
                print(what, job[2], " ".join(job[0]), "|", *told)
    print(f"{kind}: {len(jobs)} lines:", ", ".join(f"{n} {what}" for what, n in counts.items()))


with tempfile.TemporaryDirectory() as data:
    make_data(data)
    for each in sys.argv[1:] or ("grep", "git", "pcre2grep"):
        compare(each, data)
