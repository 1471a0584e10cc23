#!/usr/bin/env python3
"""Times programs that load the library, with ours and with the stock one, over a log of 20 MB that it makes.

    tests/tools.py [grep] [git] [php]

Prints the processor times (user and system, the least of three) with ours, and with the stock library without its
just-in-time compiler and with it, the ratio of the first two, and whether all three write the same. Of `grep -P`,
`git grep -P` and php's preg_match_all; a program that isn't there is left out. Run ./build first."""
import hashlib
import os
import random
import shutil
import subprocess
import sys
import tempfile

TOP = os.path.dirname(os.path.dirname(os.path.abspath(__file__)))
LIB = os.environ.get("LIB", f"{TOP}/lib")
PATTERNS = ["timeout|refused|unreachable", "(?i)CONNECTION RESET BY PEER", r"took=\d+\.\dms",
            r"^\S+ WARN \[\w+-(\d+)\]", r"[0-9a-f]{12}", r"(\w+)@(\w+)\.com", r"\b(\w+) \1\b"]
PHP = 'echo preg_match_all("~{}~m", file_get_contents("log")), "\\n";'


def write_log(path):
    pick = random.Random(1)
    states = "timeout refused accepted closed reset queued unreachable".split()
    with open(path, "w", encoding="ascii") as log:
        while log.tell() < 20_000_000:
            what = "connection reset by peer" if pick.random() < 0.01 else f"{pick.choice(states)} of the the request"
            log.write(f"2024-03-{pick.randint(1, 28):02}T10:{pick.randint(0, 59):02} {pick.choice(['INFO'] * 8 + ['WARN'])}"
                      f" [http-{pick.randint(1, 9)}] id={pick.getrandbits(pick.choice([16, 64])):x} user=ann@site.com"
                      f" took={pick.random() * 90:.1f}ms {what}\n")


def words_of(tool, pattern, is_plain):
    if tool == "php":
        return ["php", "-d", f"pcre.jit={0 if is_plain else 1}", "-d", "memory_limit=-1", "-d",
                "pcre.backtrack_limit=10000000", "-r", PHP.format(pattern)]
    pattern = f"(*NO_JIT){pattern}" if is_plain else pattern
    return ["grep", "-cP", pattern, "log"] if tool == "grep" else ["git", "grep", "--no-index", "-cP", pattern, "log"]


def measure(words, folder, ours):
    env = dict(os.environ, LC_ALL="C", **({"LD_LIBRARY_PATH": LIB} if ours else {}))
    least = None
    for _ in range(3):
        with tempfile.TemporaryFile() as out:
            child = subprocess.Popen(words, cwd=folder, env=env, stdin=subprocess.DEVNULL, stdout=out, stderr=out)
            _, _, used = os.wait4(child.pid, 0)
            child.returncode = 0
            out.seek(0)
            told = hashlib.sha256(out.read()).digest()
        time = used.ru_utime + used.ru_stime
        least = time if least is None else min(least, time)
    return least, told


def main():
    tools = sys.argv[1:] or ["grep", "git", "php"]
    with tempfile.TemporaryDirectory() as folder:
        write_log(f"{folder}/log")
        print("tool   ours   stock  ratio  JIT    pattern")
        for tool in tools:
            if not shutil.which(tool):
                print(f"{tool}: not here")
                continue
            for pattern in PATTERNS:
                ours = measure(words_of(tool, pattern, True), folder, True)
                plain = measure(words_of(tool, pattern, True), folder, False)
                jit = measure(words_of(tool, pattern, False), folder, False)
                same = "" if ours[1] == plain[1] == jit[1] else "  differs"
                print(f"{tool:5}  {ours[0]:.3f}  {plain[0]:.3f}  {ours[0] / plain[0]:5.2f}  {jit[0]:.3f}  {pattern}{same}",
                      flush=True)


main()
