#!/usr/bin/env python3
"""Times bin/pcre2grep on patterns that others wrote: those of Debian's fail2ban and spamassassin, over lines of this machine.

Takes the two packages by `apt-get download` and unpacks them in a temporary folder (or reads a folder where they are
unpacked), writes out fail2ban's tags and spamassassin's flags, and leaves out what the C library's tool refuses. The text is
10,000 lines of logs, licences and pages found on the machine. Each pattern is run with -c by ours, by the C library's
pcre2grep --no-jit and with its JIT; the time is processor time (user and system, the least of the runs), the answer is
compared. Prints for each collection how many patterns there are, which share of them takes longer than --no-jit and which
more than three times the JIT's time, the sums of the times, and the worst. Ends with status 1 where a count differs.

    bench/strangers.py [PROGRAM] [--runs COUNT] [--patterns COUNT] [--unpacked FOLDER] [--worst COUNT]
"""
import argparse
import glob
import os
import re
import subprocess
import sys
import tempfile

LINES = 10000
TEXTS = ["/var/log/*.log", "/usr/share/common-licenses/*", "/etc/*.conf", "/etc/services", "/usr/share/doc/*/copyright"]
HOST = r"(?:\[?(?:(?:::f{4,6}:)?(?:\d{1,3}\.){3}\d{1,3}|[a-fA-F0-9:]{2,39})\]?|[\w\-.^_]*\w)"
ENDS = {"{": "}", "(": ")", "[": "]", "<": ">"}


def unpack(folder):
    """Puts the two packages' files below a folder."""
    for name in ("fail2ban", "spamassassin"):
        subprocess.run(["apt-get", "download", "-q", name], cwd=folder, check=True, stdout=subprocess.DEVNULL,
                       stderr=subprocess.DEVNULL)
    for package in glob.glob(os.path.join(folder, "*.deb")):
        subprocess.run(["dpkg", "-x", package, folder], check=True)


def values(path):
    """The keys of a filter's file, each with its lines."""
    found, key = {}, None
    for line in open(path, encoding="utf-8", errors="replace"):
        line = line.rstrip("\n")
        if not line.strip() or line.lstrip().startswith(("#", ";", "[")):
            key = key if line.strip() else None
            continue
        start = re.match(r"([\w\-]+)\s*=\s*(.*)$", line)
        if start and not line[0].isspace():
            key = start.group(1)
            found[key] = [start.group(2)]
        elif key and line[0].isspace():
            found[key].append(line.strip())
    return found


def written_out(text, names, depth=0):
    """A filter's pattern with its names and tags in the place where they stand, or None."""
    def named(match):
        lines = names.get(match.group(1), [""])
        return written_out(lines[0], names, depth + 1) or ""
    if depth > 8:
        return None
    text = re.sub(r"%\(([\w\-]+)\)s", named, text).replace("%%", "%")
    text = re.sub(r"<F-[\w\-]+>", "(?:", text)
    text = re.sub(r"</F-[\w\-]+>", ")", text)
    text = re.sub(r"<(?:HOST|ADDR|IP4|IP6|DNS|CIDR|SUBNET)>", lambda _: HOST, text)
    text = re.sub(r"<([\w\-]+)>", named, text)
    return None if re.search(r"<[\w\-]*[<>]", text) else text


def of_fail2ban(folder):
    common = values(os.path.join(folder, "etc/fail2ban/filter.d/common.conf"))
    for path in sorted(glob.glob(os.path.join(folder, "etc/fail2ban/filter.d/*.conf"))):
        names = dict(common, **values(path))
        for key, lines in sorted(names.items()):
            if key in common or not re.search(r"regex|re$|^mdre", key):
                continue
            for line in lines:
                text = written_out(line, names)
                if text and len(text) > 3:
                    yield text


def of_spamassassin(folder):
    rule = re.compile(r"\s*(?:body|rawbody|full|uri|header)\s+\w+\s+(?:[\w\-:]+\s+=~\s+)?(?:m(\W)|(/))(.*)$")
    for path in sorted(glob.glob(os.path.join(folder, "usr/share/spamassassin/*.cf"))):
        for line in open(path, encoding="utf-8", errors="replace"):
            found = rule.match(line.rstrip("\n"))
            if not found:
                continue
            begin = found.group(1) or found.group(2)
            body, end, flags = found.group(3).rpartition(ENDS.get(begin, begin))
            flags = re.match(r"[a-z]*", flags).group(0) if end else ""
            flags = "".join(flag for flag in "imsx" if flag in flags)
            body = body.replace("\\/", "/")
            if body:
                yield f"(?{flags}){body}" if flags else body


def text_of_machine():
    """Lines of this machine's files, from each file in turn the next."""
    files = sorted(path for form in TEXTS for path in glob.glob(form) if os.path.isfile(path))
    lines = []
    for path in files:
        try:
            lines.append(open(path, "rb").read(1 << 20).split(b"\n")[:2000])
        except OSError:
            continue
    taken, at = [], 0
    while lines and len(taken) < LINES:
        lines = [held for held in lines if at < len(held)]
        taken += [held[at] for held in lines]
        at += 1
    return b"\n".join(line.replace(b"\0", b"") for line in taken[:LINES]) + b"\n"


def timed(words, runs):
    """The least processor time of the runs, what was written, and the status."""
    least = None
    for _ in range(runs):
        child = subprocess.Popen(words, stdout=subprocess.PIPE, stderr=subprocess.DEVNULL)
        out = child.stdout.read()
        _, status, used = os.wait4(child.pid, 0)
        child.returncode = status
        time = used.ru_utime + used.ru_stime
        least = time if least is None else min(least, time)
    return least, out, os.waitstatus_to_exitcode(status)


def measure(program, patterns, text, runs):
    """For each pattern that the C library takes: it, our time, --no-jit's, the JIT's, and whether we agree."""
    rows = []
    for pattern in patterns:
        words = ["-c", "-e", pattern, text]
        plain, wanted, status = timed(["pcre2grep", "--no-jit", *words], runs)
        if status > 1:
            continue
        fast, _, _ = timed(["pcre2grep", *words], runs)
        ours, out, ended = timed([program, *words], runs)
        rows.append((pattern, ours, plain, fast, (out, ended) == (wanted, status)))
    return rows


def share(rows, is_slow):
    return 100 * sum(map(is_slow, rows)) / max(1, len(rows))


def tell(name, rows, worst):
    sums = [1000 * sum(row[i] for row in rows) for i in (1, 2, 3)]
    print(f"{name}: {len(rows)} patterns; {share(rows, lambda r: r[1] > r[2]):.1f} % above --no-jit, "
          f"{share(rows, lambda r: r[1] > 3 * r[3]):.1f} % above three times the JIT; in all ours {sums[0]:.0f} ms, "
          f"--no-jit {sums[1]:.0f} ms, JIT {sums[2]:.0f} ms")
    for pattern, ours, plain, fast, _ in sorted(rows, key=lambda r: -r[1] / max(r[2], 1e-4))[:worst]:
        print(f"  {1000 * ours:8.1f} {1000 * plain:8.1f} {1000 * fast:8.1f}  {pattern[:90]}")
    for row in rows:
        if not row[4]:
            print(f"  DIFFERS: {row[0]}")


def main():
    top = os.path.dirname(os.path.dirname(os.path.abspath(__file__)))
    words = argparse.ArgumentParser()
    words.add_argument("program", nargs="?", default=os.path.join(top, "bin/pcre2grep"))
    words.add_argument("--runs", type=int, default=3)
    words.add_argument("--patterns", type=int, help="of each collection only so many, evenly taken")
    words.add_argument("--unpacked", help="a folder in which both packages are unpacked")
    words.add_argument("--worst", type=int, default=10)
    args = words.parse_args()
    with tempfile.TemporaryDirectory() as folder:
        unpacked = args.unpacked
        if not unpacked:
            unpacked = folder
            unpack(folder)
        text = os.path.join(folder, "text")
        with open(text, "wb") as file:
            file.write(text_of_machine())
        wrong = False
        for name, patterns in (("fail2ban", of_fail2ban(unpacked)), ("spamassassin", of_spamassassin(unpacked))):
            patterns = list(dict.fromkeys(patterns))
            if args.patterns:
                patterns = patterns[::max(1, len(patterns) // args.patterns)]
            rows = measure(args.program, patterns, text, args.runs)
            tell(name, rows, args.worst)
            wrong = wrong or not all(row[4] for row in rows)
    sys.exit(wrong)


main()
