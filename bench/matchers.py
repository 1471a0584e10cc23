#!/usr/bin/env python3
"""Checks on random patterns that both matchers of bin/pcre2test agree, and counts the cases where they don't.

Patterns hold groups, lookarounds, conditions, the verb FAIL, and callouts, which answer 0 here. By turns a batch of them is
read as it is, with automatic callouts, in UTF with names and characters past ASCII, and in UTF without regard to case. For
each pattern and subject the ends of the DFA match from each start are compared with those of the ordered search: an end
counts there where the pattern, anchored at the same start and followed by a lookahead for as many characters as stand
behind that end, has a match. So the ordered search answers place by place which ends it meets at all. Under
`dfa_shortest` the least of them is compared, and over all starts whether there is a match. Prints each case that
disagrees, and at the end the counts; the status is 1 where a case disagrees. A pattern with a search that fails, as at a
limit, isn't compared, nor one with a form that isn't built; it is told how many these are. Run ./build first. Another
program can be named as the third argument; it has to be named pcre2test. The C library's has to be told not to take the
repeats at a pattern's end as possessive: a fourth argument is a list of modifiers for each pattern.

With --lengths each pattern has a lookbehind with branches of several lengths. With --alternatives such a pattern is
compared on ten subjects, by each matcher, with one that has an alternative for each way in which its lookbehind can be
long; that one is given to the program that is named, with the modifiers, which can be the C library's.

    bench/matchers.py [--lengths | --alternatives] [PATTERNS] [SEED] [PROGRAM] [MODIFIERS]
"""
import itertools
import os
import random
import re
import subprocess
import sys
import tempfile

HERE = os.path.dirname(os.path.abspath(__file__))
OURS = os.path.join(HERE, "..", "bin", "pcre2test")
BATCH = 2_000
ITEMS = ["a", "b", "c", ".", r"\w", r"\d", "[ab]", "[^a]", "x", r"\s", r"\R", r"\n"]
IN_UTF = ["é", r"\x{e9}", r"[^\x{e9}]", r"[\x{c9}-\x{3b1}]", r"\p{L}", r"\P{Lu}", "😀", r"\N"]
NAMES = ["größe", "имя", "n", "字"]
BEHIND = ["a", "b", ".", r"\w", "[ab]", "(a|b)", "(?:ab|bc)", "b{2}", "^", r"\b", "(?=b)", "(?!ab)", "(?<=a)", "(?<!bb)", "(?C4)"]
# Parts of several lengths, and beside some of them the texts that they stand for.
SEVERAL = ["a?", "b{1,2}", ".{0,2}", "[ab]{1,3}?", r"\R", "(a|bc)", "(?:ab|c)?", r"\w??", "(?>ab|a)", "(?:a|b|){2}",
           "(?(?=a)a|bc)", "b??(?=c)", "(?<!a?)b?"]
SEVERAL_IN_UTF = ["é?", r"\P{Lu}{1,2}", "(?:é|😀a)", r"\N{0,3}"]
WAYS = {"a?": ["a", ""], "b{1,3}": ["b", "bb", "bbb"], ".{0,2}": ["", ".", ".."], "[ab]{1,2}?": ["[ab]", "[ab][ab]"],
        "(?:ab|c)": ["ab", "c"], "(?:a|bc)??": ["", "a", "bc"], r"\d{0,1}+": [r"\d", r"(?!\d)"], r"\w{2,3}": [r"\w\w", r"\w\w\w"],
        "b": ["b"], "x": ["x"], r"\b": [r"\b"], "(?=a)": ["(?=a)"], "": [""]}
CALLOUTS = ["(?C)", "(?C1)", "(?C255)", "(?C'text')"]
ANCHORS = ["^", "$", r"\b", r"\B", r"\A", r"\z", r"\Z", r"\G"]
REPEATS = ["*", "+", "?", "*?", "+?", "??", "{2}", "{1,2}", "{0,2}?", "{2,}", "{2,}?"]
SUBJECT = ["a", "a", "b", "b", "c", "x", "1", "\\n", "\\r", "\\x20"]
# A character as a script writes it, and its bytes in UTF.
PAST_ASCII = {"\\x{e9}": 2, "\\x{c9}": 2, "\\x{3b1}": 2, "\\x{1f600}": 4}
# The modifiers of a batch, by turns.
TURNS = ["", "auto_callout", "utf,dupnames", "utf,ucp,caseless,dupnames"]


class Choice(random.Random):
    """What is drawn, and whether lookbehinds have several lengths."""

    several = False


def group(choice, depth, utf):
    """A group, a lookaround, or a condition on one."""
    inside = alternatives(choice, depth - 1, utf)
    kind = 7 if choice.several and choice.randrange(3) == 0 else choice.randrange(10)
    if kind < 3:
        name = f"?<{choice.choice(NAMES)}>" if utf and choice.randrange(3) == 0 else ""
        return f"({name}{inside})"
    if kind < 6:
        return f"(?:{inside})"
    if kind == 6:
        return choice.choice(["(?=", "(?!"]) + inside + ")"
    if kind == 7:
        return choice.choice(["(?<=", "(?<!"]) + behind(choice, utf) + ")"
    if kind == 8:
        test = choice.choice(["(?=", "(?!"]) + choice.choice(["a", "b", ".b", "$"]) + ")"
        return f"(?{test}{sequence(choice, depth - 1, utf)}|{sequence(choice, depth - 1, utf)})"
    return choice.choice([f"(?(R)a|{inside.replace('|', '')})", f"(?:{inside}|(*FAIL))"])


def behind(choice, utf):
    """Branches of one length each, or of several."""
    parts = BEHIND + IN_UTF[:4] if utf else BEHIND
    branches = ["".join(choice.choices(parts, k=choice.randrange(1, 4))) for _ in range(choice.randrange(1, 4))]
    if choice.several:
        longer = SEVERAL + SEVERAL_IN_UTF if utf else SEVERAL
        branches = [choice.choice([branch, ""]) + choice.choice(longer) + choice.choice(parts) for branch in branches]
    return "|".join(branches)


def two_ways(choice):
    """A pattern with a lookbehind of several lengths, and with an alternative for each way in which it can be long."""
    front, back = sequence(choice, 1, False), sequence(choice, 1, False)
    kind = choice.choice(["(?<=", "(?<!"])
    branches = [choice.choices(list(WAYS), k=choice.randrange(1, 4)) for _ in range(choice.randrange(1, 3))]
    fixed = ["".join(parts) for branch in branches for parts in itertools.product(*(WAYS[part] for part in branch))]
    lengths = "|".join("".join(branch) for branch in branches)
    return f"{front}{kind}{lengths}){back}", f"{front}{kind}{'|'.join(fixed)}){back}"


def sequence(choice, depth, utf):
    items = ITEMS + IN_UTF if utf else ITEMS
    parts = []
    for _ in range(choice.randrange(4)):
        draw = choice.randrange(30)
        if draw < 3:
            parts.append(choice.choice(ANCHORS))
            continue
        if draw == 3:
            parts.append(choice.choice(CALLOUTS))
            continue
        part = group(choice, depth, utf) if draw < 13 and depth > 0 else choice.choice(items)
        if choice.randrange(3) == 0:
            part += choice.choice(REPEATS)
        parts.append(part)
    return "".join(parts)


def alternatives(choice, depth, utf):
    return "|".join(sequence(choice, depth, utf) for _ in range(1 + choice.randrange(3)))


def run(program, folder, entries, modifiers):
    """What a script's subject lines come to: the lines written after each."""
    with open(os.path.join(folder, "script"), "w", encoding="utf-8") as out:
        for pattern, subjects in entries:
            out.write(f"/{pattern}/{modifiers}\n" + "".join(f"    {subject}\n" for subject in subjects) + "\n")
    done = subprocess.run([program, "-q", "script"], cwd=folder, stdout=subprocess.PIPE, check=False)
    answers, present = [], []
    for line in done.stdout.decode("latin-1").split("\n"):
        if line.startswith("    "):
            present = []
            answers.append(present)
        elif line.startswith("/"):
            present = []
        elif line:
            present.append(line)
    if done.returncode or len(answers) != sum(len(subjects) for _, subjects in entries):
        sys.exit(f"{program}: status {done.returncode}, {len(answers)} answers")
    return answers


def length(text):
    """How many characters a shown text has."""
    return len(re.sub(r"\\x(?:[0-9a-f]{2}|\{[0-9a-f]+\})", "?", text))


def ends_in(lines):
    """The lengths of the ends that are shown."""
    return [length(line.split(": ", 1)[1]) for line in lines if re.match(r" *\d+: ", line)]


def subject_of(choice, utf):
    """The characters of a subject, each as a script writes it."""
    letters = SUBJECT + list(PAST_ASCII) if utf else SUBJECT
    return [choice.choice(letters) for _ in range(choice.randrange(7))]


def offsets(subject):
    """The places between the characters of a subject, in bytes."""
    places = [0]
    for letter in subject:
        places.append(places[-1] + PAST_ASCII.get(letter, 1))
    return places


def check(program, folder, cases, modifiers, counts):
    """Asks both matchers about a batch of patterns with subjects."""
    asked, again = [], []
    for pattern, subject in cases:
        text = "".join(subject)
        places = [f"{text}\\=anchored,callout_none,offset={at}" for at in offsets(subject)]
        by_dfa = [place + ",dfa" for place in places] + [place + ",dfa,dfa_shortest" for place in places]
        asked.append((pattern, by_dfa + [f"{text}\\=callout_none,dfa", f"{text}\\=callout_none"]))
        for end in range(len(subject) + 1):
            again.append((f"(?:{pattern})(?=(?s:.{{{len(subject) - end}}})\\z)", places))
    found = iter(run(program, folder, asked, modifiers))
    met = iter(run(program, folder, again, modifiers))
    for pattern, subject in cases:
        sides = len(subject) + 1
        got = [next(found) for _ in range(2 * sides + 2)]
        ordered = [[next(met) for _ in range(sides)] for _ in range(sides)]
        compare(pattern, subject, got, ordered, counts)


def compare(pattern, subject, got, ordered, counts):
    """Compares the answers for one pattern and subject."""
    sides = len(subject) + 1
    answers = got + [lines for row in ordered for lines in row]
    if any(lines and lines[0].startswith("**") for lines in answers):
        counts["not built"] += 1
        return
    if any(lines and lines[0].startswith("Failed") for lines in answers):
        counts["failed"] += 1
        return
    counts["compared"] += 1
    for start in range(sides):
        ends, shortest = ends_in(got[start]), ends_in(got[sides + start])
        met = [end - start for end in range(sides - 1, -1, -1) if ends_in(ordered[end][start])]
        if ends != met or shortest != ends[-1:]:
            what = f"from {start} the DFA has {ends}, the shortest {shortest}, the ordered search {met}"
            differ(pattern, subject, what, counts)
    if bool(ends_in(got[-2])) != bool(ends_in(got[-1])):
        differ(pattern, subject, "one of both matchers alone has a match", counts)


def differ(pattern, subject, what, counts):
    counts["differ"] += 1
    print(f"/{pattern}/ on {''.join(subject)!r}: {what}", flush=True)


def in_both_ways(program, folder, choice, size, modifiers, counts):
    """Compares patterns with lookbehinds of several lengths with those that have alternatives in their place."""
    pairs = [two_ways(choice) for _ in range(size)]
    subjects = [["".join(subject_of(choice, False)) for _ in range(10)] for _ in range(size)]
    asked = [[f"{text}\\=callout_none{tail}" for text in texts for tail in ("", ",dfa")] for texts in subjects]
    ours = iter(run(OURS, folder, [(pair[0], lines) for pair, lines in zip(pairs, asked)], ""))
    fixed = iter(run(program, folder, [(pair[1], lines) for pair, lines in zip(pairs, asked)], modifiers))
    for pair, lines in zip(pairs, asked):
        for line in lines:
            got, wanted = next(ours), next(fixed)
            if any(told and told[0].startswith("Failed") for told in (got, wanted)):
                counts["failed"] += 1
                continue
            counts["compared"] += 1
            if got != wanted:
                differ(pair[0], line, f"{got}, and with alternatives {wanted}", counts)


def drawn(choice, utf):
    """A pattern, with a lookbehind where its lengths count."""
    pattern = alternatives(choice, 3, utf)
    while choice.several and not re.search(r"\(\?<[=!]", pattern):
        pattern = alternatives(choice, 3, utf)
    return pattern


def main():
    words = [word for word in sys.argv[1:] if not word.startswith("--")]
    patterns = int(words[0]) if words else 100_000
    choice = Choice(int(words[1]) if len(words) > 1 else 1)
    choice.several = "--lengths" in sys.argv
    program = os.path.abspath(words[2] if len(words) > 2 else OURS)
    modifiers = words[3] if len(words) > 3 else ""
    counts = {"compared": 0, "not built": 0, "failed": 0, "differ": 0}
    with tempfile.TemporaryDirectory() as folder:
        for number in range(-(-patterns // BATCH)):
            size = min(BATCH, patterns - number * BATCH)
            if "--alternatives" in sys.argv:
                in_both_ways(program, folder, choice, size, modifiers, counts)
                continue
            turn = TURNS[number % len(TURNS)]
            utf = "utf" in turn
            cases = [(drawn(choice, utf), subject_of(choice, utf)) for _ in range(size)]
            check(program, folder, cases, ",".join(filter(None, [turn, modifiers])), counts)
    print(", ".join(f"{count} {name}" for name, count in counts.items()))
    return 1 if counts["differ"] else 0


if __name__ == "__main__":
    sys.exit(main())
