#!/usr/bin/env python3
"""Compiles, matches, matches by all ends and substitutes random patterns with the stock library and with ours.

    tests/beside_stock.py [PATTERNS [SEED]]

STOCK and OURS name the two libraries. Start optimisations are off in both, since they change marks and limits. What
differs is counted by the reason that is known for it (REASONS), and where none is known it is written too, SHOWN times
of each kind (10). Each match is also held to what is told of the first code unit. Ends with status 1 where a difference
has no known reason."""
import ctypes
import os
import random
import re
import sys

TOP = os.path.dirname(os.path.dirname(os.path.abspath(__file__)))
STOCK = os.environ.get("STOCK", "libpcre2-8.so.0")
OURS = os.environ.get("OURS", f"{TOP}/lib/libpcre2-8.so.0")

PLAIN = 0x1C000  # NO_AUTO_POSSESS, NO_DOTSTAR_ANCHOR, NO_START_OPTIMIZE
OPTIONS = [0x8, 0x400, 0x20, 0x80000, 0xA0000, 0x80, 0x80000000, 0x10, 0x40000, 0x100, 0x40, 0x2000,
           0x20000000, 0x200, 0x1]
MATCH_OPTIONS = [0x1, 0x2, 0x4, 0x8, 0x10, 0x20, 0x80000000]
PARTIAL = 0x30
INFO = {"groups": 4, "names": 17, "entry": 18, "empty": 13}
FIRST, FIRST_TYPE = 5, 6
LIMITS = {-47, -52, -53, -63}
NOT_BUILT = {195}
NO_DFA = {-40, -42, -43}
SHOWN = int(os.environ.get("SHOWN", "10"))

ITEMS = r"""a b c x ab . \d \w \s \b \B ^ $ [ab] [^a] [a-c\d] \W é \x41 \h \R \N [[:alpha:]] \p{L}
\P{Lu} \A \z \Z \G A B 1
\n [é-ü] \S \D (?i) \1 \2 (?1) (?R) \g{-1} \k<n> (*ACCEPT) (*FAIL) (*COMMIT) (*PRUNE) (*SKIP)
(*THEN) (*MARK:m) \Q+\E
(?#c) (?x) \v (?-i) (?s) (?m) (?J)""".split()
COMMON = ITEMS[:24]
QUANTIFIERS = "* + ? {2} {1,3} {0,2} *? +? ?? *+ ++ ?+ {2,}".split()
OPENERS = "( (?: (?= (?! (?<= (?<! (?> (?<n> (?| (?i: (?(1) (?(?=a) (?s-i: (?P<m> (?(R) (?(<n>)".split()
PIECES = ["a", "b", "c", "x", "A", "B", "1", "2", " ", "\n", "é", "ü", "aa", "ab", "+", "\r\n", "_", "É"]
BAD_PIECES = [b"\xff", b"\xe2\x82", b"\xc3", b"\x80"]
MATCH_INVALID_UTF = 0x04000000
REPLACEMENTS = [b"<$0>", b"[${1}]", b"$$-$1", b"x"]

ENDANCHORED, NOT_EMPTY, ENDONLY, MULTILINE = 0x20000000, 0xC, 0x10, 0x400
LOOKS = rb"\(\?<?[=!]"

# Why the libraries differ, by what is tried: a sentence, and the test of pattern, options, subject, start, options of
# the match, and the two answers. "We" are this library.
REASONS = {
    "compiles": (
        ("We refuse a branch of a lookbehind with an ACCEPT, with a part behind a FAIL that has no length, or with a "
         "condition of one branch that isn't empty; a repeat of what is empty we take.",
         lambda p, o, a, b: re.search(rb"\(\?<[=!]", p) and 125 in (a[0], b[0])),
        ("We take no comment between a quantifier and its ? or +.",
         lambda p, o, a, b: b[0] == 109 and re.search(rb"\(\?#c\)[?+]", p)),
    ),
    "fault": (
        ("We look for the faults in another order, and tell places of our own.", lambda p, o, a, b: True),
    ),
    "info": (
        ("MATCHEMPTY: we say that a pattern with an ACCEPT can be empty.",
         lambda p, o, a, b: b"(*ACCEPT)" in p and (a["empty"], b["empty"]) == (0, 1)),
        ("MATCHEMPTY: PCRE2 says so of calls and references that can't be.",
         lambda p, o, a, b: re.search(rb"\(\?[R1]|\\[12gk]", p) and (a["empty"], b["empty"]) == (1, 0)),
    ),
    "partial match": (
        (r"Empty at the subject's end: PCRE2 tells it for each pattern with \b, \B or \A, and behind $, \z and \Z.",
         lambda p, o, s, at, m, x, y: x == (-2, [len(s)] * 2) and re.search(rb"\$|\\[bBAzZ]", p)),
        ("Empty at the subject's end: we tell it for a lookbehind of no length and for an ACCEPT too.",
         lambda p, o, s, at, m, x, y: y == (-2, [len(s)] * 2) and (b"(?<" in p or b"(*ACCEPT)" in p)),
        ("PCRE2 tests .{n} under DOTALL as one, and so doesn't meet the subject's end within it.",
         lambda p, o, s, at, m, x, y: y[0] == -2 and b".{" in p and (o & 0x20 or b"(?s" in p)),
        ("PCRE2 meets the subject's end by a reference to a group that is unset.",
         lambda p, o, s, at, m, x, y: x[0] == -2 and re.search(rb"\\[12gk]", p)),
    ),
    "ends": (
        ("ENDANCHORED: PCRE2 tells ends before the subject's too.",
         lambda p, o, s, at, m, x, y: (o | m) & ENDANCHORED),
        ("An atomic group goes on from its furthest end alone, in PCRE2 sometimes from another.",
         lambda p, o, s, at, m, x, y: re.search(rb"\(\?>|[*+?}]\+", p)),
        (r"\G in a lookaround: in PCRE2 it holds where the lookaround begins.",
         lambda p, o, s, at, m, x, y: b"\\G" in p and re.search(LOOKS, p)),
        ("NOTEMPTY: in PCRE2 no lookaround is met by an empty text either.",
         lambda p, o, s, at, m, x, y: m & NOT_EMPTY and re.search(LOOKS, p)),
        ("DOLLAR_ENDONLY: PCRE2 heeds it under MULTILINE too.",
         lambda p, o, s, at, m, x, y: o & ENDONLY and o & MULTILINE and b"$" in p),
    ),
    "match": (
        ("PCRE2 answers -999, which is a number of its insides.",
         lambda p, o, s, at, m, x, y: x[0] == -999 and b"(*ACCEPT)" in p),
        ("NOTEMPTY: an empty match by an ACCEPT in an atomic group is refused: PCRE2 goes on in the group.",
         lambda p, o, s, at, m, x, y: m & NOT_EMPTY and b"(*ACCEPT)" in p and re.search(rb"\(\?>|[*+?}]\+", p)),
        ("PCRE2 doesn't go back into a call of the whole pattern.",
         lambda p, o, s, at, m, x, y: b"(?R)" in p),
    ),
    "match in bad UTF": (
        ("The start is inside a character, which lookbehinds see here alone.",
         lambda p, o, s, at, m, x, y: at < len(s) and 0x80 <= s[at] < 0xC0),
    ),
    "substitution": (
        ("An empty match by an ACCEPT in an atomic group is refused: PCRE2 goes on in the group.",
         lambda p, o, s, at, m, by, x, y: b"(*ACCEPT)" in p and re.search(rb"\(\?>|[*+?}]\+", p)),
        (r"\G in a lookaround behind an empty match: PCRE2 goes on from elsewhere.",
         lambda p, o, s, at, m, by, x, y: b"\\G" in p and re.search(LOOKS, p)),
        ("PCRE2 doesn't go back into a call of the whole pattern.",
         lambda p, o, s, at, m, by, x, y: b"(?R)" in p),
    ),
}
REASONS["match in bad UTF"] += REASONS["match"]
REASONS["partial ends"] = REASONS["partial match"] + REASONS["ends"] + (
    ("We ask all ways whether they meet the subject's end.", lambda p, o, s, at, m, x, y: y[0] == -2),
    ("A lookaround that meets the subject's end doesn't end our search.",
     lambda p, o, s, at, m, x, y: x[0] == -2 and re.search(LOOKS, p)),
)


class Library:
    def __init__(self, path, match_limit):
        self.lib = ctypes.CDLL(path, mode=os.RTLD_LOCAL | os.RTLD_NOW)
        for name in ("compile", "match_data_create", "match_context_create", "get_ovector_pointer", "get_mark"):
            self.call(name).restype = ctypes.c_void_p
        self.with_limit = ctypes.c_void_p(self.call("match_context_create")(None))
        self.call("set_match_limit")(self.with_limit, match_limit)
        self.data = ctypes.c_void_p(self.call("match_data_create")(8, None))
        vector = self.call("get_ovector_pointer")(self.data)
        self.places = ctypes.cast(vector, ctypes.POINTER(ctypes.c_ssize_t))
        self.work = (ctypes.c_int * 2000)()

    def call(self, name):
        return getattr(self.lib, f"pcre2_{name}_8")

    def compile(self, pattern, options):
        error, at = ctypes.c_int(), ctypes.c_size_t()
        told = ctypes.byref(error), ctypes.byref(at)
        code = self.call("compile")(pattern, ctypes.c_size_t(len(pattern)), options, *told, None)
        return ctypes.c_void_p(code) if code else None, (error.value, at.value)

    def free(self, code):
        if code:
            self.call("code_free")(code)

    def info(self, code):
        told = {}
        for name, question in INFO.items():
            n = ctypes.c_uint32()
            self.call("pattern_info")(code, question, ctypes.byref(n))
            told[name] = n.value
        return told

    def first(self, code):
        """The first code unit of each match, where it is told."""
        told = ctypes.c_uint32(), ctypes.c_uint32()
        for question, n in zip((FIRST_TYPE, FIRST), told):
            self.call("pattern_info")(code, question, ctypes.byref(n))
        return told[1].value if told[0].value == 1 else None

    def found(self, rc):
        pairs = 1 if rc == -2 else 8 if rc == 0 else max(rc, 0)
        return rc, self.places[: 2 * pairs]

    def match(self, code, subject, start, options):
        sizes = ctypes.c_size_t(len(subject)), ctypes.c_size_t(start)
        return self.found(self.call("match")(code, subject, *sizes, options, self.data, self.with_limit))

    def mark(self):
        mark = self.call("get_mark")(self.data)
        return ctypes.string_at(mark) if mark else None

    def ends(self, code, subject, start, options):
        sizes = ctypes.c_size_t(len(subject)), ctypes.c_size_t(start)
        room = self.work, ctypes.c_size_t(len(self.work))
        return self.found(self.call("dfa_match")(code, subject, *sizes, options, self.data, self.with_limit, *room))

    def substitute(self, code, subject, start, options, by):
        out, room = ctypes.create_string_buffer(2000), ctypes.c_size_t(2000)
        sizes = ctypes.c_size_t(len(subject)), ctypes.c_size_t(start)
        places = by, ctypes.c_size_t(len(by)), out, ctypes.byref(room)
        rc = self.call("substitute")(code, subject, *sizes, options, None, self.with_limit, *places)
        return rc, out.raw[: room.value] if rc >= 0 else b""


def pattern(r, depth):
    text = ""
    for _ in range(r.randint(1, 4)):
        if depth and r.randrange(4) == 0:
            text += r.choice(OPENERS[: r.choice((10, 16))]) + pattern(r, depth - 1)
            while r.randrange(3) == 0:
                text += "|" + pattern(r, depth - 1)
            text += ")"
        else:
            text += r.choice(COMMON if r.randrange(3) else ITEMS)
        if r.randrange(3) == 0:
            text += r.choice(QUANTIFIERS)
    return text


class Tally:
    def __init__(self):
        self.counts, self.reasons = {}, {}

    def add(self, what, same, *told):
        row = self.counts.setdefault(what, [0, 0, 0])
        row[0] += 1
        if same:
            return
        row[1] += 1
        for reason, is_met in REASONS.get(what, ()):
            if is_met(*told):
                self.reasons[what, reason] = self.reasons.get((what, reason), 0) + 1
                return
        row[2] += 1
        if row[2] <= SHOWN:
            print(what, *told)

    def show(self):
        for what, (tried, other, unknown) in sorted(self.counts.items()):
            print(f"{what}: {tried} tried, {other} differ, {unknown} for no known reason")
            for (kind, reason), n in sorted(self.reasons.items(), key=lambda row: -row[1]):
                if kind == what:
                    print(f"  {n}: {reason}")
        return any(unknown for _, _, unknown in self.counts.values())


def one_pattern(r, stock, ours, tally):
    text = pattern(r, 3).encode()
    options = PLAIN
    while r.randrange(2):
        options |= r.choice(OPTIONS)
    (a, fault_a), (b, fault_b) = stock.compile(text, options), ours.compile(text, options)
    if a and b:
        told_a, told_b = stock.info(a), ours.info(b)
        tally.add("info", told_a == told_b, text, options, told_a, told_b)
        for _ in range(6):
            one_subject(r, stock, ours, tally, (a, b), (text, options))
        if r.randrange(3) == 0:
            one_bad_subject(r, stock, ours, tally, text, options)
    elif fault_b[0] in NOT_BUILT:
        tally.add("not built", True)
    else:
        tally.add("compiles", not a and not b, text, options, fault_a, fault_b)
        if not a and not b:
            tally.add("fault", fault_a == fault_b, text, options, fault_a, fault_b)
    stock.free(a)
    ours.free(b)


def one_bad_subject(r, stock, ours, tally, text, options):
    """In bad UTF: our `\\A` and `\\G` hold where a run begins, and no match is partial at the end of an inner run."""
    if b"\\A" in text or b"\\G" in text:
        return
    codes = [lib.compile(text, options | MATCH_INVALID_UTF)[0] for lib in (stock, ours)]
    for _ in range(6 if all(codes) else 0):
        pieces = [r.choice(BAD_PIECES) if r.randrange(4) == 0 else r.choice(PIECES).encode() for _ in range(9)]
        subject = b"".join(pieces[r.randrange(9):])
        matching = r.choice(MATCH_OPTIONS) & ~PARTIAL if r.randrange(3) == 0 else 0
        start = 0 if r.randrange(3) else r.randrange(len(subject) + 1)
        x, y = (lib.match(code, subject, start, matching) for lib, code in zip((stock, ours), codes))
        if not {x[0], y[0]} & LIMITS:
            tally.add("match in bad UTF", x == y, text, options, subject, start, matching, x, y)
    for lib, code in zip((stock, ours), codes):
        lib.free(code)


def one_subject(r, stock, ours, tally, codes, told):
    subject = "".join(r.choice(PIECES) for _ in range(r.randrange(10))).encode()
    options = r.choice(MATCH_OPTIONS) if r.randrange(3) == 0 else 0
    start = 0 if r.randrange(4) else r.randrange(len(subject) + 1)
    told = (*told, subject, start, options)
    x, y = (lib.match(code, subject, start, options) for lib, code in zip((stock, ours), codes))
    if x[0] in LIMITS or y[0] in LIMITS:
        tally.add("limit", True)
    else:
        tally.add("partial match" if options & PARTIAL else "match", x == y, *told, x, y)
        first = ours.first(codes[1])
        if first is not None and y[0] >= 0:
            tally.add("first code unit", subject[y[1][0] : y[1][0] + 1] == bytes((first,)), *told, first, y)
        if x == y and not options & PARTIAL:
            tally.add("mark", stock.mark() == ours.mark(), *told, stock.mark(), ours.mark())
    x, y = (lib.ends(code, subject, start, options) for lib, code in zip((stock, ours), codes))
    if not {x[0], y[0]} & (NO_DFA | LIMITS):
        tally.add("partial ends" if options & PARTIAL else "ends", x == y, *told, x, y)
    if options & (PARTIAL | 0x8):
        return
    how, by = options | 0x400 | 0x800 | r.choice((0, 0x100)), r.choice(REPLACEMENTS)
    x, y = (lib.substitute(code, subject, start, how, by) for lib, code in zip((stock, ours), codes))
    if not {x[0], y[0]} & LIMITS:
        tally.add("substitution", x == y, *told, by, x, y)


def main():
    count = int(sys.argv[1]) if len(sys.argv) > 1 else 2000
    r = random.Random(int(sys.argv[2]) if len(sys.argv) > 2 else 1)
    stock, ours, tally = Library(STOCK, 200000), Library(OURS, 1000000), Tally()
    for _ in range(count):
        one_pattern(r, stock, ours, tally)
    return 1 if tally.show() else 0


if __name__ == "__main__":
    sys.exit(main())
