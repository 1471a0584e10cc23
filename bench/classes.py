#!/usr/bin/env python3
"""Times the class table beside a plain array of 256 truth values, on 100 MB of bytes of all values.

The crate `measure` counts the bytes of a class in a text of its own, a million bytes gone through a hundred times, by
`ClassTable::has` and by the array. Prints both in nanoseconds a byte (processor time, the least of five runs, less that of a run that
does nothing) and their ratio, for `[a-z0-9_]`, `[^\\n]` and a class of twenty ranges. Run `rt run` in crates/measure first.
"""
import os
import resource
import subprocess
import sys

HERE = os.path.dirname(os.path.abspath(__file__))
OURS = os.path.join(HERE, "..", "crates", "measure", "out", "measure")
BYTES = 100_000_000


def best(words):
    times, told = [], None
    for _ in range(5):
        before = resource.getrusage(resource.RUSAGE_CHILDREN)
        told = subprocess.run([OURS, *words], stdout=subprocess.PIPE, check=True).stdout
        after = resource.getrusage(resource.RUSAGE_CHILDREN)
        times.append(after.ru_utime + after.ru_stime - before.ru_utime - before.ru_stime)
    return min(times), told


def main():
    base, _ = best(["classes", "none", "array"])
    for name, shown in (("word", "[a-z0-9_]"), ("noline", r"[^\n]"), ("twenty", "twenty ranges")):
        table, told = best(["classes", name, "table"])
        array, expected = best(["classes", name, "array"])
        if told != expected:
            return f"{shown}: {told} in place of {expected}"
        table, array = (table - base) * 1e9 / BYTES, (array - base) * 1e9 / BYTES
        print(f"{shown:14} table {table:.2f} ns, array {array:.2f} ns, ratio {table / array:.2f}")
    return None


if __name__ == "__main__":
    sys.exit(main())
