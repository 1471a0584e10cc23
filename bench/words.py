#!/usr/bin/env python3
"""Times bin/pcre2grep beside the C library's pcre2grep --no-jit on words over standard input.

Makes its input itself, 100 MB of lines, in a temporary folder. Prints for each word both processor times (user and system, the least of five),
their ratio (below 1 is faster than the C library), whether the outputs agree, and the greatest resident size at 1 MB and
100 MB. Run ./build first; the C library's pcre2grep has to be on the PATH.
"""
import os
import random
import resource
import subprocess
import sys
import tempfile

OURS = os.path.join(os.path.dirname(os.path.abspath(__file__)), "..", "bin", "pcre2grep")
THEIRS = "pcre2grep"
WORDS = ["the", "t.e", "zebra", "e"]
MEGABYTE = 1_000_000


def make_input(path, size):
    """Lines of some ten common words each, the same at every run."""
    choice = random.Random(1)
    words = "the of and a to in is you that it he was for on are as with his they at be this have from".split()
    words += "quartz lantern meadow copper thimble orchard velvet harbour cinder maple".split()
    written = 0
    with open(path, "w", encoding="ascii") as out:
        while written < size:
            line = " ".join(choice.choice(words) for _ in range(choice.randrange(4, 18))) + "\n"
            out.write(line)
            written += len(line)


def run(command, path):
    """The processor time and the output of a command over a file as standard input."""
    with open(path, "rb") as source, tempfile.TemporaryFile() as out:
        before = resource.getrusage(resource.RUSAGE_CHILDREN)
        subprocess.run(command, stdin=source, stdout=out, check=False)
        after = resource.getrusage(resource.RUSAGE_CHILDREN)
        taken = after.ru_utime + after.ru_stime - before.ru_utime - before.ru_stime
        out.seek(0)
        return taken, out.read()


def best(command, path):
    runs = [run(command, path) for _ in range(5)]
    return min(r[0] for r in runs), runs[0][1]


def resident(command, path):
    """The greatest resident size of a command over a file, in KiB, as the kernel tells it while the command runs."""
    greatest = 0
    with open(path, "rb") as source:
        child = subprocess.Popen(command, stdin=source, stdout=subprocess.DEVNULL)
        while child.poll() is None:
            try:
                with open(f"/proc/{child.pid}/status", encoding="ascii") as status:
                    lines = [line.split() for line in status if line.startswith("VmHWM")]
            except OSError:
                break
            greatest = max([greatest] + [int(line[1]) for line in lines])
        child.wait()
    return greatest


def main():
    with tempfile.TemporaryDirectory() as folder:
        small, large = os.path.join(folder, "small"), os.path.join(folder, "large")
        make_input(small, MEGABYTE)
        make_input(large, 100 * MEGABYTE)
        for word in WORDS:
            ours, output = best([OURS, word], large)
            theirs, expected = best([THEIRS, "--no-jit", word], large)
            agree = "same output" if output == expected else "OUTPUT DIFFERS"
            print(
                f"{word:6} ours {ours:.3f} s, theirs {theirs:.3f} s, ratio {ours / theirs:.2f}, {agree}; "
                f"resident {resident([OURS, word], small)} KiB at 1 MB, {resident([OURS, word], large)} KiB at 100 MB"
            )


if __name__ == "__main__":
    sys.exit(main())
