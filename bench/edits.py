#!/usr/bin/env python3
"""Tries the further must-fail edits, those of bench/edits/CRATE, which the gate leaves out for its time.

Each turns the meaning of a function as those of crates/CRATE/must-fail do, and the prover must refuse each. They are tried in
a copy of the tree, in which they stand in the place of the crate's own, by `rt must-fail`, over what `rt check` or `rt ci` has
built: about half a minute for each edit, and once the time of the crate's check. Without crates, all are tried: some hours.

Ends with status 1 where an edit isn't refused or couldn't be tried.

    bench/edits.py [CRATE..]
"""
import os
import shutil
import subprocess
import sys
import tempfile

HERE = os.path.dirname(os.path.abspath(__file__))
TREE = os.path.dirname(HERE)


def main():
    found = sorted(os.listdir(f"{HERE}/edits"))
    names = sys.argv[1:] or found
    for name in names:
        if name not in found:
            sys.exit(f"{name} has no further edits; those that have: {' '.join(found)}")
    with tempfile.TemporaryDirectory() as room:
        copy = f"{room}/tree"
        shutil.copytree(TREE, copy, symlinks=True, ignore=shutil.ignore_patterns(".git", "must-fail"))
        for name in names:
            shutil.copytree(f"{HERE}/edits/{name}", f"{copy}/crates/{name}/must-fail")
        status = subprocess.run(["rt", "must-fail", *names], cwd=copy).returncode
    sys.exit(1 if status else 0)


if __name__ == "__main__":
    main()
