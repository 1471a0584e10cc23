#!/usr/bin/env python3
"""Searches real folders with bin/pcre2grep -r while their files come and go, and tells every run that loses one that stays.

A folder has files that stay, each with one line that is found, and names that a second process makes and removes all the time:
files, folders with a file, and links. Each run must print all files that stay, in order and nothing that was never there; end
with status 0, or with 2 where it says that a name that comes and goes can't be opened or listed; and say nothing else.

Then a folder that may be listed and not entered, one that may not be listed, and a file that may not be read are searched, by
a user that isn't root: where the script is run by root it gives its rights up first.

    bench/trees.py [--program FOLDER] [--runs COUNT] [--files COUNT] [--moving COUNT]

Run ./build first.
"""
import argparse
import os
import pwd
import re
import shutil
import signal
import subprocess
import sys
import tempfile

HERE = os.path.dirname(os.path.abspath(__file__))
SAID = re.compile(rb"pcre2grep: (top/(?:moving|sub/moving)\S*): cannot be (opened|listed)")


def give_up_rights():
    """Goes on as a user that isn't root."""
    if os.geteuid() == 0:
        nobody = pwd.getpwnam("nobody")
        os.setgroups([])
        os.setgid(nobody.pw_gid)
        os.setuid(nobody.pw_uid)


def write(path, text):
    with open(path, "w") as file:
        file.write(text)


def make(path, kind):
    if kind == 0:
        write(path, "found in passing\n")
    elif kind == 1:
        os.mkdir(path)
        write(os.path.join(path, "inner"), "found in passing\n")
    else:
        os.symlink("nowhere", path)


def remove(path, kind):
    if kind == 1:
        shutil.rmtree(path)
    else:
        os.remove(path)


def move(top, count):
    """Makes and removes names, by a process of its own, which is answered."""
    names = [(os.path.join(top, place, f"moving{i}"), i % 3) for i in range(count) for place in ("", "sub")]
    mover = os.fork()
    if mover:
        return mover
    try:
        while True:
            for path, kind in names:
                make(path, kind)
            for path, kind in names:
                remove(path, kind)
    finally:
        os._exit(1)


def grep(program, folder, *words):
    return subprocess.run([program, "-r", *words], cwd=folder, stdout=subprocess.PIPE, stderr=subprocess.PIPE, timeout=60)


def fault_of(run, stay):
    """What a run over names that come and go did wrong."""
    lines = run.stdout.splitlines()
    passing = [line for line in lines if line.endswith(b":found in passing")]
    if [line for line in lines if line not in passing] != stay:
        return "a file that stays is lost"
    if any(b"/moving" not in line for line in passing):
        return "a file that isn't there"
    said = run.stderr.splitlines()
    strange = [line for line in said if not SAID.fullmatch(line)]
    if strange:
        return f"it says {strange[0].decode(errors='replace')}"
    if run.returncode != (2 if said else 0):
        return f"status {run.returncode}"
    return None


def search_moving(program, folder, runs, files, moving):
    top = os.path.join(folder, "top")
    os.makedirs(os.path.join(top, "sub"))
    stay = []
    for place in ("", "sub/"):
        for i in range(files):
            write(os.path.join(top, f"{place}stays{i:03}"), "found here\nand no more\n")
            stay.append(f"top/{place}stays{i:03}:found here".encode())
    stay.sort()
    mover = move(top, moving)
    lost, spoken = 0, 0
    try:
        for i in range(runs):
            run = grep(program, folder, "found", "top")
            spoken += bool(run.stderr)
            fault = fault_of(run, stay)
            if fault:
                lost += 1
                print(f"run {i}: {fault}")
    finally:
        os.kill(mover, signal.SIGKILL)
        os.waitpid(mover, 0)
    print(f"{runs} runs over {2 * files} files that stay and {2 * moving} names that come and go: {lost} wrong, "
          f"{spoken} that spoke of a name that went")
    return lost


def search_barred(program, folder):
    top = os.path.join(folder, "barred")
    for place in ("listed", "closed", "open"):
        os.makedirs(os.path.join(top, place))
        write(os.path.join(top, place, "file"), "found here\n")
    write(os.path.join(top, "unread"), "found here\n")
    os.chmod(os.path.join(top, "listed"), 0o444)
    os.chmod(os.path.join(top, "closed"), 0o000)
    os.chmod(os.path.join(top, "unread"), 0o000)
    wanted = (
        b"barred/open/file:found here\n",
        b"pcre2grep: barred/closed: cannot be listed\npcre2grep: barred/unread: cannot be opened\n",
        2,
    )
    run = grep(program, folder, "found", "barred")
    for place in ("listed", "closed"):
        os.chmod(os.path.join(top, place), 0o755)
    given = (run.stdout, run.stderr, run.returncode)
    if given != wanted:
        print(f"barred names: {given}, wanted {wanted}")
    else:
        print("a folder that may be listed and not entered, one that may not be listed, a file that may not be read: as wanted")
    return given != wanted


def main():
    parser = argparse.ArgumentParser()
    parser.add_argument("--program", default=os.path.join(os.path.dirname(HERE), "bin"))
    parser.add_argument("--runs", type=int, default=10_000)
    parser.add_argument("--files", type=int, default=50)
    parser.add_argument("--moving", type=int, default=20)
    given = parser.parse_args()
    program = os.path.abspath(os.path.join(given.program, "pcre2grep"))
    give_up_rights()
    folder = tempfile.mkdtemp()
    try:
        lost = search_moving(program, folder, given.runs, given.files, given.moving)
        wrong = search_barred(program, folder)
    finally:
        shutil.rmtree(folder)
    sys.exit(1 if lost or wrong else 0)


if __name__ == "__main__":
    main()
