#!/usr/bin/env python3
"""Kills shex while it stores a proof, and looks at what the file holds.

    fuzz/killed.py [PROGRAM] [--runs 200] [--items 20000] [--seed 1] [--folder FOLDER]

PROGRAM is by default the released one, `dist/shex`. A drill stores a proof of some megabytes over an older file of that
name. Where Debian's `strace` is installed, the program is killed at each of its system calls that touches a file, from the one that
opens the proof on: before the call is made, and behind it. Besides, it is killed at so many random times around the moment at which
it stores. Behind each run the file has to hold what it held before or a prefix of the proof. Printed is how often it held what. The
program ends with 1 where it held anything else. What a crash of the machine leaves, and not of the program, is up to the file system.
Nothing but Python's standard library is wanted.
"""

import argparse
import collections
import os
import random
import shutil
import subprocess
import sys
import tempfile
import time

from running import RELEASED, folder

OLD = b"an old text\n"

# The calls that may touch a file once it is opened.
CALLS = "openat,open,creat,write,pwrite64,writev,ftruncate,truncate,close,fsync,fdatasync,rename,renameat,renameat2,unlink"


def fresh(where):
    """Puts the older file in its place."""
    with open(os.path.join(where, "p"), "wb") as file:
        file.write(OLD)


def held(where, proof):
    """What the file holds, in a word."""
    with open(os.path.join(where, "p"), "rb") as file:
        text = file.read()
    if text == OLD:
        return "what it held before"
    if text == proof:
        return "the whole proof"
    if not text:
        return "nothing"
    return "a part of the proof" if proof.startswith(text) else "SOMETHING ELSE"


def whole_run(words, where):
    """The proof of a run that is not killed, how long the run takes, and when the file begins to change."""
    fresh(where)
    begun, changed = time.perf_counter(), None
    child = subprocess.Popen(words, cwd=where, stdout=subprocess.DEVNULL)
    while child.poll() is None:
        if changed is None and os.path.getsize(os.path.join(where, "p")) != len(OLD):
            changed = time.perf_counter() - begun
    taken = time.perf_counter() - begun
    with open(os.path.join(where, "p"), "rb") as file:
        return file.read(), taken, changed or taken


def at_calls(words, where, proof):
    """Kills at each call that touches a file, from the one that opens the proof on."""
    log = os.path.join(where, "log")
    fresh(where)
    subprocess.run(["strace", "-o", log, "-e", f"trace={CALLS}", *words], cwd=where, stdout=subprocess.DEVNULL, check=True)
    with open(log, encoding="utf-8", errors="replace") as file:
        lines = [line for line in file if "(" in line and not line.startswith(("---", "+++"))]
    os.remove(log)
    opened = next(number for number, line in enumerate(lines) if '"p"' in line)
    found, counts = collections.Counter(), collections.Counter()
    for number, line in enumerate(lines):
        name = line[:line.index("(")]
        counts[name] += 1
        if number < opened:
            continue
        # A signal comes behind the call; a call that is replaced by another is not made.
        for inject in (f"{name}:signal=KILL:when={counts[name]}", f"{name}:error=EINTR:signal=KILL:when={counts[name]}"):
            fresh(where)
            subprocess.run(["strace", "-o", "/dev/null", "-e", f"trace={CALLS}", "-e", f"inject={inject}", *words], cwd=where,
                           stdout=subprocess.DEVNULL, stderr=subprocess.DEVNULL, check=False)
            found[held(where, proof)] += 1
    print(f"killed at {len(lines) - opened} calls, twice each, from {lines[opened].strip()[:60]} on")
    return found


def at_times(words, where, proof, runs, seed, taken, changed):
    """Kills at random times, half of them in the run as a whole and half around the moment at which the file changes."""
    chance, found = random.Random(seed), collections.Counter()
    for number in range(runs):
        fresh(where)
        at = chance.uniform(0, taken * 1.05) if number % 2 else chance.uniform(changed * 0.9, taken * 1.05)
        begun = time.perf_counter()
        child = subprocess.Popen(words, cwd=where, stdout=subprocess.DEVNULL)
        while time.perf_counter() - begun < at and child.poll() is None:
            time.sleep(0.0002)
        child.kill()
        child.wait()
        found[held(where, proof)] += 1
    print(f"killed at {runs} random times")
    return found


def main():
    parser = argparse.ArgumentParser(description=__doc__, formatter_class=argparse.RawDescriptionHelpFormatter)
    parser.add_argument("program", nargs="?", default=RELEASED)
    parser.add_argument("--runs", type=int, default=200)
    parser.add_argument("--items", type=int, default=20000)
    parser.add_argument("--seed", default="1")
    parser.add_argument("--folder")
    given = parser.parse_args()
    words = [os.path.abspath(given.program), "drill", str(given.items), "--proof", "p"]
    with folder() if given.folder is None else tempfile.TemporaryDirectory(dir=given.folder) as where:
        proof, taken, changed = whole_run(words, where)
        print(f"a proof of {len(proof)} bytes, stored {changed:.2f} s into a run of {taken:.2f} s")
        found = at_times(words, where, proof, given.runs, given.seed, taken, changed)
        if shutil.which("strace"):
            found += at_calls(words, where, proof)
    for what, count in sorted(found.items()):
        print(f"{count:>6} {what}")
    sys.exit("SOMETHING ELSE" in found)


if __name__ == "__main__":
    main()
