"""Runs programs, and says how long they take and how much memory they want at the peak."""

import collections
import json
import math
import os
import resource
import subprocess
import sys
import threading
import time

HERE = os.path.dirname(os.path.abspath(__file__))

ROOT = os.path.dirname(HERE)

# What a program did: its status, or `late` where it was ended; seconds by the clock and megabytes at the peak.
Run = collections.namedtuple("Run", "status seconds megabytes")

# What was measured of a family at a size: how many triples and terms, the bytes of its files by name, a run by the name of each step
# that was made, and a word on Jena where its answers are not those that are known.
Row = collections.namedtuple("Row", "family size triples terms files steps jena")

# A run that is shorter than this is made again, so often and so long.
REPEATED, TIMES, TOGETHER = 1.0, 5, 0.8

# Growth from a time below this says nothing of what is done, but of how a process begins.
SHORTEST = 0.02


def own_megabytes():
    """The greatest memory of this process, which the system counts for a program that it starts too."""
    return resource.getrusage(resource.RUSAGE_SELF).ru_maxrss / 1024


def once(words, folder, limit, out="out"):
    """Runs a program in a folder to its end, with what it prints in the files out and err there, and ends it behind the limit."""
    with open(os.path.join(folder, out), "wb") as file, open(os.path.join(folder, "err"), "wb") as err:
        begun = time.perf_counter()
        child = subprocess.Popen(words, cwd=folder, stdin=subprocess.DEVNULL, stdout=file, stderr=err)
        timer = threading.Timer(limit, child.kill)
        timer.start()
        _, status, used = os.wait4(child.pid, 0)
        seconds = time.perf_counter() - begun
        timer.cancel()
    child.returncode = os.waitstatus_to_exitcode(status)
    return Run("late" if seconds >= limit else child.returncode, seconds, used.ru_maxrss / 1024)


def sampled_megabytes(words, folder):
    """The greatest memory of a program that takes less than this process: it is looked at while it runs."""
    peak, ended = 0, 0
    with open(os.devnull, "wb") as nowhere:
        child = subprocess.Popen(words, cwd=folder, stdin=subprocess.DEVNULL, stdout=nowhere, stderr=nowhere)
    while not ended:
        try:
            with open(f"/proc/{child.pid}/status", encoding="utf-8") as file:
                fields = dict(line.split(":", 1) for line in file)
        except OSError:
            fields = {}
        if fields.get("Name", "").strip() == os.path.basename(words[0])[:15] and "VmHWM" in fields:
            peak = max(peak, int(fields["VmHWM"].split()[0]) / 1024)
        ended, status = os.waitpid(child.pid, os.WNOHANG)
    child.returncode = os.waitstatus_to_exitcode(status)
    return peak


def measured(words, folder, limit, times=TIMES, out="out"):
    """Runs a program, again where it is short, and gives the status, the least time and the greatest memory."""
    first = best = once(words, folder, limit, out)
    spent, left = first.seconds, times - 1
    while left and first.seconds < REPEATED and spent < TOGETHER and first.status != "late":
        again = once(words, folder, limit, out)
        best = Run(first.status, min(best.seconds, again.seconds), max(best.megabytes, again.megabytes))
        spent, left = spent + again.seconds, left - 1
    if best.megabytes <= own_megabytes() + 1:
        best = best._replace(megabytes=max(sampled_megabytes(words, folder) for _ in range(5)))
    return best


def exponent(before, after):
    """The exponent of the growth between two pairs of a size and a run, where the first took long enough to tell."""
    if before[1].seconds < SHORTEST or before[0] >= after[0] or "late" in (before[1].status, after[1].status):
        return None
    return math.log(after[1].seconds / before[1].seconds) / math.log(after[0] / before[0])


def growth(before, after, step):
    """The exponent of the growth of a step between two rows of a family."""
    if before is None or step not in before.steps or step not in after.steps:
        return None
    return exponent((before.triples, before.steps[step]), (after.triples, after.steps[step]))


def answers(folder):
    """How many answers a program has printed that conform, and how many that do not."""
    failing = lines = 0
    with open(os.path.join(folder, "out"), "rb") as file:
        for line in file:
            lines += 1
            failing += b"@!" in line
    return lines - failing, failing


def said(folder):
    """What a program has said is wrong."""
    with open(os.path.join(folder, "err"), "rb") as file:
        return file.read(300).decode(errors="replace").strip()


def made(family, size, folder):
    """Makes the inputs of a family in a process of their own, and gives what is known of them."""
    words = [sys.executable, os.path.join(HERE, "inputs.py"), family, str(size), folder]
    return json.loads(subprocess.run(words, check=True, stdout=subprocess.PIPE).stdout)


def built(word, name):
    """The program that the word names, or else the released one of this name; none where there is none."""
    path = os.path.abspath(word) if word else os.path.join(ROOT, "dist", name)
    return path if os.access(path, os.X_OK) else None
