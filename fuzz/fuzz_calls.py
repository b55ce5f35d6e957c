#!/usr/bin/env python3
"""Tries mutated inputs in the top call over files in memory, many calls in one run, which is some twenty times as fast as fuzz.py.

    fuzz/fuzz_calls.py [ROWS] [--runs 100000] [--from 0] [--seed 1] [--batch 2000] [--found found]

ROWS is by default the released program of rows, `dist/shex_rows`, which calls what documents of rows say: here each row is a mutated
input, with a status that no call has, so that the program prints what the call answered, printed and stored. Seeds, mutations and what has
to hold of statuses, lines and proofs are those of fuzz.py. A run of the program that ends by a signal, or takes more than a minute and
0.05 seconds a call, is tried again in halves, down to one call. What is not as it may be is kept under `found` as a document of one row. The number of calls for each kind
and status is printed at the end. Nothing but Python's standard library is wanted.
"""

import argparse
import collections
import os
import random
import re
import resource
import subprocess
import sys

from fuzz import KINDS, PIECES, STATUSES, Seed, kind_of, mutated, seeds, words_of
from running import ROOT, folder

# A call: its files, its words, and a name that it may store a file under.
Call = collections.namedtuple("Call", "files words stored")

# What a call gave: its status, what it printed, and what it stored, which is none where it stored nothing.
Seen = collections.namedtuple("Seen", "status out err stored")

NOTE = re.compile(r"^  (?:the status is (\d+), and not 99|(out|err|[^ \n]+) is not as wanted, but:|([^ \n]+) is not stored)$", re.M)


def row_of(number, call):
    """The row of a call."""
    lines = [f"row @{number}@"]
    for name, text in call.files.items():
        lines += [f"bytes {name}", "| " + text.hex(" ")]
    lines += ["run " + " ".join(call.words), "status 99"]
    if call.stored:
        lines += [f"stored {call.stored}", "| @"]
    return "\n".join(lines) + "\n\n"


def seen_in(call, text):
    """What the lines for a row say."""
    given = {"out": "", "err": "", call.stored: None}
    status, notes = None, list(NOTE.finditer(text))
    for note, after in zip(notes, notes[1:] + [None]):
        if note[1]:
            status = int(note[1])
        elif note[2]:
            given[note[2]] = text[note.end() + 1:after.start() if after else len(text)][:-1]
    return Seen(status, given["out"].encode(), given["err"].encode(), given[call.stored] if call.stored else None)


def used():
    """The seconds of a processor that programs have taken which this one ran."""
    usage = resource.getrusage(resource.RUSAGE_CHILDREN)
    return usage.ru_utime + usage.ru_stime


class Caller:
    """Calls by the program of rows."""

    def __init__(self, program, found):
        self.program, self.found, self.calls, self.longest = program, found, 0, 0

    def printed(self, calls, seconds):
        """What the program prints for calls, or none where it ends by a signal or too late."""
        with folder() as where:
            with open(os.path.join(where, "rows"), "w", encoding="utf-8") as file:
                file.writelines(row_of(number, call) for number, call in enumerate(calls))
            before = used()
            try:
                done = subprocess.run([self.program, "rows"], cwd=where, stdout=subprocess.PIPE, timeout=seconds, check=False)
            except subprocess.TimeoutExpired:
                return None
            self.longest = max(self.longest, used() - before)
        return done.stdout.decode() if done.returncode == 0 else None

    def seen(self, calls):
        """What calls gave; none for one that does not end, or by a signal."""
        if not calls:
            return []
        self.calls += len(calls)
        text = self.printed(calls, 60 + len(calls) * 0.05)
        if text is None and len(calls) == 1:
            return [None]
        if text is None:
            half = len(calls) // 2
            return self.seen(calls[:half]) + self.seen(calls[half:])
        parts = re.split(r"^(?:DIFFERS|ok) @\d+@\n", text, flags=re.M)[1:]
        return [seen_in(call, part) for call, part in zip(calls, parts, strict=True)]

    def keep(self, number, call, what):
        """Keeps a call as a row."""
        os.makedirs(self.found, exist_ok=True)
        with open(os.path.join(self.found, f"{number}.rows"), "w", encoding="utf-8") as file:
            file.write(f"# {what}\n" + row_of(number, call))


def validate(seed, files, shape_map, stored=None):
    """A call of `validate` on a seed's files."""
    more = ["--map", shape_map] + (["--proof", stored] if stored else [])
    return Call(files, words_of(seed, "validate", more), stored)


def check(seed, files, proof, to=None):
    """A call of `check`, or of `upgrade` where a name is given to store under, on a seed's files."""
    more = ["--proof", proof] + (["--to", to] if to else [])
    return Call(files, words_of(seed, "upgrade" if to else "check", more), to)


def grown(caller):
    """The seeds, with the checks of the proofs that calls of `validate` store, in both formats."""
    plain = seeds()
    asked = [seed for seed in plain if seed.command == "validate"]
    made = list(plain)
    for seed, gave in zip(asked, caller.seen([validate(seed, seed.files, seed.options["map"], "proof") for seed in asked])):
        if gave is None or gave.stored is None:
            continue
        files = {name: text for name, text in seed.files.items() if name != seed.options["map"]}
        options = {option: value for option, value in seed.options.items() if option != "map"} | {"proof": "proof"}
        proof = gave.stored.encode()
        for text in (proof, b"shex-proof 1\n" + proof[proof.index(b"\nk") + 1:].split(b"\n", 1)[1]):
            made.append(Seed(seed.name, {**files, "proof": text}, "check", options, seed.imports))
    return made


def own_call(seed):
    """A seed's call as it is, without what it stores."""
    if seed.command == "validate":
        return validate(seed, seed.files, seed.options["map"])
    return check(seed, seed.files, seed.options["proof"])


class Attempt:
    """An input: its kind, its seed, its files, and the calls on it with what they gave."""

    def __init__(self, number, seed_of_all, sources):
        chance = random.Random(f"{seed_of_all}/{number}")
        self.number, self.wrong = number, None
        if chance.randrange(14) == 0:
            self.kind, self.seed = "words", chance.choice(sources.seeds)
            self.files = {**self.seed.files, "old": b"shex-proof 1\nend\n"}
            self.call = Call(self.files, self.words(chance), None)
            return
        self.kind = chance.choice(KINDS)
        answered, refused = sources.places[self.kind]
        self.seed, target = chance.choice(refused if refused and chance.randrange(8) == 0 else answered)
        text = mutated(chance, self.seed.files[target], self.kind, sources.texts[self.kind])
        self.files = {**self.seed.files, target: text}
        self.call = own_call(self.seed)._replace(files=self.files)
        if self.seed.command == "validate":
            self.call = validate(self.seed, self.files, self.seed.options["map"], "fresh")
        self.upgrades = chance.randrange(4) == 0

    def words(self, chance):
        """Words that are mutated."""
        seed, command = self.seed, chance.choice(("validate", "check", "upgrade", "drill"))
        more = {"validate": ["--map", seed.options.get("map", "m"), "--proof", "new"], "check": ["--proof", "old"],
                "upgrade": ["--proof", "old", "--to", "new"]}
        words = ["drill", "10"] if command == "drill" else words_of(seed, command, more[command])
        for _ in range(chance.randint(1, 2)):
            at = chance.randrange(len(words) + 1)
            words[at:at + chance.randint(0, 2)] = [chance.choice(PIECES["words"]) for _ in range(chance.randint(0, 2))]
        return words

    def take(self, gave):
        """Takes up what the call gave, and judges it by itself."""
        self.gave = gave
        command = self.call.words[0] if self.call.words else ""
        if gave is None:
            self.wrong = "it does not end, or by a signal"
        elif gave.status not in STATUSES.get(command, (2,)):
            self.wrong = "the status"
        elif gave.status in (2, 3, 5, 6):
            fine = gave.out == b"" and gave.err.startswith(b"shex: ") and gave.err.endswith(b"\n") and gave.stored is None
            self.wrong = None if fine else "the lines of a refusal, or what is stored"
        elif gave.status in (0, 1) and gave.err or gave.status == 4 and not gave.err.startswith(b"wide "):
            self.wrong = "the lines of an answer"

    def more_calls(self):
        """The calls that have to agree with the first."""
        if self.kind == "words" or self.wrong:
            return []
        seed = self.seed
        if seed.command == "validate":
            return [check(seed, {**self.files, "fresh": self.gave.stored.encode()}, "fresh")] if self.gave.stored else []
        calls = [check(seed, self.files, seed.options["proof"], "newest")] if self.upgrades or self.gave.status == 0 else []
        if self.gave.status == 0:
            calls.append(validate(seed, {**self.files, "claims": self.gave.out}, "claims"))
        return calls

    def agree(self, gave):
        """Judges what these calls gave."""
        if not gave or self.wrong:
            return
        if None in gave:
            self.wrong = "another call does not end"
        elif self.seed.command == "validate":
            if gave[0].status != 0 or gave[0].out != self.gave.out:
                self.wrong = "the stored proof is not accepted as it was answered"
        elif gave[0][:3] != self.gave[:3] or (gave[0].stored is None) != (self.gave.status != 0):
            self.wrong = "upgrade and check differ"
        elif self.gave.status == 0:
            signs = [[b"@!" in line for line in text.splitlines()] for text in (self.gave.out, gave[1].out)]
            if gave[1].status not in (3, 4) and (gave[1].status != 0 or signs[0] != signs[1]):
                self.wrong = "a claim is accepted that is answered otherwise"


class Sources:
    """Seeds, and the texts and places of each kind."""

    def __init__(self, caller):
        self.seeds = grown(caller)
        self.texts = collections.defaultdict(list)
        self.places = collections.defaultdict(lambda: ([], []))
        for seed, gave in zip(self.seeds, caller.seen([own_call(seed) for seed in self.seeds])):
            for name, text in seed.files.items():
                kind = kind_of(seed, name)
                self.texts[kind].append(text)
                self.places[kind][gave is None or gave.status not in (0, 1, 4)].append((seed, name))


def tried(caller, attempts):
    """Tries inputs, and counts them by kind and status."""
    counts = collections.Counter()
    for attempt, gave in zip(attempts, caller.seen([attempt.call for attempt in attempts])):
        attempt.take(gave)
    more = [attempt.more_calls() for attempt in attempts]
    given = iter(caller.seen([call for calls in more for call in calls]))
    for attempt, calls in zip(attempts, more):
        attempt.agree([next(given) for _ in calls])
        if attempt.wrong:
            caller.keep(attempt.number, attempt.call, attempt.wrong)
        status = attempt.gave.status if attempt.gave else "none"
        counts[f"FOUND {attempt.wrong} in {attempt.number}: status {status}" if attempt.wrong else f"{attempt.kind}: status {status}"] += 1
    return counts


def main():
    parser = argparse.ArgumentParser(description=__doc__, formatter_class=argparse.RawDescriptionHelpFormatter)
    parser.add_argument("rows", nargs="?", default=os.path.join(ROOT, "dist", "shex_rows"))
    parser.add_argument("--runs", type=int, default=100000)
    parser.add_argument("--from", type=int, default=0, dest="first")
    parser.add_argument("--seed", default="1")
    parser.add_argument("--batch", type=int, default=2000)
    parser.add_argument("--found", default="found")
    words = parser.parse_args()
    caller = Caller(os.path.abspath(words.rows), os.path.abspath(words.found))
    sources, total = Sources(caller), collections.Counter()
    for first in range(words.first, words.first + words.runs, words.batch):
        numbers = range(first, min(first + words.batch, words.first + words.runs))
        total += tried(caller, [Attempt(number, words.seed, sources) for number in numbers])
    for kind, count in sorted(total.items()):
        print(f"{count:>9} {kind}")
    print(f"{caller.calls:>9} calls, the longest run of the program {caller.longest:.2f} s")
    sys.exit(any(kind.startswith("FOUND") for kind in total))


if __name__ == "__main__":
    main()
