#!/usr/bin/env python3
"""Holds `shex check` and check_proof.py against each other: on the proofs of all examples, and on forged copies of them.

    extras/check_examples.py [PROGRAM] [--random 1000] [--seed 1]
    extras/check_examples.py [PROGRAM] --rows crates/shex_rows/data/*.rows [--most 4] [--random 10] [--seed 1]

PROGRAM is by default the released one, `dist/shex`. It stores a proof for each folder of examples/, or for each call
of `validate` in documents of rows, which both have to accept, in format 2 as it is and in format 1 without its head. Then both
look at copies of each: with every single change of the kinds in forgeries.py, or, with --most, so many of each kind; at as many
as --random says that were changed two to four times; and, for the examples, at the proofs of other files, which are those of the
example without one of their lines. To each copy both have to give one answer: the same claims, or the same refusal with the same
place and cause. A copy may be a true proof, and then both accept it. Where the program refuses schema or data, check_proof.py
has to refuse them too.

The numbers of copies are printed, and for each answer that differs what was changed and what the two say; the status is then 1.
The same seed makes the same copies.
"""

import argparse
import collections
import difflib
import os
import random
import subprocess
import sys
import tempfile

import check_proof
from examples import folder_example, row_examples
from forgeries import CHANGES, random_copies, without, without_head

ROOT = os.path.dirname(os.path.dirname(os.path.abspath(__file__)))
PROOF = "proof of the contest"  # a name that no file of an example has
NO_PROOF = ["shex-proof 1", "end"]
ANSWERS = {0: "accepted by both", 3: "of files that both refuse", 5: "of files that are absent", 6: "refused by both"}


class Contest:
    """The two checkers on an example, whose files stand in the working folder, and how often they gave which answer."""

    def __init__(self, program, numbers, example):
        self.program, self.numbers, self.example = program, numbers, example
        self.words = [*example.check_words(), f"--proof={PROOF}"]
        self.parsed, self.read = check_proof.words_of(self.words), None
        for name, contents in example.files.items():
            os.makedirs(os.path.dirname(name) or ".", exist_ok=True)
            with open(name, "wb") as stream:
                stream.write(contents)

    def run(self, *words):
        """What the program gives to words: its status, its output, and its errors."""
        run = subprocess.run([self.program, *words], capture_output=True, check=False)
        return run.returncode, run.stdout.decode("utf-8"), run.stderr.decode("utf-8")

    def stored(self):
        """The lines of the proof that the program stores, or None where it does not take the files."""
        if self.run("validate", *self.example.words, f"--proof={PROOF}")[0] not in (0, 1, 4):
            return None
        with open(PROOF, encoding="utf-8", newline="") as stream:
            return stream.read().split("\n")[:-1]

    def read_files(self, words):
        """Schema and data as check_proof.py reads them, once."""
        self.read = self.read or check_proof.read_files(words)
        return self.read

    def answers(self, lines):
        """What each of the two answers to a proof: a status and a text, which is of no matter where files are refused."""
        with open(PROOF, "w", encoding="utf-8", newline="") as stream:
            stream.write("".join(line + "\n" for line in lines))
        status, output, errors = self.run("check", *self.words)
        text = f"accepted\n{output}" if status == 0 else errors.replace("shex: ", "check_proof: ", 1)
        second = check_proof.answer(self.parsed, self.read_files)
        return (status, text if status != 3 else second[1]), second

    def compare(self, kind, lines, original):
        """Has both look at a proof, and counts an answer that they share or shows what is changed and how they differ."""
        first, second = self.answers(lines)
        self.numbers[kind, first[0] if first == second else "differ"] += 1
        if first != second:
            print(f"{self.example.name}: {kind}: shex {first}, check_proof.py {second}")
            print(*difflib.unified_diff(original, lines, n=0, lineterm=""), sep="\n")

    def compare_copies(self, lines, arguments):
        """Has both look at copies of a proof, each once."""
        seen, chance = {tuple(lines)}, random.Random(f"{arguments.seed} {self.example.name} {lines[0]}")
        kinds = {kind: list(changes(lines)) for kind, changes in CHANGES.items()}
        if arguments.most is not None:
            kinds = {kind: chance.sample(copies, min(arguments.most, len(copies))) for kind, copies in kinds.items()}
        kinds["two to four changes at random"] = random_copies(lines, arguments.random, chance)
        for kind, copies in kinds.items():
            for copy in copies:
                if tuple(copy) not in seen:
                    seen.add(tuple(copy))
                    self.compare(kind, copy, lines)

    def compare_other_files(self, lines):
        """Has both look at the proofs of the example's files without one of their lines."""
        for name in self.example.sources():
            source = self.example.files[name].splitlines(keepends=True)
            others = []
            for place in range(len(source)):
                with open(name, "wb") as stream:
                    stream.writelines(without(source, place))
                others.append(self.stored())
            with open(name, "wb") as stream:
                stream.writelines(source)
            for proof in filter(None, others):
                self.compare("proofs of other files", proof, lines)
                self.compare("proofs of other files", without_head(proof), lines)

    def compare_all(self, arguments):
        """Has both look at the proof in both formats and at its copies, or at files that are refused."""
        proof = self.stored()
        if proof is None:
            self.compare("files of which there is no proof", NO_PROOF, NO_PROOF)
            return
        for lines in (proof, without_head(proof)):
            self.compare("proofs", lines, lines)
            self.compare_copies(lines, arguments)
        if not arguments.rows:
            self.compare_other_files(proof)


def arguments_of():
    """What the command line asks for."""
    parser = argparse.ArgumentParser(description="Holds shex check and check_proof.py against each other.")
    parser.add_argument("program", nargs="?", type=os.path.abspath, default=os.path.join(ROOT, "dist", "shex"))
    parser.add_argument("--rows", nargs="+", default=[], type=os.path.abspath)
    for name, number in (("--most", None), ("--random", 1000), ("--seed", 1)):
        parser.add_argument(name, type=int, default=number)
    return parser.parse_args()


def main():
    """Compares the checkers, prints the numbers, and gives 1 where they differ or refuse a proof that was stored."""
    arguments, numbers = arguments_of(), collections.Counter()
    folders = sorted(entry.path for entry in os.scandir(os.path.join(ROOT, "examples")) if os.path.exists(os.path.join(entry.path, "map")))
    examples = [example for path in arguments.rows for example in row_examples(path)]
    for example in examples if arguments.rows else map(folder_example, folders):
        with tempfile.TemporaryDirectory() as folder:
            os.chdir(folder)
            Contest(arguments.program, numbers, example).compare_all(arguments)
            os.chdir(ROOT)
    for kind in dict.fromkeys(kind for kind, _ in numbers):
        answers = {ANSWERS.get(answer, str(answer)): number for (other, answer), number in numbers.items() if other == kind}
        print(f"{kind}: {sum(answers.values())},", ", ".join(f"{number} {answer}" for answer, number in sorted(answers.items())))
    differences = sum(number for (_, answer), number in numbers.items() if answer == "differ")
    print(f"in all: {sum(numbers.values())}, answers that differ: {differences}")
    return 1 if differences or numbers["proofs", 6] else 0


if __name__ == "__main__":
    sys.exit(main())
