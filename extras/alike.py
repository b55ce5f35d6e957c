#!/usr/bin/env python3
"""Whether two programs answer random inputs with the same bytes: status, output, error lines and proof.

    extras/alike.py OLD NEW [--cases N] [--seed N] [--keep FOLDER]

OLD and NEW are builds of `shex`. Each case is a schema of two Shapes over two predicates, whose triple constraints overlap, a graph of
at most thirteen triples, and a map that asks each node for each Shape, with a proof. Prints each case that differs, and last how many
did; ends with 1 where one did. With --keep the files of such a case stay in that folder.
"""

import argparse
import os
import pathlib
import random
import shutil
import subprocess
import sys
import tempfile
from concurrent.futures import ProcessPoolExecutor

NODES = ("n", "a", "b", "c", "d")
CARDINALITIES = ("", "*", "+", "?", "{2}", "{1,3}", "{2,}", "{0,2}")
VALUES = (".", ".", "[ :a :b ]", "[ :b :c ]", "[ :c :d ]", "@:T", "IRI", "NOT @:U")


def constraint(chance):
    """A triple constraint."""
    return f"{chance.choice(('', '', '^'))}{chance.choice((':p', ':q'))} {chance.choice(VALUES)} {chance.choice(CARDINALITIES)}"


def group(chance, depth):
    """A triple expression of one to four parts."""
    parts = []
    for _ in range(chance.randint(1, 4)):
        inner = depth and chance.random() < 0.3
        parts.append(f"( {group(chance, depth - 1)} ) {chance.choice(('', '*', '?', '{2}'))}" if inner else constraint(chance))
    return (" ; " if chance.random() < 0.65 else " | ").join(parts)


def schema(chance):
    """A schema of two Shapes that may refer to :T, and one that refers to nothing."""
    shapes = []
    for label in (":S", ":T"):
        closed = " CLOSED" if chance.random() < 0.25 else ""
        extra = " EXTRA " + chance.choice((":p", ":q", ":p :q")) if chance.random() < 0.4 else ""
        shapes.append(f"{label}{extra}{closed} {{ {group(chance, 1)} }}\n")
    return "PREFIX : <http://e.example/>\n" + "".join(shapes) + ":U { :r . }\n"


def data(chance):
    """Some triples as N-Triples."""
    triples = {(chance.choice(("n", "n", "a", "b", "c")), chance.choice("pqr"), chance.choice(NODES)) for _ in range(chance.randint(1, 9))}
    triples |= {(chance.choice(NODES), chance.choice("pq"), "n") for _ in range(chance.randint(0, 4))}
    return "".join(" ".join(f"<http://e.example/{term}>" for term in triple) + " .\n" for triple in sorted(triples))


def answered(program, folder):
    """Status, output, error lines and proof of one call."""
    proof = folder / "proof"
    proof.unlink(missing_ok=True)
    words = ["validate", "--schema", "s.shex", "--data", "d.nt", "--map", "m", "--proof", "proof"]
    done = subprocess.run([program, *words], cwd=folder, capture_output=True, check=False, timeout=300)
    return done.returncode, done.stdout, done.stderr, proof.read_bytes() if proof.exists() else None


def case(task):
    """Whether one case is answered alike; None where both refuse the schema."""
    old, new, seed, keep = task
    chance = random.Random(seed)
    with tempfile.TemporaryDirectory() as name:
        folder = pathlib.Path(name)
        (folder / "s.shex").write_text(schema(chance), encoding="utf-8")
        (folder / "d.nt").write_text(data(chance), encoding="utf-8")
        (folder / "m").write_text(",\n".join(f"<http://e.example/{node}>@<http://e.example/{label}>" for node in NODES for label in "ST"), encoding="utf-8")
        first, second = answered(old, folder), answered(new, folder)
        if first != second and keep:
            shutil.copytree(folder, keep / str(seed), dirs_exist_ok=True)
    return (None if first[0] == 3 else True) if first == second else (first[:3], second[:3])


def main():
    """Runs the cases."""
    words = argparse.ArgumentParser(description=__doc__.split("\n", maxsplit=1)[0])
    words.add_argument("old", type=os.path.abspath)
    words.add_argument("new", type=os.path.abspath)
    words.add_argument("--cases", type=int, default=1000)
    words.add_argument("--seed", type=int, default=1)
    words.add_argument("--keep", type=pathlib.Path)
    given = words.parse_args()
    seeds = range(given.seed * 1_000_000, given.seed * 1_000_000 + given.cases)
    refused, different = 0, 0
    with ProcessPoolExecutor() as pool:
        for seed, came in zip(seeds, pool.map(case, ((given.old, given.new, seed, given.keep) for seed in seeds), chunksize=20)):
            refused += came is None
            if came not in (None, True):
                different += 1
                print(f"case {seed}: {came[0]} and {came[1]}")
    print(f"{given.cases} cases, {different} different; of the others {refused} were refused by both")
    return 1 if different else 0


if __name__ == "__main__":
    sys.exit(main())
