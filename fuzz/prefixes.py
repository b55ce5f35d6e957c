#!/usr/bin/env python3
"""Runs shex on small examples of which one file is cut, behind each of its bytes in turn.

    fuzz/prefixes.py [PROGRAM]

PROGRAM is by default the released one, `dist/shex`. A schema, data or a map that is cut is refused with status 3 and a
line that names the file or what refers to it, or is read and answered. A proof that is cut is refused with status 6, and its line
names the start of the first line that is not whole; so is one behind whose end a byte follows. Printed is how often which status came
for each file. The program ends with 1 where anything else came. Nothing but Python's standard library is wanted.
"""

import argparse
import collections
import os
import sys

from running import EXAMPLES, RELEASED, folder, run, without_map, write


def answered(status):
    """The statuses of an example whose file is cut."""
    return {0, 1, 3} if status is not None else {0, 1, 3, 4}


def is_plain(ran):
    """Whether the streams of a run are those of its status."""
    if ran.status == 3:
        return ran.out == b"" and ran.err.startswith(b"shex: ") and ran.err.count(b"\n") == 1
    return ran.err.startswith(b"wide ") if ran.status == 4 else ran.err == b""


def cut_inputs(program, example, where, name):
    """How the example ends with each part of one of its files, by status, and what was not as stated."""
    text, counts, wrong = example.files[name].encode(), collections.Counter(), []
    for size in range(len(text)):
        write(where, {name: text[:size]})
        ran = run([program, "validate", *example.words], where)
        counts[ran.status] += 1
        if ran.status not in answered(example.status) or not is_plain(ran):
            wrong.append(f"{name} cut behind {size}: {ran.status} {ran.err[:100]!r}")
    write(where, {name: text})
    return counts, wrong


def cut_proof(program, example, where, proof):
    """How a check ends with each part of a proof, by status, and what was not as stated."""
    starts = [0] + [at + 1 for at, byte in enumerate(proof) if byte == 10]
    counts, wrong = collections.Counter(), []
    for size in [*range(len(proof)), len(proof) + 1]:
        write(where, {"p": (proof + b"x")[:size]})
        ran = run([program, "check", *without_map(example.words), "--proof", "p"], where)
        counts[ran.status] += 1
        at = max(start for start in starts if start <= size and start <= len(proof))
        if ran.status != 6 or ran.err != f"shex: p: Syntax({at})\n".encode() or ran.out:
            wrong.append(f"a proof cut behind {size}: {ran.status} {ran.err[:100]!r}")
    return counts, wrong


def main():
    parser = argparse.ArgumentParser(description=__doc__, formatter_class=argparse.RawDescriptionHelpFormatter)
    parser.add_argument("program", nargs="?", default=RELEASED)
    program = os.path.abspath(parser.parse_args().program)
    faults = 0
    for example in EXAMPLES:
        with folder() as where:
            write(where, example.files)
            run([program, "validate", *example.words, "--proof", "p"], where)
            with open(os.path.join(where, "p"), "rb") as file:
                proof = file.read()
            old = b"shex-proof 1\n" + proof[proof.index(b"\nk") + 1:].split(b"\n", 1)[1]
            made = [(name, *cut_inputs(program, example, where, name)) for name in example.files]
            made += [(what, *cut_proof(program, example, where, text)) for what, text in (("the proof", proof), ("the proof without its head", old))]
        for name, counts, wrong in made:
            faults += len(wrong)
            shown = ", ".join(f"{status}: {count}" for status, count in sorted(counts.items(), key=str))
            print(f"{example.name}: {name}: {shown}", flush=True)
            for line in wrong[:10]:
                print(f"  NOT AS STATED {line}", flush=True)
    sys.exit(faults > 0)


if __name__ == "__main__":
    main()
