#!/usr/bin/env python3
"""Says in which functions the program spends its instructions, by Debian's `valgrind`, and prints a table.

    bench/costs.py [--program F] [--size 100000] [--families NAME,NAME ..] [--least 2.0] [--command validate] [--keep FOLDER]

F is the built program, by default that of crates/. Each family of inputs is made at the size, and validated under `callgrind`, which
counts instructions: the counts are the same in each run, whatever else the machine does. Printed are the percents of the
instructions that a function takes itself, without those that it calls, for each function that takes `--least` percent or more
somewhere, and then the percents with all that is called. `--command` may also be `load`, `proof` or `check`. Counts are kept as files of
callgrind in the folder of `--keep`.
"""

import argparse
import os
import re
import shutil
import subprocess
import sys
import tempfile

from inputs import FAMILIES
from measuring import built, made

LINE = re.compile(r"^ *([\d,]+) \( *[\d.]+%\) +(\S.*)$")
WORDS = ["--schema", "schema.shex", "--data", "data.ttl"]
COMMANDS = {
    "load": ["validate", *WORDS, "--map", "one"],
    "validate": ["validate", *WORDS, "--map", "map"],
    "proof": ["validate", *WORDS, "--map", "map", "--proof", "proof"],
    "check": ["check", *WORDS, "--proof", "proof"],
}


def name_of(place):
    """The name of a function as the place of a line gives it: behind the file, and before the object in brackets."""
    return re.sub(r" \[.*\]$", "", place).split(":", 1)[-1]


def counts(kept, inclusive):
    """The instructions by function of a file of callgrind, with all that is called or without."""
    words = ["callgrind_annotate", "--threshold=100", "--show-percs=yes", f"--inclusive={'yes' if inclusive else 'no'}", kept]
    text = subprocess.run(words, check=True, stdout=subprocess.PIPE, stderr=subprocess.DEVNULL).stdout.decode(errors="replace")
    found = {}
    for match in filter(None, map(LINE.match, text.splitlines())):
        number, name = int(match[1].replace(",", "")), name_of(match[2])
        if name == "PROGRAM TOTALS":
            found[""] = number
        else:
            found[name] = max(found.get(name, 0), number) if inclusive else found.get(name, 0) + number
    return found


def profiled(program, family, words, folder):
    """Counts a run over a family, and gives the counts without and with what is called."""
    made(family, words.size, folder)
    if words.command == "check":
        subprocess.run([program, *COMMANDS["proof"]], cwd=folder, stdout=subprocess.DEVNULL, check=False)
    kept = os.path.join(os.path.abspath(words.keep) if words.keep else folder, f"{family}.{words.command}.callgrind")
    call = ["valgrind", "--tool=callgrind", f"--callgrind-out-file={kept}", program, *COMMANDS[words.command]]
    done = subprocess.run(call, cwd=folder, stdout=subprocess.DEVNULL, stderr=subprocess.PIPE, check=False)
    if done.returncode not in (0, 1):
        sys.exit(f"costs: {family} ends with {done.returncode}: {done.stderr.decode(errors='replace')[-300:]}")
    return counts(kept, False), counts(kept, True)


def show(title, columns, least):
    """Prints a table of the functions that take so many percent somewhere, with a column for each family."""
    percents = {family: {name: 100 * number / found[""] for name, number in found.items() if name} for family, found in columns.items()}
    names = {name for found in percents.values() for name, percent in found.items() if percent >= least}
    print(f"\n| {title} | " + " | ".join(f"`{family}`" for family in percents) + " |\n|---|" + "---:|" * len(percents))
    print("| instructions, millions | " + " | ".join(f"{found[''] / 1e6:,.0f}" for found in columns.values()) + " |")
    for name in sorted(names, key=lambda name: -sum(found.get(name, 0) for found in percents.values())):
        cells = [f"{found[name]:.1f}" if found.get(name, 0) >= 0.05 else "" for found in percents.values()]
        print(f"| `{name}` | " + " | ".join(cells) + " |")
    print("| others | " + " | ".join(f"{sum(percent for name, percent in found.items() if name not in names):.1f}" for found in percents.values()) + " |")


def main():
    parser = argparse.ArgumentParser(description=__doc__, formatter_class=argparse.RawDescriptionHelpFormatter)
    parser.add_argument("--program")
    parser.add_argument("--size", type=int, default=100_000)
    parser.add_argument("--families", type=lambda text: text.split(","), default=list(FAMILIES))
    parser.add_argument("--least", type=float, default=2.0)
    parser.add_argument("--command", choices=COMMANDS, default="validate")
    parser.add_argument("--keep")
    words = parser.parse_args()
    program = built(words.program, "shex")
    if program is None or not shutil.which("valgrind"):
        sys.exit("costs: the program or valgrind is not there")
    if words.keep:
        os.makedirs(words.keep, exist_ok=True)
    own, called = {}, {}
    for family in words.families:
        with tempfile.TemporaryDirectory() as folder:
            own[family], called[family] = profiled(program, family, words, folder)
            print(f"costs: {family}", file=sys.stderr, flush=True)
    show("itself, %", own, words.least)
    show("with what it calls, %", called, 3 * words.least)


if __name__ == "__main__":
    main()
