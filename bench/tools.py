#!/usr/bin/env python3
"""Times a session, which is edited and asked, and the extents of labels, and prints a table of each.

    bench/tools.py [--session F] [--tool F] [--sizes 1000,1000000] [--terms 1000,10000,100000,1000000] [--limit 40]

F are by default the released programs. A session runs a script of edits with a question behind each, over people in rows of `length`, of whom
each knows the next: the last of a row loses its name, or gets it back, and the first is asked about, so that an edit touches
`length` pairs. Each has a name of its own; in one run all have one name, so that the object of an edit has as many triples as there
are people. A script of k edits and one of 2k are timed, so that the difference is what k edits take: it is to hang on what they
touch, and not on the size of the graph. k grows from 1,000 until the difference is well above what a run may vary by. The extents
are those of a family of inputs at growing numbers of terms, which are subjects and objects. What is answered is compared with what
is known. Nothing but Python's standard library is wanted.
"""

import argparse
import filecmp
import os
import sys
import tempfile

from goals import lines, worst
from inputs import FAMILIES, PREFIXES, SPACE, short
from measuring import answers, built, exponent, made, measured, said

# How long the rows are, and whether all people have one name.
ROWS_OF = ((1, False), (10, False), (100, False), (1, True))
COUNTS = (1_000, 10_000, 100_000)

# How many triples, and how many terms, a record of a family has.
TERMS = {"ring": (4, 3), "catalogue": (7, 5)}

SCHEMA = ":Person { :name LITERAL ; :knows @:Person ? }\n"


def person(row, at):
    """The name of a person in a row."""
    return f"N{short(row)}-{short(at)}"


def name_of(row, at, is_one):
    """The literal that names a person."""
    return '"N"' if is_one else f'"{short(row)}-{short(at)}"'


def write_rows(folder, size, length, is_one):
    """Writes the schema, and people in rows of this length. Gives how many rows there are."""
    count = max(1, size // (2 * length - 1))
    with open(os.path.join(folder, "schema.shex"), "w", encoding="ascii") as file:
        file.write(PREFIXES + SCHEMA)
    with open(os.path.join(folder, "data.ttl"), "w", encoding="ascii") as file:
        file.write(f"@prefix : <{SPACE}> .\n")
        for row in range(count):
            for at in range(length):
                knows = f";:knows :{person(row, at + 1)}" if at + 1 < length else ""
                file.write(f":{person(row, at)} :name{name_of(row, at, is_one)}{knows}.\n")
    return count


def write_script(folder, edits, count, length, is_one):
    """Writes a script of so many edits, each with a question behind it, and what it is to be answered."""
    with open(os.path.join(folder, "script"), "w", encoding="ascii") as script, open(os.path.join(folder, "known"), "w", encoding="ascii") as known:
        for edit in range(edits):
            row = edit // 2 * 7919 % count
            first, last = (f"<{SPACE}{person(row, at)}>" for at in (0, length - 1))
            name = name_of(row, length - 1, is_one)
            script.write(f'{"+" if edit % 2 else "-"} {last} <{SPACE}name> {name} .\n? {first}@<{SPACE}Person>\n')
            known.write(f'{first}@{"" if edit % 2 else "!"}<{SPACE}Person>\n')


def session_run(program, folder, edits, count, length, is_one, limit):
    """Runs a session of so many edits, which has to answer what is known."""
    write_script(folder, edits, count, length, is_one)
    done = measured([program, "--schema", "schema.shex", "--data", "data.ttl", "--script", "script"], folder, limit, 3)
    if done.status != "late" and (done.status != 0 or not filecmp.cmp(os.path.join(folder, "out"), os.path.join(folder, "known"), shallow=False)):
        sys.exit(f"bench: a session of {edits} edits of rows of {length}: ends with {done.status}, or answers otherwise than known: {said(folder)}")
    return done


def edit_microseconds(program, folder, size, length, is_one, limit):
    """How long an edit with a question takes, in microseconds, and with how many edits that was measured; or none where a run was ended."""
    count = write_rows(folder, size, length, is_one)
    for edits in COUNTS:
        single, twice = (session_run(program, folder, number, count, length, is_one, limit) for number in (edits, 2 * edits))
        if "late" in (single.status, twice.status):
            return None, edits
        difference = twice.seconds - single.seconds
        if difference > max(0.2 * single.seconds, 0.02):
            break
    return max(difference, 0) / edits * 1_000_000, edits


def session_table(program, folder, sizes, limit):
    """Prints how long edits take at each size and length, and gives the goal."""
    print("| length of a row, touched by an edit | " + " | ".join(f"{size:,} triples" for size in sizes) + " | last by first |")
    print("|---|" + "---:|" * (len(sizes) + 1))
    figures = []
    for length, is_one in ROWS_OF:
        times = [edit_microseconds(program, folder, size, length, is_one, limit) for size in sizes]
        ratio = times[-1][0] / times[0][0] if times[0][0] and times[-1][0] is not None else None
        of_name = ", one name for all" if is_one else ""
        figures += [(ratio, f"rows of {length}{of_name}")] if ratio is not None else []
        cells = [f"ended behind {limit:.0f} s" if each is None else f"{each:.1f} µs ({edits:,} edits)" for each, edits in times]
        print(f"| {length}{of_name} | " + " | ".join(cells) + f" | {'' if ratio is None else f'{ratio:.2f}'} |", flush=True)
    return worst(f"time of an edit with its question at {sizes[-1]:,} triples, by that at {sizes[0]:,}", "2", 2.0, figures)


def extents_table(program, folder, terms, limit):
    """Prints how long the extents of two families take, and gives the goal."""
    print("| extents | triples | terms, about | members | |\n|---|---:|---:|---:|---|")
    figures = []
    for name, (triples, held) in TERMS.items():
        before = None
        for size in terms:
            known = made(name, size * triples // held, folder)
            members = known["conformant"] + (FAMILIES[name](known["triples"]).count if name == "catalogue" else 0)
            done = measured([program, "extents", "--schema", "schema.shex", "--data", "data.ttl"], folder, limit)
            if done.status != "late" and (done.status != 0 or answers(folder) != (members, 0)):
                sys.exit(f"bench: extents of {name}: ends with {done.status} and {answers(folder)} in place of {members}: {said(folder)}")
            power = exponent((before[0], before[1]), (size, done)) if before else None
            figures += [(power, f"`{name}`, {size:,}")] if power is not None else []
            print(f"| `{name}` | {known['triples']:,} | {size:,} | {members:,} | {done.seconds:.3f} s, {done.megabytes:.0f} MB{'' if power is None else f', {power:.2f}'} |", flush=True)
            before = (size, done)
    return worst("exponent of growth of extents over terms", "1.05", 1.05, figures)


def measure_tools(words, sizes=(1_000, 1_000_000), terms=(1_000, 10_000, 100_000, 1_000_000)):
    """Prints the tables of the programs that are built, and gives the goals."""
    goals = []
    for word, name, table, steps in ((words.session, "typing_session", session_table, sizes), (words.tool, "shextool", extents_table, terms)):
        program = built(word, name)
        if program is None:
            print(f"Left out: dist/{name} is not there.\n", flush=True)
            continue
        with tempfile.TemporaryDirectory() as folder:
            goals.append(table(program, folder, steps, min(words.limit, 40)))
        print(flush=True)
    return goals


def numbers(text):
    """The numbers of a list with commas."""
    return [int(number) for number in text.split(",")]


def main():
    parser = argparse.ArgumentParser(description=__doc__, formatter_class=argparse.RawDescriptionHelpFormatter)
    parser.add_argument("--session")
    parser.add_argument("--tool")
    parser.add_argument("--sizes", type=numbers, default="1000,1000000")
    parser.add_argument("--terms", type=numbers, default="1000,10000,100000,1000000")
    parser.add_argument("--limit", type=float, default=40)
    words = parser.parse_args()
    print("\n".join(lines(measure_tools(words, words.sizes, words.terms))))


if __name__ == "__main__":
    main()
