#!/usr/bin/env python3
"""Times shex on made inputs with known answers, and prints a table and how the goals are met.

    bench/bench.py [--program F] [--tool F] [--session F] [--sizes 1000,10000,100000,1000000] [--families NAME,NAME ..]
                   [--jena 100000] [--limit 120] [--alone] [--plots]

F are the built programs, by default those of crates/. Each family of inputs (inputs.py) is made at each size, a number of triples;
its data are loaded, validated without and with a proof, and the proof is checked; what is answered is compared with what is known,
and the bench stops where it is another. Printed are seconds by the clock, megabytes at the peak, and the exponent of the growth
from the size before (time as size to the exponent). Where `serdi` is installed, it reads the same Turtle in the same run, and
where Debian's `libapache-jena-java` is, Jena's ShEx validator answers the same map: records and catalogues at sizes up to that of
`--jena`, the others, some of which it does not end, up to a hundredth of that and in a tenth of the time. What is not there is
named, and the bench goes on. A run is ended behind `--limit` seconds. Sessions and extents are timed by tools.py, where their
programs are built, and not with `--alone`. All that is printed is Markdown, the goals last. With `--plots` growth and the comparison
are drawn into bench/plots, by Debian's python3-matplotlib. Nothing else but Python's standard library is wanted.
"""

import argparse
import concurrent.futures
import os
import statistics
import sys
import tempfile
from datetime import date

import goals
import plots
import tools
from beside import Jena, Serdi
from inputs import BOUNDED, FAMILIES
from measuring import HERE, ROOT, Row, answers, built, growth, made, measured, once, said

STEPS = {
    "load .nt": "load `.nt`",
    "load .ttl": "load `.ttl`",
    "serdi": "`serdi -q`",
    "validate": "`validate`",
    "with a proof": "with a proof",
    "check": "`check`",
    "Jena": "Jena",
}

# The step that a program beside is held against.
BESIDE = {"serdi": "load .ttl", "Jena": "validate"}


class Bench:
    """The program, the folder for inputs, the seconds behind which a run is ended, and what is timed beside."""

    def __init__(self, program, folder, limit, greatest_jena):
        self.program, self.folder, self.limit, self.greatest_jena = program, folder, limit, greatest_jena
        self.serdi, self.jena = Serdi(), Jena(folder)

    def inputs(self, family, size):
        """The folder of the inputs of a family at a size."""
        return os.path.join(self.folder, family, str(size))

    def step(self, folder, wanted, words):
        """Runs the program, which has to answer so many that conform and so many that do not; where nothing is wanted, one of any kind."""
        done = measured([self.program, *words], folder, self.limit)
        got = answers(folder)
        if done.status != "late" and (done.status not in (0, 1) or (got != wanted if wanted else sum(got) != 1)):
            sys.exit(f"bench: {folder}: {words[0]} ends with {done.status} and answers {got} in place of {wanted or 'one'}: {said(folder)}")
        return done

    def steps(self, folder, wanted):
        """Measures the steps of the program, and the load beside it."""
        inputs, done = ["--schema", "schema.shex", "--data", "data.ttl"], {}
        for ending in ("nt", "ttl"):
            if os.path.exists(os.path.join(folder, f"data.{ending}")):
                done[f"load .{ending}"] = self.step(folder, None, ["validate", *inputs[:3], f"data.{ending}", "--map", "one"])
        done["serdi"] = self.serdi.run(folder, self.limit)
        done["validate"] = self.step(folder, wanted, ["validate", *inputs, "--map", "map"])
        done["with a proof"] = self.step(folder, wanted, ["validate", *inputs, "--map", "map", "--proof", "proof"])
        if done["with a proof"].status != "late":
            done["check"] = self.step(folder, wanted, ["check", *inputs, "--proof", "proof"])
        return done

    def row(self, family, size, known):
        """Measures all steps on a family at a size."""
        folder, wanted = self.inputs(family, size), (known["conformant"], known["nonconformant"])
        files = {name: os.path.getsize(os.path.join(folder, name)) for name in os.listdir(folder)}
        done, jena = self.steps(folder, wanted), None
        is_record = family in goals.RECORDS
        if not self.jena.missing and size <= self.greatest_jena / (1 if is_record else 100):
            done["Jena"], jena = self.jena.run(folder, wanted, self.limit / (1 if is_record else 10))
        for name in os.listdir(folder):
            os.remove(os.path.join(folder, name))
        return Row(family, size, known["triples"], known["terms"], files, {name: run for name, run in done.items() if run}, jena)

    def tiny(self):
        """The time of a whole process over the first example, the middle one of many, and its memory."""
        where, words = os.path.join(ROOT, "examples", "first"), [self.program, "validate"]
        for option, name in (("--schema", "schema.json"), ("--data", "data.nt"), ("--map", "map")):
            words += [option, os.path.join(where, name)]
        seconds = statistics.median(once(words, self.folder, self.limit).seconds for _ in range(41))
        return measured(words, self.folder, self.limit)._replace(seconds=seconds)


def processors():
    """How many processors of which kind there are."""
    with open("/proc/cpuinfo", encoding="utf-8") as file:
        kinds = [text.split(":", 1)[1].strip() for text in file if text.startswith("model name")]
    return f"{os.cpu_count()} processors{f' ({kinds[0]})' if kinds else ''}"


def cell(row, before, step):
    """A run in a cell: seconds, megabytes, and the exponent, or how many times as much of both the program takes, and a word on Jena."""
    run, ours = row.steps.get(step), row.steps.get(BESIDE.get(step))
    if run is None:
        return ""
    if run.status == "late":
        return f"ended behind {run.seconds:.0f} s"
    text = f"{run.seconds:.3f} s, {f'{run.megabytes:.0f}' if run.megabytes else '?'} MB"
    if ours and ours.status != "late" and run.megabytes:
        text += f" (×{ours.seconds / run.seconds:.2f}, ×{ours.megabytes / run.megabytes:.2f})"
    power = None if step in BESIDE else growth(before, row, step)
    return text + ("" if power is None else f", {power:.2f}") + (f" {row.jena}" if step == "Jena" and row.jena else "")


def line(row, before):
    """The line of the table for a row."""
    return f"| `{row.family}` | {row.triples:,} | {' | '.join(cell(row, before, step) for step in STEPS)} |"


def pairs_of(words):
    """The families and sizes that are measured, in order."""
    return [(family, size) for family in words.families for size in words.sizes if size <= BOUNDED.get(family, size) or size == min(words.sizes)]


def make_all(bench, pairs):
    """Makes all inputs side by side, and gives what is known of each. What is written has gone to the disk before anything is timed."""
    with concurrent.futures.ThreadPoolExecutor(os.cpu_count()) as several:
        known = list(several.map(lambda pair: made(*pair, bench.inputs(*pair)), pairs))
    os.sync()
    return dict(zip(pairs, known))


def table(bench, pairs):
    """Measures a row for each pair, and prints its line."""
    known, rows = make_all(bench, pairs), []
    print(f"| inputs | triples | {' | '.join(STEPS.values())} |\n|---|---:|{'---|' * len(STEPS)}", flush=True)
    for pair in pairs:
        if not os.path.exists(os.path.join(bench.inputs(*pair), "data.ttl")):
            print(f"| `{pair[0]}` | {known[pair]['triples']:,} | the Turtle is larger than a file may be |{' |' * (len(STEPS) - 1)}", flush=True)
            continue
        rows.append(bench.row(*pair, known[pair]))
        before = rows[-2] if len(rows) > 1 and rows[-2].family == pair[0] else None
        print(line(rows[-1], before), flush=True)
    return rows


def words_of():
    """The words of the command."""
    parser = argparse.ArgumentParser(description=__doc__, formatter_class=argparse.RawDescriptionHelpFormatter)
    for name in ("--program", "--tool", "--session"):
        parser.add_argument(name)
    parser.add_argument("--sizes", type=tools.numbers, default=[1_000, 10_000, 100_000, 1_000_000])
    parser.add_argument("--families", type=lambda text: text.split(","), default=list(FAMILIES))
    parser.add_argument("--jena", type=int, default=100_000)
    parser.add_argument("--limit", type=float, default=120)
    for name in ("--alone", "--plots"):
        parser.add_argument(name, action="store_true")
    return parser.parse_args()


def main():
    words = words_of()
    program = built(words.program, "shex")
    if program is None:
        sys.exit("bench: dist/shex is not there, and --program names no other")
    print(f"`bench/bench.py`, {date.today()}, {processors()}. Seconds by the clock, megabytes at the peak, exponent of growth.\n", flush=True)
    with tempfile.TemporaryDirectory() as folder:
        bench = Bench(program, folder, words.limit, words.jena)
        for missing in filter(None, (bench.serdi.missing, bench.jena.missing)):
            print(f"Left out: {missing}.\n", flush=True)
        tiny = bench.tiny()
        rows = table(bench, pairs_of(words))
    print(flush=True)
    if words.plots:
        print(f"{plots.draw(rows, os.path.join(HERE, 'plots'))}\n", flush=True)
    figures = goals.all_goals(tiny, rows) + ([] if words.alone else tools.measure_tools(words))
    print("\n".join(goals.lines(figures)), flush=True)


if __name__ == "__main__":
    main()
