#!/usr/bin/env python3
"""Decides by a plain reading of ShEx 2.1 whether each reason that `shextool explain` prints is true, on random schemas and data.

    extras/check_reasons.py [PROGRAM] [--rounds 500] [--seed 1]

PROGRAM is by default the released one, `dist/shextool`. Schemas, data and the reading are those of brute_force.py. Each round asks
about each term with each label, and decides for each line of the text whether it is so: that the node does not satisfy what the block is
about; that a triple is forbidden, or fits no constraint and may not be left over, and why each constraint does not take it; and that a
set of constraints wants so many triples at least, or takes so many at most, and finds these. Each nonconformant association has to have a
reason, and none that is conformant; each forbidden triple and each that fits nothing has to be named; and each block that is referred to
has to stand there, once. Then what is said is mended, for one line of each round: a triple that is forbidden or fits nothing
is removed, and triples that are missing are added. The line may not be printed then, and what is printed has to be true again.

The numbers of rounds, lines and mended lines are printed, and each line that is not so; the status is then 1. The same seed makes the
same rounds.
"""

import argparse
import json
import os
import random
import re
import subprocess
import sys
import tempfile
from collections import Counter, namedtuple

from brute_force import PREDICATES, SPACE, TERMS, Circle, Maker, NegatedCycle, Reading, constraints_in

RELEASED = os.path.join(os.path.dirname(os.path.dirname(os.path.abspath(__file__))), "dist", "shextool")

ASKED = re.compile(rf'(\S+)@(!?)<({SPACE}\w+)>(?: \[(\d+)\]|, see \[(\d+)\])?')
BLOCK = re.compile(r"\[(\d+)\] (\S+) (?:is not|does not satisfy) (\S+)")
NAMED = re.compile(r"(\S+) (?:is not|does not satisfy) (\S+), see \[(\d+)\]")
TRIPLE = re.compile(r"(\S+) <(\S+)> (\S+) \.")
PLACE = re.compile(r"(\^?)<([^>]*)>(?:#(\d+))?")

# What a triple fits where no way deals the triples: constraints, or the remainder, or both.
OFFER = re.compile(r"(.* \.) (?:fits (.+?)(, or may be left over)?|(may be left over))")

# A block: its number, the node, and the name of what it does not satisfy; and its lines, each with the lines below it.
Block = namedtuple("Block", "number node name lines")


def blocks_of(text):
    """The blocks of a text, and what is said of each association: its node, its label, whether `!` stands there, and its block."""
    blocks, asked = [], []
    for line in text.splitlines():
        if line.startswith("    "):
            blocks[-1].lines[-1][1].append(line[4:])
        elif line.startswith("  "):
            blocks[-1].lines.append((line[2:], []))
        elif found := BLOCK.fullmatch(line):
            blocks.append(Block(int(found[1]), found[2], found[3], []))
        elif found := ASKED.fullmatch(line):
            asked.append((found[1], found[3], bool(found[2]), int(found[4] or found[5] or 0)))
            if found[2] and not found[5]:
                blocks.append(Block(int(found[4] or 0), found[1], f"<{found[3]}>", []))
        else:
            raise ValueError(f"no line of an explanation is written so: {line}")
    return blocks, asked


def bounds(expression, chosen):
    """At least and at most so many triples are taken by these constraints wherever an expression matches; None is no bound."""
    if expression["type"] == "TripleConstraint":
        least = most = int(any(expression is one for one in chosen))
    else:
        each = [bounds(member, chosen) for member in expression["expressions"]]
        many = [most for _, most in each]
        one_of = expression["type"] == "OneOf"
        least = min(least for least, _ in each) if one_of else sum(least for least, _ in each)
        most = None if None in many else max(many) if one_of else sum(many)
    low, high = expression.get("min", 1), expression.get("max", 1)
    return low * least, 0 if high == 0 or most == 0 else None if high < 0 or most is None else high * most


class Judge:
    """Decides whether lines are so."""

    def __init__(self, schema, graph):
        self.reading, self.schema, self.graph = Reading(schema, graph), schema, graph

    def named(self, name):
        """The expression that a name leads to: a label, and behind it numbers of members and constraints of which it is the value."""
        label, rest = re.fullmatch(rf"<({SPACE}\w+)>((?:/(?:\d+|\^?<[^>]*>(?:#\d+)?))*)", name).groups()
        expression = self.followed(label)
        for number, place in re.findall(r"/(?:(\d+)|(\^?<[^>]*>(?:#\d+)?))", rest):
            if number:
                parts = expression.get("shapeExprs") or [expression["shapeExpr"]]
                expression = self.followed(parts[int(number) - 1])
            else:
                expression = self.followed(self.placed(expression, place)["valueExpr"])
        return expression

    def followed(self, expression):
        """What an expression is, references followed."""
        while isinstance(expression, str):
            expression = self.reading.declared[expression]
        return expression

    def placed(self, shape, place):
        """The constraint of a shape that is named by its predicate and direction, and its number among those."""
        inverse, predicate, number = PLACE.fullmatch(place).groups()
        alike = [one for one in constraints_in(shape.get("expression")) if one["predicate"] == predicate and bool(one.get("inverse")) == bool(inverse)]
        return alike[int(number or 1) - 1]

    def places(self, node, shape, triple):
        """The constraints that take a triple, and None where it may be left over (section 5.5.2)."""
        taking = [one for one in constraints_in(shape.get("expression")) if self.reading.fits(node, triple, one)]
        return taking + ([None] if self.reading.may_remain(node, [triple], shape) else [])

    def relevant(self, node, shape):
        """The triples of a node that some constraint fits by predicate and direction."""
        return [triple for triple in self.graph if self.fitting(node, shape, triple)]

    @staticmethod
    def fitting(node, shape, triple):
        """The constraints that fit a triple by predicate and direction."""
        return [
            one
            for one in constraints_in(shape.get("expression"))
            if one["predicate"] == triple[1] and triple[2 if one.get("inverse") else 0] == node
        ]

    def is_so(self, block, line, below):
        """Whether a line of a block is so, with the lines below it."""
        expression = self.named(block.name)
        if found := re.fullmatch(r"(closed|unmatched): (.*)", line):
            triple = TRIPLE.fullmatch(found[2]).groups()
            alike = self.fitting(block.node, expression, triple)
            if found[1] == "closed":
                return bool(expression.get("closed")) and triple in self.graph and triple[0] == block.node and not alike and not below
            return triple in self.graph and bool(alike) and not self.places(block.node, expression, triple) and self.are_misfits(block.node, expression, triple, below)
        if found := re.fullmatch(r"too (few|many): (.*) at (?:least|most) (\d+), found (\d+)", line):
            chosen = [self.placed(expression, place) for place in found[2].split(", ")]
            return self.is_short(block.node, expression, (found[1] == "few", chosen, int(found[3]), int(found[4])), below)
        if found := re.fullmatch(r"no match with these numbers: (.*)", line):
            return not self.reading.has_shape(block.node, expression) and self.are_numbers(block.node, expression, found[1].split(", "))
        if line == "no way to match":
            return not self.reading.has_shape(block.node, expression) and self.are_offers(block.node, expression, below)
        if found := re.fullmatch(r"not: (\S+) (?:is|satisfies) (\S+)", line):
            member = self.followed(expression["shapeExpr"])
            return found[1] == block.node and self.named(found[2]) == member and self.reading.holds(block.node, member)
        if found := re.fullmatch(r"none of (\d+):", line):
            members = expression["shapeExprs"]
            return len(members) == int(found[1]) == len(below) and all(self.is_cause(line, block.node, one) for line, one in zip(below, members))
        if line.startswith("member: "):
            return any(self.is_cause(line[len("member: ") :], block.node, one) for one in expression["shapeExprs"])
        return self.is_cause(line, block.node, expression)

    def is_cause(self, line, node, expression):
        """Whether the cause that a line names is so of a node, and why it does not satisfy the expression."""
        wanted = self.followed(expression)
        if self.reading.holds(node, wanted):
            return False
        if found := NAMED.fullmatch(line):
            return found[1] == node and self.named(found[2]) == wanted
        if line == f"{node} is not in the value set":
            return "values" in wanted
        return line == f"{node} is no {wanted.get('nodeKind', '').upper()}"

    def are_numbers(self, node, shape, numbers):
        """Whether numbers are, for each constraint, how many triples it alone may take, and how many it may take."""
        constraints, places = constraints_in(shape["expression"]), [self.places(node, shape, triple) for triple in self.relevant(node, shape)]
        for one, said in zip(constraints, numbers):
            low = sum(all(place is one for place in each) for each in places)
            high = sum(any(place is one for place in each) for each in places)
            if not said.endswith(f" {low}" if low == high else f" {low} to {high}"):
                return False
        return len(numbers) == len(constraints)

    def are_misfits(self, node, shape, triple, below):
        """Whether the lines below an unmatched triple say of each constraint that fits it why its other end is none."""
        alike = self.fitting(node, shape, triple)
        said = [line.split(": ", 1) for line in below]
        other = [triple[0 if one.get("inverse") else 2] for one in alike]
        values = [one.get("valueExpr") for one in alike]
        return [self.placed(shape, place) for place, _ in said] == alike and all(map(self.is_cause, (cause for _, cause in said), other, values))

    def are_offers(self, node, shape, below):
        """Whether the lines below say of each triple that a constraint fits which constraints take it, and whether it may be left over."""
        said = {}
        for line in below:
            text, taking, besides, alone = OFFER.fullmatch(line).groups()
            places = [self.placed(shape, place) for place in taking.split(", ")] if taking else []
            said[TRIPLE.fullmatch(text).groups()] = places + ([None] if besides or alone else [])
        return len(said) == len(below) and said == {triple: self.places(node, shape, triple) for triple in self.relevant(node, shape)}

    def named_triples(self, node, shape):
        """The lines of the triples that are forbidden, and of those that fit nothing and may not be left over."""
        for subject, predicate, other in self.graph:
            triple = subject, predicate, other
            alike = self.fitting(node, shape, triple)
            if subject == node and shape.get("closed") and not alike:
                yield f"closed: {subject} <{predicate}> {other} ."
            if alike and not self.places(node, shape, triple):
                yield f"unmatched: {subject} <{predicate}> {other} ."

    def is_short(self, node, shape, said, below):
        """Whether constraints want more triples than there are for them, or take fewer than are theirs alone."""
        few, chosen, bound, count = said
        found = []
        for triple in self.relevant(node, shape):
            places = self.places(node, shape, triple)
            its = [place for place in places if any(place is one for one in chosen)]
            if its and (few or len(its) == len(places)):
                found.append(triple)
        shown = sorted(TRIPLE.fullmatch(line).groups() for line in below)
        least, most = bounds(shape["expression"], chosen)
        return shown == sorted(found) and len(found) == count and (bound == least > count if few else bound == most < count)


class Contest:
    """The program, the folder for its files, and what came out."""

    def __init__(self, program, folder, source):
        self.program, self.folder, self.random = program, folder, source
        self.counts = Counter()

    def explained(self, schema, graph):
        """What the program prints about each term with each label."""
        labels = [each["id"] for each in schema["shapes"]]
        texts = {
            "schema.json": json.dumps(schema),
            "data.nt": "".join(f"{subject} <{predicate}> {other} .\n" for subject, predicate, other in graph),
            "map": ", ".join(f"{node}@<{label}>" for node in TERMS for label in labels),
        }
        for name, text in texts.items():
            with open(os.path.join(self.folder, name), "w", encoding="utf-8") as stream:
                stream.write(text)
        words = [self.program, "explain", "--schema", "schema.json", "--data", "data.nt", "--map", "map", "--limit", "1000"]
        done = subprocess.run(words, cwd=self.folder, capture_output=True, encoding="utf-8", check=False)
        return done.stdout if done.returncode in (0, 1) else None

    def differs(self, schema, graph, what):
        """Counts and prints something that is not so."""
        self.counts["differ"] += 1
        print(f"not so: {what}\n  {json.dumps(schema)}\n  {graph}")

    def judged(self, schema, graph):
        """Decides all that is printed about a schema and data, and gives the judge with the blocks, if there is an answer."""
        text = self.explained(schema, graph)
        try:
            judge = Judge(schema, graph)
        except (Circle, NegatedCycle):
            judge = None
        if (judge is None) != (text is None):
            self.differs(schema, graph, "one refuses what the other answers")
        if judge is None or text is None:
            return None
        blocks, asked = blocks_of(text)
        wanted = [(node, each["id"]) for node in TERMS for each in schema["shapes"] if not judge.reading.holds(node, each["id"])]
        if [(node, label) for node, label, _, _ in asked] != wanted or not all(denied for _, _, denied, _ in asked):
            self.differs(schema, graph, f"explained are {asked} in place of {wanted}")
        for block in blocks:
            self.decide(schema, graph, judge, block)
        numbers = [block.number for block in blocks if block.number]
        if sorted(numbers) != list(range(1, len(numbers) + 1)) or not set(map(int, re.findall(r"see \[(\d+)\]", text))) <= set(numbers):
            self.differs(schema, graph, f"blocks have the numbers {numbers}")
        return judge, blocks

    def decide(self, schema, graph, judge, block):
        """Decides a block."""
        if not block.lines or judge.reading.holds(block.node, judge.named(block.name)):
            self.differs(schema, graph, f"{block}")
        shape = judge.named(block.name)
        if shape["type"] == "Shape" and set(judge.named_triples(block.node, shape)) - {line for line, _ in block.lines}:
            self.differs(schema, graph, f"{block} names not each triple")
        for line, below in block.lines:
            self.counts["lines"] += 1
            if not judge.is_so(block, line, below):
                self.differs(schema, graph, f"[{block.number}] {block.node} {block.name}: {line} {below}")

    def round(self, schema, graph):
        """Decides what is printed, mends one thing of it, and decides again."""
        self.counts["rounds"] += 1
        found = self.judged(schema, graph)
        lines = [(block, line) for block in (found[1] if found else []) for line, _ in block.lines if line.startswith(("closed", "unmatched", "too few"))]
        if not lines:
            return
        block, line = self.random.choice(lines)
        mended = self.mended(found[0], graph, block, line)
        if mended is None:
            return
        again = self.judged(schema, mended)
        self.counts["mended"] += 1
        if again and any((one.node, one.name) == (block.node, block.name) and line in dict(one.lines) for one in again[1]):
            self.differs(schema, mended, f"{line} is said again")

    def mended(self, judge, graph, block, line):
        """The data with a forbidden or unmatched triple removed, or with what is missing added, if there is a way."""
        if found := re.fullmatch(r"(?:closed|unmatched): (.*)", line):
            triple = TRIPLE.fullmatch(found[1]).groups()
            return [each for each in graph if each != triple]
        if not (found := re.fullmatch(r"too few: (.*) at least (\d+), found (\d+)", line)):
            return None
        shape = judge.named(block.name)
        chosen = [judge.placed(shape, place) for place in found[1].split(", ")]
        new = [(end, p, o) for end in TERMS[:3] for p in PREDICATES for o in TERMS if (end, p, o) not in graph]
        new = [each for each in new if any(judge.reading.fits(block.node, each, one) for one in chosen)]
        more = sorted([*graph, *new[: int(found[2]) - int(found[3])]])
        # A triple more may change which of them fit.
        after = Judge(judge.schema, more)
        fitting = [each for each in more if any(after.reading.fits(block.node, each, one) for one in chosen)]
        return more if len(fitting) >= int(found[2]) else None


def main():
    """Runs the contest, and prints what came out."""
    parser = argparse.ArgumentParser(description=__doc__.split("\n", maxsplit=1)[0])
    parser.add_argument("program", nargs="?", default=RELEASED)
    parser.add_argument("--rounds", type=int, default=500)
    parser.add_argument("--seed", type=int, default=1)
    chosen = parser.parse_args()
    source = random.Random(chosen.seed)
    maker = Maker(source)
    with tempfile.TemporaryDirectory() as folder:
        contest = Contest(os.path.abspath(chosen.program), folder, source)
        for _ in range(chosen.rounds):
            contest.round(maker.schema(), maker.graph())
    counts = contest.counts
    print(f"{counts['rounds']} schemas, {counts['lines']} lines of reasons, {counts['mended']} of them mended; {counts['differ']} not so")
    sys.exit(1 if counts["differ"] else 0)


if __name__ == "__main__":
    main()
