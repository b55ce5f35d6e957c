#!/usr/bin/env python3
"""Holds `shex validate` against a plain reading of ShEx 2.1, section 5, on random schemas and data.

    extras/brute_force.py [PROGRAM] [--rounds 500] [--seed 1]

PROGRAM is by default the released one, `dist/shex`. Each round makes a schema in ShExJ, with references that may be
recursive, negation, groups, cardinalities, inverse constraints, EXTRA and CLOSED, and a few triples between five terms, and asks
about each term with each label. The reading tries each division of a node's triples and takes the greatest typing, stratum by
stratum, so it is fit for tiny inputs alone; it shares nothing with the program or with check_proof.py. The answers have to be the
same; a schema without one has to be refused, as `Circle` or as `NegatedCycle`; and `shex check` has to accept the proof.

The numbers of rounds and answers are printed, and for each that differs the schema, the data and both answers; the status is then
1. The same seed makes the same rounds.
"""

import argparse
import itertools
import json
import os
import random
import subprocess
import sys
import tempfile

RELEASED = os.path.join(os.path.dirname(os.path.dirname(os.path.abspath(__file__))), "dist", "shex")

CONTEXT = "http://www.w3.org/ns/shex.jsonld"
SPACE = "http://example.org/"
IRIS = [f"<{SPACE}n{number}>" for number in range(3)]
TERMS = [*IRIS, '"a"', '"b"']
PREDICATES = [f"{SPACE}{name}" for name in "pqr"]

# Cardinalities, the usual one as often as it is met; -1 is no bound.
CARDINALITIES = [(1, 1)] * 6 + [(0, 1), (0, 1), (0, -1), (0, -1), (1, -1), (2, 2), (1, 2), (0, 0), (2, 3), (0, 2), (2, -1), (3, 3)]


class Circle(Exception):
    """A shape expression refers to itself without a triple constraint in between (section 5.7.2)."""


class NegatedCycle(Exception):
    """Shapes depend on one another in a circle with a negation (section 5.7.4)."""


# ---- random inputs


class Maker:
    """Makes schemas and data."""

    def __init__(self, random_source):
        self.random = random_source
        self.labels = []

    def schema(self):
        """A schema with up to three declared shape expressions."""
        self.labels = [f"{SPACE}S{number}" for number in range(self.random.randint(1, 3))]
        return {"@context": CONTEXT, "type": "Schema", "shapes": [self.declared(label) for label in self.labels]}

    def declared(self, label):
        """A declaration: a shape expression with its label, or a ShapeDecl around a reference."""
        expression = self.expression(self.random.randint(1, 3))
        if isinstance(expression, str):
            return {"type": "ShapeDecl", "id": label, "shapeExpr": expression}
        return {"id": label, **expression}

    def expression(self, depth):
        """A shape expression."""
        kind = self.random.random()
        if depth == 0 or kind < 0.15:
            return self.random.choice([self.constraint, self.reference])()
        if kind < 0.42:
            members = [self.expression(depth - 1) for _ in range(2)]
            return {"type": "ShapeAnd" if kind < 0.3 else "ShapeOr", "shapeExprs": members}
        if kind < 0.48:
            return {"type": "ShapeNot", "shapeExpr": self.expression(depth - 1)}
        return self.shape(depth - 1)

    def constraint(self):
        """A node constraint: a kind, or some values."""
        if self.random.random() < 0.6:
            return {"type": "NodeConstraint", "nodeKind": self.random.choice(["iri", "literal"])}
        values = self.random.sample(TERMS, self.random.randint(1, 3))
        return {"type": "NodeConstraint", "values": [value[1:-1] if value in IRIS else {"value": value[1:-1]} for value in values]}

    def reference(self):
        """A reference to one of the labels."""
        return self.random.choice(self.labels)

    def shape(self, depth):
        """A shape."""
        shape = {"type": "Shape"}
        if self.random.random() < 0.25:
            shape["closed"] = True
        extra = [predicate for predicate in PREDICATES if self.random.random() < 0.12]
        if extra:
            shape["extra"] = extra
        if self.random.random() < 0.92:
            shape["expression"] = self.triple_expression(self.random.randint(1, 3), depth)
        return shape

    def triple_expression(self, width, depth):
        """A triple expression."""
        kind, (least, most) = self.random.random(), self.random.choice(CARDINALITIES)
        if width == 0 or kind < 0.4:
            expression = {"type": "TripleConstraint", "predicate": self.predicate()}
            if self.random.random() < 0.2:
                expression["inverse"] = True
            if self.random.random() < 0.75:
                expression["valueExpr"] = self.expression(depth)
        else:
            members = [self.triple_expression(width - 1, depth) for _ in range(self.random.randint(2, 3))]
            expression = {"type": "EachOf" if kind < 0.72 else "OneOf", "expressions": members}
        return expression if (least, most) == (1, 1) else {**expression, "min": least, "max": most}

    def predicate(self):
        """A predicate, the last one seldom."""
        return self.random.choice(PREDICATES[:2] if self.random.random() < 0.85 else PREDICATES)

    def graph(self):
        """Up to six triples."""
        number = self.random.randint(0, 6)
        return sorted({(self.random.choice(IRIS), self.predicate(), self.random.choice(TERMS)) for _ in range(number)})


# ---- a plain reading of section 5


def constraints_in(expression):
    """The triple constraints of a triple expression."""
    if expression is None:
        return []
    if expression["type"] == "TripleConstraint":
        return [expression]
    return [constraint for member in expression["expressions"] for constraint in constraints_in(member)]


def parts_of(triples):
    """Each part of a set of triples, with the rest."""
    for size in range(len(triples) + 1):
        for part in itertools.combinations(sorted(triples), size):
            yield frozenset(part), triples - frozenset(part)


def fits_values(node, values):
    """Whether a node is one of the values."""
    return any(node == (f"<{value}>" if isinstance(value, str) else f'"{value["value"]}"') for value in values)


class Reading:
    """What a schema asks of the nodes of a graph. A shape is known by the identity of its object."""

    def __init__(self, schema, graph):
        self.declared = {each["id"]: each["shapeExpr"] if each["type"] == "ShapeDecl" else each for each in schema["shapes"]}
        self.graph = graph
        self.shapes = {}
        for expression in self.declared.values():
            self.gather(expression)
            self.needed(expression, False, ())
        self.strata = self.least_strata()
        self.typing = set()
        self.complete_typing()

    def gather(self, expression):
        """Notes the shapes that stand in an expression, references aside."""
        if isinstance(expression, str):
            return
        for member in expression.get("shapeExprs", []):
            self.gather(member)
        if expression["type"] == "ShapeNot":
            self.gather(expression["shapeExpr"])
        if expression["type"] == "Shape":
            self.shapes[id(expression)] = expression
            for constraint in constraints_in(expression.get("expression")):
                self.gather(constraint.get("valueExpr", {"type": "Empty"}))

    def needed(self, expression, negated, passed):
        """The shapes that stand in an expression, references followed, each with whether a ShapeNot is on the way."""
        if isinstance(expression, str):
            if expression in passed:
                raise Circle
            return self.needed(self.declared[expression], negated, (*passed, expression))
        if expression["type"] == "Shape":
            return [(id(expression), negated)]
        if expression["type"] == "ShapeNot":
            return self.needed(expression["shapeExpr"], True, passed)
        return [each for member in expression.get("shapeExprs", []) for each in self.needed(member, negated, passed)]

    def edges(self, shape):
        """The shapes on which a shape depends, each with whether by a negation: a ShapeNot, or EXTRA (section 5.7.4)."""
        for constraint in constraints_in(shape.get("expression")):
            extra = not constraint.get("inverse") and constraint["predicate"] in shape.get("extra", [])
            for needed, negated in self.needed(constraint.get("valueExpr", {"type": "Empty"}), False, ()):
                yield needed, negated or extra

    def least_strata(self):
        """The stratum of each shape (section 5.2). One above the number of shapes shows a circle with a negation."""
        strata = dict.fromkeys(self.shapes, 0)
        while max(strata.values(), default=0) <= len(strata):
            higher = {each: self.raised(each, strata) for each in strata}
            if higher == strata:
                return strata
            strata = higher
        raise NegatedCycle

    def raised(self, each, strata):
        """The least stratum of a shape, no lower than it is, over those on which it depends."""
        return max([strata[each], *(strata[needed] + negated for needed, negated in self.edges(self.shapes[each]))])

    def complete_typing(self):
        """Stratum by stratum, takes away what does not hold from all pairs, until all that is left holds (section 5.2)."""
        for stratum in sorted(set(self.strata.values())):
            left = set(itertools.product(TERMS, (each for each in self.shapes if self.strata[each] == stratum)))
            self.typing |= left
            while gone := {(node, each) for node, each in left if not self.has_shape(node, self.shapes[each])}:
                left -= gone
                self.typing -= gone

    def holds(self, node, expression):
        """Whether a node satisfies a shape expression (section 5.3)."""
        if isinstance(expression, str):
            return self.holds(node, self.declared[expression])
        kind = expression["type"]
        if kind == "ShapeAnd":
            return all(self.holds(node, member) for member in expression["shapeExprs"])
        if kind == "ShapeOr":
            return any(self.holds(node, member) for member in expression["shapeExprs"])
        if kind == "ShapeNot":
            return not self.holds(node, expression["shapeExpr"])
        if kind == "Shape":
            return (node, id(expression)) in self.typing
        if "values" in expression:
            return fits_values(node, expression["values"])
        return (node in IRIS) == (expression["nodeKind"] == "iri")

    def fits(self, node, triple, constraint):
        """Whether a triple of a node matches a triple constraint, its cardinality aside (section 5.5.2)."""
        subject, predicate, other = triple
        near, far = (other, subject) if constraint.get("inverse") else (subject, other)
        wanted = constraint.get("valueExpr")
        return predicate == constraint["predicate"] and near == node and (wanted is None or self.holds(far, wanted))

    def has_shape(self, node, shape):
        """Whether some part of a node's triples matches, and what remains may (section 5.5.2)."""
        around = frozenset(triple for triple in self.graph if node in (triple[0], triple[2]))
        matching, expression = Matching(self, node), shape.get("expression")
        if expression is None:
            return self.may_remain(node, around, shape)
        return any(matching.holds(part, expression) and self.may_remain(node, rest, shape) for part, rest in parts_of(around))

    def may_remain(self, node, rest, shape):
        """Whether the arcs out among these triples may remain."""
        constraints = [constraint for constraint in constraints_in(shape.get("expression")) if not constraint.get("inverse")]
        for triple in (triple for triple in rest if triple[0] == node):
            same = [constraint for constraint in constraints if constraint["predicate"] == triple[1]]
            if not same and shape.get("closed"):
                return False
            if same and triple[1] not in shape.get("extra", []):
                return False
            if any(self.fits(node, triple, constraint) for constraint in same):
                return False
        return True


class Matching:
    """Which sets of a node's triples match which triple expressions."""

    def __init__(self, reading, node):
        self.reading, self.node, self.known = reading, node, {}

    def holds(self, triples, expression):
        """Whether the triples divide into as many parts as the cardinality allows, each of which matches once."""
        key = triples, id(expression)
        if key not in self.known:
            most = expression.get("max", 1)
            least = 0 if self.once(frozenset(), expression) else expression.get("min", 1)
            counts = self.counts(triples, expression)
            self.known[key] = any(least <= count and (most < 0 or count <= most) for count in counts)
        return self.known[key]

    def counts(self, triples, expression):
        """The numbers of parts, none of them empty, into which the triples divide so that each matches once."""
        if not triples:
            return {0}
        first = min(triples)
        return {
            1 + count
            for part, rest in parts_of(triples - {first})
            if self.once(part | {first}, expression)
            for count in self.counts(rest, expression)
        }

    def once(self, triples, expression):
        """Whether the triples match, the cardinality aside."""
        if expression["type"] == "TripleConstraint":
            return len(triples) == 1 and self.reading.fits(self.node, min(triples), expression)
        if expression["type"] == "OneOf":
            return any(self.holds(triples, member) for member in expression["expressions"])
        return self.each(triples, expression["expressions"])

    def each(self, triples, members):
        """Whether the triples divide into a part for each of the members."""
        if not members:
            return not triples
        return any(self.holds(part, members[0]) and self.each(rest, members[1:]) for part, rest in parts_of(triples))


# ---- the contest


class Contest:
    """The program, the folder for its files, and what came out."""

    def __init__(self, program, folder):
        self.program, self.folder = program, folder
        self.rounds, self.refused, self.answers, self.conformant, self.differing = 0, 0, 0, 0, 0

    def put(self, name, text):
        """Stores a file in the folder."""
        with open(os.path.join(self.folder, name), "w", encoding="utf-8") as stream:
            stream.write(text)

    def run(self, *words):
        """What the program gives to words: its status, its output, and its errors."""
        run = subprocess.run([self.program, *words], cwd=self.folder, capture_output=True, encoding="utf-8", check=False)
        return run.returncode, run.stdout, run.stderr

    def round(self, schema, graph):
        """Asks about each term with each label, and counts what differs."""
        labels = [each["id"] for each in schema["shapes"]]
        self.put("schema.json", json.dumps(schema))
        self.put("data.nt", "".join(f"{subject} <{predicate}> {other} .\n" for subject, predicate, other in graph))
        self.put("map", ", ".join(f"{node}@<{label}>" for node in TERMS for label in labels))
        files = ["--schema", "schema.json", "--data", "data.nt"]
        status, out, err = self.run("validate", *files, "--map", "map", "--proof", "proof")
        self.rounds += 1
        try:
            reading = Reading(schema, graph)
        except (Circle, NegatedCycle) as refusal:
            self.refused += 1
            self.compare(schema, graph, f"shex: schema.json: {type(refusal).__name__}(", err[: err.find("(") + 1])
            return
        answers = [f"{node}@{'' if reading.holds(node, label) else '!'}<{label}>" for node in TERMS for label in labels]
        self.answers += len(answers)
        self.conformant += sum("@!" not in answer for answer in answers)
        self.compare(schema, graph, (int(any("@!" in each for each in answers)), answers), (status, out.rstrip().split(",\n")))
        self.compare(schema, graph, (0, sorted(answers)), self.checked(files))

    def checked(self, files):
        """The status of a check of the proof, and the claims that it prints, in order."""
        status, out, _ = self.run("check", *files, "--proof", "proof")
        return status, sorted(out.rstrip().split(",\n"))

    def compare(self, schema, graph, wanted, given):
        """Counts and prints what differs."""
        if wanted != given:
            self.differing += 1
            print(f"differs: {json.dumps(schema)}\n  {graph}\n  wanted {wanted}\n  given  {given}")


def main():
    """Runs the contest, and prints what came out."""
    parser = argparse.ArgumentParser(description=__doc__.split("\n", maxsplit=1)[0])
    parser.add_argument("program", nargs="?", default=RELEASED)
    parser.add_argument("--rounds", type=int, default=500)
    parser.add_argument("--seed", type=int, default=1)
    chosen = parser.parse_args()
    maker = Maker(random.Random(chosen.seed))
    with tempfile.TemporaryDirectory() as folder:
        contest = Contest(os.path.abspath(chosen.program), folder)
        for _ in range(chosen.rounds):
            contest.round(maker.schema(), maker.graph())
    print(f"{contest.rounds} schemas, {contest.refused} of them to be refused")
    print(f"{contest.answers} answers, {contest.conformant} of them conformant; {contest.differing} differ")
    sys.exit(1 if contest.differing else 0)


if __name__ == "__main__":
    main()
