#!/usr/bin/env python3
"""Runs the ShEx test suite (shexTest) on a checkout of it, by the released programs alone.

    extras/shextest.py DIR [--shexj] [--only WORD] [--each] [--earl FILE] [--budget N] [--program F] [--tool F]

DIR has `schemas`, `validation`, `negativeSyntax` and `negativeStructure`, each with its `manifest.jsonld`. The programs are
dist/shex and dist/shextool, or those that are named. With --shexj the document in ShExJ is taken that stands beside a schema in
ShExC, with --only those tests alone whose names have the word. A test is

- passed, where the program gives the answers that the manifest asks for, or refuses a schema for a fault of the kind that the test
  is about, or reads a schema in ShExC and one in ShExJ as the same;
- left out, where the cause of the program's refusal, or a trait of a test that is refused, names a limit that docs/USAGE.md or
  docs/DECISIONS.md states, or where the test wants what the checkout or this script has not: this never counts as passed;
- failed, in all other cases.

Printed are a line for each test that failed (with --each, for every test), a table of the manifests and one of the limits, in
Markdown, and in the last line all counts. With --earl each outcome is stored in Turtle, a test that is left out as untested. The
status is 1 where a test failed, and 2 where there is nothing to run.
"""

import argparse
import collections
import json
import os
import re
import sys
import tempfile
from typing import Any, NamedTuple, Optional

import suite_earl
from suite_calls import Call, Failed, LeftOut, Programs, present, read_json
from suite_manifests import FOLDERS, File, Test, tests_of
from suite_maps import UNKNOWN, answers, asked_by
from suite_schemas import documents_differ, has_annotations

ROOT = os.path.dirname(os.path.dirname(os.path.abspath(__file__)))
PASSED, FAILED, LEFT_OUT = "passed", "failed", "left out"
OUTCOMES = {PASSED: "passed", FAILED: "failed", LEFT_OUT: "untested"}  # and what EARL calls them
BASE = "http://base.invalid/"  # of documents that are compared; no schema has IRIs of its own below it
WIDE = "pairs of a node and a shape whose width is above the budget"
ANNOTATIONS = "annotations, which are read and dropped"
REJECTED = "not run: tests that the suite itself rejects"


class Limit(NamedTuple):
    """A limit of the program: its name, the causes of the refusals that name it, and the traits of the tests that want more."""

    name: str
    cause: str
    trait: str = "(?!)"


LIMITS = (
    Limit("semantic actions", "Action", "SemanticAction"),
    Limit("external shapes", "External", "ExternalShape"),
    Limit("words of ShEx 2.2", r"(?i:(Form|Key)\((abstract|extends|restricts)\))", "Abstract|Extend|Restrict"),
    Limit("facets on floating-point numbers", "FloatFacet"),
    Limit("facets with a number that is not whole in ShExJ, or too large", "FacetNumber"),
    Limit("patterns that are refused for flags, syntax or size", r"Pattern\(.*\)"),
    Limit("sizes of schemas, data and maps", r"Size|Shapes|Full|Many|Pairs|Deep(\(.*\))?|(Occurrences|Long)\(.*\)"),
    Limit("imports of documents that the checkout has not", r"Import\(.*\)"),
)

# The causes of refusals that are faults of the kinds that negative tests are about.
FAULTS = {
    "NegativeSyntax": r"(Syntax|Prefix|Key|Form)\(.*\)|Json|NotUtf8",
    "NegativeStructure": r"(Twice|Missing|Circle|IncludeCircle|NegatedCycle)\(.*\)",
}


class Outcome(NamedTuple):
    """What came of a test, the limit for which it is left out, and what is to be said of it."""

    test: Test
    verdict: str
    limit: str = ""
    why: str = ""

    def name(self) -> str:
        """The manifest and the name of the test."""
        return f"{self.test.folder} {self.test.name}"

    def line(self) -> str:
        """The outcome in a line."""
        return ": ".join(filter(None, (self.verdict, self.name(), self.limit, self.why)))


# ---- kinds of tests


def leave_out(test: Test, call: Call) -> None:
    """Leaves a test out where the end of a call names a limit, or where the call is refused and a trait names one."""
    if call.status == 4:
        raise LeftOut(WIDE, call.errors.partition("\n")[0])
    cause = call.cause()
    for limit in LIMITS:
        if re.fullmatch(limit.cause, cause):
            raise LeftOut(limit.name, cause)
    for limit in LIMITS if cause else ():
        traits = [trait for trait in test.traits if re.search(limit.trait, trait)]
        if traits:
            raise LeftOut(limit.name, f"{cause}, with the trait {traits[0]}")


def validation(test: Test, programs: Programs) -> None:
    """A ValidationTest, where each node has its shape or the status that is told, or a ValidationFailure, where one has not."""
    asked = asked_by(test)
    call = programs.validate(test, asked.text)
    leave_out(test, call)
    given = answers(call)
    if asked.wanted is None:
        is_right = (call.status == 0) == (test.kind == "ValidationTest")
    else:
        is_right = given == asked.wanted and (call.status == 0) == all(given)
    if not is_right:
        raise Failed(f"status {call.status}, {' '.join(call.output.split())}")


def negative(test: Test, programs: Programs) -> None:
    """A NegativeSyntax or a NegativeStructure: a schema that is refused for a fault of that kind."""
    call = programs.validate(test, "")
    leave_out(test, call)
    if call.status == 0:
        raise Failed("the schema is taken")
    if not re.fullmatch(FAULTS[test.kind], call.cause()):
        raise Failed(f"refused for another fault: {call.said()}")


def converted(test: Test, programs: Programs, schema: File) -> Any:
    """A document as the program reads it and writes it in ShExJ."""
    call = programs.convert(schema, BASE)
    leave_out(test, call)
    if call.status:
        raise Failed(f"{os.path.basename(schema.path)}: {call.said()}")
    return json.loads(call.output)


def representation(test: Test, programs: Programs) -> None:
    """A RepresentationTest: the documents in ShExC and in ShExJ are both read as the one in ShExJ; that in ShExR is not read."""
    compact, document = (present(test.file(part), part) for part in ("shex", "json"))
    source = read_json(document, "json")
    for schema in (compact, document):
        place = documents_differ(converted(test, programs, schema), source, BASE)
        if place:
            raise Failed(f"{os.path.basename(schema.path)} is read as another schema than that in ShExJ, at {place}")
    if has_annotations(source):
        raise LeftOut(ANNOTATIONS, "all else is the same")


JUDGES = {
    "ValidationTest": validation,
    "ValidationFailure": validation,
    "NegativeSyntax": negative,
    "NegativeStructure": negative,
    "RepresentationTest": representation,
}


def outcome_of(test: Test, programs: Programs) -> Outcome:
    """Runs a test."""
    try:
        if test.status.lower() == "rejected":
            raise LeftOut(REJECTED, "")
        if test.kind not in JUDGES:
            raise LeftOut(UNKNOWN, test.kind)
        JUDGES[test.kind](test, programs)
    except LeftOut as one:
        return Outcome(test, LEFT_OUT, *one.args)
    except (Failed, ValueError) as one:
        return Outcome(test, FAILED, "", str(one))
    return Outcome(test, PASSED)


def outcomes_of(words: argparse.Namespace) -> list:
    """Runs the tests that are asked for."""
    tests = [test for folder in FOLDERS for test in tests_of(words.suite, folder) if words.only in test.name]
    with tempfile.TemporaryDirectory() as room:
        programs = Programs(words.program, words.tool, room, words.budget, words.shexj)
        return [outcome_of(test, programs) for test in tests]


# ---- what is told


def assertion(outcome: Outcome) -> suite_earl.Assertion:
    """An outcome in EARL."""
    told = outcome.limit and f"left out: {outcome.limit}"
    if outcome.verdict == PASSED and outcome.test.kind == "RepresentationTest":
        told = "ShExC and ShExJ are compared; ShExR is not read"
    return suite_earl.Assertion(outcome.test.iri, OUTCOMES[outcome.verdict], ": ".join(filter(None, (told, outcome.why))))


def table(*rows: list) -> str:
    """Rows as a table in Markdown, the first of them its head, with numbers behind the first column."""
    widths = [max(len(str(row[place])) for row in rows) for place in range(len(rows[0]))]
    rule = ["-" * widths[0], *("-" * (width - 1) + ":" for width in widths[1:])]
    sides = ["<", *[">"] * (len(widths) - 1)]
    lines = [[f"{cell:{side}{width}}" for cell, side, width in zip(row, sides, widths)] for row in (rows[0], rule, *rows[1:])]
    return "".join(f"| {' | '.join(cells)} |\n" for cells in lines)


def counts(outcomes: list) -> list:
    """How many there are, and how many of each verdict."""
    return [len(outcomes), *(sum(one.verdict == verdict for one in outcomes) for verdict in OUTCOMES)]


def report(outcomes: list) -> str:
    """The tables of manifests and of limits, and all counts in the last line."""
    folders = {folder: [one for one in outcomes if one.test.folder == folder] for folder in FOLDERS}
    rows = [[folder, *counts(some)] for folder, some in folders.items() if some]
    limits = collections.Counter(one.limit for one in outcomes if one.verdict == LEFT_OUT).most_common()
    texts = [table(["manifest", "tests", *OUTCOMES], *rows, ["all", *counts(outcomes)])]
    if limits:
        texts.append(table(["left out for", "tests"], *map(list, limits)))
    number, passed, failed, left_out = counts(outcomes)
    return "\n".join([*texts, f"{number} tests: {passed} passed, {failed} failed, {left_out} left out"])


def words_of(given: Optional[list] = None) -> argparse.Namespace:
    """What the words of the command line ask for."""
    parser = argparse.ArgumentParser(description=__doc__, formatter_class=argparse.RawDescriptionHelpFormatter)
    parser.add_argument("suite", metavar="DIR", type=os.path.abspath)
    parser.add_argument("--shexj", action="store_true")
    parser.add_argument("--each", action="store_true")
    parser.add_argument("--only", default="")
    parser.add_argument("--earl")
    parser.add_argument("--budget", type=int)
    for option, name in (("--program", "shex"), ("--tool", "shextool")):
        parser.add_argument(option, type=os.path.abspath, default=os.path.join(ROOT, "dist", name))
    return parser.parse_args(given)


def tell(outcomes: list, words: argparse.Namespace) -> int:
    """Prints and stores what came of the tests, and gives the status."""
    for one in outcomes:
        if words.each or one.verdict == FAILED:
            print(one.line())
    print(report(outcomes))
    if words.earl:
        with open(words.earl, "w", encoding="utf-8") as file:
            file.write(suite_earl.document(map(assertion, outcomes)))
    return 1 if any(one.verdict == FAILED for one in outcomes) else 0


def main() -> int:
    """Runs the suite, and tells what came of it."""
    words = words_of()
    absent = [path for path in (words.program, words.tool) if not os.access(path, os.X_OK)]
    outcomes = [] if absent else outcomes_of(words)
    if outcomes:
        return tell(outcomes, words)
    print(f"shextest.py: no program {absent[0]}" if absent else f"shextest.py: no tests in {words.suite}", file=sys.stderr)
    return 2


if __name__ == "__main__":
    sys.exit(main())
