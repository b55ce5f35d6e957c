#!/usr/bin/env python3
"""Tests shextest.py on a small suite that was written by hand, and on one whose answers are all wrong.

    extras/check_shextest.py [--program F] [--tool F]

extras/suite has tests of each kind, whose answers are those of ShEx 2.1; each has to pass, or to be left out for the limit that
stands here. In extras/suite/wrong the manifests ask for answers that are wrong, and each test has to fail. So it is also where the
documents in ShExJ are taken in the place of those in ShExC, and what is stored in EARL is read again and has to say the same.

Printed are the outcomes that are others than they have to be; the status is then 1.
"""

import argparse
import contextlib
import io
import os
import sys
import tempfile
from typing import Iterator, NamedTuple

import shextest
from data import TurtleReader
from shextest import ANNOTATIONS, FAILED, LEFT_OUT, PASSED, REJECTED, ROOT, WIDE
from suite_calls import ABSENT
from suite_maps import UNKNOWN

SUITE = os.path.join(ROOT, "extras", "suite")
WRONG = os.path.join(SUITE, "wrong")
EARL = "http://www.w3.org/ns/earl#"
ACTION, EXTERNAL, EXTENDS, FLOATS, NUMBERS, PATTERNS, SIZES, IMPORTS = (limit.name for limit in shextest.LIMITS)
LIMITS = {  # the tests of the suite that are left out, and why
    "schemas annotated": ANNOTATIONS,
    "schemas action": ACTION,
    "schemas half": NUMBERS,
    "schemas extends": EXTENDS,
    "validation action": ACTION,
    "validation external": EXTERNAL,
    "validation float_facet": FLOATS,
    "validation names": PATTERNS,
    "validation pattern_flag": PATTERNS,
    "validation extends": EXTENDS,
    "validation extends_mark": EXTENDS,
    "validation deep": SIZES,
    "validation far_import": IMPORTS,
    "validation eight": WIDE,
    "validation no_data": ABSENT,
    "validation cardinality_pattern": UNKNOWN,
    "validation one_triple_shexr": ABSENT,
    "negativeSyntax open_action": ACTION,
    "negativeSyntax rejected": REJECTED,
}
LIMITS_OF_SHEXJ = {**LIMITS, "validation half_pass": NUMBERS, "validation half_fail": NUMBERS}
FAULTS = {  # the tests of the wrong suite, and what is said of each
    "schemas other_number": "s.shex is read as another schema than that in ShExJ, at shapes[0].expression.max",
    "schemas other_key": "s.shex is read as another schema than that in ShExJ, at shapes[0].open",
    "schemas fewer": "s.shex is read as another schema than that in ShExJ, at shapes",
    "validation pass": "status 1, <http://a.example/one>@!<http://a.example/S>",
    "validation fail": "status 0, <http://a.example/two>@<http://a.example/S>",
    "validation no_shape": "Label(<http://a.example/T>)",
    "validation no_start": "NoStart",
    "validation no_schema": "Syntax(23)",
    "validation no_turtle": "Syntax(32)",
    "validation map": "<http://a.example/one>@!<http://a.example/S>, <http://a.example/two>@<http://a.example/S>",
    "validation compact_map": "<http://a.example/one>@!<http://a.example/S>, <http://a.example/two>@<http://a.example/S>",
    "validation empty_map": "status 0",
    "negativeSyntax fine": "the schema is taken",
    "negativeSyntax twice": "Twice(<http://a.example/S>)",
    "negativeStructure fine": "the schema is taken",
    "negativeStructure brace": "Syntax(23)",
}


def absent(names: dict, outcomes: list) -> Iterator[str]:
    """The names that stand here and are those of no test."""
    yield from (f"no test {name}" for name in sorted(set(names) - {one.name() for one in outcomes}))


def wrong_limits(outcomes: list, limits: dict) -> Iterator[str]:
    """The outcomes of the suite that neither passed nor are left out for the limits that stand here."""
    for one in outcomes:
        wanted = (LEFT_OUT, limits[one.name()]) if one.name() in limits else (PASSED, "")
        if (one.verdict, one.limit) != wanted:
            yield one.line()
    yield from absent(limits, outcomes)


def wrong_faults(outcomes: list) -> Iterator[str]:
    """The outcomes of the wrong suite that did not fail, or for another reason than stands here."""
    for one in outcomes:
        if one.verdict != FAILED or one.name() not in FAULTS or not one.why.endswith(FAULTS[one.name()]):
            yield one.line()
    yield from absent(FAULTS, outcomes)


def earl_of(path: str) -> dict:
    """The outcomes of a document of EARL by the IRIs of their tests."""
    with open(path, encoding="utf-8") as file:
        triples = TurtleReader(path, file.read(), "http://localhost/").read()
    parts = {(triple.s, triple.p.value): triple.o for triple in triples}
    tests = {subject: term.value for (subject, predicate), term in parts.items() if predicate == EARL + "test"}
    return {iri: parts[parts[subject, EARL + "result"], EARL + "outcome"].value for subject, iri in tests.items()}


class Run(NamedTuple):
    """A run: its outcomes, its status, its last line, and the outcomes in what it stores in EARL."""

    outcomes: list
    status: int
    line: str
    stored: dict

    def number(self, verdict: str) -> int:
        """How many tests came to this."""
        return sum(one.verdict == verdict for one in self.outcomes)

    def faults(self) -> Iterator[str]:
        """What is told of the outcomes that is not what they are."""
        passed, failed, left_out = map(self.number, (PASSED, FAILED, LEFT_OUT))
        if self.status != (1 if failed else 0):
            yield f"the status {self.status} with {failed} failed"
        if self.line != f"{len(self.outcomes)} tests: {passed} passed, {failed} failed, {left_out} left out":
            yield f"the last line {self.line}"
        if self.stored != {one.test.iri: EARL + shextest.OUTCOMES[one.verdict] for one in self.outcomes}:
            yield "other outcomes in EARL"


def run(*given: str) -> Run:
    """Runs the tests that words ask for."""
    with tempfile.TemporaryDirectory() as room:
        words = shextest.words_of([*given, "--earl", os.path.join(room, "earl.ttl")])
        outcomes, printed = shextest.outcomes_of(words), io.StringIO()
        with contextlib.redirect_stdout(printed):
            status = shextest.tell(outcomes, words)
        return Run(outcomes, status, printed.getvalue().splitlines()[-1], earl_of(words.earl))


def main() -> int:
    """Runs both suites, and tells what is not as it has to be."""
    parser = argparse.ArgumentParser(description=__doc__, formatter_class=argparse.RawDescriptionHelpFormatter)
    for option in ("--program", "--tool"):
        parser.add_argument(option)
    options = [word for name, value in vars(parser.parse_args()).items() if value for word in (f"--{name}", value)]
    compact, shexj, wrong = runs = [run(*words, *options) for words in ([SUITE], [SUITE, "--shexj"], [WRONG])]
    found = [*wrong_limits(compact.outcomes, LIMITS), *wrong_limits(shexj.outcomes, LIMITS_OF_SHEXJ)]
    found += [*wrong_faults(wrong.outcomes), *(fault for one in runs for fault in one.faults())]
    print("".join(f"{text}\n" for text in found), end="")
    print(f"{compact.line}; with --shexj {shexj.line}; wrong ones {wrong.line}; {len(found)} not as they have to be")
    return 1 if found else 0


if __name__ == "__main__":
    sys.exit(main())
