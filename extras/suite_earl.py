"""Outcomes of tests in EARL (Evaluation and Report Language 1.0), as a document in Turtle."""

from datetime import datetime, timezone
from typing import Iterable, NamedTuple

from suite_manifests import iri_text, string_text

HEAD = """\
@prefix dc: <http://purl.org/dc/terms/> .
@prefix doap: <http://usefulinc.com/ns/doap#> .
@prefix earl: <http://www.w3.org/ns/earl#> .
@prefix xsd: <http://www.w3.org/2001/XMLSchema#> .

<#shex> a earl:TestSubject, earl:Software, doap:Project ;
    doap:name "shex" ;
    doap:programming-language "Rattle" .

<#runner> a earl:Assertor, earl:Software ;
    dc:title "extras/shextest.py" .
"""

ASSERTION = """
[] a earl:Assertion ;
    earl:assertedBy <#runner> ;
    earl:subject <#shex> ;
    earl:test {test} ;
    earl:mode earl:automatic ;
    earl:result [
        a earl:TestResult ;
        earl:outcome earl:{outcome} ;{info}
        dc:date "{date}"^^xsd:dateTime
    ] .
"""


class Assertion(NamedTuple):
    """What came of a test: its IRI, an outcome of EARL (passed, failed or untested), and what is to be said of it."""

    test: str
    outcome: str
    info: str


def text(assertion: Assertion, date: str) -> str:
    """An assertion in Turtle."""
    info = assertion.info and f"\n        earl:info {string_text(assertion.info)} ;"
    return ASSERTION.format(test=iri_text(assertion.test), outcome=assertion.outcome, info=info, date=date)


def document(assertions: Iterable[Assertion]) -> str:
    """The document of what came of tests."""
    date = datetime.now(timezone.utc).strftime("%Y-%m-%dT%H:%M:%SZ")
    return HEAD + "".join(text(assertion, date) for assertion in assertions)
