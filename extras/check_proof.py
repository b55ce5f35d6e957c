#!/usr/bin/env python3
"""A second checker of the proofs of `shex`, written from docs/PROOF_FORMAT.md with Python's standard library alone.

It reads a schema in ShExJ or ShExC with the documents that it imports, data in N-Triples or Turtle, and a proof of format 1 or
2, and prints `accepted` and the claims, or the first refusal. What it cannot decide it calls `unsupported`. See extras/README.md.
"""

import argparse
import hashlib
import re
import sys
from collections import namedtuple

from data import read_graph
from schema import read_schema
from terms import LANG_STRING, MOST, STRING, Term, Unsupported, expect, is_base, need

YES, NO, UNKNOWN, REST = "Yes", "No", "Unknown", "r"


class Refused(Exception):
    """The proof is not accepted; the text is the refusal."""


# ---- the text of a proof


def number(field, most=MOST):
    """The number of a field."""
    expect(re.fullmatch("0|[1-9][0-9]{0,9}", field) and int(field) <= most)
    return int(field)


def state_of(field):
    """A state: how many triples are done, and the counts."""
    done, colon, counts = field.partition(":")
    expect(colon)
    return number(done), tuple(map(number, counts.split(","))) if counts else ()


TERM_LITERAL = re.compile(r'"((?:[^"\\\n\r]|\\["\\nr])*)"(?:@([^A-Z]*)|\^\^<(.*)>)?', re.DOTALL)


def term_of(text):
    """The term of which this is the text."""
    if text.startswith("_:"):
        is_free = not text.startswith("_:anon") or text.startswith("_:anon_anon")
        expect(is_free or number(text[6:]) > 0)
        return Term("bnode", text[2:])
    if text.startswith("<") and text.endswith(">"):
        return Term("iri", text[1:-1])
    match = TERM_LITERAL.fullmatch(text)
    expect(match and match[3] not in (STRING, LANG_STRING))
    lex = re.sub(r"\\(.)", lambda m: {"n": "\n", "r": "\r"}.get(m[1], m[1]), match[1])
    if match[2] is not None:
        return Term("literal", lex, LANG_STRING, match[2])
    return Term("literal", lex, STRING if match[3] is None else match[3])


Record = namedtuple("Record", "stratum node shape places rank states")  # without places where it refutes


class Proof:
    """A proof that is read line by line; the stage says which lines may follow."""

    def __init__(self, source):
        self.files, self.strata, self.nodes, self.records, self.claims = None, None, [], [], []
        self.stage, self.section, self.last, at = "first", None, None, 0
        while self.stage != "end":
            end = source.find(b"\n", at)
            try:
                expect(end >= 0)
                self.line(source[at:end].decode("utf-8"))
            except ValueError:
                raise Refused(f"Syntax({at})") from None
            at = end + 1
        if at < len(source):
            raise Refused(f"Syntax({at})")

    def line(self, text):
        """Takes one line."""
        mark, _, rest = text.partition(" ")
        takers = {"n": self.node, "s": self.begin, "+": self.confirm, "-": self.refute, "c": self.claim}
        if self.stage == "first":
            expect(text in ("shex-proof 1", "shex-proof 2"))
            self.stage, self.files = ("nodes", None) if text.endswith("1") else ("s", {"s": [], "i": [], "d": []})
        elif self.stage in ("s", "id"):
            expect(re.fullmatch("f [sid] [0-9a-f]{64}", text) and rest[0] in self.stage)
            self.files[rest[0]].append(rest[2:])
            self.stage = "k" if rest[0] == "d" else "id"
        elif self.stage == "k":
            expect(mark == "k")
            self.strata, self.stage = list(map(number, text.split(" ")[1:])), "nodes"
        elif text == "end":
            self.stage = "end"
        else:
            expect(mark in takers and text != mark)
            takers[mark](rest)

    def node(self, text):
        """A node line, above the last one."""
        expect(self.stage == "nodes" and len(self.nodes) < 16777216 and (self.last is None or self.last < text))
        self.nodes.append(term_of(text))
        self.last = text

    def begin(self, text):
        """A line that begins a section, above the last one."""
        expect(self.stage in ("nodes", "section") and (self.section is None or self.section < number(text)))
        self.stage, self.section, self.last = "section", number(text), (-1, -1)

    def record(self, node, shape, places, rank, states):
        """A record behind the last one of its section."""
        expect(self.stage == "section" and self.last < (number(node), number(shape)))
        self.last = (number(node), number(shape))
        self.records.append(Record(self.section, *self.last, places, rank, states))

    def confirm(self, text):
        """A record that confirms."""
        node, shape, *places = text.split(" ")
        self.record(node, shape, [place if place == REST else number(place, 65534) for place in places], 0, [])

    def refute(self, text):
        """A record that refutes."""
        node, shape, rank, *fields = text.split(" ")
        states = list(map(state_of, fields))
        expect(all(a < b for a, b in zip(states, states[1:])))
        self.record(node, shape, None, number(rank), states)

    def claim(self, text):
        """A claim."""
        match = re.fullmatch(r"([+-]) ([0-9]+) (START|_:.*|<.*>)", text, re.DOTALL)
        expect(match)
        self.stage = "claims"
        self.claims.append((match[1] == "+", number(match[2]), match[3]))


# ---- the checks


def interval(tree, low, high):
    """The numbers of copies that a triple expression makes with these counts: (least, greatest or None), or None."""
    kind, content, least, greatest = tree
    if kind == "TripleConstraint":
        lower, upper = low[content], high[content]
    else:
        spans = [interval(member, low, high) for member in content]
        if None in spans:
            return None
        uppers = [upper for _, upper in spans]
        if kind == "EachOf":
            lower, upper = max(lower for lower, _ in spans), min((u for u in uppers if u is not None), default=None)
        else:
            lower, upper = sum(lower for lower, _ in spans), None if None in uppers else sum(uppers)
    if upper is not None and upper < lower:
        return None
    if greatest == 0:
        return (0, None) if lower == 0 else None
    lower = min(lower, 1) if greatest is None else -(-lower // greatest)
    upper = None if least == 0 or upper is None else upper // least
    return None if upper is not None and upper < lower else (lower, upper)


def makes_one(shape, low, high):
    """Whether 1 is in the interval of a Shape with these counts."""
    span = interval(shape.body, low, high) if shape.body else (1, 1)
    return span is not None and span[0] <= 1 and (span[1] is None or span[1] >= 1)


class View:
    """What one record, or the claims, may use of all records: the tests are of a stratum, and of a stratum and a rank."""

    def __init__(self, checker, sees_plus, sees_minus):
        self.checker, self.sees_plus, self.sees_minus, self.kept = checker, sees_plus, sees_minus, {}

    def pair(self, node, shape):
        """The verdict on a pair."""
        level, rank = self.checker.strata[shape], self.checker.minus.get((node, shape))
        if (node, shape) in self.checker.plus and self.sees_plus(level):
            return YES
        return NO if rank is not None and self.sees_minus(level, rank) else UNKNOWN

    def verdict(self, node, expr):
        """The verdict on an expression, which is kept for the next time; on an absent value it is Yes."""
        if expr is None:
            return YES
        if (node, id(expr)) not in self.kept:
            self.kept[node, id(expr)] = self.find(node, *expr)
        return self.kept[node, id(expr)]

    def find(self, node, kind, content):
        """The verdict on an expression of this kind."""
        if kind == "shape":
            return self.pair(node, content)
        if kind == "node":
            return YES if content.holds(node) else NO
        if kind == "ref":
            return self.verdict(node, self.checker.schema.labels[content])
        if kind == "not":
            return {YES: NO, NO: YES, UNKNOWN: UNKNOWN}[self.verdict(node, content)]
        verdicts = {self.verdict(node, member) for member in content}
        return next(v for v in ((NO, UNKNOWN, YES) if kind == "and" else (YES, UNKNOWN, NO)) if v in verdicts)


Arc = namedtuple("Arc", "triple fitting")  # a relevant triple of a node, and the occurrences that fit it


class Checker:
    """A proof that is held against a schema and data."""

    def __init__(self, schema, graph, strata, proof):
        self.schema, self.graph, self.strata, self.proof = schema, graph, strata, proof
        self.plus, self.minus = set(), {}
        for record in proof.records:
            if record.node < len(proof.nodes):
                pair = (proof.nodes[record.node], record.shape)
                if record.places is None:
                    self.minus[pair] = min(record.rank, self.minus.get(pair, record.rank))
                else:
                    self.plus.add(pair)
        self.whole = View(self, lambda level: True, lambda level, rank: True)

    def relevant(self, node, shape):
        """The relevant triples of a node in order, and whether the pair is shut."""
        arcs, is_shut = [], False
        for triple in self.graph.outs.get(node, []) + self.graph.ins.get(node, []):
            ends = {True: triple.o == node, False: triple.s == node}
            fitting = [i for i, o in enumerate(shape.occurrences) if o.predicate == triple.p.value and ends[o.inverse]]
            if fitting:
                arcs.append(Arc(triple, fitting))
            elif ends[False] and shape.closed:
                is_shut = True
        return arcs, is_shut

    def is_allowed(self, node, shape, arc, place, may_hold, may_fail):
        """Whether a place is allowed for a relevant triple, where the two tests say what a value may do at a node."""
        triple, fitting = arc
        if place != REST:
            occurrence = shape.occurrences[place] if place in fitting else None
            return occurrence is not None and may_hold(triple.s if occurrence.inverse else triple.o, occurrence.value)
        if triple.s != node:
            return True
        forward = [shape.occurrences[i].value for i in fitting if not shape.occurrences[i].inverse]
        if not forward:
            return not shape.closed
        return triple.p.value in shape.extra and all(may_fail(triple.o, value) for value in forward)

    def confirm_fails(self, record, node, shape):
        """The first check of a `+` record's places that fails, if one does."""
        arcs, is_shut = self.relevant(node, shape)
        view = View(self, lambda level: level <= record.stratum, lambda level, rank: level < record.stratum)

        def are_allowed(may_hold, may_fail):
            pairs = zip(arcs, record.places)
            return all(self.is_allowed(node, shape, arc, place, may_hold, may_fail) for arc, place in pairs)

        if is_shut or len(arcs) != len(record.places) or not are_allowed(lambda *_: True, lambda *_: True):
            return "Places"
        if not are_allowed(lambda *value: view.verdict(*value) == YES, lambda *value: view.verdict(*value) == NO):
            return "Value"
        counts = [record.places.count(i) for i in range(len(shape.occurrences))]
        return None if makes_one(shape, counts, counts) else "Counts"

    def refute_fails(self, record, node, shape):
        """The check of a `-` record's states, if it fails."""
        arcs, is_shut = self.relevant(node, shape)
        if is_shut:
            return None
        k, width, listed = record.stratum, len(shape.occurrences), set(record.states)
        view = View(self, lambda level: level < k, lambda level, rank: level < k or (level == k and rank < record.rank))
        later = [[0] * width]  # for each number of triples done, how many later ones each occurrence fits
        for arc in reversed(arcs):
            later.append([count + (i in arc.fitting) for i, count in enumerate(later[-1])])
        later.reverse()

        def is_dead(done, counts):
            return not makes_one(shape, counts, [count + more for count, more in zip(counts, later[done])])

        def leads_out(done, counts, place):
            allowed = self.is_allowed(
                node, shape, arcs[done], place, lambda *v: view.verdict(*v) != NO, lambda *v: view.verdict(*v) != YES
            )
            after = tuple(count + (i == place) for i, count in enumerate(counts))
            return allowed and (done + 1, after) not in listed and not is_dead(done + 1, after)

        for done, counts in record.states:
            if len(counts) != width or max(done, *counts, 0) > len(arcs):
                return "States"
        opening = (0, (0,) * width)
        if opening not in listed and not is_dead(*opening):
            return "States"
        for done, counts in record.states:
            if is_dead(done, counts):
                continue
            if done == len(arcs) or any(leads_out(done, counts, place) for place in [*arcs[done].fitting, REST]):
                return "States"
        return None

    def record_fails(self, record):
        """The first check of a record that fails, if one does."""
        if record.node >= len(self.proof.nodes):
            return "Node"
        if record.shape >= len(self.schema.shapes):
            return "Shape"
        if self.strata[record.shape] != record.stratum:
            return "Stratum"
        fails = self.refute_fails if record.places is None else self.confirm_fails
        return fails(record, self.proof.nodes[record.node], self.schema.shapes[record.shape])

    def claim_fails(self, claim):
        """The first check of a claim that fails, if one does."""
        holds, node, target = claim
        if node >= len(self.proof.nodes):
            return "Node"
        expr = self.schema.labels.get(target)
        is_sure = expr is not None and self.whole.verdict(self.proof.nodes[node], expr) == (YES if holds else NO)
        return None if is_sure else "Claim"

    def check(self):
        """Refuses the first record or claim that fails."""
        items = [(self.record_fails, item) for item in self.proof.records]
        items += [(self.claim_fails, item) for item in self.proof.claims]
        for place, (fails, item) in enumerate(items):
            why = fails(item)
            if why:
                raise Refused(f"Rejected({place},{why})")


Files = namedtuple("Files", "schema strata graph digests")  # what a proof is held against


def read_files(words):
    """Reads schema and data as the words ask."""
    imports = {}
    for word in words.imports:
        iri, _, file = word.rpartition("=")
        need(iri and file and iri not in imports, f"the word {word}")
        imports[iri] = file
    schema, digests = read_schema(words.schema, imports, words.schema_base)
    strata = schema.strata()
    with open(words.data, "rb") as stream:
        data = stream.read()
    graph = read_graph(words.data, data, words.data_base)
    digests = {"schema": digests[:1], "import": digests[1:], "data": [hashlib.sha256(data).hexdigest()]}
    return Files(schema, strata, graph, digests)


def check(source, files):
    """Holds the text of a proof against files, and gives its claims as a result shape map."""
    proof, strata = Proof(source), files.strata
    if proof.files is not None:
        for part, digests in files.digests.items():
            if proof.files[part[0]] != digests:
                raise Refused(f"Stale({part})")
        if not files.schema.is_stratified(proof.strata):
            raise Refused("Strata")
        strata = proof.strata
    Checker(files.schema, files.graph, strata, proof).check()
    lines = [f"{proof.nodes[node].text()}@{'' if holds else '!'}{target}" for holds, node, target in proof.claims]
    return ",\n".join(lines) + ("\n" if lines else "")


def base_of(word):
    """A base of the words."""
    expect(is_base(word))
    return word


def words_of(arguments):
    """The words of a call."""
    parser = argparse.ArgumentParser(description="A second checker of the proofs of shex.", allow_abbrev=False)
    for name in ("--schema", "--data", "--proof"):
        parser.add_argument(name, required=True, metavar="F")
    for name in ("--schema-base", "--data-base"):
        parser.add_argument(name, default="http://localhost/", type=base_of, metavar="I")
    parser.add_argument("imports", nargs="*", metavar="IRI=FILE")
    return parser.parse_args(arguments)


def answer(words, read=read_files):
    """What comes of the words: the status, and the text for standard output or, where it is not 0, for standard error."""
    sys.setrecursionlimit(20000)
    try:
        files = read(words)
        with open(words.proof, "rb") as stream:
            return 0, f"accepted\n{check(stream.read(), files)}"
    except Unsupported as error:
        return 3, f"unsupported: {error}\n"
    except RecursionError:
        return 3, "unsupported: expressions that are too deep\n"
    except OSError as error:
        return 5, f"check_proof: {error.filename}: Failed\n"
    except Refused as error:
        return 6, f"check_proof: {words.proof}: {error}\n"


def main():
    """Prints what comes of the words, and ends with 0, 2, 3, 5 or 6."""
    status, text = answer(words_of(None))
    stream = sys.stderr if status else sys.stdout
    stream.buffer.write(text.encode("utf-8", "surrogateescape"))
    return status


if __name__ == "__main__":
    sys.exit(main())
