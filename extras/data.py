"""Data in N-Triples (RDF 1.1 N-Triples) and in Turtle (RDF 1.1 Turtle, section 6.5), and the graph that they are."""

import re

from terms import RDF, SCHEME, STRING, Term, Triple, Unsupported, decoded, expect, labelled, need, tagged, typed
from tokens import ECHAR, IRIREF, NAME, NAME_START, TURTLE, UCHAR, Cursor, Language, unescaped, unescaped_iri

# ---- N-Triples

BNODE = rf"_:[{NAME_START}:](?:[{NAME}:.]*[{NAME}:])?"
QUOTED = rf'"(?:[^"\\\n\r]|{ECHAR}|{UCHAR})*"'
LITERAL = rf"{QUOTED}(?:[ \t]*@[A-Za-z]+(?:-[A-Za-z0-9]+)*|[ \t]*\^\^[ \t]*{IRIREF})?"
END = r"[ \t]*(?:#.*)?"
LINE = re.compile(rf"[ \t]*({IRIREF}|{BNODE})[ \t]*({IRIREF})[ \t]*({IRIREF}|{BNODE}|{LITERAL})[ \t]*\.{END}")


def absolute_iri(token):
    """The IRI of a token of N-Triples, which has a scheme."""
    iri = unescaped_iri(token)
    expect(SCHEME.match(iri))
    return iri


def term_of(token):
    """The term of a token, or of a literal's tokens, of N-Triples."""
    if token.startswith("<"):
        return Term("iri", absolute_iri(token))
    if token.startswith("_:"):
        return labelled(token[2:])
    string = re.match(QUOTED, token)[0]
    lex, suffix = unescaped(string[1:-1]), token[len(string) :].strip(" \t")
    if suffix.startswith("@"):
        return tagged(lex, suffix[1:])
    return typed(lex, absolute_iri(suffix[2:].strip(" \t")) if suffix else STRING)


def read_ntriples(text):
    """The triples of a document in N-Triples."""
    for line in re.split(r"[\r\n]+", text):
        match = LINE.fullmatch(line)
        expect(match or re.fullmatch(END, line))
        if match:
            yield Triple(*map(term_of, match.groups()))


# ---- Turtle


class TurtleReader(Cursor):
    """A reader of Turtle, which collects the triples and numbers the blank nodes without a label."""

    language, language_name = Language(TURTLE), "Turtle"

    def __init__(self, file, text, base):
        super().__init__(file, text, base)
        self.triples, self.last_number = [], 0

    def add(self, subject, predicate, term):
        """A triple of the document."""
        self.triples.append(Triple(subject, Term("iri", predicate), term))

    def unlabelled(self):
        """The next blank node without a label."""
        self.last_number += 1
        return Term("bnode", f"anon{self.last_number}")

    def document(self):
        """turtleDoc: its triples."""
        while self.now.kind is not None:
            self.statement()
        return self.triples

    def statement(self):
        """statement: a directive, or triples and a dot."""
        is_tag = self.now.kind == "tag"
        if self.is_word("prefix") or (is_tag and self.now.text == "@prefix"):
            self.step()
            self.prefix_directive()
        elif self.is_word("base") or (is_tag and self.now.text == "@base"):
            self.step()
            self.base_directive()
        else:
            self.subject_and_predicates()
            self.mark(".")
        if is_tag:
            self.mark(".")

    def subject_and_predicates(self):
        """triples: a subject and its predicates, which only a list that has some itself may do without."""
        if self.is_mark("["):
            subject, has_predicates = self.node_list()
            if has_predicates and not self.is_verb():
                return
        elif self.is_mark("("):
            subject = self.collection()
        else:
            subject = self.resource()
        self.predicates(subject)

    def is_verb(self):
        """Whether the token begins a verb."""
        return self.is_type() or self.is_iri()

    def predicates(self, subject):
        """predicateObjectList: a verb and its objects, and behind each semicolon others or none."""
        self.objects(subject, self.predicate())
        while self.is_mark(";"):
            self.step()
            if self.is_verb():
                self.objects(subject, self.predicate())

    def objects(self, subject, predicate):
        """objectList."""
        self.add(subject, predicate, self.object())
        while self.is_mark(","):
            self.step()
            self.add(subject, predicate, self.object())

    def object(self):
        """object."""
        if self.is_mark("["):
            return self.node_list()[0]
        if self.is_mark("("):
            return self.collection()
        return self.literal() if self.is_literal() else self.resource()

    def resource(self):
        """iri, or BLANK_NODE_LABEL."""
        if self.now.kind == "bnode":
            return labelled(self.step()[2:])
        return Term("iri", self.iri())

    def node_list(self):
        """blankNodePropertyList or ANON: the node, which is numbered at the bracket, and whether it has predicates there."""
        self.open("[")
        node, has_predicates = self.unlabelled(), not self.is_mark("]")
        if has_predicates:
            self.predicates(node)
        self.close("]")
        return node, has_predicates

    def collection(self):
        """collection: its first cell, or rdf:nil; a cell is numbered before the member in it."""
        self.open("(")
        first = cell = None
        while not self.is_mark(")"):
            last, cell = cell, self.unlabelled()
            if last is None:
                first = cell
            else:
                self.add(last, RDF + "rest", cell)
            self.add(cell, RDF + "first", self.object())
        self.close(")")
        nil = Term("iri", RDF + "nil")
        if cell is None:
            return nil
        self.add(cell, RDF + "rest", nil)
        return first


# ---- graphs


class Graph:
    """The arcs out and in of each node, in order; a triple of a node with itself is an arc out."""

    def __init__(self, triples):
        self.outs, self.ins, triples = {}, {}, set(triples)
        for t in sorted(triples, key=lambda t: (t.p.text(), t.o.text())):
            self.outs.setdefault(t.s, []).append(t)
        for t in sorted(triples, key=lambda t: (t.p.text(), t.s.text())):
            if t.s != t.o:
                self.ins.setdefault(t.o, []).append(t)


def read_graph(name, source, base):
    """The graph of a file: Turtle where its name ends in `.ttl`, N-Triples where it ends in `.nt`."""
    need(name.endswith((".nt", ".ttl")), f"{name}: data in a file that ends neither in .nt nor in .ttl")
    text = decoded(name, source)
    if name.endswith(".ttl"):
        return Graph(TurtleReader(name, text, base).read())
    try:
        return Graph(read_ntriples(text))
    except ValueError:
        raise Unsupported(f"{name}: no N-Triples") from None
