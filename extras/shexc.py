"""Schemas in ShExC (ShEx 2.1, section 6), read as the documents in ShExJ (appendix A) that they stand for.

What the project leaves out of ShExC, and how it reads what the standard leaves open, docs/DECISIONS.md says. The number of a
range facet is a decimal here.
"""

import re
from decimal import Decimal

from constraints import DIGITS, LENGTHS, RANGES
from terms import expect, need
from tokens import LINE_COMMENT, PREFIXED, TURTLE, Cursor, Language

ESCAPED = r"\\(?s:.)"
SHEXC = {
    "at_name": "@" + PREFIXED,
    "pattern": rf"/(?:[^/*\\\n\r]|{ESCAPED})(?:[^/\\\n\r]|{ESCAPED})*/[a-z]*",
    **TURTLE,
    "mark": r"[.;,\[\](){}|~=$&*?%@+-]|\^\^?|//",
}
BLOCK_COMMENT = r"/\*(?s:.*?)\*/"
NODE_KINDS = ("iri", "bnode", "nonliteral")
LEFT_OUT = ("external", "abstract", "extends", "restricts")


def pattern_parts(token):
    """The text and the flags of a pattern between slashes; `\\/` and numeric escapes stand for their characters."""

    def meant(match):
        code = match[1]
        if code == "/":
            return "/"
        if len(code) == 1:
            return match[0]
        expect(not 0xD800 <= int(code[1:], 16) <= 0xDFFF)
        return chr(int(code[1:], 16))

    text, _, flags = token[1:].rpartition("/")
    return re.sub(r"\\(u[0-9A-Fa-f]{4}|U[0-9A-Fa-f]{8}|(?s:.))", meant, text), flags


def literal_object(term):
    """A literal as ShExJ has it among values."""
    return {"value": term.value, **({"type": term.datatype} if term.tag is None else {"language": term.tag})}


def is_bare(expression):
    """Whether a triple expression in brackets takes their cardinality and label itself."""
    if isinstance(expression, str) or "id" in expression:
        return False
    return (expression.get("min", 1), expression.get("max", 1)) == (1, 1)


class ShExCReader(Cursor):
    """A reader of ShExC.

    The flag `inline` stands for the value of a triple constraint outside brackets: there an annotation is the constraint's,
    and a brace before an integer begins a cardinality.
    """

    language, language_name = Language(SHEXC, f"{LINE_COMMENT}|{BLOCK_COMMENT}"), "ShExC"

    # ---- documents

    def document(self):
        """shexDoc: a Schema."""
        schema = {"type": "Schema", "imports": [], "shapes": []}
        while self.now.kind is not None:
            self.statement(schema)
        return schema

    def statement(self, schema):
        """directive, start, or shapeExprDecl."""
        if self.is_word("base"):
            self.step()
            self.base_directive()
        elif self.is_word("prefix"):
            self.step()
            self.prefix_directive()
        elif self.is_word("import"):
            self.step()
            schema["imports"].append(self.iri())
        elif self.is_word("start"):
            expect("start" not in schema)
            self.step()
            self.mark("=")
            schema["start"] = self.expression(inline=False)
        else:
            label = self.label()
            schema["shapes"].append({"type": "ShapeDecl", "id": label, "shapeExpr": self.expression(inline=False)})

    def fault(self):
        """What is at fault; semantic actions, and words that the project leaves out, by their names."""
        if self.is_mark("%"):
            return "semantic actions"
        return f"the word {self.now.text}" if self.is_word(*LEFT_OUT) else super().fault()

    def label(self):
        """shapeExprLabel, tripleExprLabel: an IRI, or the label of a blank node."""
        return self.step() if self.now.kind == "bnode" else self.iri()

    # ---- shape expressions

    def expression(self, inline):
        """shapeOr, inlineShapeOr."""
        return self.joined("or", "ShapeOr", lambda: self.joined("and", "ShapeAnd", lambda: self.negation(inline)))

    def joined(self, word, kind, member):
        """One member, or several with a word between them."""
        members = [member()]
        while self.is_word(word):
            self.step()
            members.append(member())
        return members[0] if len(members) == 1 else {"type": kind, "shapeExprs": members}

    def negation(self, inline):
        """shapeNot."""
        if not self.is_word("not"):
            return self.atom(inline)
        self.step()
        return {"type": "ShapeNot", "shapeExpr": self.atom(inline)}

    def atom(self, inline):
        """shapeAtom: a constraint, a Shape or a reference, two of them, brackets, or a dot."""
        if self.is_shape_or_reference(inline):
            first = self.shape_or_reference(inline)
            return self.both(first, self.non_literal(inline)) if self.is_non_literal() else first
        if self.is_non_literal():
            first = self.non_literal(inline)
            return self.both(first, self.shape_or_reference(inline)) if self.is_shape_or_reference(inline) else first
        if self.is_mark("("):
            self.open("(")
            expression = self.expression(inline=False)
            self.close(")")
            return expression
        if self.is_mark("."):
            self.step()
            return {"type": "Shape"}
        return self.literal_constraint(inline)

    def both(self, first, second):
        """Two parts of an atom together."""
        return {"type": "ShapeAnd", "shapeExprs": [first, second]}

    def is_shape_or_reference(self, inline):
        """Whether the token begins a Shape or a reference."""
        if self.is_mark("{"):
            return not inline or self.next_but_one().kind != "integer"
        return self.is_word("extra", "closed") or self.is_mark("@") or self.now.kind == "at_name"

    def shape_or_reference(self, inline):
        """shapeOrRef."""
        if self.now.kind == "at_name":
            iri = self.name_iri(self.now.text[1:])
            self.step()
            return iri
        if self.is_mark("@"):
            self.step()
            return self.label()
        return self.shape(inline)

    def shape(self, inline):
        """shapeDefinition."""
        shape = {"type": "Shape", "closed": False, "extra": []}
        while not self.is_mark("{"):
            if self.is_word("closed"):
                self.step()
                shape["closed"] = True
            else:
                expect(self.is_word("extra"))
                self.step()
                shape["extra"].append(self.predicate())
                while self.is_type() or self.is_iri():
                    shape["extra"].append(self.predicate())
        self.open("{")
        if not self.is_mark("}"):
            shape["expression"] = self.alternatives()
        self.close("}")
        self.annotations_of_atom(inline)
        return shape

    def annotations_of_atom(self, inline):
        """Annotations of an atom, where they may stand; they are dropped."""
        if not inline:
            self.annotations()

    def annotations(self):
        """annotation: `//`, a predicate, and an IRI or a literal, any number of times; they are dropped."""
        while self.is_mark("//"):
            self.step()
            self.predicate()
            self.iri_or_literal()

    def iri_or_literal(self):
        """An IRI, or a literal, as ShExJ has it among values."""
        return literal_object(self.literal()) if self.is_literal() else self.iri()

    # ---- triple expressions

    def alternatives(self):
        """oneOfTripleExpr."""
        members = [self.group()]
        while self.is_mark("|"):
            self.step()
            members.append(self.group())
        return members[0] if len(members) == 1 else {"type": "OneOf", "expressions": members}

    def group(self):
        """groupTripleExpr: members with semicolons between them, and perhaps one behind the last."""
        members = [self.unary()]
        while self.is_mark(";"):
            self.step()
            if self.is_mark("|", "}", ")"):
                break
            members.append(self.unary())
        return members[0] if len(members) == 1 else {"type": "EachOf", "expressions": members}

    def unary(self):
        """unaryTripleExpr: an inclusion; or a triple constraint or brackets, perhaps with a label."""
        if self.is_mark("&"):
            self.step()
            return self.label()
        label = {}
        if self.is_mark("$"):
            self.step()
            label = {"id": self.label()}
        return self.bracketed(label) if self.is_mark("(") else {**self.triple_constraint(), **label}

    def bracketed(self, label):
        """bracketedTripleExpr: what stands in the brackets, or an EachOf of it alone where it cannot take label and number."""
        self.open("(")
        inner = self.alternatives()
        self.close(")")
        count = self.cardinality()
        self.annotations()
        if not label and not count:
            return inner
        return {**(inner if is_bare(inner) else {"type": "EachOf", "expressions": [inner]}), **count, **label}

    def triple_constraint(self):
        """tripleConstraint."""
        constraint = {"type": "TripleConstraint"}
        if self.is_mark("^"):
            self.step()
            constraint["inverse"] = True
        constraint["predicate"] = self.predicate()
        if self.is_mark(".") and not self.is_before_connective():
            self.step()
        else:
            constraint["valueExpr"] = self.expression(inline=True)
        constraint.update(self.cardinality())
        self.annotations()
        return constraint

    def is_before_connective(self):
        """Whether the token is in front of AND or OR."""
        _, text, *_ = self.next_but_one()
        return text.lower() in ("and", "or")

    def cardinality(self):
        """cardinality, or nothing."""
        if self.is_mark("*", "+", "?"):
            least, greatest = {"*": (0, -1), "+": (1, -1), "?": (0, 1)}[self.step()]
        elif self.is_mark("{"):
            self.open("{")
            least, greatest = self.limits()
            self.close("}")
        else:
            return {}
        return {"min": least, "max": greatest}

    def limits(self):
        """repeatRange between its braces: least and greatest, which is -1 where there is no bound."""
        least = self.limit()
        if not self.is_mark(","):
            return least, least
        self.step()
        if self.is_mark("*"):
            self.step()
            return least, -1
        return least, -1 if self.is_mark("}") else self.limit()

    def limit(self):
        """A number of a cardinality, which has no sign."""
        expect(self.now.kind == "integer" and self.now.text.isdigit())
        return int(self.step())

    # ---- node constraints

    def is_non_literal(self):
        """Whether the token begins a constraint on nodes of any kind."""
        return self.is_word(*NODE_KINDS, *LENGTHS) or self.now.kind == "pattern"

    def non_literal(self, inline):
        """nonLitNodeConstraint: a kind of node and facets on texts, or such facets alone."""
        constraint = {"type": "NodeConstraint"}
        if self.is_word(*NODE_KINDS):
            constraint["nodeKind"] = self.step().lower()
        self.facets(constraint, LENGTHS)
        self.annotations_of_atom(inline)
        return constraint

    def literal_constraint(self, inline):
        """litNodeConstraint: LITERAL, a datatype or a value set with any facets, or facets on numbers alone."""
        constraint = {"type": "NodeConstraint"}
        if self.is_word(*RANGES, *DIGITS):
            self.facets(constraint, RANGES + DIGITS)
        else:
            if self.is_word("literal"):
                constraint["nodeKind"] = self.step().lower()
            elif self.is_mark("["):
                constraint["values"] = self.value_set()
            else:
                constraint["datatype"] = self.iri()
            self.facets(constraint, LENGTHS + RANGES + DIGITS)
        self.annotations_of_atom(inline)
        return constraint

    def facets(self, constraint, words):
        """Facets of these words, and patterns where those are on texts, each at most once."""
        while self.is_word(*words) or (self.now.kind == "pattern" and "length" in words):
            if self.now.kind == "pattern":
                self.pattern(constraint)
            else:
                name = self.now.text.lower()
                expect(name not in constraint)
                self.step()
                constraint[name] = self.range_number() if name in RANGES else self.whole_number()

    def pattern(self, constraint):
        """REGEXP."""
        expect("pattern" not in constraint)
        constraint["pattern"], flags = pattern_parts(self.now.text)
        if flags:
            constraint["flags"] = flags
        self.step()

    def range_number(self):
        """The number of a facet on the order of numbers, which has no exponent."""
        need(self.now.kind != "double", f"{self.file}: a facet on floating-point numbers")
        expect(self.now.kind in ("integer", "decimal"))
        return Decimal(self.step())

    def whole_number(self):
        """The number of a facet on lengths or digits."""
        expect(self.now.kind == "integer")
        return int(self.step())

    # ---- values

    def value_set(self):
        """valueSet."""
        self.mark("[")
        values = []
        while not self.is_mark("]"):
            values.append(self.value())
        self.mark("]")
        return values

    def value(self):
        """valueSetValue: a value, a stem of it, or a range; behind a dot a range without a stem."""
        if self.is_mark("."):
            self.step()
            expect(self.is_mark("-"))
            sort = self.sort(self.next_but_one().kind)
            return {"type": sort + "StemRange", "stem": {"type": "Wildcard"}, "exclusions": self.exclusions(sort)}
        if self.is_mark("@"):
            self.step()
            expect(self.is_mark("~"))
            return self.stem("Language", "")
        sort = self.sort(self.now.kind)
        value, text = self.exact(sort)
        return self.stem(sort, text) if self.is_mark("~") else value

    def sort(self, kind):
        """Whether values that begin with such a token are IRIs, literals or language tags, by their names in ShExJ."""
        return "Iri" if kind in ("iri", "name") else "Language" if kind == "tag" else "Literal"

    def exact(self, sort):
        """A single value as ShExJ has it, and the text by which stems and exclusions go."""
        if sort == "Iri":
            iri = self.iri()
            return iri, iri
        if sort == "Literal":
            term = self.literal()
            return literal_object(term), term.value
        expect(self.now.kind == "tag")
        tag = self.step()[1:]
        return {"type": "Language", "languageTag": tag}, tag

    def stem(self, sort, text):
        """A stem, or a range with exclusions, from the tilde on."""
        self.mark("~")
        exclusions = self.exclusions(sort)
        if not exclusions:
            return {"type": sort + "Stem", "stem": text}
        return {"type": sort + "StemRange", "stem": text, "exclusions": exclusions}

    def exclusions(self, sort):
        """iriExclusion, literalExclusion, languageExclusion, any number of times."""
        exclusions = []
        while self.is_mark("-"):
            self.step()
            _, text = self.exact(sort)
            if self.is_mark("~"):
                self.step()
                text = {"type": sort + "Stem", "stem": text}
            exclusions.append(text)
        return exclusions
