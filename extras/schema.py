"""Schemas (ShEx 2.1): the documents in ShExJ (appendix A) or ShExC and those that they import, as Shapes by number."""

import hashlib
import json
from collections import namedtuple
from decimal import Decimal

from constraints import DIGITS, LENGTHS, RANGES, Constraint
from patterns import read_pattern
from shexc import ShExCReader
from terms import LANG_STRING, MOST, STRING, XSD, Term, Unsupported, ascii_lower, decoded, expect, need, resolve

# ---- objects of ShExJ


def is_text(value):
    """Whether a value is a text."""
    return isinstance(value, str)


def is_whole(low, high):
    """The form of whole numbers within limits."""
    return lambda value: type(value) is int and low <= value <= high


COUNTS = LENGTHS + DIGITS
KEY_FORMS = {  # the forms of values under keys
    "id predicate datatype pattern flags value language languageTag type": is_text,
    "imports extra": lambda value: isinstance(value, list) and all(map(is_text, value)),
    "min " + " ".join(COUNTS): is_whole(0, MOST),
    "max": is_whole(-1, MOST),
    " ".join(RANGES): lambda value: isinstance(value, Decimal) or is_whole(-(2**63), 2**64 - 1)(value),  # a Decimal is of ShExC
    "closed inverse": lambda value: isinstance(value, bool),
    "abstract": lambda value: value is False,
    "startActs semActs": lambda value: value == [],
    "annotations shapes values exclusions": lambda value: isinstance(value, list),
    "shapeExprs expressions": lambda value: isinstance(value, list) and value,
    "nodeKind": lambda value: value in ("iri", "bnode", "nonliteral", "literal"),
}
KEY_FORMS = {key: is_form for keys, is_form in KEY_FORMS.items() for key in keys.split()}
NOTES, CARDINALITY = "semActs annotations ", "id min max semActs annotations"
KEYS = {  # the keys of objects by their types
    "Schema": "@context imports startActs start shapes",
    "ShapeDecl": "id shapeExpr abstract",
    "ShapeAnd": "shapeExprs",
    "ShapeOr": "shapeExprs",
    "ShapeNot": "shapeExpr",
    "NodeConstraint": NOTES + "nodeKind datatype pattern flags values " + " ".join(COUNTS + RANGES),
    "Shape": NOTES + "closed extra expression",
    "EachOf": "expressions " + CARDINALITY,
    "OneOf": "expressions " + CARDINALITY,
    "TripleConstraint": "inverse predicate valueExpr " + CARDINALITY,
    "Language": "languageTag",
    "Wildcard": "",
}
KEYS.update({sort + "Stem": "stem" for sort in ("Iri", "Literal", "Language")})
KEYS.update({sort + "StemRange": "stem exclusions" for sort in ("Iri", "Literal", "Language")})


def object_of(value, kinds, *required, own="", keys=None):
    """An object of one of the types, with no other keys than theirs, the required ones, and values of their forms."""
    need(isinstance(value, dict) and (keys or value.get("type") in kinds), f"a schema with something that is none of {kinds}")
    for key in value:
        need(key in f"type {own} {keys or KEYS[value['type']]}".split(), f"a schema with the key {key}")
        need(key not in KEY_FORMS or KEY_FORMS[key](value[key]), f"a schema with a faulty {key}")
    for key in required:
        need(key in value, f"a schema without a {key}")
    return value


def read_value(value):
    """A value of a value set."""
    if is_text(value):
        return Term("iri", value)
    kind = value.get("type") if isinstance(value, dict) else None
    if not is_text(kind) or kind not in KEYS or not kind.startswith(("Iri", "Literal", "Language", "Wildcard")):
        object_of(value, (), "value", keys="value language")
        if "language" in value:
            need(kind in (None, LANG_STRING), "a literal with a tag and a datatype")
            return Term("literal", value["value"], LANG_STRING, ascii_lower(value["language"]))
        need(kind != LANG_STRING, "a literal of rdf:langString without a tag")
        return Term("literal", value["value"], STRING if kind is None else kind)
    if kind == "Language":
        return ("Language", ascii_lower(object_of(value, [kind], "languageTag")["languageTag"]), True, [])
    sort = kind.partition("Stem")[0]
    object_of(value, [sort + "Stem", sort + "StemRange"], "stem")
    taken = ascii_lower if sort == "Language" else str
    is_open = kind.endswith("Range") and value["stem"] == {"type": "Wildcard"}
    need(value.get("exclusions") if is_open else is_text(value["stem"]), "a faulty stem, or a wildcard without exclusions")
    exclusions = []
    for item in value.get("exclusions", []):
        other = item if is_text(item) else object_of(item, [sort + "Stem"], "stem")["stem"]
        need(is_text(other), "a faulty exclusion")
        exclusions.append((is_text(item), taken(other)))
    return (sort, None if is_open else taken(value["stem"]), False, exclusions)


def read_constraint(value):
    """A node constraint, whose keys are tested."""
    facets = [(key, value[key]) for key in COUNTS + RANGES if key in value]
    on_floats = value.get("datatype") in (XSD + "float", XSD + "double")
    need(not on_floats or all(key.endswith("length") for key, _ in facets), "a numeric facet on floating-point numbers")
    need("flags" not in value or "pattern" in value, "flags without a pattern")
    if "pattern" in value:
        facets.append(("pattern", read_pattern(value["pattern"], value.get("flags", ""))))
    values = [read_value(item) for item in value["values"]] if "values" in value else None
    return Constraint(value.get("nodeKind"), value.get("datatype"), facets, values)


def label_of(text):
    """A label as a target of a proof writes it."""
    return text if text.startswith("_:") else f"<{text}>"


Occurrence = namedtuple("Occurrence", "inverse predicate value")


class Shape:
    """A Shape; its body and its occurrences are unfolded from its tree when all documents are read."""

    def __init__(self, closed, extra):
        self.closed, self.extra, self.tree, self.body, self.occurrences = closed, set(extra), None, None, []


def finite(digits):
    """The number of digits that stand for no infinite one in 64 bits."""
    number = float(digits)
    expect(abs(number) != float("inf"))
    return number


def whole(digits):
    """The integer of digits; `-0` is none."""
    number = finite(digits)
    return number if digits == "-0" else int(digits)


def depth(value):
    """How many lists and objects of a JSON value stand in one another."""
    parts = value.values() if isinstance(value, dict) else value if isinstance(value, list) else None
    return 0 if parts is None else 1 + max(map(depth, parts), default=0)


def read_json(name, text):
    """The JSON value of a document, of which at most 127 lists and objects stand in one another."""
    try:
        value = json.loads(text, parse_constant=lambda _: expect(False), parse_int=whole, parse_float=finite)
        json.dumps(value, ensure_ascii=False).encode("utf-8")  # a text with half a surrogate pair is none
        expect(depth(value) <= 127)
        return value
    except (ValueError, RecursionError):
        raise Unsupported(f"{name}: no JSON") from None


class Schema:
    """The Shapes by number, the expressions and triple expressions by label, and the labels that are referred to.

    An expression is ("and" or "or", members), ("not", expression), ("node", constraint), ("shape", number) or ("ref", label).
    """

    def __init__(self):
        self.shapes, self.labels, self.groups, self.references, self.inclusions = [], {}, {}, [], []
        self.known, self.depths = {}, {}  # what was found of labels

    def document(self, value, deepest, is_root):
        """Reads a document, and gives its imports; the start is that of the root alone."""
        object_of(value, ["Schema"])
        if "start" in value:
            start = (self if is_root else Schema()).expr(value["start"], deepest)
            self.labels.update({"START": start} if is_root else {})
        for item in value.get("shapes", []):
            decl = object_of(item, [kind for kind in KEYS if kind.startswith(("Shape", "Node"))], "id", own="id")
            label = label_of(decl["id"])
            is_decl = decl["type"] == "ShapeDecl"
            expr = self.expr(decl.get("shapeExpr"), deepest) if is_decl else self.expr(decl, deepest, own="id")
            need(label not in self.labels, f"a schema that declares {label} twice")
            self.labels[label] = expr
        return value.get("imports", [])

    def expr(self, value, depth, own=""):
        """A shape expression, in which expressions stand in one another to this depth at most."""
        if is_text(value):
            self.references.append(label_of(value))
            return ("ref", label_of(value))
        need(depth > 0, "a schema that is too deep")
        kind = object_of(value, ["ShapeAnd", "ShapeOr", "ShapeNot", "NodeConstraint", "Shape"], own=own)["type"]
        if kind == "NodeConstraint":
            return ("node", read_constraint(value))
        if kind == "ShapeNot":
            return ("not", self.expr(object_of(value, [kind], "shapeExpr", own=own)["shapeExpr"], depth - 1))
        if kind != "Shape":
            members = object_of(value, [kind], "shapeExprs", own=own)["shapeExprs"]
            return (kind[5:].lower(), [self.expr(member, depth - 1) for member in members])
        shape = Shape(value.get("closed", False), value.get("extra", []))
        self.shapes.append(shape)
        expr = ("shape", len(self.shapes) - 1)
        if "expression" in value:
            shape.tree = self.triple(value["expression"], depth - 1)
        return expr

    def triple(self, value, depth):
        """A triple expression: ("include", label), or (kind, members or occurrence, least, greatest or None)."""
        if is_text(value):
            self.inclusions.append(label_of(value))
            return ("include", label_of(value))
        need(depth > 0, "a schema that is too deep")
        kind = object_of(value, ["EachOf", "OneOf", "TripleConstraint"])["type"]
        if kind == "TripleConstraint":
            object_of(value, [kind], "predicate")
            wanted = self.expr(value["valueExpr"], depth - 1) if "valueExpr" in value else None
            content = Occurrence(value.get("inverse", False), value["predicate"], wanted)
        else:
            content = [self.triple(member, depth - 1) for member in object_of(value, [kind], "expressions")["expressions"]]
        least, greatest = value.get("min", 1), value.get("max", 1)
        need(greatest == -1 or least <= greatest, "a schema with a minimum above its maximum")
        tree = (kind, content, least, None if greatest == -1 else greatest)
        if "id" in value:
            need(label_of(value["id"]) not in self.groups, f"a schema that declares {value['id']} twice")
            self.groups[label_of(value["id"])] = tree
        return tree

    def finish(self):
        """Unfolds the Shapes when all documents are read, and tests what a schema has to meet."""
        for label in self.references:
            need(label in self.labels, f"a schema without {label}")
        for label in self.inclusions:
            need(label in self.groups, f"a schema without {label}")
        for tree in self.groups.values():
            self.unfold(tree, [], ())
        for shape in self.shapes:
            shape.body = self.unfold(shape.tree, shape.occurrences, ()) if shape.tree else None
        for label in self.labels:
            self.inside(("ref", label), ())
        values = [occurrence.value for shape in self.shapes for occurrence in shape.occurrences if occurrence.value]
        trees = [shape.tree for shape in self.shapes if shape.tree]
        need(all(self.depth(part) <= 256 for part in [*self.labels.values(), *values, *trees]), "a schema that is too deep")
        need(len(self.shapes) <= 4096, "a schema with more than 4,096 Shapes")

    def depth(self, part):
        """How deep an expression or a triple expression is, references and inclusions followed; a reference adds nothing."""
        kind, content = part[:2]
        if kind in ("ref", "include"):
            if (kind, content) not in self.depths:
                target = self.labels[content] if kind == "ref" else self.groups[content]
                self.depths[kind, content] = self.depth(target)
            return self.depths[kind, content] + (kind == "include")
        members = [content] if kind == "not" else content if kind in ("and", "or", "EachOf", "OneOf") else []
        return 1 + max(map(self.depth, members), default=0)

    def unfold(self, tree, occurrences, trail):
        """A triple expression over the numbers of occurrences, which are appended."""
        if tree[0] == "include":
            need(tree[1] not in trail, f"a schema in which {tree[1]} includes itself")
            return self.unfold(self.groups[tree[1]], occurrences, (*trail, tree[1]))
        kind, content, least, greatest = tree
        if kind != "TripleConstraint":
            return (kind, [self.unfold(member, occurrences, trail) for member in content], least, greatest)
        occurrences.append(content)
        need(len(occurrences) <= 256, "a Shape with more than 256 occurrences")
        return (kind, len(occurrences) - 1, least, greatest)

    def inside(self, expr, trail):
        """The Shapes in an expression, not passing into one, each with whether a ShapeNot stands on the way."""
        kind, content = expr
        if kind in ("shape", "node"):
            return {(content, False)} if kind == "shape" else set()
        if kind == "not":
            return {(shape, True) for shape, _ in self.inside(content, trail)}
        if kind != "ref":
            return set().union(*(self.inside(member, trail) for member in content))
        need(content not in trail, f"a schema in which {content} refers to itself")
        if content not in self.known:
            self.known[content] = self.inside(self.labels[content], (*trail, content))
        return self.known[content]

    def edges(self):
        """The edges between Shapes, as (from, to, whether it is negative)."""
        edges = set()
        for number, shape in enumerate(self.shapes):
            for occurrence in shape.occurrences:
                is_extra = not occurrence.inverse and occurrence.predicate in shape.extra
                found = self.inside(occurrence.value, ()) if occurrence.value else ()
                edges.update((number, other, is_not or is_extra) for other, is_not in found)
        return edges

    def strata(self):
        """The greatest number of negative edges on a path from each Shape."""
        levels, edges, is_new = [0] * len(self.shapes), self.edges(), True
        while is_new:
            is_new = False
            for s, t, sign in edges:
                if levels[t] + sign > levels[s]:
                    levels[s], is_new = levels[t] + sign, True
                    need(levels[s] < len(levels), "a schema with a circle of references and a negation in it")
        return levels

    def is_stratified(self, levels):
        """Whether the numbers are one for each Shape, never rise along an edge, and fall along a negative one."""
        return len(levels) == len(self.shapes) and all(levels[t] + sign <= levels[s] for s, t, sign in self.edges())


def read_document(name, source, base):
    """The document of a file as ShExJ has it, and how deep expressions may stand in one another there."""
    text = decoded(name, source)
    if name.endswith(".shex"):
        return ShExCReader(name, text, base).read(), float("inf")
    need(name.endswith((".json", ".shexj")), f"{name}: a schema in a file that ends in none of .shex, .json and .shexj")
    return read_json(name, text), 64


def read_schema(name, words, base):
    """The schema of a file and of the documents that it imports, breadth first, and the digests of the files."""
    schema, digests, bases = Schema(), [], {name: base}
    files = [name]
    for file in files:
        with open(file, "rb") as stream:
            source = stream.read()
        digests.append(hashlib.sha256(source).hexdigest())
        for reference in schema.document(*read_document(file, source, bases[file]), file is name):
            iri = resolve(bases[file], reference)
            need(iri in words, f"{file}: no word names a file for {iri}")
            if words[iri] not in bases:
                bases[words[iri]] = iri
                files.append(words[iri])
    schema.finish()
    return schema, digests
