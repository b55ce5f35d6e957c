#!/usr/bin/env python3
"""Prints rows for crates/shex_rows: each kind of JSON value under each key of each object of ShExJ, and as an item of each list.

    extras/form_rows.py > crates/shex_rows/data/key_forms.rows

What is answered stands in the tables below, which are written by hand from the structure of ShExJ (ShEx 2.1, appendix A).
"""

import json

HEAD = """\
# Each kind of JSON value under each key of each object of ShExJ, and as an item of each list. What has not the form of its key is
# refused by that key, and an object whose type does not belong in its place by `type`. extras/form_rows.py prints these rows.

file d.nt
file m
file t.json
| {"type":"Schema"}
run validate --schema s.json --data d.nt --map m http://localhost/t=t.json
"""

TEXT = "a text, which is that of the table"
KINDS = {"number": 1, "text": TEXT, "list": [], "null": None, "true": True, "false": False, "object": {}}

READ = "read"
FORMS = {  # what is answered to the kinds of values; to those that are not named, `Form` of the key
    "any value": {kind: READ for kind in KINDS},
    "text": {"text": READ},
    "list": {"list": READ},
    "list with items": {},
    "truth": {"true": READ, "false": READ},
    "false": {"false": READ},
    "number": {"number": READ},
    "no actions": {kind: "Action" for kind in KINDS},
    "expression": {"text": READ, "object": "Form(type)"},  # so are stems and exclusions: a text or an object of certain types
    "declaration": {"object": "Form(type)"},
    "outside": {kind: "External" for kind in KINDS},
    "value": {"text": READ, "object": "Form(value)"},  # an object without a type is a literal
    "type": {},
    "type of a stem": {"text": "Key(stem)"},  # of another type it is a literal, which has no such key
    "type of a language": {"text": "Key(languageTag)"},
}

ANNOTATED = {"semActs": ("list", ""), "annotations": ("list", "")}
COUNTED = {"id": ("text", "f"), "min": ("number", ""), "max": ("number", ""), **ANNOTATED}
EXPR = {"type": ("type", "X"), "id": ("text", "S")}
JOIN = {**EXPR, "shapeExprs": ("list with items", "")}
GROUP = {"type": ("type", "X"), "expressions": ("list with items", ""), **COUNTED}
STEM = {"type": ("type of a stem", "X"), "stem": ("text", "b")}
RANGE = {"type": ("type of a stem", "X"), "stem": ("expression", "b"), "exclusions": ("list", "")}
FACETS = "length minlength maxlength mininclusive minexclusive maxinclusive maxexclusive totaldigits fractiondigits"
TABLE = [  # objects, each with its keys, their forms, and a text
    (
        {"type": "Schema", "shapes": [{"type": "Shape", "id": "S"}]},
        {
            "type": ("type", "X"),
            "@context": ("any value", "c"),
            "imports": ("list", ""),
            "startActs": ("list", ""),
            "start": ("expression", "S"),
            "shapes": ("list", "S"),
        },
    ),
    ({"type": "ShapeDecl", "id": "S", "shapeExpr": "T"}, {**EXPR, "shapeExpr": ("expression", "T"), "abstract": ("false", "")}),
    ({"type": "ShapeOr", "id": "S", "shapeExprs": ["T"]}, JOIN),
    ({"type": "ShapeAnd", "id": "S", "shapeExprs": ["T"]}, JOIN),
    ({"type": "ShapeNot", "id": "S", "shapeExpr": "T"}, {**EXPR, "shapeExpr": ("expression", "T")}),
    (
        {"type": "NodeConstraint", "id": "S", "pattern": "a"},
        {
            **EXPR,
            "nodeKind": ("text", "iri"),
            "datatype": ("text", "d"),
            "pattern": ("text", "b"),
            "flags": ("text", "i"),
            **{facet: ("number", "1") for facet in FACETS.split()},
            "values": ("list", "a"),
            **ANNOTATED,
        },
    ),
    (
        {"type": "Shape", "id": "S"},
        {**EXPR, "closed": ("truth", "true"), "extra": ("list", "p"), "expression": ("expression", "e"), **ANNOTATED},
    ),
    ({"type": "ShapeExternal", "id": "S"}, {"type": ("type", "X"), "id": ("outside", "S")}),
    ({"type": "EachOf", "expressions": ["e"]}, GROUP),
    ({"type": "OneOf", "expressions": ["e"]}, GROUP),
    (
        {"type": "TripleConstraint", "predicate": "p"},
        {
            "type": ("type", "X"),
            "inverse": ("truth", "true"),
            "predicate": ("text", "q"),
            "valueExpr": ("expression", "T"),
            **COUNTED,
        },
    ),
    ({"value": "a"}, {"type": ("text", "d"), "value": ("text", "b"), "language": ("text", "en")}),
    ({"type": "IriStem", "stem": "a"}, STEM),
    ({"type": "LiteralStem", "stem": "a"}, STEM),
    ({"type": "LanguageStem", "stem": "a"}, STEM),
    ({"type": "IriStemRange", "stem": "a"}, RANGE),
    ({"type": "LiteralStemRange", "stem": "a"}, RANGE),
    ({"type": "LanguageStemRange", "stem": "a"}, RANGE),
    ({"type": "Language", "languageTag": "en"}, {"type": ("type of a language", "X"), "languageTag": ("text", "fr")}),
    ({"type": "Wildcard"}, {"type": ("type", "X")}),
]
ITEMS = {  # the form of an item of a list, a text, and what stands before it in the list
    "imports": ("text", "t", []),
    "startActs": ("no actions", "a", []),
    "shapes": ("declaration", "S", [{"type": "Shape", "id": "R"}]),
    "shapeExprs": ("expression", "T", ["T"]),
    "values": ("value", "a", ["b"]),
    "semActs": ("no actions", "a", []),
    "annotations": ("any value", "a", [{}]),
    "extra": ("text", "p", ["q"]),
    "expressions": ("expression", "e", ["e"]),
    "exclusions": ("expression", "b", ["a"]),
}


def declared(expr):
    """A document that declares a shape expression, beside another one to which a text may refer."""
    arc = {"type": "TripleConstraint", "id": "e", "predicate": "p"}
    return {"type": "Schema", "shapes": [expr, {"type": "Shape", "id": "T", "expression": arc}]}


def document(value, kind):
    """A document in which an object of a type stands, or a value in its place."""
    if kind == "Schema":
        return value
    if kind.startswith(("Shape", "NodeConstraint")):
        return declared(value)
    if kind in ("EachOf", "OneOf", "TripleConstraint"):
        return declared({"type": "Shape", "id": "S", "expression": value})
    if kind == "Wildcard":
        value = {"type": "IriStemRange", "stem": value, "exclusions": ["a"]}
    return declared({"type": "NodeConstraint", "id": "S", "values": [value]})


def written(value):
    """The compact text of a JSON value."""
    return json.dumps(value, separators=(",", ":"))


def print_row(what, value, answer):
    """Prints the row of a document."""
    print(f"\nrow {answer}: {what}\nfile s.json\n| {written(value)}")
    print("status 0" if answer == READ else f"status 3\nerr\n| shex: s.json: {answer}")


def print_rows(object_, key, form, text, before):
    """Prints a row for each kind of value under a key, or behind the items of a list there."""
    name = object_.get("type", "literal")
    for kind, value in KINDS.items():
        value = text if value is TEXT else value
        value = value if before is None else before + [value]
        what = f"{name} with {written(key)}:{written(value)}"
        print_row(what, document({**object_, key: value}, name), FORMS[form].get(kind, f"Form({key})"))


def main():
    """Prints the rows."""
    print(HEAD, end="")
    for value in KINDS.values():
        value = "Schema" if value is TEXT else value
        print_row(f"the document {written(value)}", value, "Form(type)")
    for object_, keys in TABLE:
        for key, (form, text) in keys.items():
            print_rows(object_, key, form, text, None)
        for key in keys:
            if key in ITEMS:
                print_rows(object_, key, *ITEMS[key])


main()
