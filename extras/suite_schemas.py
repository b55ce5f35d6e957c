"""Whether two documents in ShExJ (ShEx 2.1, appendix A) are one schema.

They are where they have the same values under the same keys, but for what says nothing (a cardinality of 1 to 1, `false` under
`closed`, xsd:string as the datatype of a value), the labels of blank nodes, the case of language tags, the base in front of
references, and the ShapeDecl of ShEx 2.2 around what has a label itself in ShEx 2.1. Annotations are not compared.
"""

from typing import Any, Optional

STRING = "http://www.w3.org/2001/XMLSchema#string"
DROPPED = ("@context", "annotations")
COUNTED = ("EachOf", "OneOf", "TripleConstraint")
SAYS_NOTHING = {  # values that are those of an absent key
    "imports": [],
    "shapes": [],
    "startActs": [],
    "semActs": [],
    "extra": [],
    "closed": False,
    "inverse": False,
    "abstract": False,
    "flags": "",
}


def has_annotations(value: Any) -> bool:
    """Whether a part of a document has annotations in it."""
    if isinstance(value, dict):
        return bool(value.get("annotations")) or any(map(has_annotations, value.values()))
    return isinstance(value, list) and any(map(has_annotations, value))


def lowered(value: Any) -> Any:
    """Language tags in lower case: one, those of a list, or that under `stem`."""
    if isinstance(value, list):
        return [lowered(one) for one in value]
    if isinstance(value, dict):
        return {key: lowered(one) if key == "stem" else one for key, one in value.items()}
    return value.lower() if isinstance(value, str) else value


def with_tags_lowered(fields: dict) -> dict:
    """An object with its language tags in lower case."""
    of_tags = str(fields.get("type", "")).startswith("LanguageStem")
    keys = ("stem", "exclusions") if of_tags else ("language", "languageTag")
    return {key: lowered(one) if key in keys else one for key, one in fields.items()}


def without_declaration(fields: dict) -> dict:
    """What a ShapeDecl with no more than a label declares, with that label; all else as it is."""
    inner = fields.get("shapeExpr")
    is_plain = fields.get("type") == "ShapeDecl" and set(fields) == {"type", "id", "shapeExpr"}
    return {**inner, "id": fields["id"]} if is_plain and isinstance(inner, dict) and "id" not in inner else fields


def plain(value: Any, base: str) -> Any:
    """A part of a document in the form in which documents are compared, but for the labels of blank nodes."""
    if isinstance(value, str):
        return value[len(base) :] if value.startswith(base) else value
    if isinstance(value, list):
        return [plain(one, base) for one in value]
    if not isinstance(value, dict):
        return value
    says = {key: one for key, one in value.items() if key not in DROPPED and (key not in SAYS_NOTHING or one != SAYS_NOTHING[key])}
    fields = with_tags_lowered({key: plain(one, base) for key, one in says.items()})
    if "value" in fields and fields.get("type") == STRING:
        del fields["type"]
    if fields.get("type") in COUNTED:
        fields = {"min": 1, "max": 1, **fields}
    return without_declaration(fields)


def renamed(value: Any, names: dict) -> Any:
    """A part of a document whose blank nodes have their labels by the order in which they are met."""
    if isinstance(value, dict):
        return {key: renamed(value[key], names) for key in sorted(value)}
    if isinstance(value, list):
        return [renamed(one, names) for one in value]
    if isinstance(value, str) and value.startswith("_:"):
        return names.setdefault(value, f"_:{len(names)}")
    return value


def difference(one: Any, other: Any, path: str = "") -> Optional[str]:
    """Where two values first differ, or None."""
    if isinstance(one, dict) and isinstance(other, dict):
        keys = sorted({*one, *other})
        pairs = [(one.get(key), other.get(key), f"{path}.{key}") for key in keys]
    elif isinstance(one, list) and isinstance(other, list) and len(one) == len(other):
        pairs = [(*both, f"{path}[{place}]") for place, both in enumerate(zip(one, other))]
    else:
        return None if one == other else path.lstrip(".") or "the document"
    return next(filter(None, (difference(*pair) for pair in pairs)), None)


def documents_differ(one: Any, other: Any, base: str) -> Optional[str]:
    """Where two documents first differ, or None where they are one schema."""
    return difference(*(renamed(plain(document, base), {}) for document in (one, other)))
