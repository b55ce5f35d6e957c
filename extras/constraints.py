"""Node constraints (ShEx 2.1, section 5.4): kinds, datatypes, facets, patterns and value sets."""

import re
from collections import namedtuple
from decimal import Decimal

from patterns import is_found
from terms import XSD, Term

LENGTHS = ("length", "minlength", "maxlength")
RANGES = ("mininclusive", "minexclusive", "maxinclusive", "maxexclusive")
DIGITS = ("totaldigits", "fractiondigits")

# ---- datatypes

INTEGERS = {"integer": ("-Inf", "Inf"), "nonNegativeInteger": (0, "Inf"), "positiveInteger": (1, "Inf")}
INTEGERS.update({"nonPositiveInteger": ("-Inf", 0), "negativeInteger": ("-Inf", -1)})
for bits, name in ((64, "long"), (32, "int"), (16, "short"), (8, "byte")):
    INTEGERS[name] = (-(2 ** (bits - 1)), 2 ** (bits - 1) - 1)
    INTEGERS["unsigned" + name.capitalize()] = (0, 2**bits - 1)
DECIMAL = r"[+-]?(?:[0-9]+(?:\.[0-9]*)?|\.[0-9]+)"
FLOAT = rf"{DECIMAL}(?:[eE][+-]?[0-9]+)?|[+-]?INF|NaN"
DATE_TIME = (
    r"-?([1-9][0-9]{4,}|[0-9]{4})-([0-9]{2})-([0-9]{2})T([0-9]{2}):([0-9]{2}):([0-9]{2})(\.[0-9]+)?"
    r"(?:Z|[+-](?:(?:0[0-9]|1[0-3]):[0-5][0-9]|14:00))?"
)
FORMS = {"boolean": "true|false|1|0", "decimal": DECIMAL, "float": FLOAT, "double": FLOAT, "dateTime": DATE_TIME}


def is_moment(year, month, day, hour, minute, second, fraction):
    """Whether the parts of a dateTime name a day that there was and a time on it."""
    month, day, hour, minute, second = map(int, (month, day, hour, minute, second))
    year = int(year[-4:])  # ten thousand years are whole cycles of leap years
    leap = year % 4 == 0 and (year % 100 != 0 or year % 400 == 0)
    if not 1 <= month <= 12 or not 1 <= day <= [31, 28 + leap, 31, 30, 31, 30, 31, 31, 30, 31, 30, 31][month - 1]:
        return False
    midnight = (hour, minute, second) == (24, 0, 0) and not (fraction or "").strip(".0")
    return midnight or (hour <= 23 and minute <= 59 and second <= 59)


def is_valid(datatype, lex):
    """Whether the text is in the lexical space of the datatype; those that are not looked into have every text."""
    name = datatype[len(XSD) :] if datatype.startswith(XSD) else ""
    if name in INTEGERS:
        low, high = map(Decimal, INTEGERS[name])
        return re.fullmatch("[+-]?[0-9]+", lex) is not None and low <= Decimal(lex) <= high
    match = re.fullmatch(FORMS.get(name, "(?s:.*)"), lex)
    return match is not None and (name != "dateTime" or is_moment(*match.groups()))


# ---- constraints


class Constraint(namedtuple("Constraint", "kind datatype facets values")):
    """A node constraint: kind, datatype, facets as pairs of a name and a value, and values; None for what is not asked."""

    def holds(self, term):
        """Whether the term satisfies all of it."""
        if self.kind and term.kind not in (("iri", "bnode") if self.kind == "nonliteral" else (self.kind,)):
            return False
        is_typed = term.kind == "literal" and term.datatype == self.datatype and is_valid(term.datatype, term.value)
        if self.datatype is not None and not is_typed:
            return False
        if not all(facet_holds(name, value, term) for name, value in self.facets):
            return False
        return self.values is None or any(value_holds(value, term) for value in self.values)


def facet_holds(name, bound, term):
    """Whether a facet holds of the term."""
    lex, numeric = term.value, term.datatype.startswith(XSD) and term.datatype[len(XSD) :] in ("decimal", *INTEGERS)
    if name == "pattern":
        return is_found(bound, lex)
    if name.endswith("length"):
        return {"length": len(lex) == bound, "minlength": len(lex) >= bound, "maxlength": len(lex) <= bound}[name]
    if not numeric or not is_valid(term.datatype, lex):
        return False
    whole, _, fraction = lex.lstrip("+-").partition(".")
    behind = len(fraction.rstrip("0"))
    return {
        "totaldigits": max(1, len(whole.lstrip("0")) + behind) <= bound,
        "fractiondigits": behind <= bound,
        "mininclusive": Decimal(lex) >= bound,
        "minexclusive": Decimal(lex) > bound,
        "maxinclusive": Decimal(lex) <= bound,
        "maxexclusive": Decimal(lex) < bound,
    }[name]


def stem_holds(sort, stem, text):
    """Whether a text has a stem; a language stem ends where a part of the tag does."""
    return text.startswith(stem) if sort != "Language" else stem in ("", text) or text.startswith(stem + "-")


def value_holds(value, term):
    """Whether a value holds of the term: a term itself, or (sort, stem or None, whether it is exact, exclusions)."""
    if isinstance(value, Term):
        return term == value
    sort, stem, exact, exclusions = value
    text = term.tag if sort == "Language" else term.value if term.kind == sort.lower() else None
    if text is None or (exact and text != stem) or (stem is not None and not stem_holds(sort, stem, text)):
        return False
    return not any(text == other if same else stem_holds(sort, other, text) for same, other in exclusions)
