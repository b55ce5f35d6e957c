"""Shape maps that are given as pairs."""

from __future__ import annotations

import re
from typing import Any, Iterable, Optional, Tuple

# A node as a text or a term of rdflib, and the label of a shape, or None for the start.
Pair = Tuple[Any, Optional[Any]]

_SCHEME = re.compile(r"[A-Za-z][A-Za-z0-9+.\-]*:")
_ESCAPES = {'"': '\\"', "\\": "\\\\", "\n": "\\n", "\r": "\\r"}


def _literal(literal: Any) -> str:
    """A literal of rdflib as N-Triples writes it."""
    text = "".join(_ESCAPES.get(char, char) for char in str(literal))
    if literal.language:
        return f'"{text}"@{literal.language}'
    return f'"{text}"^^<{literal.datatype}>' if literal.datatype else f'"{text}"'


def term_text(term: Any) -> str:
    """A term of rdflib, an IRI, or what is written as a map writes it, as a map writes it."""
    if hasattr(term, "n3"):
        return _literal(term) if hasattr(term, "datatype") else str(term.n3())
    text = str(term)
    is_iri = _SCHEME.match(text) and not text.startswith("_:")
    return f"<{text}>" if is_iri and "://" in text else text


def _line(pair: Pair) -> str:
    """The item of a map that asks for a pair."""
    if not isinstance(pair, (list, tuple)) or len(pair) != 2:
        raise TypeError(f"a pair of a node and a shape is wanted, and not {pair!r}")
    node, shape = pair
    return f"{term_text(node)}@{'START' if shape is None else term_text(shape)}"


def map_items(pairs: Iterable[Pair]) -> list[str]:
    """The items of the shape map of pairs of a node and a shape."""
    return list(map(_line, pairs))
