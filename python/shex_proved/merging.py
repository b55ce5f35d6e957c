"""Several data files as one."""

from __future__ import annotations

import re
from typing import Sequence

from .sources import Document

# Characters of names in Turtle and N-Triples, as far as documents that can be read need it.
_NAME = r"\w\-\u00b7\u0300-\u036f\u203f\u2040:"

# What is passed over, since no blank node stands in it: IRIs, strings, escapes and comments.
_PASSED = r'''<[^>\n]*>|"""(?:[^"\\]|\\.|"(?!""))*"""|\'\'\'(?:[^'\\]|\\.|'(?!''))*\'\'\'|"(?:[^"\\\n\r]|\\.)*"|'(?:[^'\\\n\r]|\\.)*'|\\.|\#[^\n\r]*'''

_TOKEN = re.compile(
    rf"(?P<passed>{_PASSED})|(?<![{_NAME}.%])_:(?P<label>[{_NAME}](?:[{_NAME}.]*[{_NAME}])?)",
    re.DOTALL,
)


def _labels(text: str) -> set[str]:
    """The labels of blank nodes in a text."""
    return {found["label"] for found in _TOKEN.finditer(text) if found["label"]}


def _renamed(text: str, names: dict[str, str]) -> str:
    """The text with other labels for some blank nodes."""

    def renamed(found: re.Match[str]) -> str:
        label = found["label"]
        return f"_:{names[label]}" if label in names else found[0]

    return _TOKEN.sub(renamed, text)


def _new_name(label: str, number: int, taken: set[str]) -> str:
    """A label for a blank node of the document of this number that no document has."""
    name = f"{label.replace(':', '_')}_{number}"
    while name in taken:
        name += "_"
    return name


def merged(documents: Sequence[Document], base: str) -> Document:
    """The graphs of all documents in one: a blank node of one is none of another.

    Each document can be read alone. Labels that stood in an earlier one get the number of
    their document behind them. A Turtle document begins with the base, as it does alone;
    prefixes and the base at the end are those of all, the later ones first.
    """
    if len(documents) == 1:
        return documents[0]
    taken = set().union(*(_labels(document.content.decode()) for document in documents))
    seen: set[str] = set()
    parts = []
    is_turtle = any(document.ending == ".ttl" for document in documents)
    for number, document in enumerate(documents, 1):
        text = document.content.decode()
        labels = _labels(text)
        names = {}
        for label in sorted(labels):
            if label in seen or (is_turtle and ":" in label):
                names[label] = _new_name(label, number, taken)
                taken.add(names[label])
        seen |= labels
        head = f"@base <{base}> .\n" if document.ending == ".ttl" else ""
        parts.append(f"{head}{_renamed(text, names)}\n")
    ending = ".ttl" if is_turtle else ".nt"
    return Document(documents[0].name, ending, "".join(parts).encode())
