"""Shape maps in the compact form, of which `shex` has said that they are in order."""

from __future__ import annotations

import re
from typing import NamedTuple

RDF_TYPE = "<http://www.w3.org/1999/02/22-rdf-syntax-ns#type>"
IRI = r"<[^<>\s]*>"
BLANK = r"_:[^\s,@{}<>\"'#;()\[\]]*[^\s,@{}<>\"'#;()\[\].]"
LONG = r'"""(?:(?!""")(?:[^\\]|\\.))*"""' + r"|'''(?:(?!''')(?:[^\\]|\\.))*'''"
STRING = LONG + r'|"(?:[^"\\\n\r]|\\.)*"' + r"|'(?:[^'\\\n\r]|\\.)*'"
LITERAL = rf"(?:{STRING})(?:\s*\^\^\s*{IRI}|@[A-Za-z]+(?:-[A-Za-z0-9]+)*(?=\s*[@}}]|\s+(?:{IRI}|a\s)))?"
NUMBER = r"[+-]?(?:\d+\.?\d*|\.\d+)(?:[eE][+-]?\d+)?"
TOKEN = re.compile(
    rf"\s+|#[^\r\n]*|(?P<term>{IRI}|{BLANK}|{LITERAL}|{NUMBER}|\b(?:true|false)\b)|(?P<target>@\s*!?\s*(?:{IRI}|{BLANK}|START\b|[^\s,<>{{}}@]+))"
    r"|(?P<word>FOCUS\b|_|a\b)|(?P<mark>[{},])",
    re.DOTALL,
)


class Item(NamedTuple):
    """An item of a map: its terms as they are written, the place of the focus in a pattern (or nothing), and the target with its mark.

    A node selector has one term. A pattern has two, its predicate and its other end, which is `_` where it may be any.
    """

    terms: tuple[str, ...]
    focus: str
    target: str


def tokens(text: str) -> list[tuple[str, str]]:
    """The tokens of a map: what each is, and its text."""
    found, at = [], 0
    while at < len(text):
        match = TOKEN.match(text, at)
        if not match:
            raise ValueError(f"the map is not understood at {at}")
        if match.lastgroup:
            found.append((match.lastgroup, match[0]))
        at = match.end()
    return found


def pattern(words: list[str], target: str) -> Item:
    """The item of a pattern, by its three words."""
    subject, verb, thing = words
    verb = RDF_TYPE if verb == "a" else verb
    return Item((verb, thing), "subject", target) if subject == "FOCUS" else Item((verb, subject), "object", target)


def items(text: str) -> list[Item]:
    """The items of a map."""
    found: list[Item] = []
    words: list[str] = []
    is_pattern = False
    for kind, word in tokens(text):
        if kind == "target":
            target = re.sub(r"\s", "", word)
            found.append(pattern(words, target) if is_pattern else Item((words[0],), "", target))
            words, is_pattern = [], False
        elif word == "{":
            is_pattern = True
        elif kind != "mark":
            words.append(word)
    return found


def as_label(printed: str) -> str:
    """A node as lines of N-Triples have it: a label that begins with `anon` is printed with `anon_` before it.

    A printed name that begins with `anon` alone is of no node of N-Triples; it gets a label that no line can have.
    """
    if printed.startswith("_:anon_"):
        return f"_:{printed[7:]}"
    return f"_:!{printed[2:]}" if printed.startswith("_:anon") else printed
