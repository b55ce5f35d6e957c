"""The tokens that Turtle (RDF 1.1 Turtle, section 6.5) and ShExC (ShEx 2.1, section 6) share, and what they stand for.

At each place the longest token is taken, behind white space and comments.
"""

import re
from collections import namedtuple

from terms import IRI_CHAR, RDF, STRING, XSD, Unsupported, expect, need, resolve, tagged, typed

LETTERS = (  # PN_CHARS_BASE
    "A-Za-z\u00c0-\u00d6\u00d8-\u00f6\u00f8-\u02ff\u0370-\u037d\u037f-\u1fff\u200c\u200d\u2070-\u218f"
    "\u2c00-\u2fef\u3001-\ud7ff\uf900-\ufdcf\ufdf0-\ufffd\U00010000-\U000effff"
)
NAME_START = LETTERS + "_0-9"  # PN_CHARS_U and digits
NAME = NAME_START + "\\-\u00b7\u0300-\u036f\u203f\u2040"  # PN_CHARS
UCHAR = r"\\u[0-9A-Fa-f]{4}|\\U[0-9A-Fa-f]{8}"
ECHAR = r"\\[tbnrf\"'\\]"
IRIREF = rf"<(?:{IRI_CHAR}|{UCHAR})*>"
PLX = r"%[0-9A-Fa-f]{2}|\\[_~.\-!$&'()*+,;=/?#@%]"
LOCAL = rf"(?:[{NAME_START}:]|{PLX})(?:(?:[{NAME}:.]|{PLX})*(?:[{NAME}:]|{PLX}))?"
PREFIXED = rf"(?:[{LETTERS}](?:[{NAME}.]*[{NAME}])?)?:(?:{LOCAL})?"
EXPONENT = r"[eE][+-]?[0-9]+"


def quoted(mark):
    """The spelling of strings between these marks, one or three on each side."""
    escapes = f"{ECHAR}|{UCHAR}"
    return rf"{mark * 3}(?:{mark}{{0,2}}(?:[^{mark}\\]|{escapes}))*{mark * 3}|{mark}(?:[^{mark}\\\n\r]|{escapes})*{mark}"


TURTLE = {  # in an order in which the first spelling that a text begins with is the longest
    "iri": IRIREF,
    "name": PREFIXED,
    "bnode": rf"_:[{NAME_START}](?:[{NAME}.]*[{NAME}])?",
    "string": quoted('"') + "|" + quoted("'"),
    "double": rf"[+-]?(?:[0-9]+\.[0-9]*|\.?[0-9]+){EXPONENT}",
    "decimal": r"[+-]?[0-9]*\.[0-9]+",
    "integer": r"[+-]?[0-9]+",
    "tag": "@[A-Za-z]+(?:-[A-Za-z0-9]+)*",
    "word": "[A-Za-z]+",
    "mark": r"[.;,\[\]()]|\^\^",
}
LINE_COMMENT = r"[ \t\r\n]+|#[^\r\n]*"


def unescaped(text):
    """A text without its escapes; ValueError where one names no character."""

    def meant(match):
        code = match[0][1:]
        if code[0] not in "uU":
            return {"t": "\t", "b": "\b", "n": "\n", "r": "\r", "f": "\f"}.get(code, code)
        expect(not 0xD800 <= int(code[1:], 16) <= 0xDFFF)
        return chr(int(code[1:], 16))

    return re.sub(rf"{UCHAR}|\\.", meant, text, flags=re.DOTALL)


def unescaped_iri(token):
    """The reference of an IRIREF; ValueError where an escape names no character that an IRI may have."""
    reference = unescaped(token[1:-1])
    expect(re.fullmatch(f"{IRI_CHAR}*", reference))
    return reference


Token = namedtuple("Token", "kind text start end")


class Language:
    """How tokens are spelled, by their kinds, and what stands between them."""

    def __init__(self, spellings, blanks=LINE_COMMENT):
        self.token = re.compile("|".join(f"(?P<{kind}>{spelling})" for kind, spelling in spellings.items()))
        self.blanks = re.compile(f"(?:{blanks})*")

    def next(self, text, at):
        """The next token from a place on; at the end of the text one without a kind."""
        at = self.blanks.match(text, at).end()
        if at == len(text):
            return Token(None, "", at, at)
        match = self.token.match(text, at)
        return Token(match.lastgroup, match[0], at, match.end()) if match else Token("none", "", at, at)


class Cursor:
    """A reader of a document that looks at one token after the other, with the base and the prefixes in force."""

    deepest = 64  # brackets that may be open at one place

    language, language_name = None, None  # those of a class for one language

    def __init__(self, file, text, base):
        self.file, self.text, self.base, self.prefixes, self.open_brackets = file, text, base, {}, 0
        self.now = self.language.next(text, 0)

    def read(self):
        """What the whole text stands for, which has to be a document."""
        try:
            return self.document()
        except ValueError:
            raise Unsupported(f"{self.file}: {self.fault()}") from None

    def fault(self):
        """What is at fault at the token that is looked at."""
        return f"no {self.language_name} from place {len(self.text[: self.now.start].encode())} on"

    def document(self):
        """What a document stands for; ValueError at the token with which the text is none."""
        raise NotImplementedError

    def step(self):
        """Goes on to the next token, and gives the text of the one that is left behind."""
        text, self.now = self.now.text, self.language.next(self.text, self.now.end)
        return text

    def next_but_one(self):
        """The token behind the one that is looked at."""
        return self.language.next(self.text, self.now.end)

    def is_mark(self, *marks):
        """Whether the token is one of these marks."""
        return self.now.kind == "mark" and self.now.text in marks

    def is_word(self, *words):
        """Whether the token is one of these words, which stand here in lower case, in any case."""
        return self.now.kind == "word" and self.now.text.lower() in words

    def is_type(self):
        """Whether the token is the word `a`, in lower case alone."""
        return self.now.kind == "word" and self.now.text == "a"

    def is_iri(self):
        """Whether the token stands for an IRI."""
        return self.now.kind in ("iri", "name")

    def mark(self, mark):
        """Passes a mark."""
        expect(self.is_mark(mark))
        self.step()

    def open(self, mark):
        """Passes a mark that opens a bracket."""
        expect(self.is_mark(mark))
        need(self.open_brackets < self.deepest, f"{self.file}: more than {self.deepest} open brackets")
        self.open_brackets += 1
        self.step()

    def close(self, mark):
        """Passes a mark that closes a bracket."""
        self.mark(mark)
        self.open_brackets -= 1

    def iri_reference(self):
        """IRIREF: its IRI."""
        expect(self.now.kind == "iri")
        iri = resolve(self.base, unescaped_iri(self.now.text))
        self.step()
        return iri

    def name_iri(self, name):
        """The IRI of a name with a prefix."""
        prefix, _, local = name.partition(":")
        need(prefix in self.prefixes, f"{self.file}: the prefix {prefix}: without a declaration")
        return self.prefixes[prefix] + unescaped(local)

    def iri_here(self):
        """iri: the IRI for which the token stands."""
        expect(self.is_iri())
        if self.now.kind == "name":
            return self.name_iri(self.now.text)
        return resolve(self.base, unescaped_iri(self.now.text))

    def iri(self):
        """iri: an IRIREF or a name with a prefix."""
        iri = self.iri_here()
        self.step()
        return iri

    def predicate(self):
        """verb, predicate: an IRI, or `a`."""
        if self.is_type():
            self.step()
            return RDF + "type"
        return self.iri()

    def is_literal(self):
        """Whether the token begins a literal."""
        is_truth = self.now.kind == "word" and self.now.text in ("true", "false")
        return is_truth or self.now.kind in ("string", "integer", "decimal", "double")

    def literal(self):
        """literal: a string with a tag, a datatype or neither; a number; a truth value."""
        expect(self.is_literal())
        if self.now.kind != "string":
            datatype = "boolean" if self.now.kind == "word" else self.now.kind
            return typed(self.step(), XSD + datatype)
        lex = unescaped(self.now.text[3:-3] if self.now.text.startswith(('"""', "'''")) else self.now.text[1:-1])
        self.step()
        if self.now.kind == "tag":
            return tagged(lex, self.step()[1:])
        if not self.is_mark("^^"):
            return typed(lex, STRING)
        self.step()
        term = typed(lex, self.iri_here())
        self.step()
        return term

    def base_directive(self):
        """The IRI of a base, behind its keyword."""
        self.base = self.iri_reference()

    def prefix_directive(self):
        """A prefix and its IRI, behind the keyword."""
        name = self.now.text
        expect(self.now.kind == "name" and name.index(":") == len(name) - 1)
        self.step()
        self.prefixes[name[:-1]] = self.iri_reference()
