"""What all readers share: terms of RDF with their texts, IRIs, and how a text or a schema is not taken."""

import re
from collections import namedtuple

MOST = 4294967295  # the greatest number of a proof and of a cardinality
XSD = "http://www.w3.org/2001/XMLSchema#"
RDF = "http://www.w3.org/1999/02/22-rdf-syntax-ns#"
STRING, LANG_STRING = XSD + "string", RDF + "langString"


class Unsupported(Exception):
    """Something that this checker does not decide, or a schema or data that are not well-formed."""


def need(condition, what):
    """Goes on only where the condition holds; else the files are not taken."""
    if not condition:
        raise Unsupported(what)


def expect(condition):
    """Reads on only where the condition holds; else the text is none of its language."""
    if not condition:
        raise ValueError


def decoded(name, source):
    """The text of a file, which is UTF-8."""
    try:
        return source.decode("utf-8")
    except UnicodeDecodeError:
        raise Unsupported(f"{name}: no UTF-8") from None


def ascii_lower(text):
    """A text with the letters A to Z in lower case."""
    return re.sub("[A-Z]", lambda match: match[0].lower(), text)


class Term(namedtuple("Term", "kind value datatype tag", defaults=("", None))):
    """An "iri", a "bnode" or a "literal"; of a blank node the value is its printed name without `_:`."""

    def text(self):
        """The one text of the term."""
        if self.kind != "literal":
            return f"<{self.value}>" if self.kind == "iri" else f"_:{self.value}"
        lex = re.sub(r'["\\\n\r]', lambda m: "\\" + {"\n": "n", "\r": "r"}.get(m[0], m[0]), self.value)
        if self.tag is not None:
            return f'"{lex}"@{self.tag}'
        return f'"{lex}"' if self.datatype == STRING else f'"{lex}"^^<{self.datatype}>'


Triple = namedtuple("Triple", "s p o")


def labelled(label):
    """The blank node with a label of the data."""
    return Term("bnode", ("anon_" if label.startswith("anon") else "") + label)


def tagged(lex, tag):
    """A literal with a language tag."""
    return Term("literal", lex, LANG_STRING, ascii_lower(tag))


def typed(lex, datatype):
    """A literal with a datatype, which is not that of literals with a language tag."""
    expect(datatype != LANG_STRING)
    return Term("literal", lex, datatype)


# ---- IRIs

IRI_CHAR = r'[^\x00-\x20<>"{}|^`\\]'
SCHEME = re.compile(r"[A-Za-z][A-Za-z0-9+.-]*:")
PARTS = re.compile(r"([A-Za-z][A-Za-z0-9+.-]*:)?(?://([^/?#]*))?([^?#]*)(?:\?([^#]*))?(?:#(.*))?", re.DOTALL)


def is_base(text):
    """Whether a text can be a base: it has a scheme and only characters that an IRI may have."""
    return bool(SCHEME.match(text) and re.fullmatch(f"{IRI_CHAR}*", text))


def without_dots(path):
    """A path without its dot segments (RFC 3986, section 5.2.4)."""
    output = ""
    while path:
        if path.startswith(("../", "./")):
            path = path[path.index("/") + 1 :]
        elif path.startswith("/./") or path == "/.":
            path = "/" + path[3:]
        elif path.startswith("/../") or path == "/..":
            path, output = "/" + path[4:], output[: max(output.rfind("/"), 0)]
        elif path in (".", ".."):
            path = ""
        else:
            segment = re.match("/?[^/]*", path)[0]
            path, output = path[len(segment) :], output + segment
    return output


def resolve(base, reference):
    """The IRI of a reference against a base (RFC 3986, section 5.2); one with a scheme is taken as it is written."""
    if SCHEME.match(reference):
        return reference
    scheme, base_authority, base_path, base_query, _ = PARTS.fullmatch(base).groups()
    _, authority, path, query, fragment = PARTS.fullmatch(reference).groups()
    if authority is not None:
        path = without_dots(path)
    elif path == "":
        path, query = base_path, base_query if query is None else query
    elif path.startswith("/"):
        path = without_dots(path)
    else:
        folder = "/" if base_authority is not None and base_path == "" else base_path[: base_path.rfind("/") + 1]
        path = without_dots(folder + path)
    authority = base_authority if authority is None else authority
    marked = ((mark, part) for mark, part in (("//", authority), ("", path), ("?", query), ("#", fragment)) if part is not None)
    return scheme + "".join(mark + part for mark, part in marked)
