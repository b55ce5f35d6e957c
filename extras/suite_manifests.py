"""The manifests of the ShEx test suite (shexTest), read as tests.

A manifest is JSON-LD, and is read by its keys, without a processor of JSON-LD: a prefix in front of a key or a type, a list with
one value, and an object of `@id` or `@list` in the place of what is in it change nothing. References are resolved against the IRI
of the manifest, and an IRI below that of the suite is a file of the checkout.
"""

import json
import os
import re
from typing import Any, Iterator, NamedTuple, Optional
from urllib.parse import unquote, urljoin

FOLDERS = ("schemas", "validation", "negativeSyntax", "negativeStructure")
HOME = "https://raw.githubusercontent.com/shexSpec/shexTest/master/"  # the suite's IRI, where a manifest tells none
SCHEME = re.compile(r"[A-Za-z][A-Za-z0-9+.-]*:")
ENDINGS = (".shex", ".json", ".shexj")  # of schemas in ShExC and in ShExJ


class File(NamedTuple):
    """A file and its IRI, which is the base of what is in it; the path of an IRI outside the suite is empty."""

    iri: str
    path: str


class Place(NamedTuple):
    """A manifest, by its IRI, and the folder of its suite."""

    iri: str
    folder: str

    def resolved(self, reference: str) -> str:
        """The IRI of a reference in the manifest; the label of a blank node stays as it is."""
        return resolved(self.iri, reference)

    def file(self, reference: str) -> File:
        """The file of a reference in the manifest."""
        return self.file_at(self.resolved(reference))

    def file_at(self, iri: str) -> File:
        """The file at an IRI."""
        root = urljoin(self.iri, "..")
        path = os.path.join(self.folder, unquote(iri[len(root) :].partition("#")[0])) if iri.startswith(root) else ""
        return File(iri, path)

    def imported(self, iri: str, importing: File) -> Optional[File]:
        """The file of a document that another one imports: that of its IRI, or one beside the other, perhaps with an ending."""
        path = self.file_at(iri).path or os.path.join(os.path.dirname(importing.path), os.path.basename(iri))
        ending = os.path.splitext(importing.path)[1]
        paths = [path, *(path + one for one in (ending, *ENDINGS))]
        return next((File(iri, one) for one in paths if os.path.isfile(one)), None)


class Test(NamedTuple):
    """A test of a manifest; its parts are what stands in its entry and in the entry's action."""

    place: Place
    folder: str
    iri: str
    kind: str
    name: str
    traits: list
    status: str
    parts: dict

    def schema(self) -> Optional[File]:
        """The file of the schema, that in ShExC where the test has it in several forms."""
        return next(filter(None, map(self.file, ("schema", "shex", "json"))), None)

    def file(self, part: str) -> Optional[File]:
        """The file that a part names."""
        return self.place.file(self.parts[part]) if isinstance(self.parts.get(part), str) else None


# ---- texts


def resolved(base: str, reference: str) -> str:
    """The IRI of a reference behind a base; one with a scheme, and the label of a blank node, stay as they are."""
    return reference if SCHEME.match(reference) or reference.startswith("_:") else urljoin(base, reference)


def iri_text(iri: str) -> str:
    """An IRI as Turtle and shape maps write it."""
    return "<" + re.sub(r'[\x00-\x20<>"{}|^`\\]', lambda match: f"\\u{ord(match[0]):04X}", iri) + ">"


def string_text(text: str) -> str:
    """A string as Turtle and shape maps write it."""
    escapes = {"\\": "\\\\", '"': '\\"', "\n": "\\n", "\r": "\\r"}
    return '"' + re.sub(r'[\\"\n\r]', lambda match: escapes[match[0]], text) + '"'


# ---- entries


def listed(value: Any) -> list:
    """A list of values, where one may stand by itself, or none."""
    return value if isinstance(value, list) else [] if value is None else [value]


def without_prefix(name: str) -> str:
    """A key or a type without what says whose it is."""
    return re.split("[:/#]", name)[-1]


def simple(value: Any) -> Any:
    """A value of JSON-LD with simple keys; a literal stays as it is."""
    if isinstance(value, list):
        return [simple(one) for one in value]
    if not isinstance(value, dict) or "@value" in value:
        return value
    if len(value) == 1 and ("@id" in value or "@list" in value):
        return simple(*value.values())
    return {without_prefix(key): simple(one) for key, one in value.items()}


def manifest_iri(document: dict, nodes: list, folder: str) -> str:
    """The IRI of a manifest: the base that it tells, or its own, where that is one in the folder."""
    bases = [context["@base"] for context in listed(document.get("@context")) if isinstance(context, dict) and "@base" in context]
    for iri in [*bases, *(node.get("@id") for node in nodes)]:
        if isinstance(iri, str) and re.fullmatch(rf"https?://.*/{re.escape(folder)}/[^/]*", iri):
            return iri
    return f"{HOME}{folder}/manifest"


def test_of(place: Place, folder: str, entry: dict) -> Test:
    """The test of an entry."""
    action = entry.get("action")
    parts = {**entry, **(action if isinstance(action, dict) else {"schema": action} if action else {})}
    parts = {key: value[0] if isinstance(value, list) and len(value) == 1 else value for key, value in parts.items()}
    name = str(parts.get("name") or without_prefix(str(parts.get("@id", ""))))
    kinds = [without_prefix(kind) for kind in listed(parts.get("@type"))]
    return Test(
        place,
        folder,
        place.resolved(str(parts.get("@id") or f"#{name}")),
        kinds[0] if kinds else "",
        name,
        [without_prefix(str(trait)) for trait in listed(parts.get("trait"))],
        without_prefix(str(parts.get("status", ""))),
        parts,
    )


def tests_of(suite: str, folder: str) -> Iterator[Test]:
    """The tests of a manifest of the suite, or none where it has no such manifest."""
    path = os.path.join(suite, folder, "manifest.jsonld")
    if not os.path.isfile(path):
        return
    with open(path, encoding="utf-8-sig") as file:
        document = json.load(file)
    nodes = [simple(node) for node in listed(document.get("@graph", document))]
    place = Place(manifest_iri(document, nodes, folder), suite)
    for node in nodes:
        for entry in listed(node.get("entries")):
            yield test_of(place, folder, entry)
