"""What can be asked."""

from __future__ import annotations

import re
from dataclasses import dataclass, field
from itertools import accumulate
from typing import Mapping, NoReturn, Optional, Sequence, Union, cast

from .errors import ProofRejectedError, RefusedError, ShexError, WordsError
from .library import Outcome, call
from .maps import Pair, map_items
from .merging import merged
from .results import Result, reasons_of, result_of, with_reasons
from .sources import Document, Source, data_of, other_of, schema_of

# The base of a text that is given none.
BASE = "http://localhost/"

_SAID = re.compile(r"\w+: (?P<file>[^:]*): (?P<cause>\w+)(?:\((?P<detail>.*)\))?", re.DOTALL)

# Causes whose detail is a place in the text.
_PLACED = ("Syntax", "Prefix", "Long")

# What stands between two items of a map.
_BETWEEN = b",\n"

# Which argument an option is of, and which one the words are of by what is said of them: of
# those that this module makes only a budget can be outside its limits.
_BASES = {"--schema-base": "schema_base", "--data-base": "data_base"}
_ARGUMENTS = {"Arguments": "budget", "Import": "imports"}

_ANSWERING = (0, 1, 4)
_REJECTED = 6


@dataclass
class _Call:
    """A call of a program: its words, and the documents that its files are."""

    words: list[str]
    documents: dict[str, Document] = field(default_factory=dict)

    def give(self, option: str, name: str, document: Document) -> None:
        """Gives a document as an option's file, of this name with the document's ending."""
        self.documents[name + document.ending] = document
        self.words += [option, name + document.ending]

    def set(self, option: str, value: Union[str, int, None]) -> None:
        """Gives an option a value, if there is one."""
        if value is not None:
            self.words += [option, str(value)]

    def explaining(self) -> _Call:
        """The call that explains what this one validates."""
        words = ["explain", *self.words[1:], "--json"]
        if "--proof" in words:
            at = words.index("--proof")
            del words[at : at + 2]
        return _Call(words, self.documents)

    def add_imports(self, imports: Optional[Mapping[str, Source]]) -> None:
        """Says which documents stand under the IRIs that a schema imports."""
        for number, (iri, source) in enumerate((imports or {}).items()):
            document = schema_of(source, f"<{iri}>")
            name = f"import{number}{document.ending}"
            self.documents[name] = document
            self.words.append(f"{iri}={name}")

    def run(self, program: str, wanted: str = "") -> Outcome:
        """The outcome, if the program answers."""
        files = {name: document.content for name, document in self.documents.items()}
        outcome = call(program, self.words, files, wanted)
        if outcome.status not in _ANSWERING:
            self.fail(outcome)
        return outcome

    def fail(self, outcome: Outcome) -> NoReturn:
        """Raises what the program says is wrong."""
        said = outcome.errors.decode().rstrip("\n")
        found = _SAID.fullmatch(said)
        if not found:
            raise ShexError(said or f"the status is {outcome.status}", outcome.status, said)
        cause, detail = found["cause"], found["detail"]
        document = self.documents.get(found["file"])
        if document is None:
            what = f"{cause}({detail})" if detail else cause
            raise WordsError(outcome.status, said, what, self.argument(cause, detail))
        offset = int(detail) if cause in _PLACED and detail else _bad_byte(document) if cause == "NotUtf8" else None
        place = None if offset is None else document.place(offset)
        source = document.name if offset is None else document.source_at(offset)
        kind = ProofRejectedError if outcome.status == _REJECTED else RefusedError
        detail = None if offset is not None and place is None else detail
        raise kind(outcome.status, said, source, cause, detail, place)

    def argument(self, cause: str, detail: Optional[str]) -> Optional[str]:
        """The argument of a function of this module that a refusal of words is about."""
        if cause == "Base":
            option = next(
                (word for word, value in zip(self.words, self.words[1:]) if word in _BASES and value == detail), None
            )
            return _BASES.get(option or "")
        return _ARGUMENTS.get(cause)


def _bad_byte(document: Document) -> int:
    """Where the first byte stands that is of no character in UTF-8."""
    try:
        return len(document.content.decode())
    except UnicodeDecodeError as error:
        return error.start


def _data(sources: Union[Source, Sequence[Source]], form: Optional[str], base: Optional[str]) -> Document:
    """The data of one source, or of several; each of several is read alone first."""
    if isinstance(sources, (str, bytes)) or not isinstance(sources, Sequence):
        return data_of(cast(Source, sources), form=form)
    several = cast("Sequence[Source]", sources)
    documents = [data_of(source, f"<data {number}>", form) for number, source in enumerate(several, 1)]
    if not documents:
        return Document("<data>", ".nt", b"")
    for document in documents[: len(documents) if len(documents) > 1 else 0]:
        alone = _Call(["validate"])
        alone.give("--schema", "schema", Document("<schema>", ".shex", b""))
        alone.give("--data", "data", document)
        alone.give("--map", "map", Document("<map>", "", b""))
        alone.set("--data-base", base)
        alone.run("shex")
    return merged(documents, base or BASE)


def _map(shape_map: Union[Source, Sequence[Pair]]) -> Document:
    if isinstance(shape_map, Sequence) and not isinstance(shape_map, (str, bytes)):
        items = [item.encode() for item in map_items(shape_map)]
        starts = accumulate((len(item) + len(_BETWEEN) for item in items), initial=0)
        return Document("<map>", "", _BETWEEN.join(items), tuple(starts)[: len(items)])
    return other_of(shape_map, "<map>")


def _over_data(
    command: str,
    schema: Source,
    data: Union[Source, Sequence[Source]],
    forms: tuple[Optional[str], Optional[str]],
    bases: tuple[Optional[str], Optional[str]],
) -> _Call:
    """A call of a command over a schema and data."""
    made = _Call([command])
    made.give("--schema", "schema", schema_of(schema, form=forms[0]))
    made.give("--data", "data", _data(data, forms[1], bases[1]))
    made.set("--schema-base", bases[0])
    made.set("--data-base", bases[1])
    return made


def validate(
    schema: Source,
    data: Union[Source, Sequence[Source]],
    shape_map: Union[Source, Sequence[Pair]],
    *,
    imports: Optional[Mapping[str, Source]] = None,
    proof: bool = False,
    reasons: bool = False,
    budget: Optional[int] = None,
    schema_format: Optional[str] = None,
    data_format: Optional[str] = None,
    schema_base: Optional[str] = None,
    data_base: Optional[str] = None,
) -> Result:
    """Answers whether nodes of the data have the shapes that the schema asks for.

    A schema, data, a map, and each imported document is a text, a path, or a stream, and
    may be compressed by gzip; data may be a graph of rdflib, or a list of several. The map
    is a shape map, or a list of pairs of a node and a shape, where None is the start.

    `imports` has the documents by the IRIs under which a schema imports them. With `proof`
    the result has a proof of the answers, which `check` accepts. With `reasons` each answer
    says why where a node was to conform and does not. `budget` is the greatest width that
    is looked into. The formats are `shexc` and `shexj`, `turtle` and `nt`, where a path's
    ending does not say which. Relative references are resolved against the
    bases.
    """
    made = _over_data("validate", schema, data, (schema_format, data_format), (schema_base, data_base))
    made.give("--map", "map", _map(shape_map))
    made.set("--budget", budget)
    made.set("--proof", "proof" if proof else None)
    made.add_imports(imports)
    outcome = made.run("shex", "proof" if proof else "")
    result = result_of(outcome.status, outcome.output, outcome.errors, outcome.file if proof else None)
    if not reasons or result.conformant:
        return result
    return with_reasons(result, reasons_of(made.explaining().run("shextool").output))


def check(
    schema: Source,
    data: Union[Source, Sequence[Source]],
    proof: Source,
    *,
    imports: Optional[Mapping[str, Source]] = None,
    schema_format: Optional[str] = None,
    data_format: Optional[str] = None,
    schema_base: Optional[str] = None,
    data_base: Optional[str] = None,
) -> Result:
    """Gives what a proof claims of the schema and the data, if it shows it; it searches nothing."""
    made = _over_data("check", schema, data, (schema_format, data_format), (schema_base, data_base))
    made.give("--proof", "proof", other_of(proof, "<proof>"))
    made.add_imports(imports)
    outcome = made.run("shex")
    return result_of(outcome.status, outcome.output, outcome.errors, None)


def extents(
    schema: Source,
    data: Union[Source, Sequence[Source]],
    *,
    imports: Optional[Mapping[str, Source]] = None,
    budget: Optional[int] = None,
    schema_format: Optional[str] = None,
    data_format: Optional[str] = None,
    schema_base: Optional[str] = None,
    data_base: Optional[str] = None,
) -> Result:
    """Gives for each label of the schema the nodes of the data that have its shape."""
    made = _over_data("extents", schema, data, (schema_format, data_format), (schema_base, data_base))
    made.set("--budget", budget)
    made.add_imports(imports)
    outcome = made.run("shextool")
    return result_of(outcome.status, outcome.output, outcome.errors, None)


def convert(schema: Source, *, schema_format: Optional[str] = None, schema_base: Optional[str] = None) -> str:
    """Gives a schema, in either syntax, in ShExJ."""
    made = _Call(["convert"])
    made.give("--schema", "schema", schema_of(schema, form=schema_format))
    made.set("--schema-base", schema_base)
    return made.run("shextool").output.decode()
