"""Where schemas, data and shape maps come from: texts, paths, streams and graphs."""

from __future__ import annotations

import gzip
import os
import zlib
from bisect import bisect_right
from dataclasses import dataclass
from pathlib import Path
from typing import IO, Any, Optional, Protocol, Union, runtime_checkable

from .errors import Place


@runtime_checkable
class Graph(Protocol):
    """A graph of rdflib, of which its triples and its N-Triples are wanted."""

    def triples(self, triple: Any, /) -> Any:
        """The triples that a pattern fits."""

    def serialize(self, *, format: str, encoding: str) -> Any:
        """The graph's text in a format."""


# A text; the bytes of one; a path of one; a stream that is read to its end; or, for data,
# a graph of rdflib. What is compressed by gzip is decompressed.
Source = Union[str, bytes, "os.PathLike[str]", IO[str], IO[bytes], Graph]

SCHEMA_ENDINGS = {"shexc": ".shex", "shexj": ".json"}
DATA_ENDINGS = {"turtle": ".ttl", "nt": ".nt"}
OTHER_ENDINGS = {".shexj": ".json"}

_GZIP = b"\x1f\x8b"


@dataclass(frozen=True)
class Document:
    """A text with the name that errors have for it, and the ending that says how it is read."""

    name: str
    ending: str
    content: bytes
    # Where each part begins, in bytes, where the text was joined of parts that errors name.
    parts: tuple[int, ...] = ()

    def source_at(self, offset: int) -> str:
        """What errors call the place at an offset: the part there, or the whole."""
        return f"pair {bisect_right(self.parts, offset)}" if self.parts else self.name

    def place(self, offset: int) -> Optional[Place]:
        """The place at an offset in bytes, where the text is one that the caller knows."""
        if self.parts:
            return None
        before = self.content[:offset].decode(errors="replace")
        line = before.count("\n") + 1
        return Place(offset, line, len(before) - before.rfind("\n"))


def _of_graph(graph: Graph) -> bytes:
    """The triples of a graph of rdflib as N-Triples, sorted, so that equal graphs have equal texts."""
    text = graph.serialize(format="nt", encoding="utf-8")
    return b"".join(sorted(text.splitlines(keepends=True)))


def _is_path(text: Union[str, bytes]) -> bool:
    """Whether a text is a file's name, and so no text that anything can be read from."""
    is_short = isinstance(text, str) and 0 < len(text) < 1000
    return is_short and "\n" not in str(text) and "\0" not in str(text) and os.path.isfile(text)


def _decompressed(content: bytes) -> bytes:
    try:
        return gzip.decompress(content)
    except (EOFError, zlib.error) as error:
        raise gzip.BadGzipFile(str(error)) from error


def _content(source: Source) -> bytes:
    if isinstance(source, (str, bytes)):
        if _is_path(source):
            raise ValueError(f"{source!r} is taken as a text: name the file by pathlib.Path({source!r})")
        found = source
    elif isinstance(source, os.PathLike):
        found = Path(source).read_bytes()
    elif not isinstance(source, Graph) and hasattr(source, "read"):
        found = source.read()
    else:
        raise TypeError(f"a text, a path or a stream is wanted, and not a {type(source).__name__}")
    if isinstance(found, str):
        return found.encode()
    return _decompressed(found) if found.startswith(_GZIP) else found


def _ending_of_name(name: str, endings: dict[str, str]) -> Optional[str]:
    """The ending of a file's name, where it says how the file is read."""
    ending = Path(name[:-3] if name.endswith(".gz") else name).suffix
    ending = OTHER_ENDINGS.get(ending, ending)
    return ending if ending in endings.values() else None


def _document(source: Source, name: str, endings: dict[str, str], form: Optional[str]) -> Document:
    """The document of a source, with no ending where neither a form nor a name says one."""
    if form is not None and form not in endings:
        raise ValueError(f"the format is one of {', '.join(endings)}, and not {form}")
    if isinstance(source, os.PathLike):
        name = os.fspath(source)
    elif isinstance(getattr(source, "name", None), str):
        name = getattr(source, "name")
    ending = endings[form] if form else _ending_of_name(name, endings)
    return Document(name, ending or "", _content(source))


def schema_of(source: Source, name: str = "<schema>", form: Optional[str] = None) -> Document:
    """A schema: as its format or its name says, and else ShExJ where it begins with a brace."""
    found = _document(source, name, SCHEMA_ENDINGS, form)
    is_json = found.content.lstrip().startswith(b"{")
    return found if found.ending else Document(found.name, ".json" if is_json else ".shex", found.content)


def data_of(source: Source, name: str = "<data>", form: Optional[str] = None) -> Document:
    """Data: a graph of rdflib, or as the format or the name says, and else Turtle."""
    if isinstance(source, Graph):
        return Document(name, ".nt", _of_graph(source))
    found = _document(source, name, DATA_ENDINGS, form)
    return found if found.ending else Document(found.name, ".ttl", found.content)


def other_of(source: Source, name: str) -> Document:
    """A shape map or a proof."""
    return _document(source, name, {}, None)
