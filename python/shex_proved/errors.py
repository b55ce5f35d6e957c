"""Why there is no answer."""

from __future__ import annotations

from typing import Any, NamedTuple, Optional


class Place(NamedTuple):
    """A place in a text: its offset in bytes from 0, its line and its column from 1."""

    offset: int
    line: int
    column: int


class ShexError(Exception):
    """A call that has no answer.

    `status` is the exit status that the program has for it, and `said` is what the
    program says on its error stream.
    """

    def __init__(self, message: str, status: int, said: str) -> None:
        super().__init__(message)
        self.status = status
        self.said = said

    def __reduce__(self) -> tuple[Any, ...]:
        return type(self), (str(self), self.status, self.said)


class WordsError(ShexError, ValueError):
    """An argument is refused: a base that is no IRI, or a number outside its limits.

    `argument` is its name, as `budget`, where the program's words tell which it is.
    """

    def __init__(self, status: int, said: str, what: str, argument: Optional[str]) -> None:
        super().__init__(f"{argument}: {what}" if argument else what, status, said)
        self.what = what
        self.argument = argument

    def __reduce__(self) -> tuple[Any, ...]:
        return type(self), (self.status, self.said, self.what, self.argument)


class RefusedError(ShexError, ValueError):
    """A schema, data, a shape map or an imported document is refused.

    `source` says which, by its path or as `<schema>`, `<data>`, `<map>`, and `pair 1` of a
    list of pairs; `cause` and `detail` are the words of the program, as `Syntax` and `17`;
    and `place` is where in the source the fault stands, where that is known.
    """

    def __init__(
        self,
        status: int,
        said: str,
        source: str,
        cause: str,
        detail: Optional[str],
        place: Optional[Place],
    ) -> None:
        where = f"{source}:{place.line}:{place.column}" if place else source
        what = f"{cause}({detail})" if detail and not place else cause
        super().__init__(f"{where}: {what}", status, said)
        self.source = source
        self.cause = cause
        self.detail = detail
        self.place = place

    def __reduce__(self) -> tuple[Any, ...]:
        return type(self), (self.status, self.said, self.source, self.cause, self.detail, self.place)

    @property
    def line(self) -> Optional[int]:
        """The line of the fault, from 1."""
        return self.place.line if self.place else None

    @property
    def column(self) -> Optional[int]:
        """The column of the fault in characters, from 1."""
        return self.place.column if self.place else None


class ProofRejectedError(RefusedError):
    """A proof is none, is of other schemas or data, or shows not all that it claims."""
