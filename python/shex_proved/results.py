"""What is answered."""

from __future__ import annotations

import json
import re
from dataclasses import dataclass, field, replace
from typing import Any, Iterator, Optional, Sequence

_ANSWER = re.compile(r'(.*)@(!?)(START|<[^<>"{}|^`\\]*>|_:[^@!]+)', re.DOTALL)
# Why a node does not conform, as text and as data.
_Reasons = tuple[Optional[str], Optional[dict[str, Any]]]
_WIDE = re.compile(r"wide (.*) #(\d+) width (\d+) budget (\d+)")


@dataclass(frozen=True)
class Answer:
    """Whether a node conforms to a shape.

    `node` and `shape` are written as N-Triples writes terms: `<http://e/ann>`, `_:b`,
    `"1"^^<http://www.w3.org/2001/XMLSchema#integer>`. The shape that the schema starts
    with is `START`. Where reasons were asked for and the node was to conform and does not,
    `reason` says why, in the lines of `shextool explain`, and `app_info` says the same as
    data, with the keys that docs/USAGE.md lists. Elsewhere both are None.
    """

    node: str
    shape: str
    conformant: bool
    reason: Optional[str] = None
    app_info: Optional[dict[str, Any]] = field(default=None, hash=False, repr=False)

    def to_json(self) -> dict[str, Any]:
        """The answer as an item of a result shape map in JSON; the IRIs of the node and the shape stand without brackets."""
        status = "conformant" if self.conformant else "nonconformant"
        item: dict[str, Any] = {"node": _bare(self.node), "shape": _bare(self.shape), "status": status}
        if self.reason is not None:
            item["reason"] = self.reason
        if self.app_info is not None:
            item["appInfo"] = self.app_info
        return item


@dataclass(frozen=True)
class WidePair:
    """A node with a shape, by its number, whose width is above the budget."""

    node: str
    shape: int
    width: int
    budget: int


@dataclass(frozen=True)
class Result:
    """The answers to a shape map.

    `as_wanted` says whether each answer is the one that the map asks for: that the node
    conforms, but for `!`. `wide` names the pairs that are too wide; where there is one, the
    answers that depend on it are left out, and `complete` is False. `text` is the result
    shape map as the program prints it, and `proof` the proof of the answers, where one was
    asked for.
    """

    answers: tuple[Answer, ...]
    as_wanted: bool
    wide: tuple[WidePair, ...]
    text: str
    proof: Optional[bytes] = None

    @property
    def complete(self) -> bool:
        """Whether there is an answer to everything that was asked."""
        return not self.wide

    @property
    def conformant(self) -> bool:
        """Whether each answer is that the node conforms, and none is left out."""
        return self.complete and all(answer.conformant for answer in self.answers)

    def __bool__(self) -> bool:
        """Whether everything is answered as the map wants it, or a proof is accepted."""
        return self.as_wanted

    def __iter__(self) -> Iterator[Answer]:
        return iter(self.answers)

    def __len__(self) -> int:
        return len(self.answers)

    def to_json(self) -> list[dict[str, Any]]:
        """The answers as a result shape map in JSON."""
        return [answer.to_json() for answer in self.answers]


def _bare(term: str) -> str:
    return term[1:-1] if term.startswith("<") else term


def _answer(line: str) -> Answer:
    found = _ANSWER.fullmatch(line)
    if not found:
        raise ValueError(f"no answer is written so: {line}")
    return Answer(found[1], found[3], not found[2])


def _wide(line: str) -> Optional[WidePair]:
    found = _WIDE.fullmatch(line)
    return WidePair(found[1], int(found[2]), int(found[3]), int(found[4])) if found else None


def result_of(status: int, output: bytes, errors: bytes, proof: Optional[bytes]) -> Result:
    """The result that a program printed which ended with this status."""
    text = output.decode()
    lines = text.rstrip("\n").split(",\n") if text.strip() else []
    wide = filter(None, map(_wide, errors.decode().splitlines()))
    return Result(tuple(map(_answer, lines)), status == 0, tuple(wide), text, proof)


def reasons_of(explained: bytes) -> list[_Reasons]:
    """The reasons, as text and as data, of associations with an answer, in order.

    They are read from what `shextool explain --json` prints.
    """
    answered = (item for item in json.loads(explained) if item["status"] != "unknown")
    return [(item.get("reason"), item.get("appInfo")) for item in answered]


def with_reasons(result: Result, reasons: Sequence[_Reasons]) -> Result:
    """The result with the reasons at its answers."""
    if len(reasons) != len(result.answers):
        raise ValueError("the reasons are those of another map")
    answers = (replace(answer, reason=text, app_info=data) for answer, (text, data) in zip(result.answers, reasons))
    return replace(result, answers=tuple(answers))
