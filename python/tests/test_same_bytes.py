"""Calls of the library give the bytes that the programs give, on random words and files."""

from __future__ import annotations

import random
import subprocess
from pathlib import Path
from typing import Iterator

import pytest
import shex_proved
from conftest import ROOT
from shex_proved import library

SEED = 61
CALLS = 400

NAMES = ("s.shex", "s.json", "d.ttl", "d.nt", "m", "p", "o.shex", "no.ttl")
OPTIONS = ("--schema", "--data", "--map", "--proof", "--to", "--budget", "--schema-base", "--data-base")
VALUES = (*NAMES, "http://e.example/", "1", "1000", "http://ex.example/observations=o.shex", "é", "")


def texts() -> Iterator[dict[str, bytes]]:
    """The files of each example, under the names that the calls use."""
    for folder in (ROOT / "examples").iterdir():
        found = {}
        for file in folder.iterdir():
            name = {"observations.shex": "o.shex", "map": "m"}.get(file.name)
            kind = {"schema.shex": "s.shex", "schema.json": "s.json", "data.ttl": "d.ttl", "data.nt": "d.nt"}.get(
                file.name
            )
            if name or kind:
                found[name or kind or ""] = file.read_bytes()
        if any(name.startswith("s.") for name in found):
            yield found


def mutated(source: random.Random, text: bytes) -> bytes:
    """A text with some bytes changed, left out or doubled, or cut off."""
    changed = bytearray(text)
    for _ in range(source.choice((0, 0, 1, 2, 8))):
        at = source.randrange(len(changed) + 1)
        size = source.choice((1, 1, 4, 40))
        with_what = source.choice((b"", bytes([source.randrange(256)]), changed[at : at + size] * 2))
        changed[at : at + size] = with_what
    return bytes(changed[: source.randrange(len(changed) + 1)] if source.random() < 0.1 else changed)


def words_of(source: random.Random, files: dict[str, bytes]) -> tuple[str, list[str]]:
    """A program and the words of a call of it, which mostly can be answered."""
    schema = next(name for name in files if name.startswith("s."))
    data = next(name for name in files if name.startswith("d."))
    given = ["--schema", schema, "--data", data]
    imports = ["http://ex.example/observations=o.shex"]
    budget = ["--budget", source.choice(("1", "2", "1048576"))]
    program, words = source.choice(
        (
            ("shex", ["validate", *given, "--map", "m", "--proof", "p", *budget, *imports]),
            ("shex", ["validate", *given, "--map", "m", *imports]),
            ("shex", ["check", *given, "--proof", "p", *imports]),
            ("shex", ["upgrade", *given, "--proof", "p", "--to", "p2", *imports]),
            ("shex", ["drill", str(source.randrange(40)), "--proof", "p"]),
            ("shextool", ["convert", "--schema", schema]),
            ("shextool", ["extents", *given, *budget, *imports]),
        )
    )
    if source.random() < 0.2:
        at = source.randrange(len(words) + 1)
        words[at : at + source.randrange(3)] = [source.choice((*OPTIONS, *VALUES))]
    return program, words


def of_program(program: str, words: list[str], files: dict[str, bytes], wanted: str, room: Path) -> shex_proved.Outcome:
    """What the program gives over the files in a folder."""
    for file in room.iterdir():
        file.unlink()
    for name, text in files.items():
        (room / name).write_bytes(text)
    done = subprocess.run([ROOT / "dist" / program, *words], cwd=room, capture_output=True, check=False)
    kept = (room / wanted).read_bytes() if (room / wanted).is_file() else b""
    return shex_proved.Outcome(done.returncode, done.stdout, done.stderr, kept)


def test_random_calls(tmp_path: Path) -> None:
    source = random.Random(SEED)
    examples = sorted(texts(), key=repr)
    proofs: list[bytes] = [b""]
    statuses = set()
    for _ in range(CALLS):
        files = {name: mutated(source, text) for name, text in source.choice(examples).items()}
        program, words = words_of(source, files)
        if words[0] in ("check", "upgrade"):
            files["p"] = mutated(source, source.choice(proofs))
        wanted = "p2" if "p2" in words else "p"
        given = shex_proved.call(program, words, files, wanted)
        assert given == of_program(program, words, files, wanted, tmp_path), (program, words, files)
        statuses.add(given.status)
        proofs.append(given.file)
    assert {0, 1, 2, 3, 6} <= statuses


@pytest.mark.parametrize("size", (0, 1, 70_000))
def test_files_of_any_size(size: int) -> None:
    text = b"#" * size
    given = shex_proved.call("shex", ["drill", "25"], {"other": text}, "other")
    assert given == (0, b"items 25 conformant 15 nonconformant 10 accepted\n", b"", text)


def test_words_and_names_that_are_not_utf8() -> None:
    for words, name, wanted in ((["\udcff"], "a", "a"), (["drill"], "\udcff", "a"), (["drill"], "a", "\udcff")):
        assert shex_proved.call("shex", words, {name: b"held"}, wanted) == (library.NOT_UTF8, b"", b"", b"")


def test_two_files_of_one_name() -> None:
    outcome = library.call_over("shex", ["drill", "1"], [("a", b"held"), ("b", b""), ("a", b"held")], "a")
    assert outcome == (library.TWICE, b"", b"", b"")
