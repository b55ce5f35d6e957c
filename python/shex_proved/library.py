"""The shared library, called by ctypes."""

from __future__ import annotations

import ctypes
import os
from functools import lru_cache
from pathlib import Path
from typing import Any, Callable, Iterable, Mapping, NamedTuple, Sequence, Union

MEMORY, NOT_UTF8, TWICE = 8, 9, 10

# How much room a call has for what it prints beside what its files hold.
ROOM = 1 << 16


class Outcome(NamedTuple):
    """What a call gives: its status, what it prints and says, and what the wanted file holds."""

    status: int
    output: bytes
    errors: bytes
    file: bytes


class _Text(ctypes.Structure):
    _fields_ = [("bytes", ctypes.c_char_p), ("length", ctypes.c_size_t)]


class _File(ctypes.Structure):
    _fields_ = [("name", _Text), ("bytes", ctypes.c_char_p), ("length", ctypes.c_size_t)]


class _Request(ctypes.Structure):
    _fields_ = [
        ("words", ctypes.POINTER(_Text)),
        ("word_count", ctypes.c_size_t),
        ("files", ctypes.POINTER(_File)),
        ("file_count", ctypes.c_size_t),
        ("wanted", _Text),
    ]


class _Place(ctypes.Structure):
    _fields_ = [
        ("bytes", ctypes.c_void_p),
        ("room", ctypes.c_size_t),
        ("count", ctypes.c_size_t),
    ]


class _Reply(ctypes.Structure):
    _fields_ = [("output", _Place), ("errors", _Place), ("file", _Place)]


def _paths() -> Iterable[str]:
    """Where the library may lie, the first first."""
    named = os.environ.get("SHEX_LIBRARY")
    if named:
        yield named
        return
    here = Path(__file__).resolve().parent
    for folder in (here, here.parent.parent / "dist"):
        if (folder / "libshex.so").is_file():
            yield str(folder / "libshex.so")
    yield "libshex.so"


@lru_cache(maxsize=None)
def _library() -> ctypes.CDLL:
    """The library, which is loaded once."""
    faults = []
    for path in _paths():
        try:
            library = ctypes.CDLL(path)
            break
        except OSError as error:
            faults.append(str(error))
    else:
        raise ImportError("libshex.so is not found: " + "; ".join(faults))
    for name in ("shex_call", "shextool_call"):
        function = getattr(library, name)
        function.argtypes = (ctypes.POINTER(_Request), ctypes.POINTER(_Reply))
        function.restype = ctypes.c_uint8
    return library


def _text(text: bytes) -> _Text:
    return _Text(text, len(text))


def _place(room: bytearray) -> _Place:
    where = (ctypes.c_char * len(room)).from_buffer(room)
    return _Place(ctypes.addressof(where), len(room), 0)


def _call_within(
    function: Callable[[Any, Any], int], request: _Request, rooms: Sequence[int]
) -> tuple[Outcome, list[int]]:
    """Calls once, with so much room; gives the counts besides, which may be above it."""
    given = [bytearray(max(room, 1)) for room in rooms]
    reply = _Reply(*map(_place, given))
    status = function(ctypes.byref(request), ctypes.byref(reply))
    counts = [reply.output.count, reply.errors.count, reply.file.count]
    parts = (bytes(memoryview(room)[:count]) for room, count in zip(given, counts))
    return Outcome(status, *parts), counts


def _bytes(text: str) -> bytes:
    """The bytes of a word or a name, also of one that came from the machine and is not UTF-8."""
    return text.encode(errors="surrogateescape")


def call_over(program: str, words: Sequence[str], files: Sequence[tuple[str, bytes]], wanted: str) -> Outcome:
    """Does what `call` does, over files in a list."""
    function = getattr(_library(), f"{program}_call")
    texts = (_Text * max(len(words), 1))(*(_text(_bytes(word)) for word in words))
    given = (_File * max(len(files), 1))(*(_File(_text(_bytes(name)), text, len(text)) for name, text in files))
    request = _Request(texts, len(words), given, len(files), _text(_bytes(wanted)))
    size = sum(len(text) for _, text in files)
    rooms = [ROOM + 4 * size, ROOM, ROOM + 4 * size if wanted else 0]
    outcome, counts = _call_within(function, request, rooms)
    if any(count > room for count, room in zip(counts, rooms)):
        outcome, _ = _call_within(function, request, counts)
    if outcome.status == MEMORY:
        raise MemoryError(f"{program} ran out of memory")
    return outcome


def call(program: str, words: Sequence[str], files: Mapping[str, Union[bytes, str]], wanted: str = "") -> Outcome:
    """Does what a program, `shex` or `shextool`, does with these words over these files.

    `wanted` is the name of the file that is given back. The words are those of a shell's
    line, without the name of the program. Threads may call at once.
    """
    texts = [(name, text.encode() if isinstance(text, str) else text) for name, text in files.items()]
    return call_over(program, words, texts, wanted)
