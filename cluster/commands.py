"""The commands of which the tasks are made: programs over files, run in the folder of a task.

The commands `lines`, `followed`, `reached` and `covers` are those of shextool, which carry what has to be believed. Two columns of a file
are divided by a carriage return, which stands in no term.
"""

from __future__ import annotations

import os
import subprocess
from typing import NamedTuple

REFUSED = (2, 3, 5)


class Refused(Exception):
    """A file that is refused: the status with which the run ends, and the line that it prints."""

    def __init__(self, status: int, line: str) -> None:
        super().__init__(line)
        self.status, self.line = status, line


class Failed(Exception):
    """A command that did not do what it should."""


class Programs(NamedTuple):
    """The folder of the programs, and the words on the schema that each call has."""

    folder: str
    schema: list[str]
    imports: list[str]
    data_base: list[str]


def run(words: list[str]) -> subprocess.CompletedProcess[bytes]:
    """Runs a program to its end."""
    return subprocess.run(words, capture_output=True, stdin=subprocess.DEVNULL, check=False)


def shell(script: str, *words: str) -> str:
    """Runs a script of bash over words, with texts in the order of their bytes, and gives what it prints."""
    whole = 'set -eu -o pipefail; ulimit -n "$(ulimit -H -n)"; export LC_ALL=C; ' + script
    done = run(["bash", "-c", whole, "bash", *words])
    if done.returncode:
        raise Failed(f"{script}: status {done.returncode}: {done.stderr.decode(errors='replace')[-2000:]}")
    return done.stdout.decode(errors="surrogateescape")


def checked(done: subprocess.CompletedProcess[bytes], statuses: tuple[int, ...] = (0,)) -> bytes:
    """What a program printed that ended with one of the statuses; a refusal is handed on."""
    if done.returncode in statuses:
        return done.stdout
    told = done.stderr.decode(errors="replace").rstrip("\n")
    if done.returncode in REFUSED:
        raise Refused(done.returncode, told)
    raise Failed(f"{done.args}: status {done.returncode}: {told[-2000:]}")


def tool(programs: Programs, command: str) -> list[str]:
    """The words that begin a call of a command of shextool."""
    return [os.path.join(programs.folder, "shextool"), command]


def lines(programs: Programs, data: str, prefix: str, out: str) -> None:
    """Writes a file of Turtle or N-Triples as canonical N-Triples, with the prefix before each label of a blank node."""
    words = [*tool(programs, "lines"), "--data", data, *(["--prefix", prefix] if prefix else []), *programs.data_base]
    with open(out, "wb") as file:
        checked(subprocess.run(words, stdout=file, stderr=subprocess.PIPE, stdin=subprocess.DEVNULL, check=False))


def followed(programs: Programs) -> bytes:
    """The predicates of the schema that are followed, as `follow <p>` and `follow ^<p>`, and read back, as `read ^<p>`."""
    return checked(run([*tool(programs, "followed"), *programs.schema, *programs.imports]))


def reached(programs: Programs, data: str, shape_map: str) -> bytes:
    """The nodes that the associations of a map reach over data, a line each, as the lines of the data have them."""
    return checked(run([*tool(programs, "reached"), *programs.schema, "--data", data, "--map", shape_map, *programs.imports]))


def covers(programs: Programs, predicates: str, part: str, pairs: list[tuple[str, str]]) -> str | None:
    """The first line of a part that a shard lacks, with the shard's name, for pairs of a list of nodes and the shard's lines."""
    words = [*tool(programs, "covers"), "--followed", predicates, "--part", part]
    done = run([*words, *(f"{nodes}={shard}" for nodes, shard in pairs)])
    missing = checked(done, (0, 1)).decode(errors="replace").rstrip("\n")
    return missing if done.returncode else None


def validate(programs: Programs, data: str, shape_map: str, more: list[str]) -> subprocess.CompletedProcess[bytes]:
    """Runs `shex validate`."""
    words = ["validate", *programs.schema, "--data", data, "--map", shape_map, *programs.data_base, *more, *programs.imports]
    done = run([os.path.join(programs.folder, "shex"), *words])
    checked(done, (0, 1, 4))
    return done


def check(programs: Programs, data: str, proof: str) -> bytes:
    """The claims of a proof that `shex check` accepts."""
    words = ["check", *programs.schema, "--data", data, "--proof", proof, *programs.data_base, *programs.imports]
    return checked(run([os.path.join(programs.folder, "shex"), *words]))
