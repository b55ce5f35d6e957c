"""The command of the package."""

from __future__ import annotations

import gzip
import json
import os
import subprocess
import sys
from pathlib import Path

import pytest
from conftest import PACKAGE
from test_validating import ANN, BOB, DATA, FRIEND, SCHEMA


@pytest.fixture(name="folder")
def folder_of_files(tmp_path: Path) -> Path:
    """A folder with a schema, data and a map."""
    (tmp_path / "s.shex").write_text(SCHEMA)
    (tmp_path / "d.ttl").write_text(DATA)
    (tmp_path / "more.ttl.gz").write_bytes(gzip.compress(f"<{BOB}> <http://e.example/knows> <{ANN}> .".encode()))
    (tmp_path / "m").write_text(f"<{ANN}>@<{FRIEND}>")
    return tmp_path


def run(folder: Path, line: str, given: str = "") -> "subprocess.CompletedProcess[str]":
    """Runs the command in a folder."""
    words = [sys.executable, "-m", "shex_proved", *line.split()]
    environment = {**os.environ, "PYTHONPATH": str(PACKAGE)}
    return subprocess.run(words, cwd=folder, env=environment, input=given, capture_output=True, text=True, check=False)


def test_a_map(folder: Path) -> None:
    done = run(folder, "validate --schema s.shex --data d.ttl --map m")
    assert (done.returncode, done.stdout, done.stderr) == (0, f"<{ANN}>@<{FRIEND}>\n", "")


def test_nodes_in_json(folder: Path) -> None:
    line = f"validate --schema s.shex --data d.ttl --node {ANN} --node {BOB} --shape {FRIEND} --json"
    done = run(folder, line)
    assert done.returncode == 1
    assert [item["status"] for item in json.loads(done.stdout)] == ["conformant", "nonconformant"]


def test_several_data(folder: Path) -> None:
    done = run(folder, f"validate -x s.shex -d d.ttl -d more.ttl.gz -n {ANN} -n {BOB} -s {FRIEND}")
    assert (done.returncode, done.stdout.count("@<")) == (0, 2)


def test_standard_input(folder: Path) -> None:
    done = run(folder, "validate --schema s.shex --data - --map m", DATA)
    assert (done.returncode, done.stderr) == (0, "")


def test_standard_input_is_given_once(folder: Path) -> None:
    done = run(folder, "validate --schema - --data - --map m", DATA)
    assert done.returncode == 2 and "standard input" in done.stderr


def test_reasons(folder: Path) -> None:
    done = run(folder, f"validate -x s.shex -d d.ttl -n {ANN} -n {BOB} -s {FRIEND} --reasons")
    lines = done.stdout.splitlines()
    assert done.returncode == 1 and lines[:2] == [f"<{ANN}>@<{FRIEND}>", f"<{BOB}>@!<{FRIEND}>"] and len(lines) > 2


def test_a_proof(folder: Path) -> None:
    assert run(folder, "validate --schema s.shex --data d.ttl --map m --proof p").returncode == 0
    done = run(folder, "check --schema s.shex --data d.ttl --proof p")
    assert (done.returncode, done.stdout) == (0, f"<{ANN}>@<{FRIEND}>\n")
    assert run(folder, "check --schema s.shex --data more.ttl.gz --proof p").returncode == 6


def test_extents_and_conversion(folder: Path) -> None:
    assert run(folder, "extents --schema s.shex --data d.ttl").stdout == f"<{ANN}>@<{FRIEND}>\n"
    assert json.loads(run(folder, "convert --schema s.shex").stdout)["type"] == "Schema"


def test_faults(folder: Path) -> None:
    (folder / "bad.ttl").write_text("<http://e.example/a>\n  knows")
    for line, status, said in (
        ("validate --schema s.shex --data bad.ttl --map m", 3, "bad.ttl:2:3: Syntax\n"),
        ("validate --schema s.shex --data none.ttl --map m", 5, "[Errno 2] No such file or directory: 'none.ttl'\n"),
        ("validate --schema s.shex --data d.ttl --map m --data-base x", 2, "data_base: Base(x)\n"),
    ):
        done = run(folder, line)
        assert (done.returncode, done.stdout, done.stderr) == (status, "", said)
    assert run(folder, "validate --schema s.shex --data d.ttl").returncode == 2
