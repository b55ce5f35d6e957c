"""Calls of the released programs over the files of a test of the ShEx test suite."""

import json
import os
import re
import shutil
import subprocess
from typing import Any, NamedTuple, Optional

from suite_manifests import ENDINGS, File, Test, resolved

SECONDS = 120  # after which a program that has not ended counts as one that gives no answer
ABSENT = "not run: files that the checkout has not, or that are of another form"


class LeftOut(Exception):
    """A test is left out: for which limit, and what names it."""


class Failed(Exception):
    """A test failed: why."""


class Call(NamedTuple):
    """What a call of a program gave."""

    status: int
    output: str
    errors: str

    def cause(self) -> str:
        """The cause of a refusal, or an empty text."""
        match = re.match(r"\w+: .*?: ([A-Z]\w*(?:\(.*\))?)$", self.errors.partition("\n")[0])
        return match[1] if match and self.status == 3 else ""

    def said(self) -> str:
        """How the call ended, for whoever looks into it."""
        errors = self.errors.strip().partition("\n")[0]
        return f"status {self.status}" + (f", {errors}" if errors else "")


def present(file: Optional[File], part: str) -> File:
    """A file of a test that is there."""
    if file is None or not os.path.isfile(file.path):
        raise LeftOut(ABSENT, f"{part} {file.iri}" if file else f"no {part}")
    return file


def read(file: Optional[File], part: str) -> str:
    """The text of a file of a test."""
    with open(present(file, part).path, encoding="utf-8-sig", newline="") as stream:
        return stream.read()


def read_json(file: Optional[File], part: str) -> Any:
    """The value of a file of a test that is JSON."""
    try:
        return json.loads(read(file, part))
    except ValueError:
        raise LeftOut(ABSENT, f"{part} {file.iri} is no JSON") from None


class Programs:
    """The two programs, the budget that they are given, whether ShExJ is preferred, and a folder for files besides the suite's."""

    def __init__(self, program: str, tool: str, room: str, budget: Optional[int] = None, prefers_shexj: bool = False):
        self.program, self.tool, self.room, self.prefers_shexj = program, tool, room, prefers_shexj
        self.budget = ["--budget", str(budget)] if budget else []
        self.known_imports = {}

    def run(self, *words: str) -> Call:
        """Runs a program to its end."""
        try:
            done = subprocess.run(words, cwd=self.room, stdin=subprocess.DEVNULL, capture_output=True, timeout=SECONDS)
        except subprocess.TimeoutExpired:
            raise Failed(f"no answer in {SECONDS} seconds") from None
        return Call(done.returncode, done.stdout.decode("utf-8", "replace"), done.stderr.decode("utf-8", "replace"))

    def convert(self, schema: File, base: str) -> Call:
        """Has a document printed in ShExJ."""
        return self.run(self.tool, "convert", "--schema", schema.path, "--schema-base", base)

    def validate(self, test: Test, shape_map: str) -> Call:
        """Has a shape map answered by the schema and the data of a test."""
        schema, data = self.schema(test), self.data(test)
        files = ["--schema", schema.path, "--data", data.path, "--map", self.stored("map", shape_map)]
        bases = ["--schema-base", schema.iri, "--data-base", data.iri]
        return self.run(self.program, "validate", *files, *bases, *self.budget, *self.import_words(test, schema))

    # ---- files

    def stored(self, name: str, text: str) -> str:
        """The path of a file with a text."""
        path = os.path.join(self.room, name)
        with open(path, "w", encoding="utf-8", newline="") as file:
            file.write(text)
        return path

    def schema(self, test: Test) -> File:
        """The file of a test's schema, or where ShExJ is preferred the one in ShExJ beside it."""
        schema = present(test.schema(), "schema")
        beside = os.path.splitext(schema.path)[0] + ".json"
        if self.prefers_shexj and schema.path.endswith(".shex") and os.path.isfile(beside):
            return File(schema.iri, beside)
        if not schema.path.endswith(ENDINGS):
            raise LeftOut(ABSENT, f"a schema in {os.path.basename(schema.path)}")
        return schema

    def data(self, test: Test) -> File:
        """The file of a test's data, under a name that says how it is read."""
        if not test.parts.get("data"):
            return File(test.place.iri, self.stored("empty.nt", ""))
        data = present(test.file("data"), "data")
        if data.path.endswith((".ttl", ".nt")):
            return data
        return File(data.iri, shutil.copyfile(data.path, os.path.join(self.room, "data.ttl")))

    # ---- imports

    def imports(self, schema: File) -> list:
        """The IRIs of the documents that a document imports, or none where it cannot be read."""
        if schema not in self.known_imports:
            call = self.convert(schema, schema.iri)
            references = json.loads(call.output).get("imports", []) if call.status == 0 else []
            self.known_imports[schema] = [resolved(schema.iri, reference) for reference in references]
        return self.known_imports[schema]

    def import_words(self, test: Test, schema: File) -> list:
        """The words for all documents that a schema imports, and that these import."""
        found, documents = {}, [schema]
        for document in documents:
            for iri in self.imports(document):
                imported = test.place.imported(iri, document)
                if imported and iri not in found:
                    found[iri] = f"{iri}={imported.path}"
                    documents.append(imported)
        return list(found.values())
