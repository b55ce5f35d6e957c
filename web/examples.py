#!/usr/bin/env python3
"""Prints web/examples.json: the folders of examples/ that have a schema, data and a map, as the page loads them.

    web/examples.py >web/examples.json
"""

import json
import pathlib
import sys

EXAMPLES = pathlib.Path(__file__).resolve().parent.parent / "examples"
#: The documents that schemas import, by the IRI under which they do.
IMPORTS = {"clinical": [("http://ex.example/observations", "observations.shex")]}
#: What a folder is called in the page.
NAMES = {"first": "One friend", "clinical": "Clinical records", "catalogue": "A library's catalogue", "wide": "A pair that is wide", "reasons": "Failures and their reasons"}
BUDGETS = {"wide": "1"}


def document(folder, stem, endings):
    """The file of that stem with one of the endings."""
    for ending in endings:
        file = folder / (stem + ending)
        if file.is_file():
            return {"text": file.read_text(encoding="utf-8"), "syntax": ending}
    return None


def example(folder):
    """One example, or None where the folder has not all that one needs."""
    schema = document(folder, "schema", [".shex", ".json"])
    data = document(folder, "data", [".ttl", ".nt"])
    shape_map = document(folder, "map", [""])
    if not (schema and data and shape_map):
        return None
    imports = [{"iri": iri, **document(folder, pathlib.Path(name).stem, [pathlib.Path(name).suffix])} for iri, name in IMPORTS.get(folder.name, [])]
    return {
        "name": NAMES.get(folder.name, folder.name),
        "schema": schema,
        "data": data,
        "map": {"text": shape_map["text"]},
        "imports": imports,
        "budget": BUDGETS.get(folder.name, ""),
    }


def main():
    found = [made for folder in sorted(EXAMPLES.iterdir()) if folder.is_dir() for made in [example(folder)] if made]
    found.sort(key=lambda one: list(NAMES.values()).index(one["name"]) if one["name"] in NAMES.values() else len(NAMES))
    json.dump(found, sys.stdout, ensure_ascii=False, indent=1)
    sys.stdout.write("\n")


if __name__ == "__main__":
    main()
