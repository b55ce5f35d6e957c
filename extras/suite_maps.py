"""What a test of the ShEx test suite asks, as a shape map in the compact form, and the answers to it.

A test has a focus and a shape, or a map in JSON, as a list of objects with `node`, `shape` and perhaps `status`, or in the compact
form.
"""

import json
import os
import re
from typing import Any, NamedTuple, Optional

from suite_calls import Call, Failed, LeftOut, read
from suite_manifests import Test, iri_text, string_text

UNKNOWN = "not run: tests and shape maps of other kinds"
XSD = "http://www.w3.org/2001/XMLSchema#"
DATATYPES = {bool: "boolean", int: "integer", float: "double"}  # of values of JSON that are no texts
START = ("START", "http://www.w3.org/ns/shex#Start")


class Asked(NamedTuple):
    """A shape map, and for each association whether the node has the shape; None where the test says no more than its kind."""

    text: str
    wanted: Optional[list]


# ---- nodes and labels


def literal_text(value: dict) -> str:
    """A literal of JSON-LD."""
    lexical = value["@value"]
    text = string_text(lexical if isinstance(lexical, str) else json.dumps(lexical))
    if value.get("@language"):
        return f"{text}@{value['@language'].lower()}"
    datatype = value.get("@type") or (XSD + DATATYPES[type(lexical)] if type(lexical) in DATATYPES else "")
    return f"{text}^^{iri_text(datatype)}" if datatype else text


def iri_of(test: Test, reference: str) -> str:
    """An IRI that may stand between angle brackets."""
    return iri_text(test.place.resolved(reference[1:-1] if reference.startswith("<") else reference))


def node_text(test: Test, node: Any) -> str:
    """A node: a literal of JSON-LD or of Turtle, the label of a blank node of the data, or an IRI."""
    if isinstance(node, dict) and "@value" in node:
        return literal_text(node)
    if not isinstance(node, str):
        raise LeftOut(UNKNOWN, f"the node {json.dumps(node)}")
    if node.startswith("_:"):
        return f"_:anon_{node[2:]}" if node.startswith("_:anon") else node
    return re.sub(r'"\^\^([^<"]+)$', r'"^^<\1>', node) if node.startswith('"') else iri_of(test, node)


def label_text(test: Test, label: Any) -> str:
    """A label, or the start, which is meant where there is none."""
    is_start = isinstance(label, dict) and str(label.get("term", label.get("type"))).upper() == "START"
    if label is None or is_start or label in START:
        return "START"
    if not isinstance(label, str):
        raise LeftOut(UNKNOWN, f"the shape {json.dumps(label)}")
    return label if label.startswith("_:") else iri_of(test, label)


# ---- shape maps


def association(test: Test, item: dict) -> str:
    """An association of a map in JSON."""
    return f"{node_text(test, item.get('node'))}@{label_text(test, item.get('shape'))}"


def is_map(value: Any) -> bool:
    """Whether a value of JSON is a shape map."""
    return isinstance(value, list) and value != [] and all(isinstance(item, dict) and "node" in item for item in value)


def value_of(test: Test, part: str) -> Any:
    """What a part has, or the file that it names: a value of JSON, or the text where it is none."""
    if not isinstance(test.parts.get(part), str):
        return test.parts.get(part)
    source = read(test.file(part), part)
    try:
        return json.loads(source)
    except ValueError:
        return source


def results(test: Test) -> list:
    """The associations of a test's result, where it is a map in JSON."""
    file = test.file("result")
    value = value_of(test, "result") if file is None or os.path.isfile(file.path) else None
    return value if is_map(value) else []


def asked_by(test: Test) -> Asked:
    """What a test asks."""
    is_positive = test.kind == "ValidationTest"
    if test.parts.get("map") is None:
        return Asked(association(test, {"node": test.parts.get("focus"), "shape": test.parts.get("shape")}), [is_positive])
    shape_map = value_of(test, "map")
    items = [shape_map] if isinstance(shape_map, dict) else shape_map
    if isinstance(items, str):
        return Asked(items, None)
    if not is_map(items):
        raise LeftOut(UNKNOWN, "a map of another form")
    known = {association(test, item): item["status"] == "conformant" for item in items + results(test) if item.get("status")}
    associations = list(dict.fromkeys(association(test, item) for item in items))
    wanted = [known.get(one, is_positive) for one in associations]
    return Asked(",\n".join(associations), wanted if is_positive or known else None)


def answers(call: Call) -> list:
    """For each association of a result shape map whether the node has the shape."""
    lines = call.output.split("\n")[:-1]
    marks = [re.search(r"@(!?)(?:<[^<>]*>|_:[^\s@]+|START),?$", line) for line in lines]
    if call.status not in (0, 1) or None in marks or not lines:
        raise Failed(call.said())
    return [not mark[1] for mark in marks]
