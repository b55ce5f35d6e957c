"""What the package answers, on the examples and on small texts."""

from __future__ import annotations

import gzip
import io
import pickle
from concurrent.futures import ThreadPoolExecutor
from pathlib import Path

import pytest
import shex_proved
from conftest import ROOT

CLINICAL = ROOT / "examples" / "clinical"
IMPORTS = {"http://ex.example/observations": CLINICAL / "observations.shex"}

SCHEMA = "PREFIX e: <http://e.example/>\ne:Friend { e:knows . }\n"
DATA = "@prefix e: <http://e.example/> .\ne:ann e:knows e:bob .\n"
ANN, BOB, FRIEND = "http://e.example/ann", "http://e.example/bob", "http://e.example/Friend"


def clinical(**more: object) -> shex_proved.Result:
    """The clinical example."""
    names = ("schema.shex", "data.ttl", "map")
    return shex_proved.validate(*(CLINICAL / name for name in names), imports=IMPORTS, **more)  # type: ignore[arg-type]


def test_texts() -> None:
    result = shex_proved.validate(SCHEMA, DATA, "e:ann@<http://e.example/Friend>")
    assert result and result.complete and result.proof is None
    assert list(result) == [shex_proved.Answer(f"<{ANN}>", f"<{FRIEND}>", True)]
    assert result.to_json() == [{"node": ANN, "shape": FRIEND, "status": "conformant"}]


def test_pairs() -> None:
    result = shex_proved.validate(SCHEMA, DATA, [(ANN, FRIEND), (f"<{BOB}>", f"<{FRIEND}>"), ('"x@y"@en', FRIEND)])
    assert not result
    assert [(answer.node, answer.conformant) for answer in result] == [
        (f"<{ANN}>", True),
        (f"<{BOB}>", False),
        ('"x@y"@en', False),
    ]


def test_the_start() -> None:
    result = shex_proved.validate("start = { <http://e.example/knows> . }", DATA, [(ANN, None)])
    assert [answer.shape for answer in result] == ["START"]


def test_no_associations() -> None:
    result = shex_proved.validate(SCHEMA, DATA, "")
    assert result and len(result) == 0


def test_paths_proofs_and_imports() -> None:
    result = clinical(proof=True)
    assert [answer.conformant for answer in result] == [True, False, False, False, False, True]
    assert not result and result.proof
    claims = shex_proved.check(CLINICAL / "schema.shex", CLINICAL / "data.ttl", result.proof, imports=IMPORTS)
    assert claims and claims.answers == result.answers and not claims.conformant


def test_a_proof_of_other_data() -> None:
    proof = shex_proved.validate(SCHEMA, DATA, [(ANN, FRIEND)], proof=True).proof
    assert proof
    with pytest.raises(shex_proved.ProofRejectedError) as caught:
        shex_proved.check(SCHEMA, DATA + "# more", proof)
    assert (caught.value.cause, caught.value.detail, caught.value.status) == ("Stale", "data", 6)


def test_wide_pairs() -> None:
    wide = ROOT / "examples" / "wide"
    result = shex_proved.validate(wide / "schema.shex", wide / "data.ttl", wide / "map", budget=1)
    assert not result and not result.complete and len(result) == 2
    assert result.wide == (shex_proved.WidePair("<http://ex.example/board>", 0, 3, 1),)


def test_extents() -> None:
    found = shex_proved.extents(SCHEMA, DATA)
    assert found.to_json() == [{"node": ANN, "shape": FRIEND, "status": "conformant"}]


def test_conversion() -> None:
    text = shex_proved.convert(SCHEMA)
    assert shex_proved.validate(text, DATA, [(ANN, FRIEND)])


def test_faults_have_places() -> None:
    with pytest.raises(shex_proved.RefusedError) as caught:
        shex_proved.validate(SCHEMA, "@prefix e: <http://e.example/> .\ne:ann é:knows\n", "")
    error = caught.value
    assert (error.source, error.cause, error.line, error.column) == ("<data>", "Prefix", 2, 7)
    assert str(error) == "<data>:2:7: Prefix"


def test_faults_without_places(tmp_path: Path) -> None:
    schema = tmp_path / "s.json"
    schema.write_text('{"type": "Schema", "shapes": [1]}')
    with pytest.raises(shex_proved.RefusedError) as caught:
        shex_proved.validate(schema, DATA, "")
    assert (caught.value.source, caught.value.cause, caught.value.place) == (str(schema), "Form", None)


def test_an_import_that_is_not_given() -> None:
    with pytest.raises(shex_proved.RefusedError) as caught:
        shex_proved.validate(CLINICAL / "schema.shex", CLINICAL / "data.ttl", CLINICAL / "map")
    assert (caught.value.cause, caught.value.detail) == ("Import", "<http://ex.example/observations>")


def test_bytes_that_are_not_utf8() -> None:
    with pytest.raises(shex_proved.RefusedError) as caught:
        shex_proved.validate(SCHEMA, b"<http://e.example/a>\n \xff", "")
    assert str(caught.value) == "<data>:2:2: NotUtf8"


def test_a_pair_that_is_no_pair() -> None:
    with pytest.raises(shex_proved.RefusedError) as caught:
        shex_proved.validate(SCHEMA, DATA, [(ANN, FRIEND), ("no node", FRIEND)])
    assert (str(caught.value), caught.value.place) == ("pair 2: Syntax", None)


def test_errors_are_pickled() -> None:
    for call, error in (
        (lambda: shex_proved.validate(SCHEMA, "a b c", ""), shex_proved.RefusedError),
        (lambda: shex_proved.validate(SCHEMA, DATA, "", budget=0), shex_proved.WordsError),
        (lambda: shex_proved.check(SCHEMA, DATA, "no proof"), shex_proved.ProofRejectedError),
    ):
        with pytest.raises(error) as caught:
            call()
        copy = pickle.loads(pickle.dumps(caught.value))
        assert (type(copy), str(copy), vars(copy)) == (error, str(caught.value), vars(caught.value))


def test_reasons() -> None:
    result = shex_proved.validate(SCHEMA, DATA, [(ANN, FRIEND), (BOB, FRIEND)], reasons=True)
    assert [answer.conformant for answer in result] == [True, False]
    assert result.answers[0].reason is None and "http://e.example/knows" in (result.answers[1].reason or "")
    assert "reason" in result.to_json()[1] and "reason" not in result.to_json()[0]
    told = result.answers[1].app_info or {}
    assert result.answers[0].app_info is None and told == result.to_json()[1]["appInfo"]
    assert told["see"] == 1 and [reason["kind"] for reason in told["blocks"][0]["reasons"]] == ["tooFew"]
    assert len({*result.answers}) == 2


def test_no_reasons_where_a_shape_is_not_wanted() -> None:
    result = shex_proved.validate(SCHEMA, DATA, f"<{BOB}>@!<{FRIEND}>", reasons=True)
    assert [(answer.conformant, answer.reason, answer.app_info) for answer in result] == [(False, None, None)]


def test_reasons_where_a_pair_is_wide() -> None:
    wide = ROOT / "examples" / "wide"
    names = ("schema.shex", "data.ttl", "map")
    result = shex_proved.validate(*(wide / name for name in names), budget=1, reasons=True)
    assert result.wide and all(answer.conformant == (answer.reason is None) for answer in result)


def test_arguments_that_are_refused() -> None:
    with pytest.raises(shex_proved.WordsError, match="data_base: Base"):
        shex_proved.validate(SCHEMA, DATA, "", data_base="no scheme")
    with pytest.raises(shex_proved.WordsError, match="budget"):
        shex_proved.validate(SCHEMA, DATA, "", budget=0)
    with pytest.raises(shex_proved.WordsError, match="imports"):
        shex_proved.validate(SCHEMA, DATA, "", imports={"": SCHEMA})
    with pytest.raises(ValueError):
        shex_proved.validate(SCHEMA, DATA, "", data_format="rdfxml")
    with pytest.raises(ValueError, match="pathlib.Path"):
        shex_proved.validate(str(CLINICAL / "schema.shex"), DATA, "")
    with pytest.raises(FileNotFoundError):
        shex_proved.validate(SCHEMA, Path("no such file.ttl"), "")


def test_gzip_and_streams(tmp_path: Path) -> None:
    packed = tmp_path / "data.nt.gz"
    packed.write_bytes(gzip.compress(f"<{ANN}> <http://e.example/knows> <{BOB}> .\n".encode()))
    for data in (packed, io.BytesIO(packed.read_bytes()), packed.open("rb"), io.StringIO(DATA)):
        assert shex_proved.validate(SCHEMA, data, [(ANN, FRIEND)])


def test_graphs_of_rdflib() -> None:
    rdflib = pytest.importorskip("rdflib")
    graph = rdflib.Graph().parse(data=DATA + 'e:ann e:says "a\\"b"@en, 1 .', format="turtle")
    knows = rdflib.URIRef("http://e.example/knows")
    blank = rdflib.BNode()
    graph.add((blank, knows, rdflib.Literal("x\n")))
    pairs = [
        (node, rdflib.URIRef(FRIEND)) for node in (rdflib.URIRef(ANN), rdflib.URIRef(BOB), blank, rdflib.Literal("x\n"))
    ]
    result = shex_proved.validate(SCHEMA, graph, pairs)
    assert [answer.conformant for answer in result] == [True, False, True, False]
    assert result.answers[2].node == blank.n3()


def test_several_data() -> None:
    first = "BASE <http://other.example/>\n@prefix e: <http://e.example/> .\n_:b e:knows <x> . e:cy e:is _:b ."
    second = '_:b <http://e.example/says> "_:b" . # _:b\n<ann> <http://e.example/knows> _:b . _:b_2 a <x> .'
    asked = ", ".join(f"{node}@<{FRIEND}>" for node in ("{FOCUS e:knows _}", "_:b", "_:b_2_"))
    result = shex_proved.validate(SCHEMA, [first, second, DATA], asked)
    nodes = {answer.node: answer.conformant for answer in result}
    assert nodes == {"<http://localhost/ann>": True, f"<{ANN}>": True, "_:b": True, "_:b_2_": False}


def test_several_data_of_which_one_is_at_fault() -> None:
    with pytest.raises(shex_proved.RefusedError) as caught:
        shex_proved.validate(SCHEMA, [DATA, "e:ann e:knows e:cy ."], "")
    assert (caught.value.source, caught.value.cause, caught.value.column) == ("<data 2>", "Prefix", 1)


def test_threads() -> None:
    with ThreadPoolExecutor(4) as pool:
        results = list(pool.map(lambda _: clinical(proof=True), range(16)))
    assert len({(result.text, result.proof) for result in results}) == 1
