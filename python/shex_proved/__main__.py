"""The command: python -m shex_proved validate --schema F --data F --node N --shape S --json"""

from __future__ import annotations

import argparse
import json
import sys
from pathlib import Path
from typing import Any, Optional, Sequence, Union

from . import __version__
from .errors import ShexError
from .results import Result
from .sources import Source
from .validating import check, convert, extents, validate

_MEMORY = 8
_FILE = 5
_WORDS = 2


def _source(word: str) -> Source:
    """The file of a word; `-` is standard input."""
    return sys.stdin.buffer if word == "-" else Path(word)


def _import(word: str) -> tuple[str, Source]:
    iri, _, file = word.rpartition("=")
    if not iri or not file:
        raise argparse.ArgumentTypeError(f"not IRI=FILE: {word}")
    return iri, _source(file)


def _parser() -> argparse.ArgumentParser:
    """The words of all commands."""
    parser = argparse.ArgumentParser(
        prog="python -m shex_proved",
        description="Validates RDF graphs against ShEx 2.1 schemas. FILE may be compressed by gzip, and - is standard input.",
        epilog="The exit status is that of the program shex.",
    )
    parser.add_argument("--version", action="version", version=__version__)
    commands = parser.add_subparsers(dest="command", required=True, metavar="COMMAND")
    schema = argparse.ArgumentParser(add_help=False)
    schema.add_argument(
        "--schema", "-x", required=True, type=_source, metavar="FILE", help="the schema, in ShExC or ShExJ"
    )
    schema.add_argument("--schema-base", metavar="IRI")
    schema.add_argument("--schema-format", choices=("shexc", "shexj"))
    data = argparse.ArgumentParser(add_help=False)
    data.add_argument(
        "--data",
        "-d",
        required=True,
        type=_source,
        metavar="FILE",
        action="append",
        help="data, in Turtle or N-Triples; may be given again",
    )
    data.add_argument("--data-base", metavar="IRI")
    data.add_argument("--data-format", choices=("turtle", "nt"))
    data.add_argument("--json", action="store_true", help="print a result shape map in JSON")
    data.add_argument(
        "imports", nargs="*", type=_import, metavar="IRI=FILE", help="the document that a schema imports by this IRI"
    )
    budget = argparse.ArgumentParser(add_help=False)
    budget.add_argument("--budget", type=int, metavar="N", help="the greatest width that is looked into")
    one = commands.add_parser(
        "validate", parents=[schema, data, budget], help="answer a shape map, or whether nodes have a shape"
    )
    one.add_argument("--map", "-m", type=_source, metavar="FILE", help="a shape map")
    one.add_argument(
        "--node",
        "-n",
        action="append",
        default=[],
        metavar="NODE",
        help="a node: an IRI, or as a map writes it; may be given again",
    )
    one.add_argument(
        "--shape", "-s", metavar="SHAPE", help="the label of the nodes' shape; by default the schema's start"
    )
    one.add_argument("--proof", type=Path, metavar="FILE", help="store a proof of the answers")
    one.add_argument("--reasons", "-r", action="store_true", help="say why nodes do not conform")
    claims = commands.add_parser("check", parents=[schema, data], help="check a proof, and print what it claims")
    claims.add_argument("--proof", required=True, type=_source, metavar="FILE")
    commands.add_parser("extents", parents=[schema, data, budget], help="list which nodes have which shapes")
    commands.add_parser("convert", parents=[schema], help="print a schema in ShExJ")
    return parser


def _reasoned(result: Result) -> str:
    """The answers, a line each, with reasons below them."""
    lines = (
        f"{answer.node}@{'' if answer.conformant else '!'}{answer.shape}\n{answer.reason or ''}".rstrip("\n")
        for answer in result
    )
    return "\n".join(lines) + "\n"


def _show(result: Result, in_json: bool) -> int:
    """Prints a result, and gives the status for it."""
    if in_json:
        json.dump(result.to_json(), sys.stdout, indent=2, ensure_ascii=False)
        print()
    else:
        sys.stdout.write(_reasoned(result) if any(answer.reason for answer in result) else result.text)
    for pair in result.wide:
        print(f"wide {pair.node} #{pair.shape} width {pair.width} budget {pair.budget}", file=sys.stderr)
    return 4 if result.wide else 0 if result else 1


def _sources_of(words: argparse.Namespace) -> list[Source]:
    """All that is to be read for the words."""
    one_each: list[Any] = [getattr(words, name, None) for name in ("schema", "map", "proof")]
    return [*one_each, *getattr(words, "data", []), *dict(getattr(words, "imports", [])).values()]


def _run(words: argparse.Namespace, parser: argparse.ArgumentParser) -> int:
    """Does what the words ask for, and gives the status."""
    if words.command == "convert":
        sys.stdout.write(convert(words.schema, schema_format=words.schema_format, schema_base=words.schema_base))
        return 0
    options: dict[str, Any] = {
        name: getattr(words, name) for name in ("schema_format", "data_format", "schema_base", "data_base")
    }
    options["imports"] = dict(words.imports)
    if words.command == "check":
        return _show(check(words.schema, words.data, words.proof, **options), words.json)
    options["budget"] = words.budget
    if words.command == "extents":
        return _show(extents(words.schema, words.data, **options), words.json)
    if (words.map is None) == (not words.node) or (words.map and words.shape):
        parser.error("validate takes --map, or --node with --shape")
    asked: Union[Source, list[tuple[str, Optional[str]]]] = words.map or [(node, words.shape) for node in words.node]
    result = validate(words.schema, words.data, asked, proof=words.proof is not None, reasons=words.reasons, **options)
    if words.proof is not None and result.proof is not None:
        words.proof.write_bytes(result.proof)
    return _show(result, words.json)


def main(given: Optional[Sequence[str]] = None) -> int:
    """Does what the words ask for, and gives the exit status."""
    parser = _parser()
    words = parser.parse_args(given)
    if sum(source is sys.stdin.buffer for source in _sources_of(words)) > 1:
        parser.error("standard input is read once: - may be given once")
    try:
        return _run(words, parser)
    except ShexError as error:
        print(error, file=sys.stderr)
        return error.status
    except MemoryError:
        print("memory ran out", file=sys.stderr)
        return _MEMORY
    except (OSError, EOFError) as error:
        print(error, file=sys.stderr)
        return _FILE


if __name__ == "__main__":
    sys.exit(main())
