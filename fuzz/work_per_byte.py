#!/usr/bin/env python3
"""Runs shex on inputs that are made to cost much for their size, at growing sizes, and prints a table.

    fuzz/work_per_byte.py [PROGRAM] [--only WORD,WORD ..] [--scale 1] [--seconds 10] [--megabytes 6000]

PROGRAM is by default the released one, `dist/shex`. Each input is within the limits or just beyond one, and has
to be answered as it says here: by this status and, where it is refused, this line. Printed are the bytes of its files, seconds
of a processor, megabytes at the peak, and the exponent e of the growth to the next size (time as size to the e, the size being
that of the files that have grown). A run is ended behind `--seconds`, and memory beyond `--megabytes` is refused. Marked at the
end of a line are a run that takes more than 10 seconds (LATE), one that takes over a second and has grown by an exponent above 1.25 (GROWS), one that ends
otherwise than it says here (WRONG), and one to which memory is refused (MEMORY). `--scale 0.1` makes all sizes a tenth. The
program ends with 1 where one is marked. Nothing but Python's standard library is wanted.
"""

import argparse
import collections
import os
import resource
import sys

from running import RELEASED, SECONDS, exponent, folder, run, write

MIB = 1 << 20

# An input: its files, the words, the status, the line of the errors (none: nothing, or whatever a status with lines prints), and
# the lines that are printed (none: any number).
Made = collections.namedtuple("Made", "files words status err lines")

S = "http://localhost/S"
ANY = "<S> { }"
VALIDATE = "validate --schema s.shex --data {data} --map m"
CHECK = "check --schema s.shex --data {data} --proof p"


def made(files, words, status, err=None, lines=None):
    """An input with these words, which may be a line."""
    return Made(files, words.split(" ") if isinstance(words, str) else words, status, err, lines)


def refused(name, text, what, beside=None):
    """An input whose file of this name is refused so, beside other files that are not."""
    files = {"s.shex": ANY, "d.nt": "", "m": "<n>@<S>"}
    files.update(beside or {})
    files[name] = text
    data = "d.ttl" if name == "d.ttl" else "d.nt"
    words = (CHECK if name == "p" else VALIDATE).format(data=data)
    if name == "s.json":
        words = words.replace("s.shex", "s.json")
    return made(files, words, 6 if name == "p" else 3, f"shex: {name}: {what}")


def taken(name, text, status=0, lines=1, schema=ANY, shape_map="<n>@<S>", words=VALIDATE):
    """An input whose file of this name is read, and whose associations are answered."""
    files = {"s.shex": schema, "d.nt": "", "m": shape_map}
    files[name] = text
    if name == "s.json":
        words = words.replace("s.shex", "s.json")
    return made(files, words.format(data="d.ttl" if name == "d.ttl" else "d.nt"), status, None, lines)


def numbers(count):
    """So many numbers with commas between them."""
    return ",".join(map(str, range(1, count + 1)))


# Proofs that are made by hand.


def states(count, left_out=0):
    """A refutation with a state for each way to give some of so many triples to two constraints: a third is never met. The last
    states may be left out."""
    lines = [f"{done}:{first},{done - first},0" for done in range(count) for first in range(done + 1)]
    if left_out:
        del lines[-left_out:]
    return f"shex-proof 1\nn <http://localhost/n>\ns 0\n- 0 0 1 {' '.join(lines)}\nc - 0 <{S}>\nend\n"


def forged(count, left_out):
    """A check of such a proof."""
    files = {"s.shex": "<S> { <p> . * ; <p> . * ; <p> [ 0 ] }", "d.ttl": f"<n> <p> {numbers(count)} .", "p": states(count, left_out)}
    if left_out:
        return made(files, CHECK.format(data="d.ttl"), 6, "shex: p: Rejected(0,States)")
    return made(files, CHECK.format(data="d.ttl"), 0, None, 1)


def forged_states(size):
    """A proof that lists every state of a node with so many triples."""
    return forged(size, 0)


def forged_states_cut(size):
    """The same proof without its last state."""
    return forged(size, 1)


def forged_places(size):
    """A proof whose one record has so many places too many."""
    proof = f"shex-proof 1\nn <http://localhost/n>\ns 0\n+ 0 0{' 0' * size}\nend\n"
    return made({"s.shex": "<S> { <p> . }", "d.ttl": "<n> <p> 1 .", "p": proof}, CHECK.format(data="d.ttl"), 6, "shex: p: Rejected(0,Places)")


def forged_claims(size):
    """A proof that claims one thing so many times."""
    claims = f"c + 0 <{S}>\n" * size
    proof = f"shex-proof 1\nn <http://localhost/n>\ns 0\n+ 0 0\n{claims}end\n"
    return made({"s.shex": ANY, "d.nt": "", "p": proof}, CHECK.format(data="d.nt"), 0, None, size)


def forged_nodes(size):
    """A proof with so many node lines, which it has no use for."""
    lines = "\n".join(sorted(f"n <a:{number}>" for number in range(size)))
    return made({"s.shex": ANY, "d.nt": "", "p": f"shex-proof 1\n{lines}\nend\n"}, CHECK.format(data="d.nt"), 0, None, 0)


def forged_records(size):
    """A proof with a record for each of so many nodes and a Shape without an expression."""
    nodes = sorted(f"<a:{number}>" for number in range(size))
    lines = [f"n {node}" for node in nodes] + ["s 0"] + [f"+ {number} 0" for number in range(size)]
    return made({"s.shex": ANY, "d.nt": "", "p": "shex-proof 1\n" + "\n".join(lines) + "\nend\n"}, CHECK.format(data="d.nt"), 0, None, 0)


def forged_records_of_one_node(size):
    """A refutation of one node with so many triples for each of as many Shapes, each of which costs a look at the triples."""
    schema = "\n".join(f"<S{number}> {{ <p> . * ; <q> . }}" for number in range(size))
    records = "".join(f"- 0 {number} 1\n" for number in range(size))
    proof = f"shex-proof 1\nn <http://localhost/n>\ns 0\n{records}end\n"
    return made({"s.shex": schema, "d.ttl": f"<n> <p> {numbers(size)} .", "p": proof}, CHECK.format(data="d.ttl"), 0, None, 0)


# Schemas at their limits.


def occurrences(size):
    """So many nodes with a triple for each of 256 constraints on as many predicates."""
    schema = "<S> { " + " ; ".join(f"<p{number}> ." for number in range(256)) + " }"
    lines = ["".join(f"<n{node}> <p{number}> 1 .\n" for number in range(256)) for node in range(size)]
    return made({"s.shex": schema, "d.ttl": lines, "m": "{FOCUS <p0> _}@<S>"}, VALIDATE.format(data="d.ttl"), 0, None, size)


def occurrences_of_one(size):
    """So many nodes with a triple for each of 256 constraints on one predicate, each of which allows one value."""
    schema = "<S> { " + " ; ".join(f"<p> [ {number} ]" for number in range(256)) + " }"
    lines = [f"<n{node}> <p> {','.join(map(str, range(256)))} .\n" for node in range(size)]
    return made({"s.shex": schema, "d.ttl": lines, "m": "{FOCUS <p> _}@<S>"}, VALIDATE.format(data="d.ttl"), 0, None, size)


def occurrences_that_overlap(size):
    """So many nodes with two triples that each of 256 constraints fits."""
    schema = "<S> { " + " ; ".join("<p> . ?" for _ in range(256)) + " }"
    lines = [f"<n{node}> <p> 1, 2 .\n" for node in range(size)]
    return made({"s.shex": schema, "d.ttl": lines, "m": "{FOCUS <p> _}@<S>"}, VALIDATE.format(data="d.ttl"), 0, None, size)


def occurrences_wide(size):
    """So many nodes with so many triples that each of 256 constraints fits that all are wider than any budget."""
    schema = "<S> { " + " ; ".join("<p> . ?" for _ in range(256)) + " }"
    lines = [f"<n{node}> <p> {numbers(200)} .\n" for node in range(size)]
    return made({"s.shex": schema, "d.ttl": lines, "m": "{FOCUS <p> _}@<S>"}, VALIDATE.format(data="d.ttl"), 4, None, 0)


def shapes(size):
    """So many Shapes of which each refers to the next, the last to the first, and a ring of as many nodes."""
    schema = "\n".join(f"<S{number}> {{ <p> @<S{(number + 1) % size}> }}" for number in range(size))
    data = "\n".join(f"<n{number}> <p> <n{(number + 1) % size}> ." for number in range(size))
    return made({"s.shex": schema, "d.ttl": data, "m": "<n0>@<S0>"}, VALIDATE.format(data="d.ttl"), 0, None, 1)


def pairs(size):
    """The same Shapes and nodes, and each node asked for the first Shape, so that the pairs are as many as the square of the size."""
    case = shapes(size)
    case.files["m"] = "{FOCUS <p> _}@<S0>"
    return case._replace(lines=size)


def shapes_of_one_node(size):
    """So many Shapes that are asked of one node, which has as many triples."""
    schema = "START = " + " AND ".join(f"@<S{number}>" for number in range(size)) + "\n" + "\n".join(f"<S{number}> {{ <p> . * }}" for number in range(size))
    return made({"s.shex": schema, "d.ttl": f"<n> <p> {numbers(size)} .", "m": "<n>@START"}, VALIDATE.format(data="d.ttl"), 0, None, 1)


def alternatives(size):
    """An expression of so many alternatives, none of which holds, for one node."""
    return made({"s.shex": "<S> " + " OR ".join(["BNODE"] * size), "d.nt": "", "m": "<n>@<S>"}, VALIDATE.format(data="d.nt"), 1, None, 1)


def values(size):
    """A value set of so many values, asked about as many nodes that it holds."""
    schema = "<S> { <p> [ " + " ".join(map(str, range(size))) + " ] * }"
    return made({"s.shex": schema, "d.ttl": f"<n> <p> {numbers(size - 1)} .", "m": "<n>@<S>"}, VALIDATE.format(data="d.ttl"), 0, None, 1)


def stems(size):
    """A value set of so many stems, of which the last alone holds, asked about as many IRIs."""
    named, objects = (" ".join(f"<a:{number}/>~" for number in range(size)), ",".join(f"<b:{number}>" for number in range(size)))
    return made({"s.shex": f"<S> {{ <p> [ {named} <b:>~ ] * }}", "d.ttl": f"<n> <p> {objects} .", "m": "<n>@<S>"}, VALIDATE.format(data="d.ttl"), 0, None, 1)


def labels(size):
    """So many labelled shape expressions."""
    rows = [f"<S{number}> IRI" for number in range(size)]
    return made({"s.shex": "\n".join(rows), "d.nt": "", "m": f"<n>@<S{size - 1}>"}, VALIDATE.format(data="d.nt"), 0, None, 1)


# Patterns at their limits, over texts of growing size.


def pattern_over(text, pattern, holds):
    """A node constraint with this pattern over a literal of this text."""
    return made({"s.shex": f"<S> LITERAL /{pattern}/", "d.nt": "", "m": f'"{text}"@<S>'}, VALIDATE.format(data="d.nt"), 0 if holds else 1, None, 1)


def pattern_positions(size):
    """4,096 positions, most of which may be left out, over a text of this size."""
    return pattern_over("a" * size + "b", "^(a?){4094}c", False)


def pattern_optional(size):
    """The same under a star, so that each position may follow each other."""
    return pattern_over("a" * size + "b", "^((a?){4094})*c", False)


def pattern_class(size):
    """4,096 positions of a class, from each place of a text of this size."""
    return pattern_over("a" * size, "[a-c]{4095}d", False)


def pattern_small(size):
    """A small pattern over a text of this size."""
    return pattern_over("a" * size, "^[a-z]*$", True)


# Maps.


def associations(size):
    """A triple pattern that selects so many nodes."""
    lines = [f"<a:{number}> <http://localhost/p> <a:o> .\n" for number in range(size)]
    return made({"s.shex": ANY, "d.nt": lines, "m": "{FOCUS <p> _}@<S>"}, VALIDATE.format(data="d.nt"), 0, None, size)


def associations_again(size):
    """A triple pattern that stands a hundred times and each time selects the same nodes."""
    lines = [f"<a:{number}> <http://localhost/p> <a:o> .\n" for number in range(size // 100)]
    return made({"s.shex": ANY, "d.nt": lines, "m": ",".join(["{FOCUS <p> _}@<S>"] * 100)}, VALIDATE.format(data="d.nt"), 0, None, size // 100 * 100)


def associations_written(size):
    """A map in which so many nodes are written."""
    shape_map = ",".join(f"<{number}>@<S>" for number in range(size))
    return made({"s.shex": ANY, "d.nt": "", "m": shape_map}, VALIDATE.format(data="d.nt"), 0, None, size)


def associations_twice(size):
    """A map in which one node is written so many times."""
    return made({"s.shex": ANY, "d.nt": "", "m": ",".join(["<n>@<S>"] * size)}, VALIDATE.format(data="d.nt"), 0, None, size)


# One thing, over and over.


def brackets_in_turtle(size):
    return refused("d.ttl", "[" * size, "Syntax(1)")


def round_brackets_in_turtle(size):
    return refused("d.ttl", "(" * size, "Deep")


def lists_in_turtle(size):
    return refused("d.ttl", "[<p>" * (size // 4), "Deep")


def empty_lists_in_turtle(size):
    """So many anonymous nodes in one statement."""
    count = size // 3
    return taken("d.ttl", "<n><p>[]" + ",[]" * (count - 1) + ".")


def empty_collections(size):
    """A collection of empty ones."""
    return taken("d.ttl", "<n><p>(" + "()" * (size // 2) + ").")


def brackets_in_n_triples(size):
    return refused("d.nt", "[" * size, "Syntax(0)")


def brackets_in_shexc(size):
    return refused("s.shex", "[" * size, "Syntax(0)")


def round_brackets_in_shexc(size):
    return refused("s.shex", "<S>" + "(" * size, "Deep")


def braces_in_shexc(size):
    return refused("s.shex", "<S>" + "{<p>" * (size // 4), "Deep")


def brackets_in_json(size):
    return refused("s.json", "[" * size, "Json")


def braces_in_json(size):
    return refused("s.json", '{"a":' * (size // 5), "Json")


def brackets_in_map(size):
    return refused("m", "[" * size, "Syntax(0)")


def brackets_in_proof(size):
    return refused("p", "[" * size, "Syntax(0)")


def iris_in_turtle(size):
    return refused("d.ttl", "<a> " * (size // 4), "Syntax(12)")


def iris_in_n_triples(size):
    return refused("d.nt", "<a> " * (size // 4), "Syntax(0)")


def iris_in_shexc(size):
    """One label that is declared over and over."""
    return refused("s.shex", "<a> " * (size // 8 * 2), "Twice(<http://localhost/a>)")


def iris_in_map(size):
    return refused("m", "<a> " * (size // 4), "Syntax(4)")


def statements_in_turtle(size):
    """One statement over and over."""
    return taken("d.ttl", "<a> <a> <a> ." * (size // 13))


def objects_that_are_one(size):
    """One object over and over."""
    return taken("d.ttl", "<a> <a> <a>" + ",<a>" * (size // 4) + ".")


def predicates_that_are_one(size):
    """One predicate and object over and over."""
    return taken("d.ttl", "<a> <a> 1" + ";a 1" * (size // 4) + ".")


def semicolons(size):
    """Semicolons behind a statement's objects."""
    return taken("d.ttl", "<a> <a> <a>" + ";" * size + ".")


def line_of_n_triples(size):
    """One line over and over."""
    return taken("d.nt", "<a:a> <a:a> <a:a> .\n" * (size // 20))


def comment_of_n_triples(size):
    """One comment of this size."""
    return taken("d.nt", "#" + "x" * size)


def comment_of_turtle(size):
    return taken("d.ttl", "#" + "x" * size)


def comment_of_shexc(size):
    return taken("s.shex", ANY + "/*" + "*" * size + "/")


def comment_of_map(size):
    return taken("m", "<n>@<S>#" + "x" * size)


def line_without_end(size):
    """One literal on one line that does not end."""
    return refused("d.nt", '<a:a> <a:a> "' + "x" * size, "Syntax(12)")


def line_feeds(size):
    return taken("d.nt", "\n" * size)


def spaces_in_turtle(size):
    return taken("d.ttl", " " * size)


def prefixes(size):
    """One prefix that is declared over and over."""
    return taken("d.ttl", "PREFIX a:<a>\n" * (size // 13))


def prefixes_that_differ(size):
    """Prefixes, each of which is declared once, and each of which is used."""
    count = size // 46
    return taken("d.ttl", [f"PREFIX p{number}:<a:>\np{number}:a p{number}:a 1 .\n" for number in range(count)])


def bases_that_differ(size):
    """A base in each second line."""
    return taken("d.ttl", [f"BASE <{number}>\n<a> <a> <a> .\n" for number in range(size // 29)])


def json_lists(size):
    """Lists, 125 in one another, over and over."""
    lists = "[" * 125 + "]" * 125
    text = '{"type":"Schema","shapes":[{"type":"Shape","id":"' + S + '"}],"@context":[' + ",".join([lists] * (size // 251)) + "]}"
    return taken("s.json", text)


def json_keys(size):
    """An object with as many keys as fit."""
    keys = ",".join(f'"{number}":1' for number in range(size // 12))
    return taken("s.json", '{"type":"Schema","shapes":[{"type":"Shape","id":"' + S + '"}],"@context":{' + keys + "}}")


def json_keys_unknown(size):
    """A schema with as many keys as fit that it may not have."""
    keys = ",".join(f'"{number}":1' for number in range(size // 12))
    return refused("s.json", '{"type":"Schema",' + keys + "}", "Key(0)")


def json_shapes(size):
    """A schema with one declaration over and over."""
    shape = '{"type":"NodeConstraint","id":"a"}'
    return refused("s.json", '{"type":"Schema","shapes":[' + ",".join([shape] * (size // 35)) + "]}", "Twice(<a>)")


# One long text.


def literal(size):
    """A literal of this size, whose length is asked."""
    return taken("d.nt", f'<{S}> <a:p> "' + "x" * size + '" .', 1, 1, "<S> LITERAL MINLENGTH 16777217", "{_ <a:p> FOCUS}@<S>")


def literal_of_escapes(size):
    """A literal of this many escapes."""
    return taken("d.nt", f'<{S}> <a:p> "' + "\\u0041" * size + '" .', 1, 1, "<S> LITERAL MINLENGTH 16777217", "{_ <a:p> FOCUS}@<S>")


def literal_in_quotes(size):
    """A literal of this size in three quotes each way, made of quotes."""
    return taken("d.ttl", "<a> <a:p> '''" + '"' * size + "''' .", 1, 1, "<S> LITERAL MINLENGTH 16777217", "{_ <a:p> FOCUS}@<S>")


def literal_of_digits(size):
    """A whole number of this many digits, compared with one of as many."""
    number = "9" * size
    schema = f"PREFIX x: <http://www.w3.org/2001/XMLSchema#> <S> x:integer MININCLUSIVE {number} MAXINCLUSIVE {number} TOTALDIGITS 4294967295"
    return taken("d.ttl", f"<a> <a:p> {number} .", 0, 1, schema, "{_ <a:p> FOCUS}@<S>")


def literal_that_matches(size):
    """A literal of this size under a small pattern."""
    return taken("d.nt", f'<{S}> <a:p> "' + "x" * size + '" .', 0, 1, "<S> LITERAL /^x*$/", "{_ <a:p> FOCUS}@<S>")


def literals_like_another(size):
    """Literals that differ in their last character alone."""
    front = "x" * (size // 100)
    lines = [f'<a:s> <a:p> "{front}{number}" .\n' for number in range(100)]
    return taken("d.nt", lines, 1, 100, "<S> LITERAL LENGTH 1", "{_ <a:p> FOCUS}@<S>")


def iri(size):
    """An IRI of this size."""
    return taken("d.nt", "<a:" + "x" * (size - 2) + "> <a:p> <a:o> .", 0, 1, ANY, "{FOCUS <a:p> _}@<S>")


def label(size):
    """A label of this size."""
    return taken("d.nt", "_:" + "x" * size + " <a:p> <a:o> .", 0, 1, ANY, "{FOCUS <a:p> _}@<S>")


def dots(size):
    """A reference of dots and slashes."""
    return taken("d.ttl", "<" + "../" * (size // 3) + "n> <p> 1 .", 0, 1, ANY, "{FOCUS <p> _}@<S>")


def steps(size):
    """A reference that goes into a folder and out again, over and over."""
    return taken("d.ttl", "<" + "a/../" * (size // 5) + "n> <p> 1 .", 0, 1, ANY, "{FOCUS <p> _}@<S>")


# Statements with many objects, and references behind long bases.

LETTERS = "0123456789ABCDEFGHIJKLMNOPQRSTUVWXYZabcdefghijklmnopqrstuvwxyz"


def short_name(number):
    """A name of four letters."""
    letters = []
    for _ in range(4):
        number, digit = divmod(number, len(LETTERS))
        letters.append(LETTERS[digit])
    return "".join(letters)


def objects(size):
    """One statement with so many objects."""
    text = ["PREFIX :<a:>\n<n> <p> :" + short_name(0)] + [",:" + short_name(number) for number in range(1, size)] + ["."]
    return taken("d.ttl", text, 0, 1, "<S> { <p> IRI * }")


def objects_too_many(size):
    """One statement with so many objects, which are more than a graph may have."""
    text = ["PREFIX :<a:>\n<n> <p> :" + short_name(0)] + [",:" + short_name(number) for number in range(1, size)] + ["."]
    return refused("d.ttl", text, "Full")


def subjects(size):
    """So many statements, each of a node of its own."""
    return taken("d.ttl", ["PREFIX :<a:>\n"] + [f":{short_name(number)} a 1 .\n" for number in range(size)])


def subjects_too_many(size):
    """So many statements, which are more than a graph may have."""
    return refused("d.ttl", ["PREFIX :<a:>\n"] + [f":{short_name(number)} a 1 .\n" for number in range(size)], "Full")


def base_of(length, count, name):
    """So many references behind a base of this length."""
    lines = [f"<{name(number)}> <a:p> 1 .\n" for number in range(count)]
    return taken("d.ttl", [f"BASE <http://a/{'x' * length}/>\n"] + lines)


def base_length(size):
    """10,000 references that are one, behind a base of this length."""
    return base_of(size, 10_000, lambda number: "n")


def base_references(size):
    """So many references that are one, behind a base of 200,000 characters."""
    return base_of(200_000, size, lambda number: "n")


def base_references_that_differ(size):
    """So many references that differ, behind a base of 200,000 characters."""
    return base_of(200_000, size, str)


def base_of_megabytes(size):
    """So many references that are one, behind a base of 4,000,000 characters."""
    return base_of(4_000_000, size, lambda number: "n")


def base_that_is_dropped(size):
    """So many references that are one, behind a base whose last segment, which is replaced, has 200,000 characters."""
    return taken("d.ttl", [f"BASE <http://a/{'x' * 200_000}>\n"] + ["<n> <a:p> 1 .\n"] * size)


def base_of_many_folders(size):
    """1,000 references that are one, behind a base of so many folders."""
    lines = ["<n> <a:p> 1 .\n"] * 1000
    return taken("d.ttl", [f"BASE <http://a/{'x/' * size}>\n"] + lines)


def prefix_length(size):
    """10,000 names that are one, whose prefix stands for an IRI of this length."""
    return taken("d.ttl", [f"PREFIX p: <a:{'x' * size}>\n"] + ["p:n <a:p> 1 .\n"] * 10_000)


M = MIB
TEXTS = (4 * M, 16 * M, 64 * M - 64)
LITERALS = (M, 4 * M, 16 * M)

FAMILIES = [
    (forged_states, (500, 1000, 2000)), (forged_states_cut, (500, 1000, 2000)), (forged_places, (1_000_000, 4_000_000, 16_000_000)),
    (forged_claims, (100_000, 400_000, 1_600_000)), (forged_nodes, (100_000, 400_000, 1_600_000)), (forged_records, (100_000, 400_000, 1_600_000)), (forged_records_of_one_node, (1000, 2000, 4000)),
    (occurrences, (100, 400, 1600)), (occurrences_of_one, (10, 40, 160)), (occurrences_that_overlap, (5, 20, 80)), (occurrences_wide, (10, 40, 160)),
    (shapes, (1000, 2000, 4000)), (pairs, (250, 500, 1000, 2000)), (shapes_of_one_node, (1000, 2000, 4000)), (alternatives, (100_000, 400_000, 1_600_000)),
    (values, (4000, 16_000, 64_000)), (stems, (4000, 16_000, 64_000)), (labels, (20_000, 80_000, 320_000)),
    (pattern_positions, (1000, 10_000, 100_000)), (pattern_optional, (1000, 10_000, 100_000)), (pattern_class, (1000, 10_000, 100_000)),
    (pattern_small, (100_000, 1_000_000, 10_000_000)),
    (associations, (10_000, 100_000, 1_000_000)), (associations_again, (10_000, 100_000, 1_000_000)),
    (associations_written, (10_000, 100_000, 1_000_000)), (associations_twice, (10_000, 100_000, 1_000_000)),
    (brackets_in_turtle, TEXTS), (round_brackets_in_turtle, TEXTS), (lists_in_turtle, TEXTS), (empty_lists_in_turtle, (M, 3 * M, 9 * M)),
    (empty_collections, (M, 2 * M, 3 * M)), (brackets_in_n_triples, TEXTS), (brackets_in_shexc, TEXTS), (round_brackets_in_shexc, TEXTS),
    (braces_in_shexc, TEXTS), (brackets_in_json, TEXTS), (braces_in_json, TEXTS), (brackets_in_map, TEXTS), (brackets_in_proof, TEXTS),
    (iris_in_turtle, TEXTS), (iris_in_n_triples, TEXTS), (iris_in_shexc, TEXTS), (iris_in_map, TEXTS),
    (statements_in_turtle, TEXTS), (objects_that_are_one, TEXTS), (predicates_that_are_one, TEXTS), (semicolons, TEXTS),
    (line_of_n_triples, TEXTS), (comment_of_n_triples, TEXTS), (comment_of_turtle, TEXTS), (comment_of_shexc, TEXTS), (comment_of_map, TEXTS),
    (line_without_end, TEXTS), (line_feeds, TEXTS), (spaces_in_turtle, TEXTS), (prefixes, TEXTS), (prefixes_that_differ, TEXTS), (bases_that_differ, TEXTS),
    (json_lists, TEXTS), (json_keys, (M, 4 * M, 16 * M)), (json_keys_unknown, (M, 4 * M, 16 * M)), (json_shapes, TEXTS),
    (literal, LITERALS), (literal_of_escapes, (M, 4 * M, 8 * M)), (literal_in_quotes, LITERALS), (literal_of_digits, LITERALS),
    (literal_that_matches, LITERALS), (literals_like_another, (4 * M, 16 * M, 64 * M - 4096)), (iri, LITERALS), (label, LITERALS), (dots, LITERALS), (steps, LITERALS),
    (objects, (400_000, 1_000_000, 2_000_000, 4_000_000)), (objects_too_many, (5_000_000, 10_000_000)),
    (subjects, (400_000, 1_000_000, 2_000_000, 4_000_000)), (subjects_too_many, (4_500_000,)),
    (base_length, (50_000, 100_000, 200_000)), (base_references, (2500, 5000, 10_000)), (base_references_that_differ, (2500, 5000, 10_000)),
    (base_of_megabytes, (10, 100, 1000)), (base_that_is_dropped, (2500, 5000, 10_000)), (base_of_many_folders, (10_000, 100_000, 1_000_000)), (prefix_length, (50_000, 100_000, 200_000)),
]


def is_as_said(case, ran):
    """Whether a run ended as its input says."""
    if ran.status != case.status:
        return False
    if case.err is not None and ran.err.decode(errors="replace") != case.err + "\n" or case.err is None and case.status != 4 and ran.err:
        return False
    return case.lines is None or ran.out.count(b"\n") == case.lines


def marks(case, ran, grown):
    """What is wrong with a run."""
    found = ["LATE"] if ran.seconds > SECONDS else []
    if ran.status == "late":
        return found
    if ran.status == 8:
        return found + ["MEMORY"]
    if not is_as_said(case, ran):
        found.append(f"WRONG {ran.status} {ran.err[:80].decode(errors='replace')!r}")
    if grown is not None and grown > 1.25 and ran.seconds > 1:
        found.append("GROWS")
    return found


def measure(program, make, sizes, seconds, megabytes):
    """Prints a line for each size of an input, and says whether one was marked."""
    before, marked = None, False
    for size in sizes:
        case = make(size)
        with folder() as where:
            write(where, case.files)
            held = {name: os.path.getsize(os.path.join(where, name)) for name in case.files}
            ran = run([program, *case.words], where, seconds, [(resource.RLIMIT_DATA, megabytes * MIB)])
        grown = exponent(before, (held, ran.seconds))
        found = marks(case, ran, grown)
        marked = marked or bool(found)
        shown = "" if grown is None else f"{grown:.2f}"
        print(f"| {make.__name__} | {size} | {sum(held.values())} | {ran.status} | {ran.seconds:.3f} | {ran.megabytes:.0f} | {shown} | {' '.join(found)} |", flush=True)
        before = held, ran.seconds
        if ran.status == "late":
            break
    return marked


def main():
    parser = argparse.ArgumentParser(description=__doc__, formatter_class=argparse.RawDescriptionHelpFormatter)
    parser.add_argument("program", nargs="?", default=RELEASED)
    parser.add_argument("--only", default="")
    parser.add_argument("--scale", type=float, default=1)
    parser.add_argument("--seconds", type=float, default=SECONDS)
    parser.add_argument("--megabytes", type=int, default=6000)
    words = parser.parse_args()
    print("| input | size | bytes | status | s | MB | exponent | |\n|---|---|---|---|---|---|---|---|")
    program, marked = os.path.abspath(words.program), False
    for make, sizes in FAMILIES:
        if any(word in make.__name__ for word in words.only.split(",")):
            sizes = [max(1, int(size * words.scale)) for size in sizes]
            marked = measure(program, make, sizes, words.seconds, words.megabytes) or marked
    sys.exit(marked)


if __name__ == "__main__":
    main()
