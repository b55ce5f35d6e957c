#!/usr/bin/env python3
"""Runs shex on inputs that nest as deeply as they may, and deeper, under a small stack.

    fuzz/stack.py [PROGRAM] [--kilobytes 8192] [--only WORD] [--least]

PROGRAM is by default the released one, `dist/shex`. Each input stands at a limit of depth, just beyond it, or far beyond
it, or makes long chains of what refers to one another. Each run has to end with the status and the line that stand here, by no
signal, under a stack of so many kilobytes. With `--least` the least stack that is enough is looked for too. The program ends
with 1 where a run ended otherwise. Nothing but Python's standard library is wanted.
"""

import argparse
import collections
import os
import resource
import sys

from running import RELEASED, folder, run, write

# An input: its name, its files, the words, the status, and the line of the errors (none: nothing).
Input = collections.namedtuple("Input", "name files words status err")

FAR = 1_000_000
IRIS = "http://localhost/"


def asked(name, files, status=0, what=None, shape_map="<n>@<S>", command="validate"):
    """An input of these files and, where they are not among them, plain others."""
    schema = next((file for file in files if file in ("s.json", "s.shex")), "s.shex")
    data = "d.ttl" if "d.ttl" in files else "d.nt"
    files = {schema: "<S> { }", data: "", "m": shape_map, **files}
    last = ["--proof", "p"] if command == "check" else ["--map", "m"]
    words = [command, "--schema", schema, "--data", data, *last]
    return Input(name, files, words, status, what and f"shex: {what}\n")


def nested(front, opened, inside, closed, back, times):
    """A text in so many brackets."""
    return front + opened * times + inside + closed * times + back


def in_turtle():
    """Lists and collections."""
    for what, opened, inside, closed in (("lists", "[ <p> ", "1", "]"), ("collections", "(", "1", ")"), ("both", "( [ <p> ", "1", "])")):
        each = opened.count("[") + opened.count("(")
        yield asked(f"Turtle: 64 {what}", {"d.ttl": nested("<n> <p> ", opened, inside, closed, " .", 64 // each)})
        for times in (64 // each + 1, FAR):
            yield asked(f"Turtle: {times * each} {what}", {"d.ttl": nested("<n> <p> ", opened, inside, closed, " .", times)}, 3, "d.ttl: Deep")
    yield asked("Turtle: a list as a subject in 64", {"d.ttl": nested("", "[ <p> ", "1", "]", " .", 64)})
    yield asked("Turtle: a collection as a subject in 64", {"d.ttl": nested("", "(", "1", ")", " <p> 1 .", 64)})


def in_shexc():
    """Round brackets of shape expressions and of triple expressions, and braces."""
    kinds = (
        ("round brackets", "<S> ", "(", "IRI", ")", "", 64),
        ("negations", "<S> ", "NOT (", "IRI", ")", "", 64),
        ("members", "<S> ", "IRI AND (", "IRI", ")", "", 64),
        ("alternatives", "<S> ", "BNODE OR (", "IRI", ")", "", 64),
        ("braces", "<S> ", "{ <p> ", ".", "* }", "", 64),
        ("triple expressions", "<S> {", "(", "<p> . *", ")", "}", 63),
        ("groups", "<S> {", "( <q> . * ; ", "<p> . *", ")", "}", 63),
        ("choices", "<S> {", "( <q> . * | ", "<p> . *", ")", "}", 63),
        ("repeated groups", "<S> {", "( <q> . * ; ", "<p> . *", "){2}", "}", 63),
    )
    for what, front, opened, inside, closed, back, most in kinds:
        yield asked(f"ShExC: {most} {what}", {"s.shex": nested(front, opened, inside, closed, back, most)})
        for times in (most + 1, FAR):
            yield asked(f"ShExC: {times} {what}", {"s.shex": nested(front, opened, inside, closed, back, times)}, 3, "s.shex: Deep")


def in_shexj():
    """Shape expressions, triple expressions, and values of JSON."""
    front, back = '{"type":"Schema","shapes":[{"type":"Shape","id":"' + IRIS + 'S","expression":', "}]}"
    kinds = (
        ("negations", '{"type":"Schema","start":', '{"type":"ShapeNot","shapeExpr":', '{"type":"NodeConstraint","nodeKind":"iri"}', "}", "}", 63),
        ("alternatives", '{"type":"Schema","start":', '{"type":"ShapeOr","shapeExprs":[', '{"type":"NodeConstraint","nodeKind":"iri"}', "]}", "}", 62),
        ("groups", front, '{"type":"EachOf","min":0,"expressions":[', '{"type":"TripleConstraint","predicate":"a:p","min":0}', "]}", back, 61),
        ("Shapes", '{"type":"Schema","start":', '{"type":"Shape","expression":{"type":"TripleConstraint","min":0,"predicate":"a:p","valueExpr":', '{"type":"NodeConstraint","nodeKind":"iri"}', "}}", "}", 31),
    )
    for what, opening, opened, inside, closed, closing, most in kinds:
        shape_map = "<n>@<S>" if opening == front else "<n>@START"
        odd = what == "negations" and most % 2
        yield asked(f"ShExJ: {most} {what}", {"s.json": nested(opening, opened, inside, closed, closing, most)}, 1 if odd else 0, None, shape_map)
        # Beyond the limit JSON of such a depth may have no reading.
        far = FAR // 2
        yield asked(f"ShExJ: {far} {what}", {"s.json": nested(opening, opened, inside, closed, closing, far)}, 3, "s.json: Json", shape_map)
    yield asked("ShExJ: 65 negations", {"s.json": nested(*kinds[0][1:6], 65)}, 3, "s.json: Deep", "<n>@START")
    shape = '{"type":"Schema","shapes":[{"type":"Shape","id":"' + IRIS + 'S"}],"@context":'
    yield asked("JSON: 127 lists and objects", {"s.json": nested(shape, "[", "1", "]", "}", 126)})
    for times in (127, FAR, 16 * FAR):
        yield asked(f"JSON: {times + 1} lists and objects", {"s.json": nested(shape, "[", "1", "]", "}", times)}, 3, "s.json: Json")
    yield asked("JSON: objects alone", {"s.json": nested("", '{"a":', "1", "}", "", FAR)}, 3, "s.json: Json")


def in_schema():
    """References, inclusions, and Shapes that refer to one another."""
    chain = [f"<S{number}> NOT @<S{number + 1}>" for number in range(255)] + ["<S255> IRI"]
    yield asked("schema: depth 256", {"s.shex": "\n".join(chain)}, 1, None, "<n>@<S0>")
    yield asked("schema: depth 257", {"s.shex": "<S> NOT @<S0>\n" + "\n".join(chain)}, 3, f"s.shex: Deep(<{IRIS}S>)", "<n>@<S>")
    for count in (4096, 100_000):
        many = [f"<S{number}> NOT @<S{number + 1}>" for number in range(count - 1)] + [f"<S{count - 1}> IRI"]
        yield asked(f"schema: depth {count}", {"s.shex": "\n".join(many)}, 3, f"s.shex: Deep(<{IRIS}S0>)", "<n>@<S0>")
    circle = [f"<S{number}> @<S{(number + 1) % 100_000}>" for number in range(100_000)]
    yield asked("schema: a circle of 100,000", {"s.shex": "\n".join(circle)}, 3, f"s.shex: Circle(<{IRIS}S0>)", "<n>@<S0>")
    included = ["<S> { &<t0> }"] + [f"<T{number}> {{ $<t{number}> ( &<t{number + 1}> ; <p{number}> . * ) }}" for number in range(100_000)] + ["<U> { $<t100000> <p> . * }"]
    yield asked("schema: 100,000 inclusions in one another", {"s.shex": "\n".join(included)}, 3, f"s.shex: Deep(<{IRIS}S>)")
    looped = ["<S> { &<t0> }"] + [f"<T{number}> {{ $<t{number}> ( &<t{(number + 1) % 100_000}> ; <p{number}> . * ) }}" for number in range(100_000)]
    yield asked("schema: a circle of 100,000 inclusions", {"s.shex": "\n".join(looped)}, 3, f"s.shex: IncludeCircle(<{IRIS}t0>)")
    shapes = [f"<S{number}> {{ <p> @<S{(number + 1) % 4096}> }}" for number in range(4096)]
    ring = "\n".join(f"<n{number}> <p> <n{(number + 1) % 4096}> ." for number in range(4096))
    yield asked("schema: a ring of 4,096 Shapes", {"s.shex": "\n".join(shapes), "d.ttl": ring}, 0, None, "<n0>@<S0>")
    negated = [f"<S{number}> {{ <p> NOT @<S{number + 1}> }}" for number in range(4095)] + ["<S4095> { <p> . }"]
    row = "\n".join(f"<n{number}> <p> <n{number + 1}> ." for number in range(4096))
    yield asked("schema: 4,096 strata", {"s.shex": "\n".join(negated), "d.ttl": row}, 1, None, "<n0>@<S0>")
    cycle = [f"<S{number}> {{ <p> NOT @<S{(number + 1) % 4096}> }}" for number in range(4096)]
    yield asked("schema: a negated cycle of 4,096 Shapes", {"s.shex": "\n".join(cycle)}, 3, "s.shex: NegatedCycle(#", "<n0>@<S0>")
    members = " AND ".join(["IRI"] * 300_000)
    yield asked("schema: 300,000 members of one expression", {"s.shex": f"<S> {members}"})


def in_patterns():
    """Groups and classes."""
    for what, opened, inside, closed in (("groups", "(", "a", ")"), ("repeated groups", "(", "a?", ")?")):
        yield asked(f"pattern: 64 {what}", {"s.shex": nested("<S> LITERAL /", opened, inside, closed, "/", 64)}, 0, None, '"a"@<S>')
        for times in (65, FAR):
            yield asked(f"pattern: {times} {what}", {"s.shex": nested("<S> LITERAL /", opened, inside, closed, "/", times)}, 3, "s.shex: Pattern(Large)", '"a"@<S>')
    yield asked("pattern: 64 classes", {"s.shex": nested("<S> LITERAL /", "[a-", "[b]", "]", "/", 63)}, 0, None, '"a"@<S>')
    for times in (64, FAR):
        yield asked(f"pattern: {times + 1} classes", {"s.shex": nested("<S> LITERAL /", "[a-", "[b]", "]", "/", times)}, 3, "s.shex: Pattern(Large)", '"a"@<S>')
    yield asked("pattern: groups that are not closed", {"s.shex": "<S> LITERAL /" + "(" * FAR + "/"}, 3, "s.shex: Pattern(Syntax)", '"a"@<S>')
    yield asked("pattern: classes that are not closed", {"s.shex": "<S> LITERAL /" + "[a-" * FAR + "/"}, 3, "s.shex: Pattern(Syntax)", '"a"@<S>')
    yield asked("pattern: a million branches", {"s.shex": "<S> LITERAL /" + "|" * FAR + "/"}, 0, None, '"a"@<S>')
    yield asked("pattern: 4,096 positions", {"s.shex": "<S> LITERAL /^((a?){4094})*$/"}, 0, None, '"aaaaaaaaaaaaaaaa"@<S>')


def in_data_and_maps():
    """Long rows of nodes, and maps and proofs of many lines."""
    count = 300_000
    row = "\n".join(f"<n{number}> <p> <n{number + 1}> ." for number in range(count))
    yield asked(f"data: a row of {count} nodes that fail", {"s.shex": "<S> { <p> @<S> }", "d.ttl": row}, 1, None, "<n0>@<S>")
    yield asked(f"data: a ring of {count} nodes", {"s.shex": "<S> { <p> @<S> }", "d.ttl": row + f"\n<n{count}> <p> <n0> ."}, 0, None, "<n0>@<S>")
    yield asked("map: 300,000 items", {"m": ",".join(["<n>@<S>"] * count)})
    yield asked("proof: 300,000 claims", {"p": "shex-proof 1\nn <" + IRIS + "n>\ns 0\n+ 0 0\n" + f"c + 0 <{IRIS}S>\n" * count + "end\n"}, command="check")


GROUPS = [in_turtle, in_shexc, in_shexj, in_schema, in_patterns, in_data_and_maps]


def ran(program, one, kilobytes):
    """How an input ends under a stack of this size: its status and its line."""
    with folder() as where:
        write(where, one.files)
        made = run([program, *one.words], where, 60, [(resource.RLIMIT_STACK, kilobytes * 1024)])
        return made.status, made.err.decode(errors="replace"), made.seconds


def is_as_said(one, ended):
    """Whether an input ended as it says."""
    said = one.err or ""
    # Which Shape of a cycle is named first is left open.
    return ended[0] == one.status and (ended[1].startswith(said[:-1]) if said.endswith("#\n") else ended[1] == said)


def least(program, one):
    """The least stack in kilobytes, of powers of two, under which an input ends as it says."""
    kilobytes = 8192
    while kilobytes > 16 and is_as_said(one, ran(program, one, kilobytes // 2)):
        kilobytes //= 2
    return kilobytes


def main():
    parser = argparse.ArgumentParser(description=__doc__, formatter_class=argparse.RawDescriptionHelpFormatter)
    parser.add_argument("program", nargs="?", default=RELEASED)
    parser.add_argument("--kilobytes", type=int, default=8192)
    parser.add_argument("--only", default="")
    parser.add_argument("--least", action="store_true")
    words = parser.parse_args()
    program = os.path.abspath(words.program)
    wrong = tried = 0
    for group in GROUPS:
        for one in group():
            if words.only not in one.name:
                continue
            tried += 1
            ended = ran(program, one, words.kilobytes)
            fine = is_as_said(one, ended)
            wrong += not fine
            more = f", {least(program, one)} KB are enough" if words.least and fine else ""
            print(f"{'ok   ' if fine else 'WRONG'} {one.name}: {ended[0]}, {ended[2]:.2f} s{more}{'' if fine else ' ' + repr(ended[1][:120])}", flush=True)
    print(f"{tried} inputs, {wrong} wrong")
    sys.exit(wrong > 0)


if __name__ == "__main__":
    main()
