#!/usr/bin/env python3
"""Makes inputs with known answers: a schema, shape maps, and data in N-Triples and in Turtle.

    bench/inputs.py FAMILY TRIPLES FOLDER

FAMILY is one of those that FAMILIES lists, and TRIPLES about how many triples its data are to have. Written into the folder are
schema.shex; data.ttl and data.nt, each only where it is no larger than a file may be; map, which asks about every record, and one,
which asks about one node that is not in the data; and known.json, which says how many triples there are, and how many associations
of map conform and do not. The names are short, so that 4,000,000 triples of Turtle fit into the 67,108,864 bytes of a file. The
same words make the same files. Nothing but Python's standard library is wanted.
"""

import collections
import itertools
import json
import os
import string
import sys

SPACE = "http://b.ex/"
XSD = "http://www.w3.org/2001/XMLSchema#"
RDF_TYPE = "<http://www.w3.org/1999/02/22-rdf-syntax-ns#type>"
PREFIXES = f"PREFIX : <{SPACE}>\nPREFIX x: <{XSD}>\n"
GREATEST_FILE = 67_108_864

# What a family is at a size: the schema in ShExC, the selector of its map and the label that it asks for, how many records there
# are, the statements of a record by its number, and how many associations conform and do not.
Family = collections.namedtuple("Family", "schema selector label count record conformant nonconformant")

# A blank node in brackets, with the label that it has in N-Triples, and its arcs.
Inside = collections.namedtuple("Inside", "label arcs")


def short(number):
    """The number in as few digits and letters as may be."""
    digits, text = string.digits + string.ascii_lowercase, ""
    while number or not text:
        number, digit = divmod(number, 36)
        text = digits[digit] + text
    return text


def full(token):
    """A term of the Turtle that is made here, as N-Triples has it."""
    if token[0] == ":":
        return f"<{SPACE}{token[1:]}>"
    if token == "a":
        return RDF_TYPE
    if token[0] == '"':
        text, mark, kind = token.partition("^^x:")
        return f"{text}^^<{XSD}{kind}>" if mark else token
    return f'"{token}"^^<{XSD}{"decimal" if "." in token else "integer"}>'


def selected(predicate, thing="_"):
    """The selector of all subjects of triples with this predicate, and this object if there is one."""
    return f"{{FOCUS {full(predicate)} {thing if thing == '_' else full(thing)}}}"


# The families. A record is a list of statements: a subject with its arcs, an arc being a predicate with its objects.


def clinical(size):
    """Records of patients with an address, a clinic and two observations; every tenth has no name."""
    schema = """:Patient { a [ :Patient ] ; :name x:string MINLENGTH 1 ; :sex [ :f :m ] ? ; :born x:date ? ; :phone LITERAL * ;
  :address CLOSED { :street . ; :city . ; :zip LITERAL /^[0-9]{5}$/ } ? ; :seen @:Observation * ; :clinic NOT @:ClosedDown ? }
:Observation { :code [ :kg :cm :bpm ] ; :value x:decimal MININCLUSIVE 0 }
:ClosedDown { :closed x:date }
"""
    count = max(1, size // 16)
    codes = [":kg", ":cm", ":bpm"]

    def record(n):
        key = short(n)
        address = Inside(f"_:a{key}", [(":street", ['"S"']), (":city", ['"C"']), (":zip", [f'"{n % 90000 + 10000}"'])])
        arcs = [("a", [":Patient"]), (":sex", [":f"]), (":born", ['"1970-01-01"^^x:date']), (":phone", ['"555"']), (":address", [address])]
        if n % 10:
            arcs.append((":name", [f'"N {key}"']))
        seen = [f":O{key}", f":Q{key}"]
        arcs += [(":clinic", [":open"]), (":seen", seen)]
        return [(f":P{key}", arcs)] + [(each, [(":code", [codes[(n + k) % 3]]), (":value", [f"{n % 97}.5"])]) for k, each in enumerate(seen)]

    unnamed = (count + 9) // 10
    return Family(schema, selected("a", ":Patient"), ":Patient", count, record, count - unnamed, unnamed)


def catalogue(size):
    """Books with a title in a language, a number, subjects of a list, and a creator or an editor; every seventh number is none."""
    schema = """:Book { a [ :Book ] ; :title [ @en @fr~ ] ; :isbn LITERAL /^[0-9]{13}$/ ; :about [ :s~ ] {1,3} ;
  ( :creator @:Agent | :editor @:Agent + ) }
:Agent { :name LITERAL + ; ^:creator . * ; ^:editor . * }
"""
    count = max(1, size // 7)

    def record(n):
        key = short(n)
        number = f"{9780000000000 + n}" if n % 7 else "none"
        subjects = [f":s{n % 50}", f":s{n % 50 + 50}"]
        arcs = [("a", [":Book"]), (":title", [f'"T {key}"@{"en" if n % 2 else "fr-CA"}']), (":isbn", [f'"{number}"']), (":about", subjects)]
        arcs.append((":creator" if n % 3 else ":editor", [f":C{key}"]))
        return [(f":K{key}", arcs), (f":C{key}", [(":name", [f'"A {key}"'])])]

    bad = (count + 6) // 7
    return Family(schema, selected("a", ":Book"), ":Book", count, record, count - bad, bad)


PEOPLE = ":Person { :name LITERAL ; :age x:integer ; :mail LITERAL ? ; :knows @:Person + }\n"


def person(n, known):
    """A person with a name, an age and an address, who knows another."""
    key = short(n)
    return [(f":N{key}", [(":knows", [f":N{short(known)}"]), (":name", [f'"N {key}"']), (":age", [str(n % 90)]), (":mail", [f'"{key}@b.ex"'])])]


def ring(size):
    """People in one ring, each of whom knows the next."""
    count = max(1, size // 4)
    return Family(PEOPLE, selected(":knows"), ":Person", count, lambda n: person(n, (n + 1) % count), count, 0)


def chain(size):
    """People in a row, each of whom knows the next; of the last nothing is known, so that all fail, from the end on."""
    count = max(1, size // 4)
    return Family(PEOPLE, selected(":knows"), ":Person", count, lambda n: person(n, n + 1), 0, count)


def clusters(size):
    """Groups of 24 in which all know all and have a name; in every fifth group one has none, and with it all fail."""
    members = string.ascii_lowercase[:24]
    count = max(1, size // (24 * 24))

    def record(g):
        people = [f":G{short(g)}{member}" for member in members]
        named = [(":name", ['"N"'])]
        return [(one, [(":knows", people[:i] + people[i + 1 :])] + (named if g % 5 or i else [])) for i, one in enumerate(people)]

    bad = (count + 4) // 5 * 24
    schema = ":Person { :name LITERAL ; :knows @:Person + }\n"
    return Family(schema, selected(":knows"), ":Person", count, record, count * 24 - bad, bad)


def values(size):
    """Nodes with twelve values under three constraints that all fit some of them; every fourth has a value that none fits."""
    schema = ":S { :p [ 1 2 3 4 ] {2,4} ; :p x:integer MAXINCLUSIVE 5 {1,4} ; :p LITERAL {1,10} }\n"
    count = max(1, size // 12)
    held = [str(k) for k in range(1, 7)] + [f'"{letter}"' for letter in "abcde"]
    bad = (count + 3) // 4
    return Family(schema, selected(":p"), ":S", count, lambda n: [(f":V{short(n)}", [(":p", held + ['"t"' if n % 4 else ":none"])])], count - bad, bad)


def strata(size):
    """Rows of five nodes under four Shapes, each of which asks that the next node has not the next Shape."""
    schema = "".join(f":S{k} {{ :next NOT @:S{k + 1} }}\n" for k in range(3)) + ":S3 { :next . }\n"
    count = max(1, size // 9)

    def record(n):
        nodes = [f":R{short(n)}{letter}" for letter in "vwxyz"]
        # With four arcs the fourth node has S3, so the third has not S2, the second has S1 and the first has not S0.
        arcs = [[(":next", [after]), (":n", ['"1"'])] for after in nodes[1:]] + [[(":n", ['"1"'])]]
        arcs[0].append((":row", ['"1"']))
        if n % 2:
            arcs.pop()
        else:
            del arcs[3][0]
        return list(zip(nodes, arcs))

    odd = count // 2
    return Family(schema, selected(":row"), ":S0", count, record, count - odd, odd)


def alone(size):
    """One node whose triples all have one predicate, under one constraint that takes any number of them."""
    return Family(":S { :p LITERAL * }\n", full(":n"), ":S", 1, lambda n: [(":n", [(":p", [f'"{short(k)}"' for k in range(size)])])], 1, 0)


def overlapping(size):
    """A node with 200 triples of one predicate at most, each of which three constraints fit that each want a fifth of them."""
    count = min(size, 200)
    least = count // 5
    schema = f":S {{ :p LITERAL {{{least},}} ; :p x:integer {{{least},}} ; :p . {{{least},}} }}\n"
    return Family(schema, full(":n"), ":S", 1, lambda n: [(":n", [(":p", [str(k) for k in range(count)])])], 1, 0)


def tenfold(size):
    """Nodes, 100 at most, with twenty values under ten constraints of four values each, of which each value stands in two."""
    sets = [" ".join(str((2 * k + i) % 20) for i in range(4)) for k in range(10)]
    schema = ":S { " + " ; ".join(f":p [ {each} ] {{2}}" for each in sets) + " }\n"
    count = max(1, min(size, 2000) // 20)
    return Family(schema, selected(":p"), ":S", count, lambda n: [(f":T{short(n)}", [(":p", [str(k) for k in range(20)])])], count, 0)


# Hubs: one node, which alone is asked about, with arcs from and to as many others. Its name is before theirs, so that it is looked at
# first, and what is kept of it has to last while they fall.


def hub(schema, size):
    """One node that has the Shape :H, to which half of the triples lead, by :p, and from which the others lead, by :q."""
    count = max(1, size // 2)
    ends = [(":A", [(":q", [f":O{short(n)}" for n in range(count)])])]
    return Family(schema, full(":A"), ":H", count, lambda n: ([] if n else ends) + [(f":I{short(n)}", [(":p", [":A"])])], 1, 0)


def hub_in(size):
    """A hub under one inverse constraint, which takes any number of arcs in."""
    return hub(":H { ^:p . * }\n", size)


def hub_both(size):
    """A hub under an inverse constraint and one for arcs out, each of which takes any number."""
    return hub(":H { ^:p . * ; :q . * }\n", size)


def hub_extra(size):
    """A hub that has to have two arcs to nodes of a Shape, and may have others: two of its arcs are to such nodes, the last ones."""
    family = hub(":H EXTRA :q { :q @:L {2} }\n:L { :name . }\n", max(4, size))
    named = [(f":O{short(n)}", [(":name", ['"N"'])]) for n in range(family.count - 2, family.count)]
    return family._replace(record=lambda n: family.record(n) + ([] if n else named))


def hub_recursive(size):
    """A hub in which nodes may end that refer back to it by their Shape; none of them has it, so that they go one by one."""
    return hub(":H { ^:p @:L * }\n:L { :name . ; :p @:H }\n", size)


def hub_failing(size):
    """A hub that has not its Shape, since none of the arcs in that it wants comes from a node of a Shape."""
    family = hub(":H { ^:p . * ; ^:e @:L + }\n:L { :name . }\n", size)
    last = [(":E", [(":e", [":A"])])]
    return family._replace(record=lambda n: family.record(n) + ([] if n else last), conformant=0, nonconformant=1)


FAMILIES = {
    family.__name__: family
    for family in (clinical, catalogue, ring, chain, clusters, values, strata, alone, overlapping, tenfold, hub_in, hub_both, hub_extra, hub_recursive, hub_failing)
}

# These grow in no triples beyond their bounds; that of `hub_failing` is for its proof, which has all states.
BOUNDED = {"overlapping": 200, "tenfold": 2000, "hub_failing": 2000}


# How they are written.

# What begins a term and ends the name before it.
OPENING = '"['


def in_turtle(subject, arcs):
    """A subject with its arcs in Turtle."""
    return f"{subject} {arcs_in_turtle(arcs)} .\n"


def arcs_in_turtle(arcs):
    """The arcs as they stand behind their subject."""
    return ";".join(arc_in_turtle(predicate, objects) for predicate, objects in arcs)


def arc_in_turtle(predicate, objects):
    """A predicate with its objects, with a space between where they would run into one another."""
    words = ",".join(f"[{arcs_in_turtle(each.arcs)}]" if isinstance(each, Inside) else each for each in objects)
    return f"{predicate}{'' if words[0] in OPENING else ' '}{words}"


def in_triples(subject, arcs):
    """The lines of N-Triples of a subject, which is written in full, with its arcs."""
    for predicate, objects in arcs:
        front = f"{subject} {full(predicate)}"
        for each in objects:
            if isinstance(each, Inside):
                yield f"{front} {each.label} .\n"
                yield from in_triples(each.label, each.arcs)
            else:
                yield f"{front} {full(each)} .\n"


def triples_of(arcs):
    """How many triples a subject's arcs are."""
    return sum(1 + (triples_of(each.arcs) if isinstance(each, Inside) else 0) for _, objects in arcs for each in objects)


def terms_of(subject, arcs):
    """The terms of a subject with its arcs, as they are written."""
    yield subject
    for predicate, objects in arcs:
        yield predicate
        for each in objects:
            yield from terms_of(each.label, each.arcs) if isinstance(each, Inside) else (each,)


def in_lines(subject, arcs):
    """A subject with its arcs in N-Triples."""
    return "".join(in_triples(full(subject), arcs))


def write_data(path, head, statements, written):
    """Writes data by the function that writes a subject with its arcs, and takes the file away if it is larger than one may be."""
    with open(path, "w", encoding="ascii") as file:
        size = file.write(head)
        for subject, arcs in statements:
            size += file.write(written(subject, arcs))
            if size > GREATEST_FILE:
                break
    if size > GREATEST_FILE:
        os.remove(path)


def statements_of(family):
    """The statements of all records of a family."""
    return itertools.chain.from_iterable(map(family.record, range(family.count)))


def make(name, size, folder):
    """Writes the files of a family at a size, and gives what is known of them."""
    family = FAMILIES[name](size)
    os.makedirs(folder, exist_ok=True)
    write_data(os.path.join(folder, "data.ttl"), f"@prefix : <{SPACE}> .\n@prefix x: <{XSD}> .\n", statements_of(family), in_turtle)
    write_data(os.path.join(folder, "data.nt"), "", statements_of(family), in_lines)
    triples = sum(triples_of(arcs) for _, arcs in statements_of(family))
    terms = len(set(itertools.chain.from_iterable(itertools.starmap(terms_of, statements_of(family)))))
    known = {"triples": triples, "terms": terms, "conformant": family.conformant, "nonconformant": family.nonconformant}
    label = full(family.label)
    texts = {"schema.shex": PREFIXES + family.schema, "map": f"{family.selector}@{label}\n", "one": f"{full(':nobody')}@{label}\n", "known.json": json.dumps(known)}
    for file_name, text in texts.items():
        with open(os.path.join(folder, file_name), "w", encoding="utf-8") as file:
            file.write(text)
    return known


def main():
    if len(sys.argv) != 4 or sys.argv[1] not in FAMILIES or not sys.argv[2].isdigit():
        sys.exit(f"inputs.py FAMILY TRIPLES FOLDER, where FAMILY is one of {' '.join(FAMILIES)}")
    print(json.dumps(make(sys.argv[1], int(sys.argv[2]), sys.argv[3])))


if __name__ == "__main__":
    main()
