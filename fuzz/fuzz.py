#!/usr/bin/env python3
"""Runs shex on mutated inputs, and keeps each input on which it does what it never may.

    fuzz/fuzz.py [PROGRAM] [--runs 10000] [--from 0] [--seed 1] [--jobs N] [--found found]

PROGRAM is by default the released one, `dist/shex`. The seeds are the examples and the rows of crates/shex_rows/data:
each call with its files, and for each call of `validate` the proof that it stores, in both formats. In each run one file of a seed
is mutated (a schema or an imported one in either syntax, data in either format, a shape map, or a proof of either format), by bytes,
by tokens or by values of JSON, or the words themselves are, and the program is run; some runs are drills. It may end with the
statuses 0 to 6 that its command has, by no signal, within 10 seconds, with a line of errors where it refuses and none where it
answers; files other than the one that it is to store stay as they are. A proof that is stored has to be accepted with the printed
answers as its claims; one that is mutated is accepted only where `validate`, asked for its claims, answers them so, and `upgrade`
stores what `check` accepts. Anything else is kept in a folder under `found` with its words. The number of runs for each kind and
status is printed at the end. The same seed and numbers make the same inputs. Nothing but Python's standard library is wanted.
"""

import argparse
import collections
import glob
import json
import multiprocessing
import os
import random
import re
import shutil
import signal
import sys
import tempfile

ROOT = os.path.dirname(os.path.dirname(os.path.abspath(__file__)))
SECONDS = 10

# Seeds that are longer are left out, so that runs stay short.
LONGEST = 20_000

# A call over files by name: its command, its options by name, and its import words. The proof's name is among the options.
Seed = collections.namedtuple("Seed", "name files command options imports")

# What a run gave.
Seen = collections.namedtuple("Seen", "status out err")

# Pieces that texts of each kind are made of.
PIECES = {
    ".shex": "PREFIX BASE IMPORT START = AND OR NOT EXTRA CLOSED IRI BNODE NONLITERAL LITERAL LENGTH MINLENGTH MININCLUSIVE TOTALDIGITS EXTERNAL ABSTRACT "
    "{ } ( ) [ ] @ & $ ^ | ; , . ~ * + ? {2,} {0} {1,3} {4294967295} {2,1} // %a:b{ %} a # /* */ /[a-z]{2,3}/i /(a|b?)*$/ \"x\"@en '''y''' 1 -1.5 1e3 true <x> <> _:b x: :y @x:y @<S> - \\u0041 @en~ .-".split(" "),
    ".json": '{ } [ ] , : "type" "id" "Shape" "ShapeAnd" "ShapeOr" "ShapeNot" "TripleConstraint" "EachOf" "OneOf" "NodeConstraint" "values" "min" "max" -1 0 1 4294967296 true false null '
    '"expression" "valueExpr" "predicate" "start" "extra" "closed" "inverse" "\\ud800" 1e400 "IriStem" "Wildcard" "exclusions" "pattern" "(a|b)*"'.split(" "),
    ".nt": '<http://a> _:b "x" "x"@en "1"^^<http://www.w3.org/2001/XMLSchema#integer> . # \\u0041 \\U0010FFFF <a> ^^ @ "'.split(" "),
    ".ttl": '@prefix @base PREFIX BASE a [ ] ( ) ; , . <> <a> <../b> x: x:y _:b _:anon1 "x"@en """y""" 1 -1.5 1e3 true ^^ # \\u0041 :%20 :\\~'.split(" "),
    "map": '{ } FOCUS _ @ @! START @START , <> <a> x:y "x"@en 1 a SPARQL _:b _:anon1'.split(" "),
    "proof": ["shex-proof 1\n", "shex-proof 2\n", "end\n", "n ", "n _:anon1\n", "s 0\n", "s 1\n", "k 0\n", "k\n", "k 1 0\n", "+ 0 0 ", "- 0 0 1 ", "c + 0 ", "c - 0 START\n", "0:0,0 ", "0:", "f s ", "f i ", "f d ", "r", "65534", "4294967296", " ", "\n"],
    "words": "validate check upgrade drill --schema --data --map --proof --to --budget --schema-base --data-base -- - = x=y http://a=b.shex 0 00 1 2 99999999999999 -h --help --version --schema=x --proof= --budget=1 a: a/b".split(" "),
}

# Words that no command has: the empty one, and some that are no UTF-8.
NO_WORDS = ("", "\udcff", "--schema=\udcff", "http://a=\udcc3.shex")

TOKENS = {
    ".json": re.compile(rb'"(?:\\.|[^"\\])*"|[0-9.eE+-]+|\w+|\s+|.', re.S),
    "proof": re.compile(rb"[^ \n]+|\n| "),
}
TOKEN = re.compile(rb"""<[^>\s]*>|\"(?:\\.|[^"\\])*\"|'(?:\\.|[^'\\])*'|/(?:\\.|[^/\\\n])+/\w*|[\w:.-]+|\s+|.""", re.S)

# The kinds of files, each as often as it is mutated.
KINDS = (".json", ".json", ".shex", ".shex", ".shex", ".nt", ".ttl", ".ttl", "map", "proof", "proof", "proof")

# The statuses of each command. Memory is ample, and the streams take what is printed.
STATUSES = {"validate": (0, 1, 2, 3, 4, 5), "check": (0, 2, 3, 5, 6), "upgrade": (0, 2, 3, 5, 6), "drill": (0, 2, 5)}

# Names of files that the runs make.
MADE = {"old", "new", "fresh", "newest", "claims"}

OPTIONS = {"schema", "data", "map", "proof", "to", "budget", "schema-base", "data-base"}


def kind_of(seed, name):
    """The kind of a seed's file by its part in the call."""
    if name == seed.options.get("proof"):
        return "proof"
    if name == seed.options.get("map"):
        return "map"
    end = os.path.splitext(name)[1]
    return ".json" if end == ".shexj" else end


# Seeds.


def parsed(name, files, words):
    """The seed of a call, or none where its words or its files are not of the usual form."""
    if not words or words[0] not in ("validate", "check", "upgrade"):
        return None
    options, imports, rest = {}, {}, list(words[1:])
    while rest:
        word = rest.pop(0)
        if word.startswith("--"):
            option, equals, value = word[2:].partition("=")
            if option not in OPTIONS or option in options or not equals and not rest:
                return None
            options[option] = value if equals else rest.pop(0)
        else:
            iri, _, file = word.rpartition("=")
            imports[iri] = file
    wanted = [options.get("schema"), options.get("data"), *imports.values()] + [options.get("map" if words[0] == "validate" else "proof")]
    if any(not file or file not in files or "/" in file or file in MADE for file in wanted):
        return None
    kept = {file: files[file] for file in wanted}
    if sum(map(len, kept.values())) > LONGEST:
        return None
    return Seed(name, kept, words[0], {option: value for option, value in options.items() if value not in (None, "")}, imports)


def file_of(verb, rest, lines):
    """The file that a line of a row gives, with its name; none where it gives none or one that is large."""
    text = "".join(line + "\n" for line in lines)
    if verb == "file":
        return rest, text.encode()
    if verb == "text":
        return rest, text[:-1].encode()
    if verb == "bytes":
        return rest, bytes.fromhex(text.replace("\n", " "))
    if verb == "times":
        count, name = rest.split(" ", 1)
        repeated = text[:-1]
        if int(count) * len(repeated) <= LONGEST:
            return name, "".join(repeated.replace("§", str(number)) for number in range(int(count))).encode()
        return name, b" " * (LONGEST + 1)
    return None


def entries_of(path):
    """The lines of a document of rows, each with the text that belongs to it."""
    found = []
    with open(path, encoding="utf-8") as file:
        for line in file.read().split("\n"):
            if line == "|" or line.startswith("| "):
                found[-1][2].append(line[2:])
            elif line and not line.startswith("#"):
                verb, _, rest = line.partition(" ")
                found.append((verb, rest, []))
    return found


def of_rows(path):
    """The seeds of a document of rows: each call with the files as they stand before it."""
    common, files, default, title, in_row, has_run = {}, {}, None, "", False, False
    for verb, rest, lines in entries_of(path):
        given = file_of(verb, rest, lines)
        if given:
            files[given[0]] = given[1]
        elif verb == "row":
            if not in_row:
                common = dict(files)
            in_row, files, title, has_run = True, dict(common), f"{os.path.basename(path)}: {rest}", False
        elif verb == "run" and not in_row:
            default = rest
        elif verb == "run" or verb == "status" and not has_run and default:
            has_run = True
            seed = parsed(title, files, (rest if verb == "run" else default).split(" "))
            if seed:
                yield seed
        elif verb == "stored":
            files[rest] = "".join(line + "\n" for line in lines).encode()


def of_examples():
    """The seeds of the examples that have a shape map."""
    for folder in sorted(map(os.path.dirname, glob.glob(os.path.join(ROOT, "examples", "*", "map")))):
        files = {}
        for path in glob.glob(os.path.join(folder, "*")):
            with open(path, "rb") as file:
                files[os.path.basename(path)] = file.read()
        schema = next(name for name in files if name.startswith("schema"))
        data = next(name for name in files if name.startswith("data"))
        words = ["validate", "--schema", schema, "--data", data, "--map", "map"]
        yield parsed(os.path.basename(folder), files, words + [f"http://ex.example/{name[:-5]}={name}" for name in files if name == "observations.shex"])


def seeds():
    """All seeds, each text once, so that forms that many rows have do not count for more."""
    found, paths = {}, sorted(glob.glob(os.path.join(ROOT, "crates/shex_rows/data/*.rows")))
    for seed in [*of_examples(), *(seed for path in paths for seed in of_rows(path))]:
        found.setdefault((seed.command, *sorted(seed.files.items())), seed)
    return list(found.values())


# Mutations.


def by_bytes(chance, text, pieces, others):
    """The bytes with a change: of a byte, of a run that is cut, doubled or moved, or of a piece or a run of another seed that is put in."""
    made = bytearray(text)
    at = chance.randint(0, len(made))
    to = min(len(made), at + chance.choice((1, 2, 5, 20, 100)))
    kind = chance.randrange(8)
    if kind == 0 and made:
        made[at % len(made)] = chance.randrange(256)
    elif kind == 1:
        del made[at:to]
    elif kind == 2:
        made[at:at] = made[at:to] * chance.choice((1, 1, 2, 20))
    elif kind == 3:
        run = made[at:to]
        del made[at:to]
        back = chance.randint(0, len(made))
        made[back:back] = run
    elif kind == 4:
        made[at:at] = chance.choice(pieces).encode()
    elif kind == 5:
        made[at:to] = chance.choice(pieces).encode()
    elif kind == 6:
        other = chance.choice(others)
        start = chance.randint(0, len(other))
        made[at:to] = other[start:start + chance.choice((5, 20, 100))]
    else:
        del made[at:]
    return bytes(made)


def by_tokens(chance, text, pattern, pieces, others):
    """The text with one token left out, doubled, exchanged for another, or changed for one of another place, seed or piece."""
    tokens = pattern.findall(text)
    if not tokens:
        return chance.choice(pieces).encode()
    at, other = chance.randrange(len(tokens)), chance.randrange(len(tokens))
    kind = chance.randrange(6)
    if kind == 0:
        del tokens[at]
    elif kind == 1:
        tokens[at:at] = tokens[at:at + chance.choice((1, 2, 4, 8))]
    elif kind == 2:
        tokens[at], tokens[other] = tokens[other], tokens[at]
    elif kind == 3:
        tokens[at] = tokens[other]
    elif kind == 4:
        tokens[at] = chance.choice(pieces).encode()
    else:
        tokens[at] = chance.choice(pattern.findall(chance.choice(others)) or [b""])
    return b"".join(tokens)


def places_of(value, found):
    """The places of a JSON value's parts: each a holder and a key."""
    if isinstance(value, dict):
        for key in value:
            found.append((value, key))
            places_of(value[key], found)
    elif isinstance(value, list):
        for at in range(len(value)):
            found.append((value, at))
            places_of(value[at], found)
    return found


def by_values(chance, text, others):
    """The JSON with one value left out, or changed for another of it or of another seed; none where it is no JSON."""
    try:
        value, other = json.loads(text), json.loads(chance.choice(others))
    except (ValueError, RecursionError):
        return None
    mine, theirs = places_of(value, []), places_of(other, [])
    if not mine:
        return None
    holder, key = chance.choice(mine)
    kind = chance.randrange(4)
    if kind == 0:
        del holder[key]
    elif kind == 1:
        source, place = chance.choice(mine)
        holder[key] = json.loads(json.dumps(source[place]))
    elif kind == 2 and theirs:
        source, place = chance.choice(theirs)
        if isinstance(holder, dict) and isinstance(place, str):
            holder[place] = source[place]
        else:
            holder[key] = source[place]
    else:
        holder[key] = chance.choice((-1, 0, 1, 2, 4294967295, 4294967296, 1.5, "", "a", "_:b", True, None, [], {}))
    return json.dumps(value).encode()


def mutated(chance, text, kind, others):
    """The text with one to three changes."""
    pieces, made = PIECES.get(kind, PIECES[".nt"]), text
    for _ in range(chance.choice((1, 1, 1, 2, 3))):
        way = chance.randrange(4)
        if way == 0:
            made = by_bytes(chance, made, pieces, others)
            continue
        of_values = by_values(chance, made, others) if kind == ".json" and way < 3 else None
        made = by_tokens(chance, made, TOKENS.get(kind, TOKEN), pieces, others) if of_values is None else of_values
    return made


# Runs.


class Late(Exception):
    """A run took too long."""


def ring(number, frame):
    """A run takes too long."""
    raise Late


def words_of(seed, command, more=()):
    """The words of a command on a seed's files."""
    words = [command, "--schema", seed.options["schema"], "--data", seed.options["data"]]
    for option in ("schema-base", "data-base") + (("budget",) if command == "validate" else ()):
        if option in seed.options:
            words += [f"--{option}", seed.options[option]]
    return words + list(more) + [f"{iri}={name}" for iri, name in seed.imports.items()]


def item_of(number, count):
    """A line of a drill's data."""
    block = number // 10
    after = number + 1 if number + 1 < count and (number + 1) // 10 == block else block * 10
    tag = 4 if number % 10 == 0 and block % 3 == 0 else 1 + number % 3
    return f":i{number} :next :i{after} ; :tag {tag} .\n"


class Runner:
    """Runs the program in a folder of its own."""

    def __init__(self, program, found):
        self.program, self.found = program, found
        self.folder = tempfile.mkdtemp(dir="/dev/shm" if os.path.isdir("/dev/shm") else None)
        self.streams = tempfile.mkdtemp(dir="/dev/shm" if os.path.isdir("/dev/shm") else None)
        os.chdir(self.folder)
        signal.signal(signal.SIGALRM, ring)
        self.seeds = [grown for seed in seeds() for grown in self.grown(seed)]
        # The texts of each kind, and the places of each kind, apart for seeds that are answered and others.
        self.texts = collections.defaultdict(list)
        self.places = collections.defaultdict(lambda: ([], []))
        for seed in self.seeds:
            refused = self.status_of(seed) not in (0, 1, 4)
            for name, text in seed.files.items():
                kind = kind_of(seed, name)
                self.texts[kind].append(text)
                self.places[kind][refused].append((seed, name))

    def run(self, words):
        """What a run gave; the status is `late` where it took too long."""
        names = [os.path.join(self.streams, name) for name in ("out", "err")]
        actions = [(os.POSIX_SPAWN_OPEN, 0, "/dev/null", os.O_RDONLY, 0)]
        actions += [(os.POSIX_SPAWN_OPEN, number, name, os.O_WRONLY | os.O_CREAT | os.O_TRUNC, 0o600) for number, name in enumerate(names, 1)]
        try:
            child = os.posix_spawn(self.program, [self.program, *words], {}, file_actions=actions)
        except ValueError:
            return Seen(2, b"", b"shex: words: not run\n")
        signal.setitimer(signal.ITIMER_REAL, SECONDS)
        try:
            status = os.waitstatus_to_exitcode(os.waitpid(child, 0)[1])
        except Late:
            os.kill(child, signal.SIGKILL)
            os.waitpid(child, 0)
            status = "late"
        signal.setitimer(signal.ITIMER_REAL, 0)
        texts = []
        for name in names:
            with open(name, "rb") as file:
                texts.append(file.read())
        return Seen(status, *texts)

    def put(self, files):
        """Puts these files into the folder, and no others."""
        for name in os.listdir(self.folder):
            os.remove(name)
        for name, text in files.items():
            with open(name, "wb") as file:
                file.write(text)

    def stored(self, name):
        """What a file holds, or none where it is not there."""
        try:
            with open(name, "rb") as file:
                return file.read()
        except OSError:
            return None

    def status_of(self, seed):
        """The status of a seed as it is."""
        self.put(seed.files)
        if seed.command == "validate":
            return self.run(words_of(seed, "validate", ["--map", seed.options["map"]])).status
        return self.run(words_of(seed, "check", ["--proof", seed.options["proof"]])).status

    def grown(self, seed):
        """A seed, and for a call of `validate` besides the checks of the proof that it stores, in both formats."""
        yield seed
        if seed.command != "validate":
            return
        self.put(seed.files)
        self.run(words_of(seed, "validate", ["--map", seed.options["map"], "--proof", "proof"]))
        proof = self.stored("proof")
        if proof is None or len(proof) > LONGEST:
            return
        files = {name: text for name, text in seed.files.items() if name != seed.options["map"]}
        options = {**seed.options, "proof": "proof"}
        del options["map"]
        for text in (proof, b"shex-proof 1\n" + proof[proof.index(b"\nk") + 1:].split(b"\n", 1)[1]):
            yield Seed(seed.name, {**files, "proof": text}, "check", options, seed.imports)

    def is_confirmed(self, seed, name, out):
        """Whether a check of the proof under a name answers what was printed."""
        again = self.run(words_of(seed, "check", ["--proof", name]))
        return again.status == 0 and again.out == out

    def is_true(self, seed, claims):
        """Whether claims, asked as a shape map, are answered as they stand: they want what they say. A proof may speak of nodes
        that no map can, such as an IRI with a space, and then the map is refused; a node's IRI without a scheme is resolved."""
        with open("claims", "wb") as file:
            file.write(claims)
        again = self.run(words_of(seed, "validate", ["--map", "claims"]))
        signs = [[b"@!" in line for line in text.splitlines()] for text in (claims, again.out)]
        return again.status in (3, 4) or again.status == 0 and signs[0] == signs[1]

    def is_plain(self, seen, command):
        """Whether a status is one of the command's, with the streams that belong to it."""
        if seen.status not in STATUSES.get(command, (2,)):
            return False
        if seen.status in (2, 3, 5, 6):
            return seen.out == b"" and seen.err.startswith(b"shex: ") and seen.err.endswith(b"\n")
        return seen.err == b"" if seen.status in (0, 1) else seen.err.startswith(b"wide ") and seen.err.endswith(b"\n")

    def keep(self, number, words, seen, what):
        """Keeps the files of a run that did what it may not."""
        kept = os.path.join(self.found, str(number))
        shutil.copytree(self.folder, kept, dirs_exist_ok=True)
        with open(os.path.join(kept, "WORDS"), "w", encoding="utf-8", errors="replace") as file:
            file.write("\n".join(map(str, (what, seen.status, *words, seen.err[:1000]))) + "\n")
        return f"FOUND {what}"

    def of_words(self, number, chance, seed):
        """A run with words that are mutated."""
        files = {**seed.files, "old": b"shex-proof 1\nend\n"}
        self.put(files)
        command = chance.choice(("validate", "check", "upgrade", "drill"))
        named = {"validate": ["--map", seed.options.get("map", "m"), "--proof", "new"], "check": ["--proof", "old"]}
        named["upgrade"] = ["--proof", "old", "--to", "new"]
        words = ["drill", "10"] if command == "drill" else words_of(seed, command, named[command])
        for _ in range(chance.randint(1, 2)):
            at = chance.randrange(len(words) + 1)
            words[at:at + chance.randint(0, 2)] = [chance.choice([*PIECES["words"], *NO_WORDS]) for _ in range(chance.randint(0, 2))]
        seen = self.run(words)
        fine = self.is_plain(seen, words[0] if words else "")
        if seen.status in (2, 3, 6):
            fine = fine and all(self.stored(name) == files.get(name) for name in {*files, *os.listdir(self.folder)})
        return "words", seen.status, fine or self.keep(number, words, seen, "words")

    def of_drill(self, number, chance):
        """A drill, whose texts are made here and checked."""
        self.put({})
        count = chance.choice((chance.randint(1, 40), chance.randint(1, 400)))
        words = ["drill", str(count), "--proof", "proof"]
        seen = self.run(words)
        conformant = sum(item // 10 % 3 != 0 for item in range(count))
        fine = seen == Seen(0, f"items {count} conformant {conformant} nonconformant {count - conformant} accepted\n".encode(), b"")
        texts = {"schema.shex": "PREFIX : <http://d.example/>\n:Item { :next @:Item* ; :tag [1 2 3] }\n",
                 "data.ttl": "@prefix : <http://d.example/> .\n" + "".join(item_of(item, count) for item in range(count))}
        for name, text in texts.items():
            with open(name, "w", encoding="utf-8") as file:
                file.write(text)
        again = self.run(["check", "--schema", "schema.shex", "--data", "data.ttl", "--proof", "proof"])
        fine = fine and again.status == 0 and again.out.count(b"@!") == count - conformant and again.out.count(b"\n") == count
        return "drill", seen.status, fine or self.keep(number, words, seen, "drill")

    def of_file(self, number, chance):
        """A run with a file that is mutated, mostly one of a seed that is answered."""
        kind = chance.choice(KINDS)
        answered, refused = self.places[kind]
        seed, target = chance.choice(refused if refused and chance.randrange(8) == 0 else answered)
        files = {**seed.files, target: mutated(chance, seed.files[target], kind, self.texts[kind])}
        self.put(files)
        seen, fine = self.of_validate(number, seed, files) if seed.command == "validate" else self.of_check(number, seed, files, chance)
        return kind, seen.status, fine

    def is_left(self, files, name):
        """Whether the files are as they were, but for one name and those that this program put there."""
        return all(self.stored(other) == text for other, text in files.items() if other != name)

    def of_validate(self, number, seed, files):
        """Whether `validate` does what it may, and the proof that it stores is accepted."""
        words = words_of(seed, "validate", ["--map", seed.options["map"], "--proof", "fresh"])
        seen = self.run(words)
        fine = self.is_plain(seen, "validate") and self.is_left(files, "fresh")
        if seen.status in (0, 1, 4):
            fine = fine and self.is_confirmed(seed, "fresh", seen.out)
        else:
            fine = fine and self.stored("fresh") is None
        return seen, fine or self.keep(number, words, seen, "validate")

    def of_check(self, number, seed, files, chance):
        """Whether `check` and `upgrade` do what they may, and agree, and whether accepted claims are true."""
        name = seed.options["proof"]
        words = words_of(seed, "check", ["--proof", name])
        seen = self.run(words)
        fine = self.is_plain(seen, "check") and self.is_left(files, None)
        if fine and (seen.status == 0 or chance.randrange(4) == 0):
            again = self.run(words_of(seed, "upgrade", ["--proof", name, "--to", "newest"]))
            newest = self.stored("newest")
            fine = again == seen and (newest is None) == (seen.status != 0) and self.is_left(files, None)
            if fine and seen.status == 0:
                fine = newest.startswith(b"shex-proof 2\n") and self.is_confirmed(seed, "newest", seen.out) and self.is_true(seed, seen.out)
        return seen, fine or self.keep(number, words, seen, "check")

    def attempt(self, number, seed):
        """One run on a mutated input; gives its kind, its status, and whether it was as it may be or else what was found."""
        chance = random.Random(f"{seed}/{number}")
        way = chance.randrange(40)
        if way == 0:
            return self.of_drill(number, chance)
        if way < 4:
            return self.of_words(number, chance, chance.choice(self.seeds))
        return self.of_file(number, chance)


def work(program, found, numbers, seed):
    """The runs of these numbers: how many of each kind were as they may be, and what was found."""
    runner = Runner(program, found)
    counts = collections.Counter()
    try:
        for number in numbers:
            kind, status, fine = runner.attempt(number, seed)
            counts[f"{kind}: status {status}" if fine is True else f"{fine} in {number}: status {status}"] += 1
        return counts
    finally:
        os.chdir("/")
        shutil.rmtree(runner.folder, ignore_errors=True)
        shutil.rmtree(runner.streams, ignore_errors=True)


def main():
    parser = argparse.ArgumentParser(description=__doc__, formatter_class=argparse.RawDescriptionHelpFormatter)
    parser.add_argument("program", nargs="?", default=os.path.join(ROOT, "dist", "shex"))
    parser.add_argument("--runs", type=int, default=10000)
    parser.add_argument("--from", type=int, default=0, dest="first")
    parser.add_argument("--seed", default="1")
    parser.add_argument("--jobs", type=int, default=os.cpu_count())
    parser.add_argument("--found", default="found")
    words = parser.parse_args()
    os.makedirs(words.found, exist_ok=True)
    numbers = [range(words.first + job, words.first + words.runs, words.jobs) for job in range(words.jobs)]
    shares = [(os.path.abspath(words.program), os.path.abspath(words.found), share, words.seed) for share in numbers]
    with multiprocessing.Pool(words.jobs) as pool:
        total = sum(pool.starmap(work, shares), collections.Counter())
    for kind, count in sorted(total.items()):
        print(f"{count:>9} {kind}")
    sys.exit(any(kind.startswith("FOUND") for kind in total))


if __name__ == "__main__":
    main()
