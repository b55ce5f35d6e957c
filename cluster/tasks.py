#!/usr/bin/python3
"""The tasks of a run: each makes a folder of files from those of other tasks.

    tasks.py STAGE WORK NUMBER

The folder WORK/STAGE/NUMBER is there when the task is done, so that a run that was killed goes on where it was. What the task found is
in result.json there. Where a file is refused, the status and the line are printed instead, and no folder is made.
"""

from __future__ import annotations

import json
import os
import re
import resource
import shutil
import socket
import sys
from typing import Any, Callable

from commands import Failed, Programs, Refused, check, checked, covers, followed, lines, reached, shell, validate
from maps import Item, items

Result = dict[str, Any]
MOST_ASSOCIATIONS = 1_000_000
TARGET = re.compile(r"(.*)@!?(START|<[^<>]*>|_:[^@\s]*)", re.DOTALL)


def read_json(*path: str) -> Any:
    """The value of a file in JSON."""
    with open(os.path.join(*path), encoding="utf-8") as file:
        return json.load(file)


def write_lines(name: str, rows: list[str]) -> None:
    """Writes rows into a file."""
    with open(name, "w", encoding="utf-8", errors="surrogateescape") as file:
        file.writelines(f"{row}\n" for row in rows)


def read_rows(name: str) -> list[str]:
    """The rows of a file."""
    with open(name, encoding="utf-8", errors="surrogateescape", newline="\n") as file:
        return file.read().split("\n")[:-1]


class Task:
    """A task: the folder of the run, what the run was called with, and the number of the task in its stage."""

    def __init__(self, work: str, number: int) -> None:
        self.work, self.number = work, number
        self.call = read_json(work, "call.json")
        self.programs = Programs(*self.call["programs"])

    def at(self, *path: object) -> str:
        """A path in the folder of the run."""
        return os.path.join(self.work, *map(str, path))

    def result(self, stage: str, number: int = 0) -> Result:
        """What a task found that is done."""
        found: Result = read_json(self.at(stage, number, "result.json"))
        return found


# ---- the call: the map and the schema


def answered(printed: bytes) -> list[tuple[str, str]]:
    """The nodes and the labels of answers."""
    rows = printed.decode().removesuffix("\n").split(",\n") if printed else []
    matches = [TARGET.fullmatch(row) for row in rows]
    return [(match[1], match[2]) for match in matches if match]


def one_spelling(task: Task, words: list[str]) -> list[tuple[str, str]]:
    """What `shex` prints for items of a map that select a node each: the node and the label in their one spelling."""
    write_lines("asked", [",\n".join(words)])
    return answered(validate(task.programs, "empty.nt", "asked", []).stdout)


def spell(task: Task) -> Result:
    """Has the schema and the map read, and writes the predicates that are followed, and the patterns of the map, spelt as lines are."""
    write_lines("empty.nt", [])
    shape_map = task.call["map"]
    try:
        validate(task.programs, "empty.nt", shape_map, [])
    except Refused as refused:
        raise Refused(refused.status, refused.line.replace("empty.nt", task.call["shown_data"])) from None
    with open("followed", "wb") as file:
        file.write(followed(task.programs))
    with open(shape_map, encoding="utf-8") as text:
        found = items(text.read())
    words = [f"{term}{item.target}" for item in found for term in item.terms if term != "_"]
    spelt = iter(one_spelling(task, words) if words else [])
    rows = [item_of(item, [next(spelt) if term != "_" else ("_", "") for term in item.terms]) for item in found]
    write_lines("patterns", ["\r".join([item["focus"], *item["terms"]]) for item in rows if item["focus"]])
    return {"items": rows}


def item_of(item: Item, spelt: list[tuple[str, str]]) -> dict[str, Any]:
    """An item of the map with its terms and its label in their one spelling."""
    mark = "@!" if item.target.startswith("@!") else "@"
    return {"terms": [term for term, _ in spelt], "focus": item.focus, "target": mark + spelt[0][1]}


# ---- the data: parts


def unpack(task: Task) -> Result:
    """Unpacks a file."""
    file = task.call["files"][task.number]
    try:
        shell('gzip -dc "$1" >"$2"', file["path"], f"data.{file['kind']}")
    except Failed:
        raise Refused(5, f"shex: {file['shown']}: Failed") from None
    return {"size": os.path.getsize(f"data.{file['kind']}")}


def part(task: Task) -> Result:
    """Writes a piece of the data as sorted lines in one spelling, and what the packing wants to know of them."""
    piece = read_json(task.work, "pieces.json")[task.number]
    name = f"piece.{piece['kind']}"
    shell('dd if="$1" of="$2" bs=1M skip="$3" count="$4" iflag=skip_bytes,count_bytes status=none', piece["path"], name, *map(str, piece["span"]))
    try:
        lines(task.programs, name, piece["prefix"], "spelt")
    except Refused as refused:
        raise Refused(refused.status, told_of(refused.line, name, piece)) from None
    if task.call["has_turtle"] and piece["kind"] == "nt":
        refuse_turtle_labels(piece)
    patterns = sum(1 for item in task.result("spell")["items"] if item["focus"])
    sort, scan = f"sort -u -S {task.call['sort_memory']} -T .", os.path.join(os.path.dirname(os.path.abspath(__file__)), "scan.awk")
    shell(
        f"""{sort} spelt >lines; rm spelt "$1"; touch arcs.new read.new at_subjects
        awk -v FOLLOWED="$3" -v SELECTORS="$4" -f "$2" lines
        for name in arcs read; do touch "$name"; {sort} -o "$name" "$name"; done
        awk -F '\\r' 'NR == 1 || $1 != before {{ if (NR > 1) print before "\\r" n "\\r" b; before = $1; n = b = 0 }} {{ n++; b += length($2) + 1 }}
            END {{ if (NR) print before "\\r" n "\\r" b }}' read >at_objects
        sort -m at_subjects at_objects >weights; rm at_subjects at_objects *.new
        tr '\\r' '\\n' <arcs | {sort} >ends""",
        name, scan, task.at("spell", 0, "followed"), task.at("spell", 0, "patterns"),
    )
    for number in range(patterns):
        shell(f'touch "$1"; {sort} -o "$1" "$1"', f"focus.{number}")
    return {"triples": int(shell("wc -l <lines")), "bytes": os.path.getsize("lines")}


def told_of(line: str, name: str, piece: dict[str, Any]) -> str:
    """A refusal of a piece, as one of the file of which it is."""
    cause = line.partition(f"{name}: ")[2]
    at = re.fullmatch(r"(\w+)\((\d+)\)", cause)
    return f"shex: {piece['shown']}: " + (f"{at[1]}({int(at[2]) + piece['span'][0]})" if at else cause)


def refuse_turtle_labels(piece: dict[str, Any]) -> None:
    """Refuses N-Triples with labels that blank nodes of Turtle get here."""
    found = shell(r"grep -aE '^_:turtle[0-9]+_| _:turtle[0-9]+_[^ \"]* \.$' spelt | head -n 1 || true").rstrip("\n")
    if found:
        raise Refused(3, f"cluster: {piece['shown']}: blank nodes of the Turtle files get such labels: {found}")


# ---- numbers of nodes


# Merges sorted files with a name below a folder.
FOUND = """(find "$1" -type f -name "$2" -print0; printf '/dev/null\\0') """
MERGED = FOUND + "| sort -m -u --batch-size=100 -T . --files0-from=- "


def asked(task: Task) -> Result:
    """Writes the associations in the order of the map, a node with the number of its item each, and their nodes in order."""
    patterns = 0
    write_lines("associations", [])
    for number, item in enumerate(task.result("spell")["items"]):
        if not item["focus"]:
            write_lines("one", [f"{item['terms'][0]}\r{number}"])
            shell("cat one >>associations")
            continue
        shell(MERGED + """| awk -v item="$3" '{ print $0 "\\r" item }' >>associations""", task.at("part"), f"focus.{patterns}", str(number))
        patterns += 1
    shell(
        f"""awk -F '\\r' '{{ node = $1; if (sub(/^_:anon_/, "", node)) node = "_:" node; else if (node ~ /^_:anon/) node = "_:!" substr(node, 3)
            print node "\\r" NR - 1 }}' associations | sort -S {task.call['sort_memory']} -T . >roots
        cut -d $'\\r' -f 1 roots | uniq >nodes"""
    )
    return {"associations": int(shell("wc -l <associations"))}


def nodes(task: Task) -> Result:
    """Numbers the nodes that are asked about, or at an end of an arc that is followed."""
    os.symlink(task.at("asked", 0, "nodes"), "asked")
    script = MERGED + """| sort -m -u -T . - asked | awk '{ print $0 "\\r" NR - 1 }' >nodes"""
    shell(script, task.at("part"), "ends")
    return {"nodes": int(shell("wc -l <nodes"))}


def number(task: Task) -> Result:
    """Writes arcs, weights or roots with the numbers of their nodes."""
    known, join = task.at("nodes", 0, "nodes"), "join --check-order -t $'\\r'"
    sort = f"sort -S {task.call['sort_memory']} -T ."
    scripts = (
        MERGED + f"""| {join} -o 2.2,1.2 "$3" - | {sort} | {join} -o 2.2,1.2 "$3" - | tr '\\r' ' ' >arcs""",
        MERGED.replace("-m -u", "-m") + f"""| {join} -o 1.2,2.2,2.3 "$3" - | awk -F '\\r' '
            NR == 1 || $1 != before {{ if (NR > 1) print before, n, b; before = $1; n = b = 0 }} {{ n += $2; b += $3 }}
            END {{ if (NR) print before, n, b }}' >weights""",
        f"""{join} -o 2.2,1.2 "$3" "$4" | tr '\\r' ' ' >roots""",
    )
    shell(scripts[task.number], task.at("part"), ("arcs", "weights", "roots")[task.number], known, task.at("asked", 0, "roots"))
    return {}


def pack(task: Task) -> Result:
    """Packs the associations into shards, and writes each node with its shards, and for each shard its map."""
    import packing  # pylint: disable=import-outside-toplevel

    for each, name in enumerate(("arcs", "weights", "roots")):
        os.symlink(task.at("number", each, name), name)
    triples, size = task.call["most_triples"], task.call["most_bytes"]
    most = packing.Room(triples, size, MOST_ASSOCIATIONS)
    room = packing.Room(triples, min(size, task.call["shard_bytes"]), MOST_ASSOCIATIONS)
    try:
        shard_of, shards = packing.pack(".", task.result("nodes")["nodes"], room, most)
    except packing.TooLarge as large:
        raise too_large(association(task, large.association), large.triples, large.size) from None
    packing.write_pairs("placed.numbers", shards)
    shard_of.tofile("shard_of", "\n")
    write_lines("targets", [item["target"] for item in task.result("spell")["items"]])
    shell(
        """awk -v PLACED=placed.numbers 'function next_pair() { id = (getline row < PLACED) > 0 ? row : -1; split(id, pair, " "); id = pair[1] }
            BEGIN { FS = "\\r"; next_pair() } { for (; id == NR - 1; next_pair()) print $1 "\\r" pair[2] }' "$1" >placed
        tr '\\r' ' ' <placed | sed '/^"/d' >placed.subjects
        [ ! -s shard_of ] || echo >>shard_of
        mkdir maps; paste -d '\\r' shard_of "$2" | awk -F '\\r' '
            BEGIN { while ((getline row < "targets") > 0) target[n++] = row }
            { print NR >"maps/" $1 ".numbers"; print $2 target[$3] >"maps/" $1 ".asked" }'""",
        task.at("nodes", 0, "nodes"), task.at("asked", 0, "associations"),
    )
    return {"shards": len(shards), "nodes": sum(map(len, shards))}


def association(task: Task, place: int) -> str:
    """An association by its place in the map."""
    node, item = shell('sed -n "$1p" "$2"', str(place + 1), task.at("asked", 0, "associations")).rstrip("\n").split("\r")
    target: str = task.result("spell")["items"][int(item)]["target"]
    return node + target


def too_large(asked_for: str, triples: int, size: int) -> Refused:
    """The refusal of an association that needs more than one run may have."""
    return Refused(3, f"cluster: {asked_for} needs {triples} triples of {size} bytes: too large for one run")


# ---- shards


def cut(task: Task) -> Result:
    """Writes the lines of a part that each shard has to have, sorted, into a file by the number of the shard."""
    home = task.at("part", task.number)
    shell(
        """mkdir out in; cd out
        join --check-order -t ' ' "$1/placed.subjects" "$2/lines" |
            awk '{ i = index($0, " "); rest = substr($0, i + 1); j = index(rest, " ")
                print substr($0, 1, i) substr(rest, j + 1) >substr(rest, 1, j - 1) }'
        cd ../in
        join --check-order -t $'\\r' -o 1.2,2.2 "$1/placed" "$2/read" | awk -F '\\r' '{ print $2 >$1 }'
        for shard in *; do [ ! -e "$shard" ] || { touch "../out/$shard"; sort -u -o "../out/$shard" "../out/$shard" "$shard"; }; done""",
        task.at("pack", 0), home,
    )
    shutil.rmtree("in")
    return {}


def shard(task: Task) -> Result:
    """Puts a shard together, and answers its associations."""
    shell(MERGED.replace("-name", "-path") + ">data.nt", task.at("cut"), f"*/out/{task.number}")
    front = task.at("pack", 0, "maps", task.number)
    shell("sed '$!s/$/,/' \"$1\" >map", f"{front}.asked")
    triples, size = int(shell("wc -l <data.nt")), os.path.getsize("data.nt")
    if triples > task.call["most_triples"] or size > task.call["most_bytes"]:
        raise too_large(read_rows(f"{front}.asked")[0], triples, size)
    # A name that begins with `anon` alone is of no node of N-Triples, and no line can be missing there; a label may look like it in lines.
    shell("sed '/^_:anon[^_]/d' \"$1\" | sed '$!s/$/,/' >named", f"{front}.asked")
    with open("reached", "wb") as file:
        file.write(reached(task.programs, "data.nt", "named"))
    shell("sort -u -o nodes reached; rm reached named")
    done = validate(task.programs, "data.nt", "map", [*task.call["budget"], *(["--proof", "proof"] if task.call["proofs"] else [])])
    if task.call["proofs"] and check(task.programs, "data.nt", "proof") != done.stdout:
        raise ValueError("the claims of the proof are not the answers")
    with open("answers", "wb") as file:
        file.write(done.stdout)
    number_answers(front, done.returncode)
    associations = int(shell('wc -l <"$1"', f"{front}.numbers"))
    wide = done.stderr.decode().splitlines()
    return {"triples": triples, "bytes": size, "associations": associations, "status": done.returncode, "wide": wide}


def number_answers(front: str, status: int) -> None:
    """Writes the answers, each behind the number of its association, and how many there are of each kind."""
    shell("sed -i 's/,$//' answers")
    if status == 4:
        number_some(front)
    else:
        shell('[ "$(wc -l <answers)" -eq "$(wc -l <"$1")" ]; paste -d "\\r" "$1" answers >numbered; rm answers', f"{front}.numbers")


def number_some(front: str) -> None:
    """The same where some answers are left out: an answer is that of the next association with its node and label."""
    numbers, asked_for, rows = read_rows(f"{front}.numbers"), read_rows(f"{front}.asked"), read_rows("answers")
    found, at = [], 0
    for place, words in zip(numbers, asked_for):
        match = TARGET.fullmatch(words)
        if match and at < len(rows) and rows[at] in (f"{match[1]}@{match[2]}", f"{match[1]}@!{match[2]}"):
            found.append(f"{place}\r{rows[at]}")
            at += 1
    if at != len(rows):
        raise ValueError("an answer to none of the associations")
    write_lines("numbered", found)
    os.remove("answers")


def cover(task: Task) -> Result:
    """Has it checked that each shard has all lines of a part at the nodes that it reaches, and no line besides that is none of the part."""
    count, home = task.result("pack")["shards"], task.at("cut", task.number, "out")
    write_lines("none", [])
    slices = [os.path.join(home, str(each)) for each in range(count)]
    pairs = [(task.at("shard", each, "nodes"), name if os.path.exists(name) else "none") for each, name in enumerate(slices)]
    part_lines = task.at("part", task.number, "lines")
    with open("followed", "wb") as file:
        file.write(followed(task.programs))
    missing = covers(task.programs, "followed", part_lines, pairs)
    if missing:
        return {"fault": f"a shard lacks a line: {missing}"}
    more = shell(MERGED + """| comm -23 - "$3" | sed -n 1p""", home, "*", part_lines)
    return {"fault": f"a shard has a line that is not in the data: {more.rstrip()}" if more else ""}


STAGES: dict[str, Callable[[Task], Result]] = {
    stage.__name__: stage for stage in (spell, unpack, part, asked, nodes, number, pack, cut, shard, cover)
}


def processor_seconds() -> float:
    """The processor time of this process and of those that it ran."""
    used = [resource.getrusage(who) for who in (resource.RUSAGE_SELF, resource.RUSAGE_CHILDREN)]
    return sum(each.ru_utime + each.ru_stime for each in used)


def keep(room: str, final: str) -> None:
    """Makes a room the folder of its task, unless the task was done twice and the other was first."""
    try:
        os.rename(room, final)
    except OSError:
        if not os.path.exists(os.path.join(final, "result.json")):
            raise


def make(stage: str, work: str, number_of: int) -> Result:
    """Makes the folder of a task, by way of a room of its own."""
    final = os.path.join(work, stage, str(number_of))
    room = os.path.join(work, "rooms", f"{stage}-{number_of}-{socket.gethostname()}-{os.getpid()}")
    task = Task(work, number_of)
    os.makedirs(room)
    os.makedirs(os.path.dirname(final), exist_ok=True)
    os.chdir(room)
    try:
        result = {**STAGES[stage](task), "processor": processor_seconds()}
        with open("result.json", "w", encoding="utf-8") as file:
            json.dump(result, file)
        keep(room, final)
        return result
    finally:
        shutil.rmtree(room, ignore_errors=True)


def main() -> None:
    """Makes the task that the words name, and prints the refusal if there is one."""
    stage, work, number_of = sys.argv[1:]
    try:
        make(stage, work, int(number_of))
    except Refused as refused:
        print(json.dumps([refused.status, refused.line]))


if __name__ == "__main__":
    main()
