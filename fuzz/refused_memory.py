#!/usr/bin/env python3
"""Runs shex on small examples while memory is refused, one number at a time.

    fuzz/refused_memory.py [PROGRAM] [--by limit|request|both] [--only WORD] [--every 1]

PROGRAM is by default the released one, `dist/shex`. Each block that the program asks for is made a mapping of its
own (by the settings of the GNU C library), so that

- by `limit`, memory for data is limited to each number of pages from one up to what the run needs: each block that would pass a
  new peak is refused in turn;
- by `request`, each request is refused in turn, once alone and once with all that follow; this wants Debian's `strace`.

The calls are `validate`, `check` and `upgrade` on each example, and a drill. Each run has to end with 8 or with its own status;
with its own it has printed and stored what it does otherwise; with 8 each stream has a prefix of its text, the name under which a
proof is stored holds what it held before or a prefix of the proof, and no other file has changed. `--every 10` tries each tenth
number. Printed are the numbers that were tried and the statuses. The program ends with 1 where something else was seen.
"""

import argparse
import collections
import os
import re
import resource
import shutil
import sys

from running import EXAMPLES, RELEASED, folder, run, without_map, write

PAGE = resource.getpagesize()
OLD = "an old text\n"

# Each block is a mapping of its own: none comes from the heap's top, and none is kept back.
BLOCKS = {"GLIBC_TUNABLES": "glibc.malloc.mmap_threshold=0:glibc.malloc.mmap_max=1000000:glibc.malloc.top_pad=0:glibc.malloc.tcache_count=0"}

# Each block is asked for as a new mapping: those that would grow or stretch another are refused.
OTHERS = ["-e", "trace=mmap,mremap,brk", "-e", "inject=mremap:error=ENOMEM", "-e", "inject=brk:error=ENOMEM:when=2+"]

# A call: its name, the files before it, its words, and the name under which it stores a proof.
Call = collections.namedtuple("Call", "name files words stored")

# What a run did: its status, what it printed, and the files behind it.
Seen = collections.namedtuple("Seen", "status out err files")


def contents(where):
    """The files of a folder."""
    held = {}
    for name in sorted(os.listdir(where)):
        with open(os.path.join(where, name), "rb") as file:
            held[name] = file.read()
    return held


def seen(program, call, front=(), limits=()):
    """What a call does in a folder of its own; words may stand before it, and memory may be limited."""
    with folder() as where:
        write(where, call.files)
        ran = run([*front, program, *call.words], where, limits=limits, environment={**os.environ, **BLOCKS})
        return Seen(ran.status, ran.out, ran.err, contents(where))


def calls(program):
    """The calls on all examples. The proofs that are checked are those that the program stores."""
    for example in EXAMPLES:
        words, others = example.words, without_map(example.words)
        validate = Call(f"validate: {example.name}", {**example.files, "p": OLD}, ["validate", *words, "--proof", "p"], "p")
        yield validate
        yield validate._replace(name=f"validate without an old proof: {example.name}", files=example.files)
        proof = seen(program, validate).files["p"]
        yield Call(f"check: {example.name}", {**example.files, "p": proof}, ["check", *others, "--proof", "p"], None)
        old = b"shex-proof 1\n" + proof[proof.index(b"\nk") + 1:].split(b"\n", 1)[1]
        yield Call(f"upgrade: {example.name}", {**example.files, "p": old, "q": OLD}, ["upgrade", *others, "--proof", "p", "--to", "q"], "q")
    yield Call("drill", {"p": OLD}, ["drill", "11", "--proof", "p"], "p")
    yield Call("refused words", {"p": OLD}, ["drill", "0", "--proof", "p"], "p")
    yield Call("refused data", {**EXAMPLES[0].files, "d.nt": "x", "p": OLD}, ["validate", *EXAMPLES[0].words, "--proof", "p"], "p")


def fault(call, whole, ran):
    """What is not as stated in a run to which memory was refused, beside the run to which it was not; none where all is."""
    if ran.status == whole.status:
        return None if ran == whole else "its own status, but not its own text or files"
    if ran.status != 8:
        return f"status {ran.status}: {ran.err[:100]!r}"
    if not whole.out.startswith(ran.out) or not whole.err.startswith(ran.err):
        return f"no prefix is printed: {ran.out[:100]!r} {ran.err[:100]!r}"
    before = {name: text.encode() if isinstance(text, str) else text for name, text in call.files.items()}
    for name in {*before, *ran.files}:
        held = ran.files.get(name)
        if held == before.get(name):
            continue
        if name != call.stored or held is None or not whole.files[name].startswith(held):
            return f"{name} holds {held!r}"
    return None


def need(program, call, whole):
    """The least number of pages with which a call does its own."""
    least, most = 0, 1
    while seen(program, call, limits=[(resource.RLIMIT_DATA, most * PAGE)]) != whole:
        least, most = most, most * 2
    while least + 1 < most:
        middle = (least + most) // 2
        if seen(program, call, limits=[(resource.RLIMIT_DATA, middle * PAGE)]) == whole:
            most = middle
        else:
            least = middle
    return most



def requests(program, call):
    """How many mappings are asked for, and how many of them before the program begins, while its libraries are loaded."""
    with folder() as where:
        write(where, call.files)
        log = os.path.join(where, "log")
        run(["strace", "-o", log, *OTHERS, program, *call.words], where, environment={**os.environ, **BLOCKS})
        with open(log, encoding="utf-8", errors="replace") as file:
            lines = [line for line in file if line.startswith("mmap(")]
    of_files = [number for number, line in enumerate(lines, 1) if not re.search(r", -1, 0\)", line)]
    return len(lines), max(of_files, default=0)


def by_limit(program, call, whole, every):
    """The statuses under each limit, and what was not as stated."""
    top = need(program, call, whole)
    for pages in range(1, top + 4, every):
        yield f"{pages} pages", seen(program, call, limits=[(resource.RLIMIT_DATA, pages * PAGE)])


def by_request(program, call, whole, every):
    """The statuses with each request refused, once alone and once with all that follow."""
    count, loading = requests(program, call)
    for number in range(loading + 1, count + 3, every):
        # A request that is refused is made again in another way, and the second time is refused as well.
        for when in (f"{number}..{number + 1}", f"{number}+"):
            refused = ["-e", f"inject=mmap:error=ENOMEM:when={when}"]
            yield f"request {when}", seen(program, call, front=["strace", "-o", "/dev/null", *OTHERS, *refused])


def tried(program, call, way, every):
    """Prints how a call ended under all refusals of a way, and gives whether all was as stated."""
    whole = seen(program, call)
    statuses, faults, begun = collections.Counter(), [], False
    for what, ran in way(program, call, whole, every):
        # Before its first block the program has not begun.
        if not begun and ran.status != 8 and ran != whole and not ran.out and not ran.err.startswith(b"shex:"):
            statuses["not begun"] += 1
            continue
        begun = True
        statuses[ran.status] += 1
        wrong = fault(call, whole, ran)
        if wrong:
            faults.append(f"{what}: {wrong}")
    shown = ", ".join(f"{status}: {count}" for status, count in sorted(statuses.items(), key=str))
    print(f"| {call.name} | {way.__name__.replace('_', ' ')} | {sum(statuses.values())} | {shown} | {whole.status} |", flush=True)
    for wrong in faults[:10]:
        print(f"  NOT AS STATED {call.name}: {wrong}", flush=True)
    return not faults


def main():
    parser = argparse.ArgumentParser(description=__doc__, formatter_class=argparse.RawDescriptionHelpFormatter)
    parser.add_argument("program", nargs="?", default=RELEASED)
    parser.add_argument("--by", choices=("limit", "request", "both"), default="both")
    parser.add_argument("--only", default="")
    parser.add_argument("--every", type=int, default=1)
    words = parser.parse_args()
    program = os.path.abspath(words.program)
    ways = [by_limit] if words.by != "request" else []
    if words.by != "limit" and shutil.which("strace"):
        ways.append(by_request)
    print("| call | refused | runs | status: runs | its own |\n|---|---|---|---|---|")
    fine = [tried(program, call, way, words.every) for call in calls(program) if words.only in call.name for way in ways]
    sys.exit(not all(fine))


if __name__ == "__main__":
    main()
