"""What the scripts of this folder share: one run of the program, its table of growth, and a small set of examples.

Nothing but Python's standard library is wanted.
"""

import collections
import math
import os
import resource
import signal
import subprocess
import tempfile
import time

ROOT = os.path.dirname(os.path.dirname(os.path.abspath(__file__)))

# The released program.
RELEASED = os.path.join(ROOT, "dist", "shex")

# How much time of a processor a run may take, in seconds.
SECONDS = 10

# What a run gave; the seconds are those of a processor, whatever else the machine did.
Run = collections.namedtuple("Run", "status seconds megabytes out err")


def folder():
    """A folder for files that come and go: in memory where the machine has such a place."""
    return tempfile.TemporaryDirectory(dir="/dev/shm" if os.path.isdir("/dev/shm") else None)


def peak_of(child, program):
    """The greatest memory of a running program so far in megabytes, and 0 where it is not there (any more, or yet)."""
    try:
        with open(f"/proc/{child}/status", encoding="utf-8") as file:
            fields = dict(line.split(":", 1) for line in file)
    except OSError:
        return 0
    is_it = fields["Name"].strip() == os.path.basename(program)[:15] and "VmHWM" in fields
    return int(fields["VmHWM"].split()[0]) / 1024 if is_it else 0


def run(words, where, seconds=SECONDS, limits=(), environment=None):
    """Runs a program in a folder to its end. The limits are pairs of a resource and a number. The status is that of the program, a
    negative number where a signal ended it, and `late` where it did not end within these seconds of a processor, or ten times as
    many by the clock, and was killed."""

    def limit():
        for what, number in [*limits, (resource.RLIMIT_CPU, math.ceil(seconds) + 1)]:
            resource.setrlimit(what, (number, number))

    with tempfile.TemporaryFile() as out, tempfile.TemporaryFile() as err:
        begun, peak, late, ended, pause = time.perf_counter(), 0, False, 0, 0.0002
        child = subprocess.Popen(words, cwd=where, stdin=subprocess.DEVNULL, stdout=out, stderr=err, env=environment, preexec_fn=limit)
        while not ended:
            peak = max(peak, peak_of(child.pid, words[0]))
            time.sleep(pause)
            pause = min(0.01, pause * 1.1)
            if not late and time.perf_counter() - begun > 10 * seconds:
                late = True
                child.kill()
            ended, status, used = os.wait4(child.pid, os.WNOHANG)
        taken = used.ru_utime + used.ru_stime
        child.returncode = os.waitstatus_to_exitcode(status)
        out.seek(0)
        err.seek(0)
        # The limit of the processor's seconds is the system's, which kills the program, too.
        late = late or taken > seconds or child.returncode == -signal.SIGKILL
        return Run("late" if late else child.returncode, taken, peak, out.read(), err.read())


def write(where, files):
    """Writes files, which are bytes or texts by name, or lists of such pieces."""
    for name, held in files.items():
        with open(os.path.join(where, name), "wb") as file:
            for piece in held if isinstance(held, list) else [held]:
                file.write(piece.encode() if isinstance(piece, str) else piece)


def exponent(before, after):
    """The exponent of the growth between two pairs of the sizes of files by name and a time, by the files that have grown. There is
    none where the first time is too short to tell."""
    if before is None or before[1] < 0.05:
        return None
    grown = [name for name in after[0] if after[0][name] > before[0][name]]
    sizes = [sum(pair[0][name] for name in grown) for pair in (before, after)]
    return math.log(after[1] / before[1]) / math.log(sizes[1] / sizes[0]) if grown else None


# Examples: the files, the words of `validate` without the proof's name, the status, and whether it asks for imports.
Example = collections.namedtuple("Example", "name files words status")

PEOPLE = "http://ex.example/people=people.shex"

EXAMPLES = [
    Example("a Shape without an expression", {
        "s.json": '{"type":"Schema","shapes":[{"type":"Shape","id":"http://localhost/S"}]}',
        "d.nt": "",
        "m": "<http://localhost/n>@<http://localhost/S>",
    }, ["--schema", "s.json", "--data", "d.nt", "--map", "m"], 0),
    Example("two nodes that fail one behind the other", {
        "s.shex": "<S> { <name> . ; <knows> @<S> }",
        "d.ttl": '<a> <knows> <b> . <b> <knows> <a> . <a> <name> "A" .',
        "m": "<a>@<S>, <b>@<S>",
    }, ["--schema", "s.shex", "--data", "d.ttl", "--map", "m"], 1),
    Example("patients, and an imported schema", {
        "s.shex": """PREFIX ex: <http://ex.example/>
PREFIX xsd: <http://www.w3.org/2001/XMLSchema#>
IMPORT <http://ex.example/people>
ex:Patient {
  a [ex:Patient] ;
  ex:name xsd:string MINLENGTH 1 ;
  ex:born xsd:dateTime ? ;
  ex:seen { ex:by @ex:Person } *
}
""",
        "people.shex": """PREFIX ex: <http://ex.example/>
PREFIX xsd: <http://www.w3.org/2001/XMLSchema#>
ex:Person { ex:name xsd:string }
""",
        "d.ttl": """@prefix ex: <http://ex.example/> .
@prefix xsd: <http://www.w3.org/2001/XMLSchema#> .
# three patients
ex:p1 a ex:Patient ; ex:name "Ann" ; ex:born "1980-02-29T00:00:00Z"^^xsd:dateTime ;
  ex:seen [ ex:by ex:d1 ] ; ex:notes ( "a" "b" ) .
ex:p2 a ex:Patient ; ex:name "Bob" ; ex:born "1981-02-29T00:00:00Z"^^xsd:dateTime .
ex:p3 a ex:Patient ; ex:name "Cy" .
ex:d1 ex:name "Dr Dee" .
""",
        "m": "{FOCUS a ex:Patient}@ex:Patient\n",
    }, ["--schema", "s.shex", "--data", "d.ttl", "--map", "m", PEOPLE], 1),
    Example("imports of both formats, a pattern, a negation and a pair that is too wide", {
        "s.shex": """IMPORT <a> IMPORT <b>
PREFIX x: <http://localhost/>
START = @x:S AND NOT @x:U
x:S EXTRA x:p { x:p LITERAL /^a+[b-d]{2}$/i ; x:p @x:T ; x:q [ @en~ - @en-us ] * }
""",
        "a.shexj": '{"type":"Schema","imports":["b"],"shapes":[{"type":"Shape","id":"http://localhost/T","extra":[],"expression":'
                   '{"type":"OneOf","expressions":[{"type":"TripleConstraint","predicate":"http://localhost/r","min":0,"max":-1},'
                   '{"type":"TripleConstraint","predicate":"http://localhost/p","inverse":true}]}}]}',
        "b.shex": "IMPORT <a> <U> { <p> . ; <p> IRI ; <p> BNODE }",
        "d.ttl": '<n> <p> "aaBC", _:t, <u> ; <q> "y"@en, "z"@en-gb . _:t <r> 1, 2.50 . <u> <p> <n>, _:t, [] .',
        "m": "<n>@START, <u>@!<U>, {FOCUS <p> _}@<S>",
    }, ["--schema", "s.shex", "--data", "d.ttl", "--map", "m", "--budget", "4", "http://localhost/a=a.shexj", "http://localhost/b=b.shex"], None),
]


def without_map(words):
    """The words of an example without the map and the budget, as `check` and `upgrade` want them."""
    kept, passed = [], 0
    for word in words:
        if word in ("--map", "--budget"):
            passed = 2
        if passed:
            passed -= 1
        else:
            kept.append(word)
    return kept
