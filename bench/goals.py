"""The goals, and how the rows that were measured meet them."""

import collections

from measuring import growth

# A goal: what is measured, what is wanted of it, what came out, and whether that is as wanted (None where it was not measured).
Goal = collections.namedtuple("Goal", "what wanted measured met")

# From so many triples on, a run is told from the start of a process.
LARGE = 90_000

MIB = 1 << 20

# The families that Jena is held against.
RECORDS = ("clinical", "catalogue")


def worst(what, wanted, bound, figures):
    """The goal that each of the figures, which are pairs of a number and where it was measured, is at most the bound."""
    if not figures:
        return Goal(what, wanted, "not measured", None)
    figure, place = max(figures)
    within = sum(each <= bound for each, _ in figures)
    return Goal(what, wanted, f"{figure:.2f} at most ({place}); within in {within} of {len(figures)}", figure <= bound)


def place(row, step=None):
    """Where something was measured."""
    return f"`{row.family}`, {row.triples:,}" + (f", {step}" if step else "")


def large(rows, *steps):
    """The rows of large inputs of which all these steps were measured to their end."""
    return [row for row in rows if row.triples >= LARGE and all(step in row.steps and row.steps[step].status != "late" for step in steps)]


def tiny_goal(run):
    """A tiny input as a whole process."""
    milliseconds = run.seconds * 1000
    return Goal("a tiny input, as a whole process", "10 ms, 10 MB", f"{milliseconds:.1f} ms, {run.megabytes:.1f} MB", milliseconds <= 10 and 0 < run.megabytes <= 10)


def beside_jena(rows):
    """`validate` of records and catalogues of 100,000 triples beside Jena."""
    goals = []
    for row in rows:
        if row.family in RECORDS and row.size == 100_000:
            what, wanted = f"`validate` of `{row.family}`, {row.triples:,} triples, beside a Jena process", "15 times as fast, a fifteenth of its memory"
            if "Jena" not in row.steps:
                goals.append(Goal(what, wanted, "not measured", None))
                continue
            ours, other = row.steps["validate"], row.steps["Jena"]
            faster, smaller = other.seconds / ours.seconds, ours.megabytes / other.megabytes
            goals.append(Goal(what, wanted, f"{faster:.1f} times as fast, {smaller:.3f} of its memory", faster >= 15 and smaller <= 1 / 15))
    return goals


def above_file(row, ending):
    """The bytes of memory that a load takes above those of its file, by 48 for each triple and 96 for each term."""
    return (row.steps[f"load .{ending}"].megabytes * MIB - row.files[f"data.{ending}"]) / (48 * row.triples + 96 * row.terms)


def load_goals(rows):
    """Loading beside `serdi`, and its memory."""
    beside = [(row.steps["load .ttl"].seconds / row.steps["serdi"].seconds, place(row)) for row in large(rows, "load .ttl", "serdi")]
    memory = [(above_file(row, ending), place(row, f".{ending}")) for ending in ("nt", "ttl") for row in large(rows, f"load .{ending}")]
    return [
        worst("time of a load of Turtle, by that of `serdi -q` on the same file", "1.2", 1.2, beside),
        worst("bytes of a load above the file's own, by 48 a triple and 96 a term", "1", 1, memory),
    ]


def growth_goal(rows):
    """The exponents between sizes of each family."""
    powers, before = [], None
    for row in rows:
        if before is not None and before.family == row.family:
            for step in ("load .nt", "load .ttl", "validate", "with a proof", "check"):
                power = growth(before, row, step)
                powers += [(power, place(row, step))] if power is not None else []
        before = row
    return worst("exponent of growth from a size to the next", "1.05", 1.05, powers)


def beside_load(row, step):
    """The seconds that a step takes beside the load of the same Turtle."""
    return row.steps[step].seconds - row.steps["load .ttl"].seconds


def proof_goals(rows):
    """`check` and a proof by `validate`."""
    checks = [(beside_load(row, "check") / beside_load(row, "validate"), place(row)) for row in large(rows, "check", "validate", "load .ttl") if beside_load(row, "validate") > 0]
    proofs = [(row.steps["with a proof"].seconds / row.steps["validate"].seconds - 1, place(row)) for row in large(rows, "with a proof", "validate")]
    return [
        worst("time of `check` beside the load, by that of `validate` beside it", "0.4", 0.4, checks),
        worst("time that a proof costs besides, by that of `validate`", "0.5", 0.5, proofs),
    ]


def all_goals(tiny, rows):
    """All goals of `shex`, in order."""
    return [tiny_goal(tiny), *beside_jena(rows), *load_goals(rows), growth_goal(rows), *proof_goals(rows)]


def lines(goals):
    """The goals as a table."""
    met = {True: "yes", False: "no", None: ""}
    return ["| goal | at most | measured | met |", "|---|---|---|---|"] + [f"| {goal.what} | {goal.wanted} | {goal.measured} | {met[goal.met]} |" for goal in goals]
