"""Forged copies of a proof, which is a list of lines here.

Each way to change a proof gives all copies with one change of its kind.
"""

import itertools
import re

from terms import MOST

# ---- changes of a line: what may stand in its place


def without(parts, place, *others):
    """Parts, where others stand in the place of one."""
    return [*parts[:place], *others, *parts[place + 1 :]]


def number_changes(line):
    """Each number, but those in digests, terms and targets, once one more and once one less."""
    line, target = re.fullmatch(r"(c [+-] [0-9]+|[ks+-] .*|)(.*)", line).groups()
    for match in re.finditer("[0-9]+", line):
        for number in (int(match[0]) + 1, int(match[0]) - 1):
            yield [line[: match.start()] + str(number) + line[match.end() :] + target]


def sign_changes(line):
    """The sign of a record or a claim, turned."""
    match = re.match(r"(c )?([+-])(?= )", line)
    if match:
        yield [line[: match.start(2)] + {"+": "-", "-": "+"}[match[2]] + line[match.end(2) :]]


def digest_changes(line):
    """Each digit of a digest, replaced."""
    for place in range(4, len(line) if line.startswith("f ") else 0):
        yield [line[:place] + ("0" if line[place] != "0" else "1") + line[place + 1 :]]


def place_changes(line):
    """Each place of a record that confirms, replaced by each other one of a few."""
    fields = line.split(" ")
    for place in range(3, len(fields) if line.startswith("+ ") else 0):
        for other in ("r", *map(str, range(10))):
            yield [" ".join(without(fields, place, other))]


def state_changes(line):
    """Each state of a record that refutes, deleted."""
    fields = line.split(" ")
    for place in range(4, len(fields) if line.startswith("- ") else 0):
        yield [" ".join(without(fields, place))]


def field_changes(line):
    """Each field deleted, doubled, and exchanged with the next one."""
    fields = line.split(" ")
    for place, field in enumerate(fields):
        yield [" ".join(without(fields, place))]
        yield [" ".join(without(fields, place, field, field))]
        if place > 0:
            yield [" ".join([*fields[: place - 1], field, fields[place - 1], *fields[place + 1 :]])]


def character_changes(line):
    """Each character deleted, and a space put in front of it."""
    for place, character in enumerate(line):
        yield [line[:place] + line[place + 1 :]]
        yield [line[:place] + " " + line[place:]]


LINE_CHANGES = {
    "lines deleted": lambda line: [[]],
    "lines doubled": lambda line: [[line, line]],
    "numbers changed by one": number_changes,
    "signs turned": sign_changes,
    "digits of digests changed": digest_changes,
    "places changed": place_changes,
    "states deleted": state_changes,
    "fields changed": field_changes,
    "characters changed": character_changes,
}

# ---- changes of a proof: lists of lines


def by_line(change):
    """The changes of a proof in which one of its lines is changed."""

    def changes(lines):
        for place, line in enumerate(lines):
            for others in change(line):
                yield without(lines, place, *others)

    return changes


def swapped_lines(lines):
    """Each two lines exchanged."""
    for a, b in itertools.combinations(range(len(lines)), 2):
        yield without(without(lines, a, lines[b]), b, lines[a])


def swapped_claims(lines):
    """Each two claims with their signs exchanged, with their nodes, or with their targets."""
    claims = [place for place, line in enumerate(lines) if line.startswith("c ")]
    for a, b in itertools.combinations(claims, 2):
        first, second = lines[a].split(" ", 3), lines[b].split(" ", 3)
        for field in range(1, min(len(first), len(second))):
            swapped = without(lines, a, " ".join(without(first, field, second[field])))
            yield without(swapped, b, " ".join(without(second, field, first[field])))


def other_sections(lines):
    """Each section with another number of a few."""
    for place, line in enumerate(lines):
        if line.startswith("s "):
            for number in (0, 1, 2, 3, MOST):
                yield without(lines, place, f"s {number}")


CHANGES = {
    **{name: by_line(change) for name, change in LINE_CHANGES.items()},
    "lines exchanged": swapped_lines,
    "claims exchanged": swapped_claims,
    "sections renumbered": other_sections,
}


def random_copies(lines, times, chance):
    """Copies that were changed two to four times."""
    for _ in range(times):
        copy = lines
        for _ in range(chance.randint(2, 4)):
            copy = chance.choice(list(CHANGES[chance.choice(sorted(CHANGES))](copy)) or [copy])
        yield copy


def without_head(lines):
    """A proof of format 2 in format 1."""
    return ["shex-proof 1", *(line for line in lines[1:] if line[:2] not in ("f ", "k ") and line != "k")]
