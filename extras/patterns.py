"""The patterns of node constraints: regular expressions of XPath (XPath and XQuery Functions 3.1, section 5.6) as far as the
project takes them, which docs/DECISIONS.md says. Categories and case folding are those of Python's version of Unicode.
"""

import functools
import re
import unicodedata
from collections import namedtuple

from terms import Unsupported, expect, need

LARGEST = 4096  # of the numbers of quantifiers, and of the characters and sets with repetitions written out
DEEPEST = 64  # of groups and classes that are open at one place
CATEGORIES = "L Lu Ll Lt Lm Lo M Mn Mc Me N Nd Nl No P Pc Pd Ps Pe Pi Pf Po Z Zs Zl Zp S Sm Sc Sk So C Cc Cf Co Cn".split()
SINGLE = re.compile(r"\\([nrt\\|.?*+(){}$\-\[\]^/])")
MULTIPLE = re.compile(r"\\(?:([dDsSwW])|([pP])\{([A-Z][a-z]?)\})")
NORMAL = re.compile(r"[^.\\?*+()|\[\]{}^$]")
QUANTIFIER = re.compile(r"(?:([*+?])|\{([0-9]+)(?:(,)([0-9]*))?\})\??")

# ---- sets of characters: whether a character is in one


def in_category(category):
    """The characters of a category."""
    return lambda character: unicodedata.category(character).startswith(category)


def none_of(has):
    """The characters outside a set."""
    return lambda character: not has(character)


CLASSES = {
    "d": in_category("Nd"),
    "s": lambda character: character in " \t\n\r",
    "w": lambda character: unicodedata.category(character)[0] not in "PZC",
}


def folding(character):
    """The simple case folding of a character."""
    for folded in (character.casefold(), character.lower()):
        if len(folded) == 1:
            return folded
    return character


@functools.lru_cache(maxsize=None)
def folded_alike():
    """The characters that have another one for their folding, by that one."""
    table = {}
    for character in map(chr, (*range(0xD800), *range(0xE000, 0x110000))):
        if folding(character) != character:
            table.setdefault(folding(character), []).append(character)
    return table


def in_range(low, high, ignores_case):
    """The characters from one to another; where case is ignored, those that share their folding with one of them."""
    if not ignores_case:
        return lambda character: low <= character <= high

    def has(character):
        folded = folding(character)
        return any(low <= other <= high for other in (folded, *folded_alike().get(folded, ())))

    return has


# ---- what matches: from places in a text, the places behind a match that begins at one of them

Part = namedtuple("Part", "ends size")  # a part of a pattern, and how many characters and sets it has, repetitions written out


def one_of(has):
    """One character of a set."""
    return Part(lambda text, places: {place + 1 for place in places if place < len(text) and has(text[place])}, 1)


def anchor(is_start):
    """The start or the end of a text."""
    return Part(lambda text, places: places & {0 if is_start else len(text)}, 1)


def sequence(parts):
    """Parts one behind the other."""

    def ends(text, places):
        for part in parts:
            places = part.ends(text, places)
        return places

    return Part(ends, sum(part.size for part in parts))


def choice(parts):
    """One of some parts."""
    return Part(lambda text, places: set().union(*(part.ends(text, places) for part in parts)), sum(part.size for part in parts))


def repeated(part, least, most):
    """A part so many times; without a greatest number where that is None."""

    def ends(text, places):
        for _ in range(least):
            places = part.ends(text, places)
        found, further, times = set(places), places, least
        while further and times != most:
            further, times = part.ends(text, further) - found, times + 1
            found |= further
        return found

    return Part(ends, part.size * (max(least, 1) if most is None else most))


# ---- patterns


class PatternReader:
    """A reader of the text of a pattern; ValueError where it is none."""

    def __init__(self, text, flags):
        self.text, self.flags, self.at, self.depth = text, flags, 0, 0

    def taken(self, regex):
        """The match of a regular expression here, which is passed, or None."""
        match = re.compile(regex).match(self.text, self.at)
        self.at = match.end() if match else self.at
        return match

    def whole(self):
        """The whole text."""
        part = self.pattern()
        expect(self.at == len(self.text))
        return part

    def pattern(self):
        """Branches with bars between them."""
        branches = [self.branch()]
        while self.taken(r"\|"):
            branches.append(self.branch())
        return choice(branches)

    def branch(self):
        """Pieces up to a bar, a bracket or the end."""
        pieces = []
        while self.at < len(self.text) and self.text[self.at] not in "|)":
            pieces.append(self.piece())
        return sequence(pieces)

    def piece(self):
        """An anchor, or an atom with a quantifier or without one."""
        match = self.taken(r"[\^$]")
        if match:
            return anchor(is_start=match[0] == "^")
        atom, match = self.atom(), self.taken(QUANTIFIER)
        return repeated(atom, *self.limits(*match.groups())) if match else atom

    def limits(self, mark, least, comma, most):
        """The least number of a quantifier, and the greatest, which is None where there is none."""
        if mark:
            return (1 if mark == "+" else 0), (1 if mark == "?" else None)
        least = int(least)
        most = least if not comma else int(most) if most else None
        expect(most is None or least <= most)
        need(max(least, most or 0) <= LARGEST, f"the pattern {self.text}, which is too large")
        return least, most

    def atom(self):
        """A character, a set of them, or a group."""
        if self.taken(r"\((?:\?:)?"):
            self.enter()
            inner = self.pattern()
            expect(self.taken(r"\)"))
            self.depth -= 1
            return inner
        if self.text[self.at] == "[":
            return one_of(self.set())
        if self.taken(r"\."):
            return one_of(lambda character: "s" in self.flags or character not in "\n\r")
        has = self.multiple()
        if has:
            return one_of(has)
        character = self.single() or self.normal()
        return one_of(self.range(character, character))

    def normal(self):
        """A character that stands for itself."""
        match = self.taken(NORMAL)
        expect(match)
        return match[0]

    def enter(self):
        """A group or a class that opens."""
        self.depth += 1
        need(self.depth <= DEEPEST, f"the pattern {self.text}, which is too large")

    def single(self):
        """The character of an escape, or None."""
        match = self.taken(SINGLE)
        return match and {"n": "\n", "r": "\r", "t": "\t"}.get(match[1], match[1])

    def multiple(self):
        """The set of an escape, or None."""
        match = self.taken(MULTIPLE)
        if not match:
            return None
        letter, sign, category = match.groups()
        expect(letter or category in CATEGORIES)
        has = CLASSES[letter.lower()] if letter else in_category(category)
        return none_of(has) if (letter or sign).isupper() else has

    def range(self, low, high):
        """The characters from one to another."""
        expect(low <= high)
        return in_range(low, high, "i" in self.flags)

    def set(self):
        """A class in square brackets: items, of which `^` takes the opposite, and perhaps a class that is taken away."""
        self.at += 1
        self.enter()
        is_negated = self.taken(r"\^") is not None
        items = [self.item(is_first=True)]
        while not self.text.startswith(("]", "-["), self.at):
            items.append(self.item(is_first=False))
        without = self.set() if self.taken(r"-(?=\[)") else lambda character: False
        expect(self.taken(r"\]"))
        self.depth -= 1
        return lambda character: any(has(character) for has in items) != is_negated and not without(character)

    def item(self, is_first):
        """An item of a class: the set of an escape, a character, or those from one to another."""
        has = self.multiple()
        if has:
            return has
        low = self.character(is_first)
        return self.range(low, self.character(is_first=False) if self.taken(r"-(?![\[\]])") else low)

    def character(self, is_first):
        """A character of a class; a hyphen only as its first item or right before its closing bracket."""
        escaped = self.single()
        if escaped:
            return escaped
        match = self.taken(r"[^\\\[\]]")
        expect(match and (match[0] != "-" or is_first or self.text.startswith("]", self.at)))
        return match[0]


def read_pattern(text, flags):
    """What a pattern with these flags matches."""
    need(not set(flags) - set("siq"), f"the pattern {text} with the flags {flags}")
    reader = PatternReader(text, flags)
    try:
        part = sequence([one_of(reader.range(c, c)) for c in text]) if "q" in flags else reader.whole()
    except ValueError:
        raise Unsupported(f"the pattern {text}") from None
    need(part.size <= LARGEST, f"the pattern {text}, which is too large")
    return part


def is_found(part, text):
    """Whether some part of a text matches."""
    return bool(part.ends(text, set(range(len(text) + 1))))
