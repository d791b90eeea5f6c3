"""Random kinds of globs, from a grammar, and paths with letters of two bytes for them. The same seed makes the same ones.

A kind is a template, as in families_kinds.py, with one more placeholder: LONG stands for 20 to 40 characters of a path. The
globs of a set are of one kind, so they have its stars, classes and braces in common, and differ by their words.
"""

import random
import re

import families_kinds

# How many globs a set has.
COUNTS = (1, 3, 10, 30, 100)
# How often a set has these options.
OPTIONS = {(): 6, ("-i",): 2, ("-s",): 2, ("-s", "-i"): 1}
# Letters of two bytes, which stand for these letters in one path of EACH.
TWO_BYTES = {"a": "ä", "e": "é", "o": "ö", "n": "ñ", "s": "ß", "d": "ж"}
EACH = 5

STARTS = {"**/": 5, "*": 5, "": 3, "**/*": 2, "{*,**}/": 1}
ENDS = {"*": 5, "": 3, "/**": 3, "*.EXT": 3, ".{EXT,EXT}": 1, "**": 1, ".[a-z]*": 1}
PIECES = {
    "word": 8,
    "star": 5,
    "class": 4,
    "braces": 3,
    "folders": 2,
    "marks": 2,
    "many marks": 1,
    "two bytes": 1,
    "long": 1,
}
FIXED = {
    "word": {"WORD": 1},
    "star": {"*": 4, "*.": 1, "*_*": 1, "/*": 1},
    "class": {
        "[a-z]": 2, "[A-Z]": 1, "[0-9]": 2, "[A-Za-z_]": 1, "[!a-m]": 1, "[!0-9]": 1, "[WORD]": 3, "[!WORD]": 2, "[._-]": 1,
        "[!./]": 1, "[acegikmoqsuwy]": 1, "[é-ñ]": 1,
    },
    "folders": {"/**/": 3, "/": 1, "**/": 1},
    "marks": {"?": 3, "??": 1, "???": 1},
    "two bytes": {letter: 1 for letter in TWO_BYTES.values()},
    "long": {"LONG": 1},
}
# What stands between two words, since few paths have two words of others in a row.
BETWEEN = ("*", "*", "_", "?", "")
# In braces of this depth no others begin.
DEEPEST = 3
LONG = re.compile("LONG")


def drawn(weights, rng):
    return families_kinds.drawn(weights, rng)


def piece(rng, depth):
    what = drawn(PIECES, rng)
    if what == "braces":
        return braces(rng, depth + 1) if depth < DEEPEST else "WORD"
    if what == "many marks":
        return "?" * rng.randint(6, 20)
    return drawn(FIXED[what], rng)


def branch(rng, depth):
    return "".join(piece(rng, depth) for _ in range(rng.randint(1, 2))) if rng.random() < 0.9 else ""


def braces(rng, depth):
    return "{" + ",".join(branch(rng, depth) for _ in range(rng.randint(2, 4))) + "}"


def template(rng):
    pieces = "".join(piece(rng, 0) for _ in range(rng.choice((1, 2, 2, 3, 3, 4, 5))))
    pieces = re.sub("WORD(?=WORD)", lambda found: found[0] + rng.choice(BETWEEN), pieces)
    return drawn(STARTS, rng) + pieces + drawn(ENDS, rng)


def kind(rng):
    """A template in which some word stands, so that a set can have many globs of it."""
    while True:
        found = template(rng)
        if families_kinds.PLACEHOLDER.search(LONG.sub("", found)):
            return found


def long_text(words, rng):
    path = rng.choice(words.paths)
    length = rng.randint(20, 40)
    start = rng.randrange(max(1, len(path) - length))
    return path[start : start + length]


class Words:
    """The words of some paths, for placeholders of families_kinds.py and LONG."""

    def __init__(self, paths):
        self.words = families_kinds.Words(paths)

    def glob(self, of, rng):
        return self.words.glob(LONG.sub(lambda found: long_text(self.words, rng), of), rng)


def set_of(seed, number, words):
    """The template of the kind with this number, the number of globs that is wanted, and the options and globs of the set."""
    rng = random.Random(f"{seed} kind {number}")
    of, count = kind(rng), COUNTS[number % len(COUNTS)]
    options = drawn(OPTIONS, rng)
    return of, count, list(options) + families_kinds.globs({of: 1}, count, words, rng)


def with_two_bytes(paths):
    """The paths, of which some have a letter of two bytes in place of one of one byte, wherever it stands."""
    rng = random.Random(41)
    found = []
    for path in paths:
        letter = rng.choice(list(TWO_BYTES)) if rng.randrange(EACH) == 0 else ""
        found.append(path.replace(letter, TWO_BYTES[letter]) if letter else path)
    return found
