"""Kinds of globs and how often each is in a random set. Words are taken from the paths that the set is run on.

In a template PATH stands for a path, NAME for a last component, DIR for the first folders of a path, EXT for an extension, and
WORD for letters in a row.
"""

import random
import re

# How often each kind is in a set: globs as people write them, and odd ones. Those with 0 are only measured by themselves.
REALISTIC = {
    "PATH": 3,
    "DIR/**": 10,
    "DIR/*": 3,
    "DIR/**/*.EXT": 5,
    "**/NAME": 8,
    "*.EXT": 8,
    "*.{EXT,EXT}": 6,
    "*.WORD.EXT": 2,
    "**/WORD/**": 12,
    "**/WORD*": 6,
    "**/WORD*/**": 2,
    "**/*WORD*/**": 0,
    "**/WORD/*.EXT": 5,
    "**/WORD*/WORD": 0,
    "**/WORD[0-9]*": 4,
    "WORD/**/WORD": 3,
    "WORD*": 4,
    "WORD[0-9]*": 4,
    "*WORD": 2,
    "*WORD*": 8,
    "*WORD*WORD": 0,
    "*WORD*WORD*": 0,
}
ODD = {
    "??WORD*": 3,
    "?WORD*/**": 3,
    "WORD?WORD*": 3,
    "*WORD?WORD*": 4,
    "**/?WORD[a-z]": 4,
    "**/WORD?": 3,
    "[a-m]*WORD": 4,
    "*[A-Z]WORD*": 3,
    "*[!a-z]WORD?": 3,
    "**/[!._]*[0-9].EXT": 3,
    "**/[abc]?[0-9]*/**": 2,
    "*[WORD][WORD]WORD": 3,
    "{WORD,WORD}/**": 4,
    "*{WORD,WORD}*": 4,
    "**/{WORD,WORD,*WORD}/*": 3,
    "{*WORD,WORD*,DIR/*}": 3,
    "*.{EXT,[a-z],?WORD}": 3,
    "WORD{,s,[0-9]}*": 3,
    "**/WORD{,?}{,?}": 3,
    "*{WORD[0-9],{WORD,?}}.EXT": 3,
}
FAMILIES = {"realistic": REALISTIC, "odd": ODD}
# How often a set has these options. With several lists a part of the globs is under each.
OPTIONS = {
    ((),): 5,
    (("-s",),): 2,
    (("-i",),): 1,
    ((), ("-s",), ("-s", "-i")): 2,
}
PLACEHOLDER = re.compile("PATH|NAME|DIR|EXT|WORD")


class Words:
    """The words of some paths: half of those that are drawn are from any path, the others from the list of different words."""

    def __init__(self, paths):
        self.paths = [path for path in paths if re.fullmatch("[A-Za-z0-9_][A-Za-z0-9_./+-]*", path)]
        self.different = sorted({word for path in self.paths for word in re.findall("[A-Za-z]{2,}", path)})
        extensions = (re.search(r"\.([A-Za-z0-9_]{1,8})$", path) for path in self.paths)
        self.extensions = [found[1] for found in extensions if found]
        self.different_extensions = sorted(set(self.extensions))

    def word(self, rng):
        found = re.findall("[A-Za-z]{2,}", rng.choice(self.paths)) if rng.random() < 0.5 else []
        return rng.choice(found or self.different)

    def extension(self, rng):
        return rng.choice(self.extensions if rng.random() < 0.5 else self.different_extensions)

    def folder(self, rng):
        components = rng.choice(self.paths).split("/")
        return "/".join(components[: rng.randint(1, max(1, min(4, len(components) - 1)))])

    def text(self, placeholder, rng):
        if placeholder == "PATH":
            return rng.choice(self.paths)
        if placeholder == "NAME":
            return rng.choice(self.paths).rsplit("/", 1)[-1]
        of = {"DIR": self.folder, "EXT": self.extension, "WORD": self.word}
        return of[placeholder](rng)

    def glob(self, template, rng):
        return PLACEHOLDER.sub(lambda found: self.text(found[0], rng), template)


def drawn(weights, rng):
    return rng.choices(list(weights), weights=weights.values())[0]


def globs(weights, count, words, rng):
    """So many different globs of kinds with these weights, or fewer if the words are too few for that."""
    found = {}
    for _ in range(count):
        for _ in range(20):
            glob = words.glob(drawn(weights, rng), rng)
            if glob not in found and glob[0] != "-":
                break
        found[glob] = None
    return list(found)


def arguments(weights, count, words, seed, options=OPTIONS):
    """The options and the globs of a random set: a part of the globs under each list of options."""
    rng = random.Random(seed)
    lists = drawn(options, rng)
    found = globs(weights, count, words, rng)
    size = -(-len(found) // len(lists))
    parts = [list(flags) + found[size * at : size * (at + 1)] for at, flags in enumerate(lists)]
    return [argument for part in parts for argument in part]
