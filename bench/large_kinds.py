"""Kinds of globs that large repositories have, and hostile globs. All are made from fixed seeds."""

import random

import families_kinds
import workloads

WORDS = workloads.FOLDERS + workloads.NAMES
EXTENSIONS = workloads.EXTENSIONS


def numbered(rng):
    """A word, and behind half of them a number."""
    return rng.choice(WORDS) + rng.choice(["", str(rng.randrange(100))])


def owners(rng, index):
    """A line of a file that says who owns which folder."""
    end = rng.choice(["/**", "/**/*.proto", "/*.go", "*"])
    start = rng.choice(["services/", "lib/", "**/"])
    return f"{start}{numbered(rng)}/{rng.choice(WORDS)}{index}{end}"


def ignored(rng, index):
    """A line of the ignore files of many projects."""
    name = f"{rng.choice(WORDS)}{index}"
    start, end = rng.choice(
        [("**/", ""), ("*.", ""), ("**/", "/**"), ("", "*"), ("**/*", "*"), ("**/.", ".*"), ("**/", "[0-9]*"), ("", "/**/x")]
    )
    return start + name + end


def words(rng, index):
    return f"*{rng.choice(WORDS)}{rng.choice(WORDS)}{rng.randrange(100)}*"


def anchored(rng, index):
    return f"{numbered(rng)}/{rng.choice(WORDS)}{index}/**/{rng.choice(WORDS)}_*.{rng.choice(EXTENSIONS)}"


def endings(rng, index):
    return f"src/*{rng.choice(WORDS)}*.e{index}"


def names(rng, index):
    return f"**/{rng.choice(WORDS)}?{rng.choice(WORDS)}{index}.{rng.choice(EXTENSIONS)}"


def folded(rng, index):
    return f"**/{rng.choice(WORDS)}{rng.choice(WORDS)}{index}.{rng.choice(EXTENSIONS)}"


def two_words(rng, index):
    return f"*{rng.choice(WORDS)}{index}*{rng.choice(WORDS)}{index % 97}*"


def no_digits(rng, index):
    """Three words, none of which is rare in a path."""
    return f"*{rng.choice(WORDS)}?{rng.choice(WORDS)}*{rng.choice(WORDS)}*"


def classes(rng, index):
    return f"*{rng.choice(WORDS)}?{rng.choice(WORDS)}*[0-9]{index % 1000}*"


def pairs(rng, index):
    return f"*{rng.choice(WORDS)}*{rng.choice(WORDS)}*/{rng.choice(WORDS)}*"


def whole_paths(rng, index):
    return f"{numbered(rng)}/{numbered(rng)}/{rng.choice(WORDS)}{index}.{rng.choice(EXTENSIONS)}"


def last_components(rng, index):
    return f"**/{rng.choice(WORDS)}{index}"


def extensions(rng, index):
    return f"**/*.ext{index}"


def named(rng, index):
    """A word, and mostly the index behind it."""
    return rng.choice(WORDS) + (str(index) if rng.random() < 0.9 else "")


# What stands for a placeholder in a mixture.
PLACED = {
    "PATH": whole_paths,
    "NAME": lambda rng, index: f"{named(rng, index)}.{rng.choice(EXTENSIONS)}",
    "DIR": lambda rng, index: f"{numbered(rng)}/{named(rng, index)}",
    "EXT": lambda rng, index: rng.choice(EXTENSIONS) + (str(index) if rng.random() < 0.9 else ""),
    "WORD": named,
}


def mixture(rng, index):
    """A glob of one of the realistic kinds of `bench/families`."""
    template = families_kinds.drawn(families_kinds.REALISTIC, rng)
    return families_kinds.PLACEHOLDER.sub(lambda found: PLACED[found[0]](rng, index), template)


# For each kind the options, and a function from a random generator and an index to a glob.
KINDS = {
    "owners": ([], owners),
    "ignored": ([], ignored),
    "words": ([], words),
    "anchored": ([], anchored),
    "endings": ([], endings),
    "names": ([], names),
    "folded": (["-i"], folded),
    "two words": ([], two_words),
    "no digits": ([], no_digits),
    "classes": ([], classes),
    "pairs": ([], pairs),
    "whole paths": ([], whole_paths),
    "last components": ([], last_components),
    "extensions": ([], extensions),
    # A path matches some of so many globs, which ends a search for any of them.
    "mixture": (["-n"], mixture),
}


def arguments(kind, count):
    """The options and the globs of a set of a kind."""
    options, make = KINDS[kind]
    rng = random.Random(f"{kind} {count}")
    return options + [make(rng, index) for index in range(count)]


def numbered_endings():
    """Globs that share a start whose automaton has many states, each with an extension of its own."""
    return [f"*a????????.e{index}" for index in range(100_000)]


def far_letter():
    return ["*a" + "?" * 2_000]


def line_of_letters(letters="abcdefghijklmnopqrstuvwxyz"):
    rng = random.Random(21)
    return "".join(rng.choices(letters, k=1 << 20))


def numbered_parts():
    return [f"*a????????????{index}*" for index in range(300)]


def ignore_file(end):
    """The 167 globs of an ignore file, with the same text behind each."""
    rng = random.Random(22)
    globs = workloads.more_ignored() + [ignored(rng, index) for index in range(67)]
    return [glob + end for glob in globs]
