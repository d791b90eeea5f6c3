"""Globs of large sets, of each of several kinds, and paths that differ a little from what these globs match.

A program that has many globs looks first for what each requires of a path: bytes that follow each other, an extension, a
name. So the globs here have much in common with each other, and the paths have most of what some glob requires, but perhaps not
all of it, or not in its order.
"""

import making
from globs import DEFAULTS, Glob, glob_means, reading

WORDS = (
    "src lib core net http json util main test docs build vendor include assets img module index parser lexer token state"
    " config data model view control server client worker queue cache store journal page block tree graph node edge path name"
    " list map set"
).split()
WIDE_WORDS = "größe naïve файл 日本語 ☃man déjà 🦀 ÿ\u0080 été".split()
ENDINGS = "rs c h cpp py js ts json toml md txt html css lock go tar.gz sh".split()
# Pairs of bytes that differ in the bit in which upper and lower case differ, most of them no letters.
ONE_BIT_APART = ["@`", "[{", "\\|", "]}", "^~", "_\x7f", "\0 ", "0\x10", "-\r", "/\x0f", ".\x0e", "*\n", ",\x0c", "kK"]

CASE = DEFAULTS._replace(case_insensitive=True)
SEPARATOR = DEFAULTS._replace(literal_separator=True)
CHARACTER = DEFAULTS._replace(whole_character=True)
EMPTY = DEFAULTS._replace(empty_alternates=True)
ANY_CASE = [CASE, CASE._replace(literal_separator=True)]
UNCLOSED = DEFAULTS._replace(allow_unclosed_class=True)
PLAIN = [UNCLOSED, UNCLOSED._replace(backslash_escape=False)]

# For each kind the forms of its globs and their options. In a form capital letters and `#` stand for what `PARTS` says.
KINDS = {
    "owners": (["/W/**/W#*", "services/W/W#/**", "services/WD/W#/**/*.E", "**/W/W#/**", "lib/W/W#*"], [DEFAULTS]),
    "ignore files": (
        ["**/W#", "*.W#", "/W#/", "**/W#/**", "W#*", "**/*W#*", "W/**/x#", "**/.W#.*", "**/W#[0-9]*", "*.py[co]#", "W#~"],
        [DEFAULTS, SEPARATOR],
    ),
    "names with a wildcard": (["**/W?W#.E", "**/W*W#.E", "**/W_#?.E", "**/?W#.E", "**/W#.?"], [DEFAULTS, SEPARATOR]),
    "words anywhere": (["*WWD*", "*W#*", "*/W#*", "*W_W*", "*WWWW#*"], [DEFAULTS]),
    "two words": (["*W#*WD*", "*WD*W#*", "*W#*/W*", "*W*W#"], [DEFAULTS]),
    "three common words": (["*W*W*W*", "*W?W*W*", "*W*W*/W*", "*W*W*T*"], [DEFAULTS]),
    "names in any case": (["**/WU#.E", "*W#*", "UD*W#", "**/U#/**"], ANY_CASE),
    "upper and lower case": (["*U*", "U*U", "**/U.E", "*WU*", "U/**"], [DEFAULTS, DEFAULTS, CASE]),
    "classes": (["*W[0-9]W#*", "*[LL]W*#", "**/W[!LL]#.E", "*W[L-z]#*", "*W[^/]D*", "W[]L]#*", "*[!0-9]W#"], [DEFAULTS, CASE]),
    "classes of one letter": (["*V#*", "V*W#", "**/V#", "*WCW#*", "*C?C#", "*W[L]D*"], [DEFAULTS, CASE]),
    "alternatives": (
        ["*.{E#,E}", "**/{W#,W}/*.{E,E}", "W/{W,W#}*", "{W#,WD}/**", "*{W,W#}D*", "{W,{W,T}#}/*", "{*W#*,W/**/W#}"], [DEFAULTS],
    ),
    "optional branches": (
        ["*{W#,}*W", "*W{W,}#*", "W{/**,}#", "*{W{W,},}#*", "{W#,}{W,}D*", "*W#{,W}", "*T{W#,{}}T*", "*{W,{,W}}D"],
        [DEFAULTS, EMPTY],
    ),
    "no literals": (
        ["?*", "[LL]*", "*L?L*", "*L*L*L*", "??[!L]*", "*[L-z]?L", "L?L*", "*D?", "*?L", "{L,LL}?*", "**/?L*", "*[!a-y]?[LL]*"],
        [DEFAULTS, DEFAULTS, CASE, SEPARATOR],
    ),
    "short words": (["*T*", "T*", "*T", "*T*T*", "**/T?*", "*T?T*", "*.T", "T/T*", "*T#*"], [DEFAULTS, CASE]),
    "words at an end": (
        ["*W#", "W#*", "*W?#", "?W#*", "W#?*", "*?W#", "*W#?", "W[0-9]#*", "*[0-9]W#", "W*", "*W"], [DEFAULTS, CASE],
    ),
    "question marks in words": (["*Q#*", "Q#", "**/Q*.E", "*Q*W#*", "*W?#*", "*??W#?*"], [DEFAULTS, CHARACTER, SEPARATOR]),
    "bytes above 127": (
        ["*G#*", "**/G?W#", "G#*", "*W[G]#*", "{G,W}#*", "*G", "*WG*", "**/G/W#", "*G??#*", "*[!G]W#"],
        [DEFAULTS, CASE, CHARACTER, SEPARATOR],
    ),
    "bytes one bit apart": (
        ["*WBD*", "BWB#*", "*B*BW#", "**/WB#", "*BBBT*", "TBW*", "*{B,W}W#", "*WPW#*", "*TPP#", "P*WP#"], [DEFAULTS, CASE],
    ),
    "characters that are plain": (["*[W#*", "*W\\W#*", "W#[*", "\\W[W#", "*W\\\\W#*", "**/W#\\W", "*W,W#*"], PLAIN),
    "runs of stars": (
        ["**W#", "W**#", "**W**", "*W***W#*", "W#**/**/W", "**/**/W#*", "/**/W#/**", "W/**/**/W#", "W#/**/**"],
        [DEFAULTS, SEPARATOR],
    ),
    "extensions, names and words": (
        [
            "*.E#", "**/W#", "W#/**", "**/W/W#", "*_W#", "W/W#.E", "**/*.E#", "W#*", "*W#*", "*W#*T*", "*W?#", "W/**/W#*",
            "*[LL]#*",
        ],
        [DEFAULTS],
    ),
    "required extensions": (["W*/*W#.E", "*W*.E#", "src/*W*.eD", "*WD*.E", "**/W?*.E#", "*[0-9]W.E"], [DEFAULTS, SEPARATOR]),
    "below folders": (["W/**/W/W#", "**/W/**/W#*", "W/W#/**/*.E", "W/**/W#/**", "**/W/**/T/*#"], [DEFAULTS, SEPARATOR]),
    "last components": (["**/W#?*", "**/*W?#", "**/W[0-9]#*", "**/[!W]*#", "**/?*W#"], [SEPARATOR]),
    "one common word": (
        ["*generated*L?L#*", "*generatedL*", "*generated*LD*", "*generat?d*L*", "*Lgenerated", "gen*W#"], [DEFAULTS],
    ),
    "globs that are repeated": (["*name*", "*name?W", "*src/W*", "**/name", "*.W", "W"], [DEFAULTS, CASE, SEPARATOR, EMPTY]),
    "empty texts": (["", "{}", "{,}", "{{},}", "{**/}", "W#", "*W#*", "?", "{,W#}D", "{,/}W#", "**/W#"], [DEFAULTS, EMPTY]),
    "long words": (["*WWWWWWWW#*", "W/W/W/W/W/W/W#/*.E", "*W/W/W*W/W/W/W#", "**/WWWWWW?WWWW#"], [DEFAULTS, CASE]),
}

# Kinds of which few globs match a path by chance, so that also of a very large set of them no glob matches some paths.
SELECTIVE = [
    "owners", "ignore files", "names with a wildcard", "two words", "names in any case", "question marks in words",
    "extensions, names and words", "below folders", "last components", "long words",
]

# What stands for a letter in a form, by a source and the number of the glob.
PARTS = {
    "#": lambda source, number: str(number),
    "D": lambda source, number: str(source.below(100)),
    "E": lambda source, number: source.pick(ENDINGS),
    "L": lambda source, number: source.pick("abcdeikmnrstxyz"),
    "W": lambda source, number: source.pick(WORDS),
    "T": lambda source, number: source.pick(WORDS)[: 1 + source.below(4)],
    "U": lambda source, number: in_some_case(source, source.pick(WORDS)),
    "G": lambda source, number: source.pick(WIDE_WORDS),
    "Q": lambda source, number: with_question_marks(source, source.pick(WORDS)),
    "C": lambda source, number: class_of_both_cases(source, source.pick("abkstz")),
    "V": lambda source, number: "".join(class_of_both_cases(source, letter) for letter in source.pick(WORDS)),
    "P": lambda source, number: class_of_pair(source.pick(ONE_BIT_APART)),
    "B": lambda source, number: "".join(literal(source.pick(source.pick(ONE_BIT_APART))) for _ in range(1 + source.below(3))),
}


def in_some_case(source, word):
    return source.pick([word, word.upper(), word.capitalize(), word[:-1] + word[-1:].upper()])


def with_question_marks(source, word):
    """Returns the word with a `?` behind some of its letters, or in place of them."""
    return "".join(source.pick([letter, letter, letter + "?", "?"]) for letter in word)


def class_of_both_cases(source, letter):
    return source.pick([f"[{letter}{letter.upper()}]", f"[{letter.upper()}{letter}]", letter, f"[{letter}]"])


def class_of_pair(pair):
    """Returns a class of these two characters. A `^` that came first would negate it."""
    return f"[{pair[1]}{pair[0]}]" if pair[0] == "^" else f"[{pair}]"


def literal(character):
    """Returns a text of a glob that matches this character alone."""
    return "\\" + character if character in "?*[]{},\\" else character


def glob_of_kind(source, kind, number):
    forms, options = KINDS[kind]
    text = "".join(PARTS[c](source, number) if c in PARTS else c for c in source.pick(forms))
    return Glob(text, source.pick(options))


# ---- Paths


def nearly(source, path):
    """Returns a path with one small change, of which a test of parts of a path may notice nothing."""
    at = source.below(len(path) or 1)
    one, rest = path[at : at + 1], path[at + 1 :]
    return source.pick([
        # The byte one bit apart, such as a letter in the other case.
        path[:at] + bytes(byte ^ 0x20 for byte in one) + rest,
        path[:at] + bytes(byte ^ 0x80 for byte in one) + rest,
        path[:at] + one + one + rest,
        path[:at] + rest[:1] + one + rest[1:],
        path[:at] + rest,
        path[:-1],
        path[1:],
        # As many bytes as a test may look at together, or one less or more.
        path[at : at + 2 + source.below(4)],
        rest + path[: at + 1],
        making.changed(source, path),
        making.changed(source, path),
    ])


def joined(source, path, other):
    """Returns a path of parts of two: both, one within the other, or the front of one and the end of the other."""
    at = source.below(len(path) + 1)
    return source.pick([
        path + other,
        path + b"/" + other,
        other + b"/" + path,
        path[:at] + other + path[at:],
        path[:at] + other[at:],
        path[: len(path) // 2] + other[len(other) // 2 :],
    ])


def path_for(source, globs, glob):
    """Returns a path for a glob of a set: one that it matches in most cases, with parts of others, or with small changes."""
    path = making.word(source, reading(glob), glob.options)
    while source.chance(0.25):
        other = source.pick(globs)
        path = joined(source, path, making.word(source, reading(other), other.options))
    while source.chance(0.45):
        path = nearly(source, path)
    return path[:120]


def long_path(source, globs, glob):
    """Returns a path of about 600 bytes: a path for a glob of a set, and around it fronts and ends of paths for other globs."""
    path = b""
    while len(path) < 600:
        other = path_for(source, globs, source.pick(globs))
        half = len(other) // 2
        path += source.pick([other[:half], other[half:]]) + source.pick([b"", b"/", b"-"])
    at = source.pick([0, source.below(len(path)), len(path)])
    return path[:at] + path_for(source, globs, glob) + path[at:]


def wanted_path(source, globs, make=path_for, tries=6):
    """Returns a path that some glob of a set matches, or that none does, as chance decides, or the last one that was tried."""
    want = source.chance(0.45)
    for _ in range(tries):
        glob = source.pick(globs)
        path = make(source, globs, glob)
        # The glob itself is asked first, since all others take long.
        if glob_means(glob, path) == want and (want or not any(glob_means(other, path) for other in globs)):
            break
    return path
