"""Makes texts of globs and paths from a seed, and counts of what they are made.

The model is asked for the tokens of a glob, so that about half of the paths that are made from it match it.
"""

import random

from globs import PREFIX, Glob, Options, Rejected, class_bytes, glob_means, is_blank, kept_branches, marks, reading

WIDE = "éü߿ࠀ☃\ufffd𐀀🦀"
CLASS_CHARACTERS = "abcxyzABZ059./!^-]*?{,[\\ ~" + WIDE
PLAIN = "aaabbc..AB/-_ 09é☃🦀~^$+(|)#&=@'\"\t\n"
# What a glob is made of, with how often; groups and classes are made anew each time.
PIECES = {
    "plain": 26, "/": 9, "?": 7, "*": 7, "**": 7, "***": 2, "****": 1, "**/": 6, "/**": 6, "/**/": 5, "**/**/": 1,
    "/**/**": 1, "\\/**": 1, "\\/**/": 1, "/**\\/": 1, "**\\/": 1, "\\,**": 1, "\\{**": 1, "a**": 1, "**a": 1, "..": 2,
    "escape": 5, ",": 2, "class": 11, "group": 12,
}
ESCAPED = "/,{}[]*?\\a.-é!"
FRAGMENTS = [
    b"", b"", b"a", b"b", b"ab", b".", b"..", b"x.c", b"A", b"/", b"a/b", b"/..", b"\xff", b"\xc3", b"\n", "é".encode(),
]
BYTES = [b"a", b"b", b"c", b"A", b".", b"/", b"-", b"0", b",", b"\\", b"\n", b"\0", b"\xff", b"\xc3", b"\xa9", b"\xe2\x98"]

CHARACTERS = [b"a", b"/", b"\0", *(c.encode() for c in WIDE), "\ud7ff\ue000".encode()[:3], "\U0010ffff".encode()]
# A surrogate, longer forms than the shortest, more than 10FFFF, and parts of characters.
NO_CHARACTERS = [
    b"\xed\xa0\x80", b"\xc0\xaf", b"\xe0\x9f\xbf", b"\xf0\x8f\xbf\xbf", b"\xf4\x90\x80\x80", b"\xe2\x98", b"\x80", b"\xff",
]


class Source:
    """Choices that a seed decides. Only `random()` is used, which gives the same numbers in every release of Python."""

    def __init__(self, seed):
        self.random = random.Random(seed).random

    def below(self, limit):
        return int(self.random() * limit)

    def chance(self, probability):
        return self.random() < probability

    def pick(self, choices):
        return choices[self.below(len(choices))]

    def weighted(self, weights):
        at = self.random() * sum(weights.values())
        for name, weight in weights.items():
            at -= weight
            if at < 0:
                break
        return name

    def options(self, scale=1.0):
        return Options(
            case_insensitive=self.chance(0.2 * scale),
            literal_separator=self.chance(0.35 * scale),
            backslash_escape=not self.chance(0.08 * scale),
            empty_alternates=self.chance(0.35 * scale),
            allow_unclosed_class=self.chance(0.2 * scale),
            whole_character=self.chance(0.15 * scale),
        )


def class_text(source):
    body = source.pick(["", "", "", "", "]", "-", "!", "^"])
    for _ in range(source.below(3) + (0 if body else 1)):
        body += source.pick(CLASS_CHARACTERS.replace("]", "").replace("-", ""))
        while source.chance(0.35):
            body += "-" + max(source.pick(CLASS_CHARACTERS.replace("]", "")), body[-1])
    if source.chance(0.15):
        body += "-"
    return "[" + source.pick(["", "", "!", "^"]) + body + "]"


def group_text(source, depth):
    count = source.pick([1, 1, 2, 2, 2, 3, 4])
    return "{" + ",".join(branch_text(source, depth + 1) for _ in range(count)) + "}"


def branch_text(source, depth):
    """Returns a text of any constructs within any others. In groups a branch is often empty."""
    if depth > 0 and source.chance(0.15):
        return source.pick(["", "", "{}", "{,}", "{{},}"])
    text = ""
    for _ in range(source.pick([1, 2, 2, 3, 3, 4, 5] if depth == 0 else [1, 1, 2, 2, 3])):
        piece = source.weighted(PIECES)
        if piece == "plain":
            piece = source.pick(PLAIN)
        elif piece == "escape":
            piece = "\\" + source.pick(ESCAPED)
        elif piece == "class":
            piece = class_text(source)
        elif piece == "group":
            piece = group_text(source, depth) if depth < 4 else "{}"
        text += piece
    return text


def hard_glob(source):
    """Returns a glob; most are read, and some are rejected."""
    glob = Glob(branch_text(source, 0), source.options())
    return glob if source.chance(0.97) else Glob(broken_text(source, glob.text), glob.options)


def broken_text(source, text):
    """Returns a text with some special character more, or without some of its end."""
    for _ in range(1 + source.below(2)):
        at = source.below(len(text) + 1)
        more = source.pick(["[", "{", "}", "\\", "[z-a", "[!", "[z-a]", "[a-c-b", "]", ",", "[é-a]", "[☃-é", "[--!]"])
        text = text[:at] if source.chance(0.2) else text[:at] + more + text[at:]
    return text + "\\" if source.chance(0.1) else text


# ---- Paths


def word(source, tokens, options):
    """Returns bytes that these tokens match in most cases."""
    return b"".join(token_word(source, token, options) for token in tokens)


def token_word(source, token, options):
    if token.kind == "literal":
        text = token.value.encode()
        return text.swapcase() if options.case_insensitive and source.chance(0.5) else text
    if token.kind == "?":
        return source.pick(BYTES if not options.whole_character else CHARACTERS if source.chance(0.7) else NO_CHARACTERS)
    if token.kind == "*":
        part = source.pick(FRAGMENTS) if source.chance(0.8) else source.pick(FRAGMENTS) + source.pick(FRAGMENTS)
        return part.replace(b"/", b"b") if options.literal_separator else part
    if token.kind == "class":
        return bytes([source.pick(sorted(class_bytes(token, options.case_insensitive)) or [0])])
    if token.kind == "group":
        kept = kept_branches(token, options)
        return word(source, source.pick(kept), options) if kept else b""
    if token.kind == "prefix":
        return source.pick([b"", b"", b"/", b"a/", b"a/b/", b"../", b"\xff/"])
    if token.kind == "suffix":
        return b"/" + source.pick(FRAGMENTS)
    return source.pick([b"/", b"/", b"//", b"/a/", b"/a/b/", b"/../"])


def changed(source, path):
    """Returns a path with a small change."""
    at = source.below(len(path) + 1)
    separator = path.rfind(b"/")
    return source.pick([
        path[:at] + path[at + 1 :],
        path[:at] + path[at + 1 :],
        path[:at] + source.pick(BYTES) + path[at:],
        path[:at] + source.pick(BYTES) + path[at + 1 :],
        path[:at] + source.pick(BYTES) + path[at + 1 :],
        path[:at] + path[at : at + 1].swapcase() + path[at + 1 :],
        path[:at] + path[at:].swapcase(),
        path[:at],
        path[at:],
        path + path[separator:],
        path[:separator] if separator >= 0 else path[:-1],
        path + source.pick([b"/", b".", b"..", b"/..", b"/.", b"\xff"]),
        source.pick([b"/", b"a/", b"../", b".", b"a"]) + path,
    ])


def path_for(source, glob):
    """Returns a path for a glob: one that it matches in most cases, or one with some small changes."""
    path = word(source, reading(glob), glob.options)
    if path == b"" or reading(glob) == (PREFIX,):
        path = source.pick(FRAGMENTS) + source.pick(FRAGMENTS) if source.chance(0.7) else path
    while source.chance(0.55):
        path = changed(source, path)
    return path[:80]


def wanted_path(source, glob, test, tries=8):
    """Returns a path for a glob that passes or fails a test, as chance decides, or the last one that was tried.

    Most of those that should fail do, and fewer of those that should pass, so that about half pass of all.
    """
    want = source.chance(0.4)
    for _ in range(tries):
        path = path_for(source, glob)
        if test(path) == want:
            break
    return path


def path_of_glob(source, glob):
    return wanted_path(source, glob, lambda path: glob_means(glob, path))


# ---- Folders


def folder_for(source, glob):
    """Returns a folder for a glob: what is before a `/` of a path that it matches, or that path, perhaps with small changes."""
    path = word(source, reading(glob), glob.options)
    ends = [at for at, byte in enumerate(path) if byte == ord("/")] + [len(path)]
    folder = path[: source.pick(ends)] if source.chance(0.9) else source.pick(FRAGMENTS)
    while source.chance(0.4):
        folder = changed(source, folder)
    return folder[:80]


def wanted_folder(source, globs, test, tries=8):
    """Returns a folder for one of these globs that passes or fails a test, as chance decides, or the last that was tried."""
    want = source.chance(0.4)
    for _ in range(tries):
        folder = folder_for(source, source.pick(globs))
        if test(folder) == want:
            break
    return folder


# ---- Counts


def count_glob(counts, glob):
    """Counts what a glob is made of."""
    for name, value in glob.options._asdict().items():
        if value != getattr(Options(), name):
            counts["option " + name.replace("_", " ")] += 1
    try:
        tokens = reading(glob)
    except Rejected as error:
        counts["error " + error.kind.split("(")[0]] += 1
        return
    counts["globs that are read"] += 1
    count_tokens(counts, tokens, glob.options, 0)
    found = marks(glob.text, glob.options)
    for before, mark in zip([None] + found, found):
        if mark.kind == "plain" and mark.escaped:
            counts["escaped character"] += 1
        if mark.kind == "plain" and mark.value == "[":
            counts["plain ["] += 1
        if mark.kind == "*" and before and before.escaped:
            counts["run of stars after an escaped character"] += 1


def count_tokens(counts, tokens, options, depth):
    where = f"in groups {depth} deep" if depth else "outside groups"
    for place, token in enumerate(tokens):
        counts[f"{token.kind} {where}"] += 1
        if depth:
            last = len(tokens) - 1
            ends_at = "only" if last == 0 else "first" if place == 0 else "last" if place == last else "inner"
            counts[f"{token.kind} as {ends_at} token of a branch"] += 1
        if place:
            counts[f"{tokens[place - 1].kind} before {token.kind}"] += 1
        if token.kind == "class":
            count_class(counts, *token.value)
        if token.kind == "group":
            counts["group without kept branches"] += not kept_branches(token, options)
            for branch in token.value:
                counts["blank branch, " + ("kept" if options.empty_alternates else "not kept")] += is_blank(branch)
                count_tokens(counts, branch, options, depth + 1)


def count_class(counts, negated, ranges):
    counts["negated class"] += negated
    for first, last in ranges:
        lengths = len(first.encode()), len(last.encode())
        counts["class with a character of several bytes"] += first == last and lengths[0] > 1
        counts[f"range from {lengths[0]} to {lengths[1]} bytes"] += first != last


def count_path(counts, path):
    counts["paths"] += 1
    counts["path that is empty"] += path == b""
    counts["path whose last component is .."] += path.split(b"/")[-1] == b".."
    counts["path that ends in a dot"] += path.endswith(b".")
    counts["path that ends in /"] += path.endswith(b"/")
    try:
        path.decode()
    except UnicodeDecodeError:
        counts["path that is not UTF-8"] += 1


def count_folder(counts, folder):
    counts["folders"] += 1
    counts["folder that is empty"] += folder == b""
    counts["folder that ends in /"] += folder.endswith(b"/")
    counts["folder whose last component is .."] += folder.split(b"/")[-1] == b".."
    try:
        folder.decode()
    except UnicodeDecodeError:
        counts["folder that is not UTF-8"] += 1
