"""Replays rows of crates/replay/data. The first lines of each file explain its rows."""

import os
import re
import unittest

import globset

TOP = os.path.dirname(os.path.dirname(os.path.dirname(os.path.dirname(os.path.realpath(__file__)))))
OPTIONS = {
    "i": ("case_insensitive", True),
    "s": ("literal_separator", True),
    "b": ("backslash_escape", False),
    "e": ("empty_alternates", True),
    "u": ("allow_unclosed_class", True),
    "w": ("whole_character", True),
}
ESCAPES = {b"0": b"\0", b"t": b"\t", b"n": b"\n", b"r": b"\r", b"\\": b"\\"}


def cell(text):
    """Returns the bytes that a column stands for."""
    return re.sub(
        rb"\\(?:x(..)|(.))",
        lambda found: bytes([int(found[1], 16)]) if found[1] else ESCAPES[found[2]],
        text.encode(),
    )


def repeated(row):
    return re.sub("«([0-9]+) ([^»]*)»", lambda found: int(found[1]) * found[2], row)


def indexes(text):
    return [] if text == "-" else [int(index) for index in text.split(",")]


def read(options, text):
    chosen = dict(OPTIONS[letter] for letter in options if letter != "-")
    return globset.Glob(cell(text).decode(), **chosen)


def read_or_error(options, text):
    """Returns the glob of a text, or what is known of its error."""
    try:
        return read(options, text)
    except globset.GlobError as error:
        return error.glob, error.kind, error.start, error.end, str(error)


class Case:
    """A set as rows make it, and the paths that it was asked."""

    def __init__(self):
        self.globs, self.set, self.asked = [], None, []

    def add(self, glob):
        self.globs.append(glob)
        self.set = None

    def path(self, path, found, whole, each):
        """Asks for a path, and returns whether all answers are right."""
        if self.set is None:
            self.set = globset.GlobSet(self.globs)
        data, found = cell(path), indexes(found)
        self.asked.append((data, found != []))
        return (
            self.set.matches(data) == found
            and self.set.match(data) == (found != [])
            and self.set.matches_all(data) == (whole == "yes")
            and [index for index, glob in enumerate(self.globs) if glob.match(data)] == indexes(each)
        )

    def many(self):
        """Returns whether asking for all paths at once gives the same answers."""
        return self.set is None or self.set.match_many([data for data, _ in self.asked]) == [yes for _, yes in self.asked]


def kind_of(text):
    """Returns the kind of an error and its characters, of a text such as `InvalidRange('z', 'a')`."""
    name, start, end = re.fullmatch(r"(\w+)(?:\('\\?(.)', '\\?(.)'\))?", text).groups()
    return globset.ErrorKind[re.sub("(?<=[a-z])(?=[A-Z])", "_", name).upper()], start, end


def is_read(options, text, outcome, *wanted):
    """Returns whether a text is read, with this regular expression, or rejected, with an error of this kind and this text."""
    said = read_or_error(options, text)
    if outcome == "reads":
        return isinstance(said, globset.Glob) and said.regex == cell(wanted[0]).decode()
    kind, message = wanted
    return said == (cell(text).decode(), *kind_of(cell(kind).decode()), cell(message).decode())


def is_matched(options, text, path, wanted):
    """Returns whether a glob, and a set of it alone, say this of a path."""
    glob = read(options, text)
    return glob.match(cell(path)) == globset.GlobSet([glob]).match(cell(path)) == (wanted == "yes")


def is_right(case, word, columns):
    """Returns whether a row is right."""
    if word in ("glob", "read"):
        right = is_read(*columns)
        if word == "glob" and columns[2] == "reads":
            case.add(read(*columns[:2]))
        return right
    if word == "add":
        case.add(read(*columns[:2]))
        return len(globset.GlobSet(case.globs)) == int(columns[2])
    if word == "path":
        return case.path(*columns)
    if word == "match":
        return is_matched(*columns)
    if word == "escape":
        return globset.escape(cell(columns[0]).decode()) == cell(columns[1]).decode()
    if word == "equal":
        one, other = read_or_error(*columns[:2]), read_or_error(*columns[2:4])
        wanted = columns[4] == "yes"
        return (one == other) == wanted and (not wanted or hash(one) == hash(other))
    raise ValueError(word)


def count_of(name):
    """Returns how many rows a file has, by what the program of crates/replay has to print."""
    with open(f"{TOP}/crates/replay/stdout", encoding="utf-8") as file:
        return int(re.search(rf"(?m)^{name}\.txt: (\d+) passed, 0 failed$", file.read())[1])


class Rows(unittest.TestCase):
    def replay(self, name):
        """Replays the rows of a file, and none of them may be left out."""
        case, count, wrong = Case(), 0, []
        with open(f"{TOP}/crates/replay/data/{name}.txt", encoding="utf-8") as file:
            for at, line in enumerate(file, 1):
                row = line.rstrip("\n")
                if row.startswith("#"):
                    continue
                if row == "":
                    if not case.many():
                        wrong.append(f"the case that ends before {name}.txt:{at}")
                    case = Case()
                    continue
                word, *columns = row.split("\t")
                if word == "repeat":
                    word, *columns = map(repeated, columns)
                count += 1
                try:
                    right = is_right(case, word, columns)
                except (AttributeError, LookupError, MemoryError, RuntimeError, TypeError, ValueError) as error:
                    right, row = False, f"{error!r:.100}: {row}"
                if not right:
                    wrong.append(f"{name}.txt:{at}: {row:.200}")
        if not case.many():
            wrong.append(f"the last case of {name}.txt")
        self.assertEqual(wrong, [])
        self.assertEqual(count, count_of(name))

    def test_matching(self):
        self.replay("matching")

    def test_reading(self):
        self.replay("reading")

    def test_sets(self):
        self.replay("sets")

    def test_escape(self):
        self.replay("escape")

    def test_equality(self):
        self.replay("equality")

    def test_hostile(self):
        self.replay("hostile")

    def test_realistic(self):
        self.replay("realistic")

    def test_adversarial(self):
        self.replay("adversarial")

    def test_neighbours(self):
        self.replay("neighbours")


if __name__ == "__main__":
    unittest.main()
