"""Rows of vectors: how their columns are written, and what the model answers.

`crates/replay` reads the same rows. A row is a question and the answer to it; `QUESTION` has the number of the question's
columns.
"""

import re

import globs as definitions
import relations
from globs import Glob, Options, Rejected, ValueRejected

QUESTION = {
    "read": 3, "glob": 3, "add": 3, "match": 4, "path": 2, "below": 2, "equal": 5, "offset": 3, "parts": 2, "escape": 2,
    "value": 2, "array": 2, "covered": 3, "overlap": 4,
}

LETTERS = {
    "i": "case_insensitive",
    "s": "literal_separator",
    "e": "empty_alternates",
    "u": "allow_unclosed_class",
    "w": "whole_character",
    "b": "backslash_escape",
}
# What stands for a byte that is not printable; those that are no UTF-8 are read as the surrogates from DC80 on.
ESCAPES = {code: f"\\x{code:02X}" for code in [*range(0x20), 0x7F]}
ESCAPES |= {0xDC00 + code: f"\\x{code:02X}" for code in range(0x80, 0x100)}
ESCAPES |= {0: "\\0", 9: "\\t", 10: "\\n", 13: "\\r", 0x5C: "\\\\"}
UNESCAPED = {"0": 0, "t": 9, "n": 10, "r": 13, "\\": 0x5C}


def escaped(data):
    """Returns the column that stands for a text or for bytes."""
    if isinstance(data, str):
        data = data.encode()
    return data.decode("utf-8", "surrogateescape").translate(ESCAPES)


def unescaped(column):
    """Returns the bytes that a column stands for."""

    def byte(found):
        code = int(found[1][1:], 16) if found[1][0] == "x" else UNESCAPED[found[1]]
        return chr(code) if code < 0x80 else chr(0xDC00 + code)

    return re.sub(r"\\(x..|.)", byte, column).encode("utf-8", "surrogateescape")


def letters(options):
    """Returns the letters of the options that differ from the default, or `-`."""
    defaults = Options()
    return "".join(it for it, name in LETTERS.items() if getattr(options, name) != getattr(defaults, name)) or "-"


def options_of(column):
    names = [LETTERS[letter] for letter in column if letter != "-"]
    return Options(**{name: name != "backslash_escape" for name in names})


def glob_of(options, text):
    return Glob(unescaped(text).decode(), options_of(options))


def listed(indexes):
    return ",".join(map(str, indexes)) or "-"


def yes_or_no(yes):
    return "yes" if yes else "no"


class Case:
    """What the rows since the last empty line left behind: the globs of the set, and those that have matchers of their own."""

    def __init__(self):
        self.globs = []
        self.alone = []

    def answer(self, question):
        """Returns the columns that answer these columns."""
        return getattr(self, question[0])(*question[1:])

    def read(self, options, text):
        glob = glob_of(options, text)
        try:
            definitions.reading(glob)
        except Rejected as error:
            return ["fails", escaped(error.kind), escaped(str(error))]
        return ["reads", escaped(definitions.regex_text(glob))]

    def glob(self, options, text):
        shown = self.read(options, text)
        if shown[0] == "reads":
            self.add(options, text)
        return shown

    def add(self, options, text):
        self.globs.append(glob_of(options, text))
        self.alone.append(self.globs[-1])
        return [str(len(self.globs))]

    def match(self, options, text, path):
        glob, path = glob_of(options, text), unescaped(path)
        alone = definitions.glob_means(glob, path)
        if bool(definitions.answer([glob], path)) != alone:
            return ["the matcher and the set differ"]
        return [yes_or_no(alone)]

    def path(self, path):
        path = unescaped(path)
        indexes = definitions.answer(self.globs, path)
        each = [index for index, glob in enumerate(self.alone) if definitions.glob_means(glob, path)]
        return [listed(indexes), yes_or_no(definitions.matches_all(self.globs, path)), listed(each)]

    def below(self, folder):
        folder = unescaped(folder)
        each = [index for index, glob in enumerate(self.alone) if definitions.rest_below(glob, folder) is not None]
        return [yes_or_no(definitions.matches_below(self.globs, folder)), listed(each)]

    def equal(self, options, text, other_options, other_text):
        globs = [glob_of(options, text), glob_of(other_options, other_text)]
        errors = []
        for glob in globs:
            try:
                definitions.reading(glob)
            except Rejected as error:
                errors.append((glob.text, error.kind))
        if len(errors) == 1:
            return ["a glob and an error"]
        return [yes_or_no(errors[0] == errors[1] if errors else globs[0] == globs[1])]

    def offset(self, options, text):
        offset = definitions.error_offset(glob_of(options, text))
        return ["-" if offset is None else str(offset)]

    def parts(self, path):
        path = unescaped(path)
        return [escaped(definitions.basename(path)), escaped(definitions.extension(path))]

    def escape(self, text):
        return [escaped(definitions.escape(unescaped(text).decode()))]

    def value(self, text):
        try:
            glob = definitions.glob_of_value(definitions.json_data(unescaped(text).decode()))
        except ValueRejected as error:
            return ["fails", "-" if error.index is None else str(error.index), escaped(str(error))]
        return ["reads", escaped(glob.text), escaped(definitions.value_of_glob(glob))]

    def array(self, text):
        try:
            self.globs = definitions.globs_of_value(definitions.json_data(unescaped(text).decode()))
        except ValueRejected as error:
            return ["fails", "-" if error.index is None else str(error.index), escaped(str(error))]
        self.alone = []
        return ["reads", str(len(self.globs))]

    def covered(self, domain, index):
        others = tuple(glob for at, glob in enumerate(self.globs) if at != int(index))
        path = relations.missed(self.globs[int(index)], others, domain)
        return ["yes"] if path is None else ["no", str(len(path))]

    def overlap(self, domain, index, other):
        path = relations.common(self.globs[int(index)], self.globs[int(other)], domain)
        return ["no"] if path is None else ["yes", str(len(path))]


def expanded(row):
    """Returns a row with the copies in it that each `«COUNT TEXT»` stands for, if it begins with the column `repeat`."""
    short = row.removeprefix("repeat\t")
    return row if short == row else re.sub("«([0-9]+) ([^»]*)»", lambda found: int(found[1]) * found[2], short)


def questions(lines):
    """Yields the rows of a file: the number of the line, the case, the columns of the question, and those of its answer."""
    case = Case()
    for number, line in enumerate(lines, 1):
        if not line:
            case = Case()
        elif not line.startswith("#"):
            columns = expanded(line).split("\t")
            count = QUESTION[columns[0]]
            yield number, case, columns[:count], columns[count:]
