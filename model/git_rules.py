"""What an ignore file says of a path: the definitions of the crates `ignore_pattern` and `git_ignore`, as plain functions.

This program is written from their `specs`, and is meant to be read beside them: the comments name the files. It shares no code
with the crates. Nothing is done for speed but that results of a few functions are kept. `ignore_case` is git's setting
`core.ignoreCase`.
"""

from functools import lru_cache
from typing import NamedTuple

# ---- Lines

MARK = b"\xef\xbb\xbf"


def file_lines(text):
    """Returns the lines of an ignore file, without a byte order mark: one more than it has line feeds."""
    return text.removeprefix(MARK).split(b"\n")


def without_spaces(text):
    """Returns the bytes without the spaces at their end, but for one after a `\\` that escapes it."""
    end, at = 0, 0
    while at < len(text):
        is_space = text[at] == ord(" ")
        at += 2 if text[at] == ord("\\") else 1
        if not is_space:
            end = at
    return text[:end]


def line_text(line):
    """Returns what a pattern is read from: no carriage return at the end, nothing from the first NUL on, and no last spaces."""
    return without_spaces(line.removesuffix(b"\r").split(b"\0")[0])


# ---- Classes


def ascii_where(holds):
    return frozenset(byte for byte in range(128) if holds(chr(byte)))


NAMED = {
    b"alnum": ascii_where(str.isalnum),
    b"alpha": ascii_where(str.isalpha),
    b"blank": frozenset(b" \t"),
    b"cntrl": ascii_where(lambda c: not c.isprintable()),
    b"digit": ascii_where(str.isdigit),
    b"graph": ascii_where(lambda c: c.isprintable() and c != " "),
    b"lower": ascii_where(str.islower),
    b"print": ascii_where(str.isprintable),
    b"punct": ascii_where(lambda c: c.isprintable() and not c.isalnum() and c != " "),
    b"space": frozenset(b" \t\n\r"),
    b"upper": ascii_where(str.isupper),
    b"xdigit": frozenset(b"0123456789ABCDEFabcdef"),
}


def lower(byte):
    return bytes((byte,)).lower()[0]


def upper(byte):
    return bytes((byte,)).upper()[0]


def bytes_where(ignore_case, holds):
    """Returns the bytes of paths for which something holds: of the byte, or in lower case if case is ignored."""
    return frozenset(byte for byte in range(256) if holds(lower(byte) if ignore_case else byte))


class Unreadable(Exception):
    pass


class Item(NamedTuple):
    """A member, or a range or a named class, which has a letter also if it has it in upper case, and case is ignored."""

    bytes: frozenset
    has_both_cases: bool

    def has(self, ignore_case, byte):
        return byte in self.bytes or ignore_case and self.has_both_cases and upper(byte) in self.bytes


def item_at(text, at, last):
    """Reads the item of a class at a position: it, the position after it, and the byte that a range can begin with after it."""
    c, after = text[at : at + 1], text[at + 1 :]
    if c == b"\\":
        if not after:
            raise Unreadable
        return Item(frozenset(after[:1]), False), at + 2, after[0]
    if c == b"[" and after[:1] == b":":
        name, bracket, _ = after[1:].partition(b"]")
        if not bracket:
            raise Unreadable
        if name.endswith(b":"):
            if name[:-1] not in NAMED:
                raise Unreadable
            return Item(NAMED[name[:-1]], True), at + 3 + len(name), None
    if c == b"-" and last is not None and after and after[:1] != b"]":
        skipped = 1 if after[:1] == b"\\" else 0
        end = after[skipped : skipped + 1]
        if not end:
            raise Unreadable
        return Item(frozenset(range(last, end[0] + 1)), True), at + 2 + skipped, None
    return Item(frozenset(c), False), at + 1, c[0]


def class_at(text, at, ignore_case):
    """Reads the class after a `[`: the bytes that it matches, and the position after its `]`."""
    negated = text[at : at + 1] in (b"!", b"^")
    at += negated
    items, last, first = [], None, at
    while at < len(text):
        if text[at : at + 1] == b"]" and at > first:
            found = bytes_where(ignore_case, lambda byte: any(item.has(ignore_case, byte) for item in items))
            return (frozenset(range(256)) - found if negated else found) - {ord("/")}, at + 1
        item, at, last = item_at(text, at, last)
        items.append(item)
    raise Unreadable


# ---- Elements

# The places where stars can stand for folders, and the others.
START, AFTER_SLASH, ELSEWHERE = "start", "after slash", "elsewhere"
INNER = frozenset(range(256)) - {ord("/")}


class Element(NamedTuple):
    """A `byte` of a set, or a `star`, `folders` or `everything`."""

    kind: str
    bytes: frozenset = frozenset()


STAR, FOLDERS, EVERYTHING = Element("star"), Element("folders"), Element("everything")


def literal(c, ignore_case):
    return Element("byte", bytes_where(ignore_case, lambda byte: byte == (lower(c) if ignore_case else c)))


def escaped(c, ignore_case):
    return Element("byte", bytes_where(ignore_case, lambda byte: byte == c))


def stars_at(text, at, crosses):
    """Reads a run of stars: its element, the position after it, and the place there."""
    end = at
    while text[end : end + 1] == b"*":
        end += 1
    if crosses and end - at > 1:
        if text[end : end + 1] == b"/":
            return FOLDERS, end + 1, AFTER_SLASH
        if end == len(text) or text[end : end + 2] == b"\\/":
            return EVERYTHING, end, ELSEWHERE
    return STAR, end, ELSEWHERE


def element_at(text, at, whole, place, ignore_case):
    """Reads an element: it, the position after it, and the place there."""
    c = text[at : at + 1]
    if c == b"\\":
        if at + 1 == len(text):
            raise Unreadable
        return escaped(text[at + 1], ignore_case), at + 2, AFTER_SLASH if text[at + 1 : at + 2] == b"/" else ELSEWHERE
    if c == b"?":
        return Element("byte", INNER), at + 1, ELSEWHERE
    if c == b"*":
        return stars_at(text, at, whole and place != ELSEWHERE)
    if c == b"[":
        found, after = class_at(text, at + 1, ignore_case)
        return Element("byte", found), after, ELSEWHERE
    return literal(c[0], ignore_case), at + 1, START if place == START else AFTER_SLASH if c == b"/" else ELSEWHERE


def elements(text, whole, ignore_case):
    found, at, place = [], 0, START
    while at < len(text):
        element, at, place = element_at(text, at, whole, place, ignore_case)
        found.append(element)
    return tuple(found)


def ends(element, path, starts):
    """Returns where the parts of a path end that begin at one of some positions and that the element matches."""
    if element.kind == "star":
        found, is_open = set(), False
        for at in range(len(path) + 1):
            is_open = at in starts or is_open and path[at - 1] != ord("/")
            if is_open:
                found.add(at)
        return found
    if element.kind == "folders":
        return starts | {at for at in range(min(starts) + 1, len(path) + 1) if path[at - 1] == ord("/")}
    if element.kind == "everything":
        return set(range(min(starts), len(path) + 1))
    return {at + 1 for at in starts if at < len(path) and path[at] in element.bytes}


def elements_match(found, path):
    starts = {0}
    for element in found:
        starts = ends(element, path, starts)
        if not starts:
            return False
    return len(path) in starts


# ---- Patterns


class Pattern(NamedTuple):
    negated: bool
    folders_only: bool
    # matched against whole paths, and otherwise against last components
    whole: bool
    elements: tuple


@lru_cache(maxsize=100_000)
def read_line(line, ignore_case):
    """Returns the pattern of a line, or None if it has none. Fails if git cannot read it."""
    text = line_text(line)
    return None if text.startswith(b"#") else pattern_of_text(text, ignore_case)


@lru_cache(maxsize=100_000)
def is_readable(line):
    """Returns whether git can read a line."""
    try:
        read_line(line, False)
        return True
    except Unreadable:
        return False


def pattern_of_line(line, ignore_case):
    """Returns the pattern of a line, or None: then the line matches nothing."""
    return read_line(line, ignore_case) if is_readable(line) else None


def pattern_of_text(text, ignore_case):
    path = text.removeprefix(b"!")
    inner = path.removesuffix(b"/")
    whole = b"/" in inner
    found = elements(inner.removeprefix(b"/"), whole, ignore_case)
    return Pattern(text != path, path != inner, whole, found) if found else None


def pattern_matches(pattern, path):
    return elements_match(pattern.elements, path if pattern.whole else path.rpartition(b"/")[2])


# ---- Rules and Folders


@lru_cache(maxsize=1_000)
def rules_of(text, ignore_case):
    """Returns the rules of an ignore file: the number of each line that has a pattern, counted from 1, and the pattern."""
    patterns = [pattern_of_line(line, ignore_case) for line in file_lines(text)]
    return [(number, pattern) for number, pattern in enumerate(patterns, 1) if pattern]


def last_rule(text, path, is_folder, ignore_case):
    """Returns the last rule of an ignore file that applies to a path, or None."""
    for number, pattern in reversed(rules_of(text, ignore_case)):
        if (is_folder or not pattern.folders_only) and pattern_matches(pattern, path):
            return number, pattern
    return None


def files_rule(files, path, is_folder, ignore_case):
    """Returns the rule that decides about a path alone: its file and its number, and whether it is negated; or None.

    The files are pairs of a folder, which is empty or ends with `/`, and bytes, those of higher folders first.
    """
    for folder, text in reversed(files):
        if path.startswith(folder):
            found = last_rule(text, path[len(folder) :], is_folder, ignore_case)
            if found:
                return folder, found[0], found[1].negated
    return None


def rule_below(files, path, is_folder, ignore_case):
    """Returns the rule that decides about a path: the one that ignores the highest folder that is ignored, if there is one."""
    for at in (at for at in range(len(path)) if path[at : at + 1] == b"/"):
        found = files_rule(files, path[:at], True, ignore_case)
        if found and not found[2]:
            return found
    return files_rule(files, path, is_folder, ignore_case)


def nearest_rule(files, path, is_folder, ignore_case):
    """Returns the rule that decides by the nearest decision: of the path alone, or of the nearest folder above it with one."""
    found = files_rule(files, path, is_folder, ignore_case)
    while not found and b"/" in path:
        path = path.rpartition(b"/")[0]
        found = files_rule(files, path, True, ignore_case)
    return found
