"""Random ignore files, in a folder and in folders below it, and paths to ask about, from a seed.

One in three paths is made from a pattern, one in three so and then changed a little, and the others are words alone. In every
other case `core.ignoreCase` is set, and some letters are in upper case.
"""

import random
import re
from typing import NamedTuple

WORDS = [b"a", b"b", b"c", b"ab", b"foo", b"a.c", b"x"]
ODD_WORDS = ["é", "ü¿", "日本", "a b", " a", "a ", "\t", "a\r", "#a", "!a", "-", "]", "[", "^", "{a,b}", "a,b", "\\", "*", "a\\b"]
ODD_WORDS = [word.encode() for word in [*ODD_WORDS, "😀"]] + [b"\xff", b"\xc3", b"\xef\xbb\xbf", b"\x7f", b"\x0b", b"\n"]
FOLDERS = [b"a/", b"b/", b"x/", b"a/b/", b"foo/", b"a/b/c/", "é/".encode(), b"[a]/", b"a*/"]
NAMES = "alnum alpha blank cntrl digit graph lower print punct space upper xdigit word Alpha".split() + [""]
CHARACTERS = [c.encode() for c in "abcxz09AZ.-]![^\\/:*? éé¿üÿ日\t{}"] + [b"-", b"-", b"]"]
BYTES = [bytes((byte,)) for byte in b"abcxz09AZ.-]![^\\:*? \t\r\n\x0b\x7f\x80\xa9\xbf\xc0\xc3\xe9\xff{},#"]
WHOLE_LINES = [b"", b"", b"#a", b"#", b" #a", b" ", b"!", b"!/", b"/", b"//", b"//a", b"\\", b"\r"]
WHOLE_LINES += [b"*", b"/*", b"!*/", b"!/*", b"**", b"!a", b"\xff"]
BEGINNINGS = [b""] * 10 + [b"!"] * 6 + [b"/"] * 4 + [b"!/", b"\\!", b"\\#", b"!!", b" ", b"!\\#", b"**/", b"./"]
ENDINGS = [b""] * 16 + [b"/"] * 4 + [b"/**", b" ", b"  ", b"\\ ", b"\\  ", b"\\\\ ", b"\\", b"\\/", b"\t", b" \t"]
ENDINGS += [b"\r", b" \r", b"//", b"\0b", b" \0"]
SEPARATORS = [b"/"] * 16 + [b"\\/", b"//", b""]
CLASS_ITEMS = [b"a-z", b"-", b"]-", b"[", b"\\]", b"a-\\]", b"--a", b"z-a", b"[.a.]"]
CLASS_ITEMS += ["¿-¿".encode(), "a-é".encode(), "é-z".encode(), b"\xbf-\xc2", b"\x80-\xff", b"!"]


class Case(NamedTuple):
    # pairs of a folder, which is empty or ends with `/`, and bytes; a higher folder comes first
    files: tuple
    paths: tuple
    folders: frozenset
    ignore_case: bool = False

    def is_folder(self, path):
        return path in self.folders


# ---- Patterns


def pick(chance, few, many, often):
    return chance.choice(few if chance.random() < often else many)


def word(chance):
    return pick(chance, WORDS, ODD_WORDS, 0.85)


def class_item(chance):
    kind = chance.random()
    if kind < 0.35:
        return chance.choice(CHARACTERS)
    if kind < 0.6:
        return chance.choice(CHARACTERS) + b"-" + chance.choice(CHARACTERS)
    if kind < 0.75:
        return b"[:" + chance.choice(NAMES).encode() + chance.choice([b":]"] * 6 + [b":", b"]", b""])
    if kind < 0.9:
        return b"\\" + chance.choice(CHARACTERS)
    return chance.choice(CLASS_ITEMS)


def class_text(chance):
    items = b"".join(class_item(chance) for _ in range(chance.choice([1, 1, 1, 2, 2, 3])))
    begin = b"[" + chance.choice([b"", b"", b"", b"!", b"^"]) + chance.choice([b""] * 8 + [b"]"])
    return begin + items + chance.choice([b"]"] * 20 + [b""])


def piece(chance):
    kind = chance.random()
    if kind < 0.35:
        return word(chance)
    if kind < 0.45:
        return b"?"
    if kind < 0.65:
        return chance.choice([b"*", b"*", b"*", b"**", b"**", b"***"])
    if kind < 0.85:
        return class_text(chance)
    return b"\\" + pick(chance, [b"a", b"*", b"[", b"\\", b"b", b"?", b"]"], CHARACTERS, 0.7)


def component(chance):
    kind = chance.random()
    if kind < 0.4:
        return word(chance)
    if kind < 0.6:
        return chance.choice([b"**", b"**", b"**", b"***", b"*"])
    return b"".join(piece(chance) for _ in range(chance.choice([1, 1, 2, 2, 3, 4])))


def body(chance):
    text = component(chance)
    for _ in range(chance.choice([0, 0, 0, 1, 1, 2, 3])):
        text += chance.choice(SEPARATORS) + component(chance)
    return text


def line(chance):
    kind = chance.random()
    if kind < 0.12:
        return chance.choice(WHOLE_LINES)
    if kind < 0.3:
        before = chance.choice([b"", b"", b"!", b"/", b"x", b"!x"])
        return before + class_text(chance) + chance.choice([b"", b"", b"", b"b", b"*", b"/b"])
    return (chance.choice(BEGINNINGS) + body(chance) + chance.choice(ENDINGS)).replace(b"\n", b"")


def ignore_file(chance):
    lines = [line(chance) for _ in range(chance.choice([1, 2, 3, 4, 6, 10]))]
    end = chance.choice([b"\n", b"\n", b"\n", b"\r\n"])
    mark = chance.choice([b""] * 12 + [b"\xef\xbb\xbf", b"\xef\xbb\xbf\xef\xbb\xbf"])
    return mark + end.join(lines) + chance.choice([b"", end, end])


# ---- Paths


def class_byte(chance, text, at):
    """Returns a byte for the class after a `[`, perhaps of it, and a position after it."""
    end = text.find(b"]", at + 2)
    end = len(text) if end < 0 else end
    near = [bytes(((byte + more) % 256,)) for byte in text[at:end] for more in (0, 0, 0, 1, -1)]
    return pick(chance, near or BYTES, BYTES, 0.6), end + 1


def some_path(chance, text):
    """Returns a path that a pattern with this text matches in many cases."""
    path, at = b"", 0
    while at < len(text):
        c = text[at : at + 1]
        at += 1
        if c == b"\\":
            path, at = path + text[at : at + 1], at + 1
        elif c == b"?":
            path += chance.choice(BYTES)
        elif c == b"*":
            while text[at : at + 1] == b"*":
                c, at = b"**", at + 1
            more = [b"", b"", word(chance), word(chance) + b"/" + word(chance)]
            path += chance.choice(more[:3] if c == b"*" else more)
            at += c == b"**" and text[at : at + 1] == b"/" and chance.random() < 0.4
        elif c == b"[":
            byte, at = class_byte(chance, text, at)
            path += byte
        else:
            path += c
    return path


def changed(chance, path):
    """Returns a path after a small change."""
    at, kind = chance.randrange(len(path) + 1), chance.randrange(7)
    if kind == 0:
        return path[:at] + path[at + 1 :]
    if kind == 1:
        return path[:at] + chance.choice(BYTES + [b"/"] * 6) + path[at:]
    if kind == 2:
        return path[:at] + chance.choice(BYTES) + path[at + 1 :]
    if kind == 3:
        return path + b"/" + word(chance)
    if kind == 4:
        return word(chance) + b"/" + path
    if kind == 5:
        return path.rpartition(b"/")[0]
    return path[:at] + chance.choice([b"a", b"b", b"c/", b"/a"]) + path[at:]


def path_from(chance, file):
    """Returns a path that is made from a pattern of an ignore file."""
    folder, text = file
    pattern = chance.choice(text.removeprefix(b"\xef\xbb\xbf").split(b"\n")).split(b"\0")[0].rstrip(b"\r")
    pattern = (pattern.rstrip(b" ") or pattern).removeprefix(b"!")
    above = b"" if b"/" in pattern[:-1] or chance.random() < 0.6 else word(chance) + b"/"
    return folder + above + some_path(chance, pattern)


def words_path(chance, files):
    path = b"/".join(word(chance) for _ in range(chance.choice([1, 1, 2, 2, 3, 4])))
    return (chance.choice(files)[0] if chance.random() < 0.5 else b"") + path


def cleaned(path):
    """Returns a path that git can be asked about and that can be made."""
    parts = [part[:200] for part in path.replace(b"\0", b"").split(b"/")]
    return b"/".join(part for part in parts if part.lower() not in (b"", b".", b"..", b".git", b".gitignore")) or b"a"


def random_path(chance, files):
    kind = chance.randrange(3)
    if kind == 0:
        return cleaned(words_path(chance, files))
    path = path_from(chance, chance.choice(files))
    return cleaned(path if kind == 1 else changed(chance, path))


def with_above(folders):
    """Returns folders and those above them."""
    return frozenset(folder[:at] for folder in folders for at in range(1, len(folder) + 1) if folder[at : at + 1] in (b"/", b""))


def with_capitals(chance, text):
    """Returns a text with some letters in upper case, outside names of classes."""

    def letter(found):
        return found[0].upper() if chance.random() < 0.25 else found[0]

    parts = re.split(rb"(\[:[a-z]*:\])", text)
    return b"".join(part if at % 2 else re.sub(rb"[a-z]", letter, part) for at, part in enumerate(parts))


def case(seed, number, count):
    """Returns the case of this number: ignore files, and this many paths."""
    chance = random.Random(f"{seed} {number}")
    folders = {b""} if chance.random() < 0.8 else set()
    folders.update(chance.sample(FOLDERS, chance.choice([0, 1, 1, 2, 3]) if folders else chance.choice([1, 2, 3])))
    ignore_case = number % 2 == 1
    files = []
    for folder in sorted(folders, key=lambda folder: (folder.count(b"/"), folder)):
        text = ignore_file(chance)
        files.append((folder, with_capitals(chance, text) if ignore_case else text))
    paths = tuple(random_path(chance, files) for _ in range(count))
    if ignore_case:
        paths = tuple(with_capitals(chance, path) for path in paths)
    made = {path for path in paths if chance.random() < 0.35} | {folder[:-1] for folder in folders if folder}
    return Case(tuple(files), paths, with_above(made), ignore_case)


def case_of(text, count, ignore_case):
    """Returns the case of an ignore file, and this many paths, most of which are made from its lines."""
    chance = random.Random(text)
    files = ((b"", text),)
    paths = tuple(random_path(chance, files) for _ in range(count))
    return Case(files, paths, with_above({path for path in paths if chance.random() < 0.35}), ignore_case)
