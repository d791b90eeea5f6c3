"""Random ignore files of two to eight lines. A line is often made from an earlier one, so that it matches more, or is one of
several that together match the same. So two in five rules never decide."""

from typing import NamedTuple

from ignore_constructs import FILES
from ignore_files import WHOLE_LINES, line

E = "é".encode()
# A piece of a pattern, and pieces that together match what it does, or nearly.
SPLIT = {
    b"?": [[b"[a-m]", b"[!a-m]"], [b"a", b"[!a]"], [b"[^\x80-\xff]", b"[\x80-\xff]"], [b"[[:alpha:]]", b"[![:alpha:]]"]],
    b"*": [[b"", b"?*"], [b"", b"[a-m]*", b"[!a-m]*"], [b"", b"?", b"??*"], [b"*a*", b"", b"[!a]*"]],
    b"**": [[b"*", b"*/**"], [b"*", b"*/*", b"*/*/**"], [b"**a", b"**[!a]"]],
    b"/": [[b"/"], [b"\\/"]],
    b"/**": [[b"/*", b"/*/**"], [b"/?", b"/??*", b"/*/**"], [b"/**/?", b"/**/??*"]],
    b"/**/": [[b"/", b"/*/**/"], [b"/", b"/*/", b"/*/*/**/"], [b"/", b"/**\\/"]],
    b"**/": [[b"", b"*/**/"], [b"", b"?*/**/"], [b"", b"**\\/"], [b"", b"*/", b"*/*/**/"]],
    b"[a-m]": [[b"[a-f]", b"[g-m]"], [b"a", b"[b-m]"], [b"\\a", b"\\b", b"[c-l]", b"m"]],
    b"[!b]": [[b"[!a-c]", b"a", b"c"], [b"[^b-z]", b"[c-z]"]],
    b"[[:alpha:]]": [[b"[[:lower:]]", b"[[:upper:]]"], [b"[a-z]", b"[A-Z]"]],
    b"[\x80-\xff]": [[b"[\x80-\xbf]", b"[\xc0-\xff]"], [b"\xff", b"[\x80-\xfe]"]],
}
# A piece, and some that match more, or the same.
MORE = {
    b"a": [b"?", b"[a-m]", b"*", b"\\a", b"[ab]", b"[[:lower:]]"], b"b": [b"?", b"[a-m]", b"*b", b"[]b]"],
    b".c": [b"*", b".?", b"*c"], b"..": [b"*", b".?"], b"\\*": [b"?", b"[*]"],
    b" ": [b"\\ ", b"?"], b"\r": [b"?", b"[[:cntrl:]]"],
    b"?": [b"*", b"[!/]"], b"*": [b"**", b"***"], b"**": [b"***", b"*"], b"/": [b"/**/", b"\\/", b"**/"],
    b"/**": [b"**", b"/**/*"], b"**/": [b"***/", b"*/"], b"/**/": [b"**/", b"/**/**/", b"/***/"],
    b"[a-m]": [b"?", b"[a-z]", b"[[:alpha:]]"], b"[!b]": [b"?", b"*"], b"[[:alpha:]]": [b"?", b"[A-z]"],
    b"\xff": [b"?", b"[\x80-\xff]", b"[\xff]"], b"[\x80-\xff]": [b"?", b"[!a]"], E: [b"??", b"*", b"[\xc3]\xa9", b"?[!a]"],
}
WEIGHTS = {
    b"a": 8, b"b": 5, b"/": 7, b"?": 5, b"*": 5, b"**": 1, b"/**": 2, b"/**/": 3, b"**/": 2, b"[a-m]": 3, b"[!b]": 3,
    b"[[:alpha:]]": 1.5, b"[\x80-\xff]": 1.5, b"\xff": 1.5, E: 1, b".c": 2, b"..": 0.5, b"\\*": 1, b"\r": 0.7, b" ": 0.7,
    b"\\": 0.3, b"[": 0.3, b"[/]": 0.3, b"\0": 0.1,
}
ENDS = [b""] * 12 + [b"/"] * 4 + [b" ", b"\r", b"\t"]


class Line(NamedTuple):
    """The parts of a line: perhaps a `!`, perhaps a `/`, pieces of a pattern, and what ends it."""

    sign: bytes
    anchor: bytes
    pieces: tuple
    end: bytes

    def text(self):
        return self.sign + self.anchor + b"".join(self.pieces) + self.end

    def with_piece(self, at, piece):
        return self._replace(pieces=(*self.pieces[:at], piece, *self.pieces[at + 1 :]))


def new_line(chance):
    """Returns a line, seldom with an empty component, which no path has."""
    pieces = chance.choices(list(WEIGHTS), WEIGHTS.values(), k=chance.choice([1, 2, 2, 2, 3, 3, 4]))
    made = Line(chance.choice([b"", b"", b"!"]), chance.choice([b"", b"", b"", b"/"]), tuple(pieces), chance.choice(ENDS))
    return new_line(chance) if b"//" in made.text() and chance.random() < 0.9 else made


def widened(chance, old):
    """Returns a line that often matches more, or the same."""
    kind = chance.randrange(8)
    if kind == 0:
        return old._replace(anchor=b"")
    if kind == 1:
        return old._replace(end=b"" if old.end == b"/" else b"/")
    if kind == 2:
        return old._replace(sign=b"" if old.sign else b"!")
    at = chance.randrange(len(old.pieces))
    return old.with_piece(at, chance.choice(MORE.get(old.pieces[at], [old.pieces[at]])))


def covering_lines(chance, old):
    """Returns lines that often match together what a line matches."""
    places = [at for at, piece in enumerate(old.pieces) if piece in SPLIT]
    if not places or chance.random() < 0.3:
        return [widened(chance, old)]
    at = chance.choice(places)
    found = [old.with_piece(at, piece) for piece in chance.choice(SPLIT[old.pieces[at]])]
    if len(found) > 1 and chance.random() < 0.15:
        del found[chance.randrange(len(found))]
    return [widened(chance, each) if chance.random() < 0.15 else each for each in found]


def odd_text(chance):
    """Returns a blank line, a comment, a line of a construct, or any line."""
    kind = chance.random()
    if kind < 0.5:
        return chance.choice(WHOLE_LINES)
    return chance.choice(FILES).split(b"\n")[0] if kind < 0.8 else line(chance)


def ignore_file(chance):
    wanted, texts, lines = chance.choice([2, 3, 4, 5, 6, 6, 7, 7, 8, 8]), [], []
    while len(texts) < wanted:
        if chance.random() < 0.07:
            texts.append(odd_text(chance))
            continue
        more = covering_lines(chance, chance.choice(lines)) if lines and chance.random() < 0.65 else [new_line(chance)]
        lines += more
        texts += [each.text() for each in more]
    if chance.random() < 0.15:
        chance.shuffle(texts)
    end, mark = chance.choice([b"\n", b"\n", b"\n", b"\r\n"]), chance.choice([b""] * 12 + [b"\xef\xbb\xbf"])
    return mark + end.join(texts[:wanted]) + chance.choice([b"", end, end])
