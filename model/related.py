"""Makes lists of globs of which some often cover the first, together or alone."""

from globs import Glob, Rejected, reading
from making import branch_text

# A piece of a text, and pieces that together match what it does, over relative paths or over all.
SPLIT = {
    "?": [["[a-m]", "[!a-m]"], ["a", "[!a]"], ["[!/.]", ".", "/"]],
    "*": [["", "?*"], ["", "[a-m]*", "[!a-m]*"], ["", "?", "??*"], ["*a*", "", "[!a]*"]],
    "**/": [["", "*/**/"], ["", "?*/**/", "/**/"], ["", "*/", "*/**/*/"]],
    "/**": [["/*", "/*/**"], ["/*", "/**/*/*"], ["/?", "/", "/??*", "/*/**"]],
    "/**/": [["/", "/*/**/"], ["/", "/**/*/"], ["/", "/*/", "/*/*/**/"]],
    "[a-m]": [["[a-f]", "[g-m]"], ["a", "[b-m]"]],
    "[!b]": [["[!a-c]", "a", "c"], ["[!b-z]", "[c-z]"]],
    "{a,b}": [["a", "b"], ["{a,c}", "b"]],
    "{,a}": [["", "a"], ["{,b}", "a"]],
    "é": [["??"], ["?[!a]"], ["[é][é]"], ["?"]],
}
# A piece, and one that matches more.
MORE = {
    "a": ["?", "[a-m]", "{a,b}", "*", "[ab]"], "b": ["?", "[a-m]", "*"], "A": ["[!b]", "?"], ".c": ["*", ".?", "*c"],
    "?": ["*"], "[a-m]": ["?", "[a-z]", "*"], "[!b]": ["?", "*"], "{a,b}": ["?", "[ab]", "[a-m]", "*"], "{,a}": ["*", "{,a,b}"],
    "*": ["**", "***"], "/": ["/**/", "?", "[/]"], "**/": ["**/**/", "*"], "/**": ["*", "/**/*", "**"], "/**/": ["*", "/*"],
    "é": ["??", "*", "é*", "{é,☃}"], "..": ["*", ".?", "??"], "\\*": ["?", "*", "[*]"],
}
WEIGHTS = {
    "a": 7, "b": 4, "A": 2, ".c": 3, "/": 7, "?": 5, "*": 6, "**/": 3, "/**": 3, "/**/": 4, "[a-m]": 3, "[!b]": 2, "{a,b}": 3,
    "{,a}": 2, "é": 1, "..": 1, "\\*": 1, "[": 0.5,
}


def is_read(glob):
    try:
        reading(glob)
    except Rejected:
        return False
    return True


def pieces_of(source):
    return [source.weighted(WEIGHTS) for _ in range(source.pick([1, 2, 2, 3, 3, 4, 5]))]


def with_piece(pieces, at, piece):
    return pieces[:at] + [piece] + pieces[at + 1 :]


def widened(source, pieces):
    """Returns pieces that often match more."""
    at = source.below(len(pieces))
    return with_piece(pieces, at, source.pick(MORE.get(pieces[at], [pieces[at]])))


def covering_pieces(source, pieces):
    """Returns lists of pieces that often match together what these match."""
    places = [at for at, piece in enumerate(pieces) if piece in SPLIT]
    if not places or source.chance(0.3):
        return [widened(source, pieces)]
    at = source.pick(places)
    found = [with_piece(pieces, at, piece) for piece in source.pick(SPLIT[pieces[at]])]
    if len(found) > 1 and source.chance(0.2):
        del found[source.below(len(found))]
    return [widened(source, it) if source.chance(0.25) else it for it in found]


def changed_options(source, options):
    """Returns the options, or others that often let more match."""
    if source.chance(0.8):
        return options
    return source.pick([
        options._replace(case_insensitive=True),
        options._replace(literal_separator=False),
        options._replace(whole_character=not options.whole_character),
        options._replace(empty_alternates=True),
        source.options(),
    ])


def made_list(source):
    """Returns a glob and others, of one to six globs in all, perhaps with some that are not read."""
    options = source.options()._replace(literal_separator=source.chance(0.6))
    if source.chance(0.15):
        text = branch_text(source, 1)
        others = [text, "{" + text + "," + source.pick(["a", "*b", "?"]) + "}", text + "*", branch_text(source, 2)]
        texts = [text, *(source.pick(others) for _ in range(1 + source.below(2)))]
    else:
        pieces = pieces_of(source)
        lists = [pieces, *covering_pieces(source, pieces)]
        if source.chance(0.3):
            lists.append(pieces_of(source))
        texts = ["".join(it) for it in lists]
    return [Glob(texts[0], options), *(Glob(text, changed_options(source, options)) for text in texts[1:])]


def related_globs(source):
    """Returns a glob and others, all of which are read."""
    globs = made_list(source)
    while not all(map(is_read, globs)):
        globs = made_list(source)
    return globs
