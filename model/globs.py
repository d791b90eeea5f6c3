"""What a glob is and what it matches: the definitions of docs/DEFINITIONS.md once more, as plain functions.

This program is written from that page and from README.md, and shares no code with the crates. It is meant to be read beside the
page: the comments name its sections. Nothing is done for speed but that results of a few functions are kept.
"""

import json
from functools import lru_cache
from typing import NamedTuple


# ---- Options


class Options(NamedTuple):
    case_insensitive: bool = False
    literal_separator: bool = False
    backslash_escape: bool = True
    empty_alternates: bool = False
    allow_unclosed_class: bool = False
    whole_character: bool = False


DEFAULTS = Options()


class Glob(NamedTuple):
    text: str
    options: Options = DEFAULTS


# ---- Errors

TEXTS = {
    "UnclosedClass": "unclosed character class; missing ']'",
    "UnopenedAlternates": "unopened alternate group; missing '{' (maybe escape '}' with '[}]'?)",
    "UnclosedAlternates": "unclosed alternate group; missing '}' (maybe escape '{' with '[{]'?)",
    "DanglingEscape": "dangling '\\'",
}


class Rejected(Exception):
    """A text is no glob: its kind, as `{:?}` prints it, and what the error prints."""

    def __init__(self, text, kind, reason):
        super().__init__(f"error parsing glob '{text}': {reason}")
        self.kind = kind


def rejected(text, kind):
    return Rejected(text, kind, TEXTS[kind])


def invalid_range(text, first, last):
    shown = [f"'{c}'".replace("\\", "\\\\") if c != "'" else "'\\''" for c in (first, last)]
    return Rejected(text, f"InvalidRange({shown[0]}, {shown[1]})", f"invalid range; '{first}' > '{last}'")


# ---- Marks


class Mark(NamedTuple):
    """`?`, `*` with the length of the run, `[` with whether it is negated and its ranges, `{`, `,`, `}`, or `plain` with its
    character. Nesting puts `group`, with its branches, in place of the marks of a group."""

    kind: str
    value: object = None
    escaped: bool = False


def mark_at(text, at, options):
    """Returns the mark at a position of a text, and the position after it, or raises the error at that position."""
    c = text[at]
    if c == "*":
        after = at
        while text[after : after + 1] == "*":
            after += 1
        return Mark("*", after - at), after
    if c == "[":
        return class_at(text, at, options)
    if c in "?{,}":
        return Mark(c), at + 1
    if c == "\\" and options.backslash_escape:
        if at + 1 == len(text):
            raise rejected(text, "DanglingEscape")
        return Mark("plain", text[at + 1], escaped=True), at + 2
    return Mark("plain", c), at + 1


def class_at(text, at, options):
    """The same for a `[`."""
    start = at + 1
    negated = text[start : start + 1] in ("!", "^")
    if negated:
        start += 1
    # The first character of the body is a member, also if it is `]`.
    end = text.find("]", start + 1)
    if end < 0 and options.allow_unclosed_class:
        return Mark("plain", "["), at + 1
    found = chains(text[start:end] if end >= 0 else text[start:])
    for chain in found:
        for c in chain[1:]:
            if c < chain[0]:
                raise invalid_range(text, chain[0], c)
    if end < 0:
        raise rejected(text, "UnclosedClass")
    return Mark("[", (negated, tuple((chain[0], chain[-1]) for chain in found))), end + 1


def marks(text, options):
    """Returns the marks of a text, or raises its first error from the left."""
    found, at, depth = [], 0, 0
    while at < len(text):
        mark, at = mark_at(text, at, options)
        if mark.kind == "{":
            depth += 1
        if mark.kind == "}":
            if depth == 0:
                raise rejected(text, "UnopenedAlternates")
            depth -= 1
        if mark.kind == "," and depth == 0:
            mark = Mark("plain", ",")
        found.append(mark)
    if depth > 0:
        raise rejected(text, "UnclosedAlternates")
    return found


# ---- Ranges


def chains(body):
    """Returns the chains of the body of a class, each as its first character and those of its pairs. A last `-` is one."""
    found, at = [], 0
    while at < len(body):
        chain = [body[at]]
        at += 1
        while body[at : at + 1] == "-" and at + 1 < len(body):
            chain.append(body[at + 1])
            at += 2
        found.append(chain)
    return found


# ---- Nesting


def branches(rest):
    """Takes marks up to the `}` of a group, or to the end, from an iterator. Returns the branches, with groups in them."""
    found = [[]]
    for mark in rest:
        if mark.kind == "}":
            break
        if mark.kind == ",":
            found.append([])
        elif mark.kind == "{":
            found[-1].append(Mark("group", branches(rest)))
        else:
            found[-1].append(mark)
    return found


# ---- Stars


class Token(NamedTuple):
    """`literal` with its character, `?`, `*`, `class` with whether it is negated and its ranges, `group` with the tokens of its
    branches, `prefix` (RecursivePrefix), `suffix` (RecursiveSuffix) or `middle` (RecursiveZeroOrMore)."""

    kind: str
    value: object = None


PREFIX = Token("prefix")
SUFFIX = Token("suffix")
MIDDLE = Token("middle")
TWO_STARS = Mark("*", 2)
PAIR = [TWO_STARS, Mark("plain", "/")]


def after_pairs(branch, at):
    """Returns the position after all pairs that follow each other from a position on."""
    while branch[at : at + 2] == PAIR:
        at += 2
    return at


def piece_at(branch, at):
    """Returns the tokens of the piece at a position of a branch, and the position after it."""
    mark = branch[at]
    if at == 0 and after_pairs(branch, 0) > 0:
        after = after_pairs(branch, 0)
        return [PREFIX], after + 1 if branch[after:] == [TWO_STARS] else after
    if mark.kind == "plain" and mark.value == "/":
        after = after_pairs(branch, at + 1)
        if branch[after:] == [TWO_STARS]:
            return [SUFFIX], after + 1
        if after > at + 1:
            return [MIDDLE], after
    if mark.kind == "*":
        return [Token("*")] * mark.value, at + 1
    if mark.kind == "group":
        return [Token("group", tuple(tokens_of_branch(branch) for branch in mark.value))], at + 1
    kinds = {"plain": "literal", "[": "class", "?": "?"}
    return [Token(kinds[mark.kind], mark.value)], at + 1


def tokens_of_branch(branch):
    tokens, at = [], 0
    while at < len(branch):
        piece, at = piece_at(branch, at)
        tokens += piece
    return tuple(tokens)


# ---- Reading


@lru_cache(maxsize=100_000)
def reading(glob):
    """Returns the tokens of a glob, or raises the first error of its text from the left."""
    whole = branches(iter(marks(glob.text, glob.options)))[0]
    return (PREFIX,) if whole == [TWO_STARS] else tokens_of_branch(whole)


def error_offset(glob):
    """Returns how many bytes of a glob's text stand before its first error, or None if it has none."""
    text, at, opened = glob.text, 0, []
    while at < len(text):
        try:
            mark, after = mark_at(text, at, glob.options)
        except Rejected:
            return len(text[:at].encode())
        if mark.kind == "{":
            opened.append(at)
        elif mark.kind == "}" and not opened:
            return len(text[:at].encode())
        elif mark.kind == "}":
            opened.pop()
        at = after
    # The outermost group that is open.
    return len(text[: opened[0]].encode()) if opened else None


# ---- The bytes of a class


@lru_cache(maxsize=10_000)
def class_bytes(token, case_insensitive):
    negated, ranges = token.value
    members = set()
    for first, last in ((first.encode(), last.encode()) for first, last in ranges):
        if first == last:
            members.update(first)
        else:
            members.update(first[:-1])
            members.update(range(first[-1], last[0] + 1))
            members.update(last[1:])
    if case_insensitive:
        members.update(bytes(members).swapcase())
    return frozenset(set(range(256)) - members if negated else members)


# ---- Blank branches


def is_blank(branch):
    return all(token.kind == "group" and all(is_blank(inner) for inner in token.value) for token in branch)


def kept_branches(token, options):
    return [branch for branch in token.value if options.empty_alternates or not is_blank(branch)]


# ---- What tokens match


def is_character(part):
    """Returns whether these bytes are one character in UTF-8."""
    try:
        return len(part.decode("utf-8")) == 1
    except UnicodeDecodeError:
        return False


def ends(token, options, path, start):
    """Returns every position where a part of the path that begins at `start` and that the token matches can end."""
    byte = path[start : start + 1]
    longer = range(start + 1, len(path) + 1)
    if token.kind == "literal":
        want = token.value.encode()
        part = path[start : start + len(want)]
        same = part.lower() == want.lower() if options.case_insensitive else part == want
        return {start + len(want)} if same else set()
    if token.kind == "?":
        if byte == b"/" and options.literal_separator:
            return set()
        if options.whole_character:
            return {end for end in longer[:4] if is_character(path[start:end])}
        return {start + 1} if byte else set()
    if token.kind == "*":
        separator = path.find(b"/", start) if options.literal_separator else -1
        return set(range(start, (len(path) if separator < 0 else separator) + 1))
    if token.kind == "prefix":
        return {start} | {end for end in longer if path[end - 1] == ord("/")}
    if token.kind == "suffix":
        return set(longer) if byte == b"/" else set()
    if token.kind == "middle":
        return {end for end in longer if path[end - 1] == ord("/")} if byte == b"/" else set()
    if token.kind == "class":
        return {start + 1} if byte and byte[0] in class_bytes(token, options.case_insensitive) else set()
    kept = kept_branches(token, options)
    return {end for branch in kept for end in sequence_ends(branch, options, path, {start})} if kept else {start}


def sequence_ends(tokens, options, path, starts):
    """The same for tokens in sequence and parts that begin at any of these positions."""
    for token in tokens:
        if not starts:
            break
        starts = {end for start in starts for end in ends(token, options, path, start)}
    return starts


# ---- What a glob matches


@lru_cache(maxsize=100_000)
def glob_means(glob, path):
    tokens = reading(glob)
    return tokens == (PREFIX,) or len(path) in sequence_ends(tokens, glob.options, path, {0})


# ---- The text of a regular expression

SPECIAL = "\\.+*?()|[]{}^$#&-~"
# The rows of characters in UTF-8 after the first, which is ASCII: Table 3-7 of the Unicode Standard.
ROWS = [
    ["c2-df", "80-bf"],
    ["e0", "a0-bf", "80-bf"],
    ["e1-ec", "80-bf", "80-bf"],
    ["ed", "80-9f", "80-bf"],
    ["ee-ef", "80-bf", "80-bf"],
    ["f0", "90-bf", "80-bf", "80-bf"],
    ["f1-f3", "80-bf", "80-bf", "80-bf"],
    ["f4", "80-8f", "80-bf", "80-bf"],
]


def character_text(character):
    if character in SPECIAL:
        return "\\" + character
    return "".join(chr(byte) if byte < 128 else f"\\x{byte:02x}" for byte in character.encode())


def any_text(options):
    if not options.whole_character:
        return "[^/]" if options.literal_separator else "."
    ascii_row = "[\\x00-\\x2e\\x30-\\x7f]" if options.literal_separator else "[\\x00-\\x7f]"
    return "(?:" + "|".join([ascii_row] + ["".join(map(range_text, row)) for row in ROWS]) + ")"


def range_text(digits):
    text = "-".join(f"\\x{end}" for end in digits.split("-"))
    return f"[{text}]" if "-" in digits else text


def token_text(token, options):
    if token.kind == "literal":
        return character_text(token.value)
    if token.kind == "class":
        negated, ranges = token.value
        entries = [
            character_text(first) + ("" if first == last else "-" + character_text(last)) for first, last in ranges
        ]
        return ("[^" if negated else "[") + "".join(entries) + "]"
    if token.kind == "group":
        kept = kept_branches(token, options)
        return "(?:" + "|".join(tokens_text(branch, options) for branch in kept) + ")" if kept else ""
    return {
        "?": any_text(options),
        "*": "[^/]*" if options.literal_separator else ".*",
        "prefix": "(?:/?|.*/)",
        "suffix": "/.*",
        "middle": "(?:/|/.*/)",
    }[token.kind]


def tokens_text(tokens, options):
    return "".join(token_text(token, options) for token in tokens)


def regex_text(glob):
    tokens = reading(glob)
    body = ".*" if tokens == (PREFIX,) else tokens_text(tokens, glob.options)
    return "(?-u)" + ("(?i)" if glob.options.case_insensitive else "") + "^" + body + "$"


# ---- JSON values of globs and of sets


class ValueRejected(Exception):
    """A JSON value is no glob, or no array of globs: the index of the element, or None, and what the error prints."""

    def __init__(self, index, reason):
        super().__init__(reason if index is None else f"element {index}: {reason}")
        self.index = index


class NotJson(Exception):
    """A text is no JSON."""


def json_data(text):
    """Returns the data of a JSON text. Of a repeated key the last value counts."""

    def refuse(name):
        raise ValueError(name)

    try:
        data = json.loads(text, parse_constant=refuse)
        json.dumps(data, ensure_ascii=False).encode()
    except (ValueError, RecursionError):
        raise NotJson from None
    if depth_of(data) > 127:
        raise NotJson
    return data


def depth_of(data):
    if isinstance(data, dict):
        data = list(data.values())
    return 1 + max(map(depth_of, data), default=0) if isinstance(data, list) else 0


def glob_of_value(data, index=None):
    """Returns the glob of a JSON string or object, or raises its error."""
    members = {"glob": data} if isinstance(data, str) else data
    if not isinstance(members, dict) or not isinstance(members.get("glob"), str):
        raise ValueRejected(index, "expected a glob pattern")
    options = {key: value for key, value in members.items() if key != "glob"}
    if any(key not in Options._fields for key in options):
        raise ValueRejected(index, "unknown key in a glob object")
    if any(not isinstance(value, bool) for value in options.values()):
        raise ValueRejected(index, "expected true or false")
    glob = Glob(members["glob"], Options(**options))
    try:
        reading(glob)
    except Rejected as error:
        raise ValueRejected(index, str(error)) from None
    return glob


def value_of_glob(glob):
    """Returns the JSON text of a glob."""
    changed = {key: value for key, value in glob.options._asdict().items() if value != getattr(DEFAULTS, key)}
    data = dict(sorted({"glob": glob.text, **changed}.items())) if changed else glob.text
    return json.dumps(data, ensure_ascii=False, separators=(",", ":"))


def globs_of_value(data):
    if not isinstance(data, list):
        raise ValueRejected(None, "expected an array of glob patterns")
    return [glob_of_value(element, index) for index, element in enumerate(data)]


# ---- Parts of a path


def basename(path):
    last = path.split(b"/")[-1]
    return b"" if last == b".." else last


def extension(path):
    base = basename(path)
    return base[base.rfind(b".") :] if b"." in base else b""


# ---- Escaping


def escape(text):
    return "".join(f"[{c}]" if c in "?*[]{}" else c for c in text)


# ---- Silent globs, and answers

DOT = Token("literal", ".")


def is_silent(glob):
    return not glob.options.case_insensitive and reading(glob) == (PREFIX, DOT, DOT)


def answer(globs, path):
    """Returns the indexes that a set of these globs returns for a path."""
    return [index for index, glob in enumerate(globs) if not is_silent(glob) and glob_means(glob, path)]


def matches_all(globs, path):
    return len(answer(globs, path)) == len(globs)


# ---- Paths below a folder: the folder, a `/`, and any bytes, perhaps none


def some_word(tokens, options):
    """Returns bytes that these tokens match. There always are some: no class is empty."""
    found = b""
    for token in tokens:
        if token.kind == "literal":
            found += token.value.encode()
        elif token.kind == "?":
            found += b"a"
        elif token.kind == "class":
            found += bytes([min(class_bytes(token, options.case_insensitive))])
        elif token.kind == "group":
            found += some_word(next(iter(kept_branches(token, options)), ()), options)
        elif token.kind in ("suffix", "middle"):
            found += b"/"
    return found


def rest_after(tokens, options, path, starts):
    """Returns a rest: bytes so that the tokens match what there is of the path and the rest together from one of these positions
    on. Returns None if there is no rest. The path ends in `/`.

    A token other than a group that matches bytes beyond the path's last `/` also matches those up to it. So there is a rest
    exactly if some of the first tokens, or of those of a branch of the next one, match up to the end of the path.
    """
    for at, token in enumerate(tokens):
        if len(path) in starts:
            return some_word(tokens[at:], options)
        for branch in kept_branches(token, options) if token.kind == "group" else []:
            rest = rest_after(branch, options, path, starts)
            if rest is not None:
                return rest + some_word(tokens[at + 1 :], options)
        starts = sequence_ends([token], options, path, starts)
    return b"" if len(path) in starts else None


def rest_below(glob, folder):
    """Returns bytes so that the glob matches the path of the folder, a `/` and these bytes, or None if there are none."""
    return rest_after(reading(glob), glob.options, folder + b"/", {0})


def matches_below(globs, folder):
    """Returns whether a set of these globs returns some index for some path below the folder."""
    return any(rest_below(glob, folder) is not None for glob in globs if not is_silent(glob))


# ---- Command-line arguments

FLAGS = {
    "-i": ("case_insensitive", True),
    "-s": ("literal_separator", True),
    "-e": ("empty_alternates", True),
    "-u": ("allow_unclosed_class", True),
    "-b": ("backslash_escape", False),
}


class CommandRejected(Exception):
    """The arguments are no command: what the program prints after its name."""


def globs_of_arguments(arguments):
    """Returns the globs of arguments without `--set`, and whether the output is numbered, or raises the first error."""
    globs, options, numbered, only_globs = [], DEFAULTS, False, False
    for argument in arguments:
        if only_globs or not argument.startswith("-"):
            glob = Glob(argument, options)
            try:
                reading(glob)
            except Rejected as error:
                raise CommandRejected(str(error)) from None
            globs.append(glob)
        elif argument == "--":
            only_globs = True
        elif argument == "-n":
            numbered = True
        elif argument == "-r":
            options = DEFAULTS
        elif argument in FLAGS:
            name, value = FLAGS[argument]
            options = options._replace(**{name: value})
        else:
            raise CommandRejected(f"unknown option '{argument}'")
    return globs, numbered


def command(arguments):
    """Returns the globs of the program's arguments, and whether the output is numbered, or raises the error."""
    options_end = arguments.index("--") if "--" in arguments else len(arguments)
    if "--set" in arguments[:options_end]:
        at = arguments.index("--set")
        return command_of_set(arguments[:at], arguments[at + 1 :])
    globs, numbered = globs_of_arguments(arguments)
    if not globs:
        raise CommandRejected("no glob given")
    return globs, numbered


def command_of_set(before, after):
    globs_of_arguments(before)
    if any(argument != "-n" for argument in before):
        raise CommandRejected("--set stands alone or beside -n")
    if not after:
        raise CommandRejected("--set takes a text")
    if any(argument != "-n" for argument in after[1:]):
        raise CommandRejected("--set stands alone or beside -n")
    try:
        globs = globs_of_value(json_data(after[0]))
    except NotJson:
        raise CommandRejected("not a JSON text") from None
    except ValueRejected as error:
        raise CommandRejected(str(error)) from None
    return globs, bool(before or after[1:])


# ---- Lines and output


def output(globs, numbered, given):
    """Returns what the program writes for what it reads."""
    written = b""
    lines = given.split(b"\n")
    for line in lines if lines[-1] else lines[:-1]:
        indexes = answer(globs, line)
        if indexes:
            front = ",".join(map(str, indexes)).encode() + b"\t" if numbered else b""
            written += front + line + b"\n"
    return written
