"""Makes the files of vectors: questions from a seed, and the model's answers to them."""

import json
from collections import Counter
from concurrent.futures import ProcessPoolExecutor

import globs as definitions
import large
import making
from globs import DEFAULTS, Glob, Options, glob_means
from making import Source
from related import is_read, related_globs
from relations import TooMany, missed
from rows import Case, escaped, letters, unescaped

OPTIONS = """\
# OPTIONS are the letters of the options that differ from the default, or `-`: i case_insensitive, s literal_separator,
# e empty_alternates, u allow_unclosed_class, w whole_character, b no backslash_escape. Tabs separate columns. In a column a
# backslash is `\\\\`, and a byte that is not printable is `\\xNN`, or `\\0`, `\\t`, `\\n` or `\\r`.
"""
MADE = "# Made by `model/make`, which overwrites this file; the answers are those of `model/globs.py`.\n"
SETS = """\
# An empty line ends a case: its globs, and paths that a set of them is asked about.
#
#   glob  OPTIONS  GLOB  reads  REGEX          the text is a glob, which is added to the set; REGEX is its regex()
#   glob  OPTIONS  GLOB  fails  KIND  ERROR    the text is rejected, with an error of this kind and this text
#   path  PATH  INDEXES  ALL  EACH    INDEXES: what `matches` of the set returns, separated by commas, or `-` for none;
#                                     ALL: what `matches_all` returns;
#                                     EACH: the indexes of the globs whose own matchers match the path
#
"""
ALONE = """\
#   read   OPTIONS  GLOB  reads  REGEX         the text is a glob, and REGEX is what regex() of its copy returns
#   read   OPTIONS  GLOB  fails  KIND  ERROR   the text is rejected, with an error of this kind and this text
#   match  OPTIONS  GLOB  PATH   ANSWER        whether the glob matches the path, by a matcher and by a set of it alone
#
"""
FOLDERS = """\
# An empty line ends a case: its globs, and folders that a set of them is asked about.
#
#   add    OPTIONS  GLOB  LENGTH     adds a glob to the set, which then has LENGTH globs
#   array  JSON  reads  LENGTH       `GlobSet::from_value` reads a set of as many globs; EACH is then `-`
#   below  FOLDER  ANSWER  EACH      ANSWER: whether the set matches some path below the folder: the folder, a `/`, and any
#                                    bytes, perhaps none; EACH: the indexes of the globs whose own matchers match such a path
#
"""
ARRAYS = """\
#   array  JSON  reads  LENGTH        `GlobSet::from_value` reads a set of as many globs; rows after this one ask it
#   path   PATH  INDEXES  ALL  -      INDEXES: what `matches` of the set returns, separated by commas, or `-` for none;
#                                     ALL: what `matches_all` returns
#
# Tabs separate columns. In a column a backslash is `\\\\`, and a byte that is not printable is `\\xNN`, or `\\0`, `\\t`,
# `\\n` or `\\r`.
"""
RELATIONS = """\
# An empty line ends a case: its globs, and which of them cover the others and overlap.
#
#   add      OPTIONS  GLOB  LENGTH    adds a glob to the case, which then has LENGTH globs
#   covered  DOMAIN  INDEX  yes       the other globs of the case cover the one with this index
#   covered  DOMAIN  INDEX  no  BYTES     a shortest path that it matches and none of the others does has so many bytes
#   overlap  DOMAIN  INDEX  INDEX  no     no path is matched by both
#   overlap  DOMAIN  INDEX  INDEX  yes  BYTES     a shortest path that both match has so many bytes
#
# DOMAIN is `all` for all lists of bytes, or `relative` for paths whose components are not empty, `.` or `..`, and have no NUL.
"""
TEXTS = """\
#   read    OPTIONS  GLOB  reads  REGEX         the text is a glob, and REGEX is what regex() of its copy returns
#   read    OPTIONS  GLOB  fails  KIND  ERROR   the text is rejected, with an error of this kind and this text
#   equal   OPTIONS  GLOB  OPTIONS  GLOB  SAME  whether the globs, or their errors, are equal
#   escape  TEXT  ESCAPED                       what `escape` returns
#   parts   PATH  BASENAME  EXTENSION           the parts of a path
#   value   JSON  reads  GLOB  WRITTEN          `Glob::from_value` reads GLOB, and `to_value` of it is WRITTEN
#   value   JSON  fails  -  ERROR               it returns an error with no index and this text
#   array   JSON  reads  LENGTH                 `GlobSet::from_value` reads a set of as many globs
#   array   JSON  fails  INDEX  ERROR           it returns an error with this index, or `-` for none, and this text
#
"""


class File:
    """The lines of a file, and counts of its rows."""

    def __init__(self, counts, head):
        self.counts, self.lines, self.case = counts, (MADE + head).splitlines(), Case()

    def end_case(self):
        self.lines.append("")
        self.case = Case()

    def ask(self, *question):
        """Adds a row: these columns, and the model's answer to them. Returns the answer."""
        answer = self.case.answer(list(question))
        self.lines.append("\t".join([*question, *answer]))
        counts = self.counts
        counts[f"answers: {question[0]}"] += 1
        if question[0] == "match":
            counts["match answers: " + answer[0]] += 1
        if question[0] == "path":
            counts["path answers: " + ("none" if answer[0] == "-" else "some")] += 1
            counts["path answers: all globs match"] += answer[1] == "yes"
        if question[0] == "below":
            counts["below answers: " + answer[0]] += 1
        return answer

    def ask_glob(self, kind, glob):
        making.count_glob(self.counts, glob)
        return self.ask(kind, letters(glob.options), escaped(glob.text))

    def ask_path(self, path):
        making.count_path(self.counts, path)
        self.ask("path", escaped(path))

    def ask_folder(self, folder):
        making.count_folder(self.counts, folder)
        self.ask("below", escaped(folder))

    def ask_match(self, glob, path):
        making.count_path(self.counts, path)
        self.ask("match", letters(glob.options), escaped(glob.text), escaped(path))


def ask_set(file, source, globs, paths):
    """Adds a case: globs, and paths made from them."""
    file.end_case()
    for glob in globs:
        file.ask_glob("glob", glob)
    ask_paths(file, source, [glob for glob in globs if is_read(glob)], paths)


def ask_paths(file, source, globs, paths):
    asked = set()
    tries = 5 if len(globs) < 50 else 2
    for _ in range(paths if globs else 0):
        path = making.wanted_path(source, source.pick(globs), lambda path: bool(definitions.answer(globs, path)), tries)
        if path not in asked:
            asked.add(path)
            file.ask_path(path)


# ---- adversarial.txt


def adversarial(counts, source):
    file = File(counts, "# Globs and paths that are hard to get right.\n#\n" + SETS + OPTIONS)
    for _ in range(1900):
        count = source.pick([1, 1, 1, 2, 2, 3, 4])
        ask_set(file, source, [making.hard_glob(source) for _ in range(count)], 2 + source.below(5))
    return file


# ---- realistic.txt

NAMES = [
    "src", "lib", "main", "a", "b", "foo", "foo-bar", "README", "Makefile", "target", "build", "é", "☃", ".git", ".env", "v1.2",
    "tests",
]
ENDINGS = [".rs", ".c", ".py", ".toml", ".lock", ".tar.gz", ".", "..", ".md", ".RS", ".js"]
FORMS = [
    "N", "NE", "N/NE", "*E", "**/*E", "**/N", "**/N/N", "N/**", "N/**/NE", "N/*E", "N/*", "*N", "*N*", "N*", "**/N*",
    "**/N*E", "**/*E*", "{N,N}/*", "{N,N}E", "*{E,E}", "**/{N,N}/**", "N?E", "[ab]*E", "**/[!N]*", "N/**/*", "**", "*",
    "**/..", "*.", "N/..", "?/..", "N/?.", "**/.*", "*/N/*E", "N{,E}", "N/N/N", "/N", "N/", "./N", "**/N/..", "**/N.", "*..",
    "N\\/**", "???",
]


def filled(source, form):
    text = ""
    for c in form:
        text += source.pick(NAMES) if c == "N" else source.pick(ENDINGS) if c == "E" else c
    return text


def realistic_glob(source):
    options = source.options(0.5)
    if source.chance(0.5):
        options = DEFAULTS._replace(literal_separator=source.chance(0.5))
    return Glob(filled(source, source.pick(FORMS)), options)


def realistic(counts, source):
    file = File(counts, "# Globs and paths such as projects have.\n#\n" + SETS + OPTIONS)
    for _ in range(1000):
        count = source.pick([1, 1, 2, 2, 3, 4, 6, 9, 14])
        ask_set(file, source, [realistic_glob(source) for _ in range(count)], 2 + source.below(6))
    return file


# ---- neighbours.txt

NEIGHBOURS = [
    "a", "é", ".", "/", "\\/", "\\a", "\\*", "\\,", "\\{", ",", "?", "*", "**", "***", "[ab]", "[!a]", "[]/]", "[é-☃]",
    "[a-c-b]", "{a,b}", "{}", "{,a}", "{{},**}", "{**/}", "[", "[b-a", "]", "-",
]
CONTEXTS = ["XY", "{XY}", "a/{XY,b}/c", "{{X,Y}}", "{b,X}Y"]
STARS = [
    "X**Y", "{X**Y}", "{X**,**Y}", "X**/**Y", "{X/**Y}", "X/**/Y**", "**/X**", "{**/X,**}Y", "X{/**}Y", "X{**/Y}",
    "{X\\/**/Y}",
]


def neighbours(counts, source):
    head = "# Every construct beside and within every other, and runs of stars between any two.\n#\n"
    file = File(counts, head + ALONE + OPTIONS)
    for first in NEIGHBOURS:
        for second in NEIGHBOURS:
            for form in [source.pick(CONTEXTS), source.pick(STARS)]:
                options = source.options() if source.chance(0.6) else DEFAULTS
                if "[" in (first, second) or "[b-a" in (first, second):
                    options = options._replace(allow_unclosed_class=source.chance(0.8))
                glob = Glob(form.replace("X", first).replace("Y", second), options)
                if file.ask_glob("read", glob)[0] == "reads":
                    for path in dict.fromkeys(making.path_of_glob(source, glob) for _ in range(3)):
                        file.ask_match(glob, path)
    return file


# ---- many_globs.txt


def numbered_globs():
    """Returns functions from numbers to texts of globs: by each, a set is decided in another way."""
    return {
        "whole path": lambda n: f"src/dir{n % 7}/file{n}.rs",
        "last component": lambda n: f"**/name{n}",
        "last components": lambda n: f"**/dir{n % 5}/name{n}",
        "extension": lambda n: f"*.e{n}",
        "extension anywhere": lambda n: f"**/*.e{n}",
        "end": lambda n: f"*_end{n}",
        "end anywhere": lambda n: f"**/*end{n}",
        "beginning": lambda n: f"beg{n}*",
        "folder": lambda n: f"dir{n}/**",
        "required extension": lambda n: f"a{n}*/*.e{n % 9}",
        "by last component": lambda n: f"**/n{n}?[ab]*",
        "classes": lambda n: f"x[{n % 10}a-c]*{n}[!b-y]",
        "groups": lambda n: f"{{a,b{n},{{c,}}d}}/{{**/x{n},*}}",
        "two stars": lambda n: f"**/f{n}/**/g*",
        "many stars": lambda n: f"*a{n}*b{n % 13}*",
        # Paths lead to very many sets of states.
        "many bytes": lambda n: f"*a{'?' * (12 + n % 9)}{n}*b",
        "dots": lambda n: "**/" + "." * (1 + n % 4) + ("" if n < 4 else f"/{n}"),
    }


def set_options(source, kind):
    """Returns the options of a glob of a set that is of one kind: mostly those under which the kind is decided in its way."""
    if source.chance(0.8):
        return DEFAULTS._replace(literal_separator=kind in ("extension anywhere", "two stars", "by last component"))
    return source.options()


def many_globs(counts, source):
    file = File(counts, "# Sets of one to a thousand globs, of each kind and mixed, read from JSON.\n#\n" + ARRAYS)
    kinds = numbered_globs()
    sizes = [1, 2, 3, 5, 8, 17, 33, 63, 64, 65, 130]
    for kind, text in kinds.items():
        for size in [1, source.pick(sizes), 64 + source.below(3), 150]:
            first = source.below(50)
            ask_array(file, source, [Glob(text(first + n), set_options(source, kind)) for n in range(size)], f"of {kind}")
    for size in [*range(1, 13), *sizes, 100, 128, 300, 500, 1000, 1000]:
        globs = [Glob(source.pick(list(kinds.values()))(source.below(40)), source.options(0.4)) for _ in range(size)]
        ask_array(file, source, globs, "of all kinds")
    for size in [2, 10, 40, 100, 1000]:
        globs = [source.pick([making.hard_glob, realistic_glob])(source) for _ in range(size)]
        ask_array(file, source, [glob for glob in globs if is_read(glob)], "of hard and of realistic globs")
    return file


def ask_array(file, source, globs, kind):
    ask_json_set(file, globs, kind)
    ask_paths(file, source, globs, 12 if len(globs) < 100 else 6)


def ask_json_set(file, globs, kind):
    """Begins a case with the set of these globs, of a kind."""
    file.end_case()
    for glob in globs:
        making.count_glob(file.counts, glob)
    file.ask("array", escaped("[" + ",".join(map(definitions.value_of_glob, globs)) + "]"))
    for limit in (1, 10, 100, 1000, 10_000):
        if len(globs) <= limit:
            file.counts[f"sets {kind}"] += 1
            file.counts[f"sets of at most {limit} globs"] += 1
            break


# ---- large_sets.txt


def large_sets(counts, source):
    head = "# Sets of 64 to 5,000 globs, of each kind and mixed, and paths that have most of what some glob requires.\n#\n"
    file = File(counts, head + ARRAYS)
    for kind in large.KINDS:
        for size, paths in [(100, 40), (150 + source.below(150), 30), (500, 14)]:
            ask_large(file, source, numbered_set(source, [kind], size), f"of {kind}", paths)
    for size, paths in [(64, 30), (65, 30), (300, 30), (1000, 20)]:
        ask_large(file, source, numbered_set(source, list(large.KINDS), size), "of all kinds of large sets", paths)
    for size, paths in [(64, 30), (65, 30), (300, 40), (1000, 30), (2000, 20), (5000, 20)]:
        ask_large(file, source, numbered_set(source, large.SELECTIVE, size), "of selective kinds of large sets", paths)
    for kind in ["long words", "two words", "classes", "owners"]:
        ask_large(file, source, numbered_set(source, [kind], 100), f"of {kind}", 6, large.long_path)
    for size in (100, 300):
        globs = [source.pick([making.hard_glob, realistic_glob])(source) for _ in range(size)]
        ask_large(file, source, [glob for glob in globs if is_read(glob)], "of hard and of realistic globs", 30)
    return file


def numbered_set(source, kinds, size):
    first = source.below(1000)
    return [large.glob_of_kind(source, source.pick(kinds), first + n) for n in range(size)]


def ask_large(file, source, globs, kind, paths, make=large.path_for):
    ask_json_set(file, globs, kind)
    asked = set()
    for _ in range(paths):
        path = large.wanted_path(source, globs, make)
        if path not in asked:
            asked.add(path)
            file.ask_path(path)


# ---- many_folders.txt

# For each key and each strategy by which a set decides globs, forms of such globs and their options. In a form `#` stands for a
# number, and `D` for one of a few folders.
PLAIN, SEPARATOR = [DEFAULTS], [DEFAULTS._replace(literal_separator=True)]
CASE, EMPTY = [DEFAULTS._replace(case_insensitive=True)], [DEFAULTS._replace(empty_alternates=True)]
DECIDED = {
    "key Literal": [(["src/D/f#.rs", "D/n#/", "/D/n#", "n#", "D/n#//D"], PLAIN + SEPARATOR)],
    "key BasenameLiteral": [(["**/n#"], PLAIN + SEPARATOR)],
    "key ComponentSuffix": [(["**/D/n#", "**/n#/"], PLAIN + SEPARATOR)],
    "key Extension": [(["*.e#"], PLAIN), (["**/*.e#"], PLAIN + SEPARATOR)],
    "key Suffix": [(["*_n#", "*/D/n#", "**/*n#/"], PLAIN)],
    "key Prefix": [(["D/n#*", "n#*", "/D/n#*"], PLAIN), (["D/**", "src/D/n#/**", "/n#/**"], PLAIN + SEPARATOR)],
    "strategy RequiredExtension": [
        (["D/*.e#", "*n#/?.rs", "[dn]#/**/*.rs", "D/n#/**/x*.e#"], PLAIN + SEPARATOR), (["*.e#", "D*.e#"], SEPARATOR),
    ],
    "strategy BasenameRegex": [(["**/n#?[ab]*", "**/[ab]n#*"], SEPARATOR)],
    "strategy Regex": [
        (
            ["D/?/[a-c]", "{D,b#,{{c,}}d}/x*", "D/**/n#?", "*/[!n]#/?", "?#{/**,}", "{n#/,}D/{**/b,c}"],
            PLAIN + SEPARATOR + CASE + EMPTY,
        ),
        (["D/n#", "n#/*", "src/D/f#*.rs", "D/**"], CASE),
        (["D/n#*", "?#/*/n#", "*/D/n#", "D*/n#"], SEPARATOR),
    ],
    "strategy Excluded": [(["**/..", "**/**/..", "**/\\.."], PLAIN + SEPARATOR)],
}
# Those by which each glob matches some path below every folder.
DECIDED_FOR_ALL_FOLDERS = ["key BasenameLiteral", "key ComponentSuffix", "key Extension", "key Suffix", "strategy BasenameRegex"]
SELECTIVE = [name for name in DECIDED if name not in DECIDED_FOR_ALL_FOLDERS]


def many_folders(counts, source):
    file = File(counts, "# Folders, and whether sets of globs match some path below them.\n#\n" + FOLDERS + OPTIONS)
    for name in DECIDED:
        for size in [1, 1, 2, 3] if name in DECIDED_FOR_ALL_FOLDERS else [1, 1, 1, 1, 2, 2, 3, 4, 6]:
            ask_folders_of_set(file, source, globs_decided_by(source, [name], size), f"of the {name}", 7)
    for names, what in [(SELECTIVE, "of strategies that match below some folders"), (list(DECIDED), "of all strategies")]:
        for size in [1, 1, 2, 2, 2, 3, 3, 4, 5, 7, 9, 12]:
            ask_folders_of_set(file, source, globs_decided_by(source, names, size), what, 10)
    for size in [64, 65, 100, 300]:
        for names in [["key Literal"], ["key Prefix"], ["strategy RequiredExtension"], ["strategy Regex"], SELECTIVE]:
            globs = [glob for glob in globs_decided_by(source, names, 2 * size) if is_selective(glob)][:size]
            ask_folders_of_set(file, source, globs, "of many globs that match below some folders", 8, as_array=True)
    for make in (making.hard_glob, realistic_glob):
        for _ in range(250):
            globs = [glob for glob in (make(source) for _ in range(source.pick([1, 2, 3, 5]))) if is_read(glob)]
            if source.chance(0.8):
                globs = list(filter(is_selective, globs))
            ask_folders_of_set(file, source, globs, "of hard and of realistic globs", 4)
    return file


def globs_decided_by(source, names, size):
    """Returns globs that a set decides by these keys and strategies. Some have other options, and may be decided by another."""
    globs = []
    for _ in range(size):
        forms, options = source.pick(DECIDED[source.pick(names)])
        text = source.pick(forms).replace("D", source.pick(["d0", "d1", "a"])).replace("#", str(source.below(3 * size)))
        globs.append(Glob(text, source.options() if source.chance(0.15) else source.pick(options)))
    return globs


def is_selective(glob):
    """Returns whether a set of the glob matches no path below a folder that has nothing to do with it."""
    return not definitions.matches_below([glob], b"none/such")


def ask_folders_of_set(file, source, globs, kind, folders, as_array=False):
    """Adds a case: the set of these globs, of a kind, and folders made from them."""
    if not globs:
        return
    if as_array:
        ask_json_set(file, globs, kind)
    else:
        file.end_case()
        file.counts[f"sets {kind}"] += 1
        for glob in globs:
            file.ask_glob("add", glob)
    asked = set()
    for _ in range(folders):
        folder = making.wanted_folder(source, globs, lambda folder: definitions.matches_below(globs, folder))
        if folder not in asked:
            asked.add(folder)
            file.ask_folder(folder)


# ---- texts.txt


def texts(counts, source):
    head = "# Texts: of regular expressions and of errors, escaped ones, parts of paths, JSON values.\n#\n"
    file = File(counts, head + TEXTS + OPTIONS)
    for _ in range(2200):
        text = making.branch_text(source, 0)
        file.ask_glob("read", Glob(making.broken_text(source, text) if source.chance(0.7) else text, source.options()))
    for _ in range(450):
        ask_equal(file, source)
    for _ in range(600):
        file.ask("escape", escaped(making.branch_text(source, 0)))
    for _ in range(1100):
        path = b"".join(source.pick(making.FRAGMENTS + [b".", b"..", b"/", b"/..", b".tar"]) for _ in range(source.below(6)))
        making.count_path(counts, path)
        file.ask("parts", escaped(path))
    for _ in range(1300):
        file.ask("value", escaped(json.dumps(value(source), ensure_ascii=source.chance(0.3))))
    for _ in range(500):
        file.end_case()
        elements = [value(source) if source.chance(0.15) else value_that_reads(source) for _ in range(source.below(6))]
        file.ask("array", escaped(json.dumps(elements if source.chance(0.95) else value(source), ensure_ascii=False)))
    return file


def ask_equal(file, source):
    """Two globs that differ in nothing, or in little; both are read, or none is."""
    one = making.hard_glob(source)
    other = one
    if source.chance(0.6):
        name = source.pick(Options._fields)
        options = one.options._replace(**{name: not getattr(one.options, name)})
        other = source.pick([Glob(one.text, options), Glob(one.text + "a", one.options)])
    if is_read(one) == is_read(other):
        columns = [column for glob in (one, other) for column in (letters(glob.options), escaped(glob.text))]
        file.ask("equal", *columns)


def value_that_reads(source):
    glob = making.hard_glob(source)
    glob = Glob(glob.text, source.options()) if is_read(glob) else Glob("a*")
    return json.loads(definitions.value_of_glob(glob)) if is_read(glob) else "*.rs"


OTHER_VALUES = [None, True, False, 0, -7, 1.5, [], ["a"], {}, "", "[", {"glob": 7}, {"glob": None}, {"globs": "a"}]


def value(source):
    """Returns JSON data: a glob's own value, one with some members changed, or something else."""
    if source.chance(0.15):
        return source.pick(OTHER_VALUES)
    data = value_that_reads(source)
    if isinstance(data, str):
        data = {"glob": data} if source.chance(0.5) else data
    while isinstance(data, dict) and source.chance(0.6):
        key = source.pick([*Options._fields, *Options._fields, "glob", "Glob", "x", "", "case-insensitive"])
        if key == "glob":
            data[key] = source.pick([making.hard_glob(source).text, making.hard_glob(source).text, "[", "a\\", 7])
        else:
            data[key] = source.pick([True, True, True, True, False, False, False, False, 0, None, "true"])
    return data


# ---- model/commands.txt

COMMANDS = """\
# Command lines of globsift.
#
#   ARGUMENTS  INPUT  STATUS  OUTPUT  ERROR
#
# Each argument is preceded by a `|`, in place of which an argument has `\\x7C`. Tabs separate columns. In a column a backslash
# is `\\\\`, and a byte that is not printable is `\\xNN`, or `\\0`, `\\t`, `\\n` or `\\r`.
"""


def commands(counts, source):
    file = File(counts, COMMANDS)
    for _ in range(700):
        arguments = command_line(source)
        paths = [b"a", b"a.rs"]
        try:
            globs = definitions.command(arguments)[0]
            for glob in globs[:5]:
                path = making.wanted_path(source, glob, lambda path: glob_means(glob, path), 3)
                paths += [path, path.swapcase()]
        except definitions.CommandRejected as error:
            counts["command lines with an error: " + str(error).split("'")[0].strip()] += 1
        given = b"".join(path + source.pick([b"\n", b"\n", b"\n", b"\r\n", b"\n\n", b""]) for path in paths)
        columns = ["".join("|" + escaped(it).replace("|", "\\x7C") for it in arguments), escaped(given)]
        file.lines.append("\t".join(columns + answer_of_command(columns)))
        counts["answers: command lines"] += 1
    return file


def answer_of_command(columns):
    """Returns the columns that answer a command line and its input."""
    arguments = [unescaped(argument).decode() for argument in columns[0].split("|")[1:]]
    try:
        globs, numbered = definitions.command(arguments)
    except definitions.CommandRejected as error:
        return ["2", "", escaped(f"globsift: {error}\n")]
    written = definitions.output(globs, numbered, unescaped(columns[1]))
    return ["0" if written else "1", escaped(written), ""]


def command_line(source):
    arguments = []
    for _ in range(source.pick([0, 1, 2, 3, 4, 5, 7, 9])):
        kind = source.weighted({"flag": 12, "glob": 12, "--": 1, "-x": 0.5, "--set": 0.5})
        if kind == "flag":
            arguments.append(source.pick(["-i", "-i", "-s", "-e", "-u", "-b", "-r", "-r", "-n", "-n"]))
        elif kind == "glob":
            glob = source.pick([making.hard_glob, realistic_glob])(source)
            text = glob.text if is_read(glob) or source.chance(0.2) else "*.rs"
            arguments.append(text.replace("\0", "a"))
        elif kind == "-x":
            arguments.append(source.pick(["-x", "-", "-ns", "--Set", "-é", "--n"]))
        else:
            arguments.append(kind)
    if source.chance(0.25):
        elements = [value(source) if source.chance(0.1) else value_that_reads(source) for _ in range(source.below(4))]
        text = json.dumps(elements, ensure_ascii=False)
        nested = ["[" * depth + "]" * depth for depth in (128, 127)]
        text = source.pick([text] * 12 + [text[:-1], text + ",", "", "'a'", *nested, "[NaN]", "{}"])
        after = [[], [], [], [], ["-n"], ["-n", "-n"], ["-i"], ["a"], ["--"]]
        arguments = ["-n"] * source.below(2) + ["--set", text] + source.pick(after)
    return arguments


# ---- relations.txt


def relations(counts, source):
    file = File(counts, "# Globs that cover a glob, and globs that overlap.\n#\n" + RELATIONS + OPTIONS)
    for _ in range(1100):
        globs = wanted_globs(source)
        asked = questions_about(source, len(globs))
        if not has_answers(globs, asked):
            counts["cases of too many sets of states"] += 1
            continue
        file.end_case()
        for glob in globs:
            file.ask_glob("add", glob)
        for question in asked:
            answer = file.ask(*question)
            counts[f"{question[0]} answers, {question[1]}: {answer[0]}"] += 1
    return file


def questions_about(source, count):
    """Returns questions about so many globs."""
    other = str(1 + source.below(count - 1))
    asked = [["covered", "all", "0"], ["covered", "relative", "0"], ["overlap", source.pick(["all", "relative"]), "0", other]]
    if source.chance(0.5):
        asked.append(["covered", source.pick(["all", "relative"]), other])
    if count > 2:
        asked.append(["overlap", source.pick(["all", "relative"]), "1", "2"])
    return asked


def has_answers(globs, asked):
    """Returns whether no walk for these questions reaches its limit."""
    case = Case()
    case.globs = globs
    try:
        for question in asked:
            case.answer(question)
    except TooMany:
        return False
    return True


def wanted_globs(source, tries=5):
    """Returns globs of which the others cover the first, over relative paths, or do not, as chance decides, or the last that were
    made. Most globs that match no relative path are left out."""
    want = source.chance(0.15)
    for _ in range(tries):
        globs = related_globs(source)
        try:
            is_empty = missed(globs[0], (), "relative") is None
            if not is_empty and (missed(globs[0], tuple(globs[1:]), "relative") is None) == want:
                break
        except TooMany:
            pass
    return globs


FILES = {
    "crates/replay/data/realistic.txt": realistic,
    "crates/replay/data/adversarial.txt": adversarial,
    "crates/replay/data/neighbours.txt": neighbours,
    "crates/replay/data/many_globs.txt": many_globs,
    "crates/replay/data/texts.txt": texts,
    "model/commands.txt": commands,
    "crates/replay/data/large_sets.txt": large_sets,
    "crates/replay/data/many_folders.txt": many_folders,
    "crates/replay/data/relations.txt": relations,
}


def make_file(seed, name):
    """Returns the text of a file, and the counts of what it is made of. Each file has choices of its own."""
    counts = Counter()
    source = Source(1000 * seed + list(FILES).index(name))
    return "\n".join(FILES[name](counts, source).lines) + "\n", counts


def make(seed, jobs):
    """Returns the text of each file by its name, and the counts of what all are made of. Makes `jobs` files at a time."""
    with ProcessPoolExecutor(jobs) as pool:
        made = dict(zip(FILES, pool.map(make_file, [seed] * len(FILES), FILES)))
    return {name: text for name, (text, _) in made.items()}, sum((counts for _, counts in made.values()), Counter())
