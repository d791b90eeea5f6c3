"""Lists of globs that are chosen against one structure, and ordinary lists of the same number and size."""

import collections
import random

import colliding_keys

# A row's paths; half of them are made as those that match, the others with what no glob has.
PATHS = 10_000
MISSES = 1_000
LETTERS = "abcdefghijklmnopqrstuvwxyz"
# The most that the kernel hands to a program is 6 MB, so there are few keys of 100 KB, and texts that begin with each other
# are shorter where there are more of them.
LONG_KEYS, LONG_KEY = 15, 100_000
NESTED_BYTES, LONGEST_NESTED = 3_200_000, 500
# Characters with as many first bytes as UTF-8 has, but for those with a meaning in globs.
CHARACTERS = [chr(code) for code in (*range(0x30, 0x3A), *range(0x41, 0x5B), *range(0x61, 0x7B), *range(0xA1, 0x800, 0x40))]
CHARACTERS += [chr(0x1000 * lead) for lead in (*range(1, 0xD), 0xE, 0xF)] + [chr(0x40000 * lead) for lead in range(1, 5)]

List = collections.namedtuple("List", "globs paths")


def mixed(some, others):
    """Paths of which about half are from either list, in random order."""
    rng = random.Random(51)
    return [rng.choice(some if rng.random() < 0.5 else others) for _ in range(PATHS)]


def tables(glob, path, colliding):
    """The lists for a table: globs and paths that end in keys that collide, and in ordinary ones."""
    def lists(count):
        for keys in (colliding(count + MISSES, count), colliding_keys.ordinary(count + MISSES)):
            yield List([glob + key for key in keys[:count]], [path + key for key in mixed(keys[:count], keys[count:])])

    return lists


def one_write(count, _):
    return colliding_keys.one_write(count)


def long_keys(of_long):
    """The lists for a table of few long keys among short ones, all of one hash. The paths are as long, or short."""
    def lists(count):
        for make in (colliding_keys.one_write, colliding_keys.ordinary):
            short, long = make(count - LONG_KEYS + MISSES), make(2 * LONG_KEYS, LONG_KEY)
            paths = long if of_long else mixed(short[:-MISSES], short[-MISSES:])
            yield List(short[:-MISSES] + long[:LONG_KEYS], paths)

    return lists


def shapes(*shape_of_each):
    """The lists of globs and paths that have shapes: functions of an index and the number of globs, one for each of the four."""
    chosen_glob, chosen_path, ordinary_glob, ordinary_path = shape_of_each

    def lists(count):
        rng = random.Random(52)
        asked = [rng.randrange(2 * count) for _ in range(PATHS)]
        for glob, path in ((chosen_glob, chosen_path), (ordinary_glob, ordinary_path)):
            yield List([glob(index, count) for index in range(count)], [path(index, count) for index in asked])

    return lists


def word(index, length):
    """Letters that are as good as random, the same for an index."""
    return "".join(random.Random(index).choices(LETTERS, k=length))


def code(index, alphabet=LETTERS, length=4):
    """So many letters, others for each index."""
    return "".join(alphabet[index // len(alphabet) ** at % len(alphabet)] for at in range(length))


def nesting(count):
    return max(1, min(LONGEST_NESTED, NESTED_BYTES // count))


def nested(index, count):
    return code(index // nesting(count)) + "a" * (index % nesting(count))


SHARED = 24
NESTED_BRACES, ORDINARY_BRACES = "{a,{b,{c,{d,{e,f}}}}}", "{abc,def,ghi,jkl,mno}"
OPTIONAL_LETTERS = "{,a}{,a}{,a}{,a}{,a}"

# For each row the function from a number of globs to the chosen list and the ordinary one.
TABLES = {
    f"{kind}, {how}": tables(glob, path, colliding)
    for kind, glob, path in (
        ("whole paths", "", ""),
        ("last components", "**/", "src/"),
        ("extensions", "*", "a"),
        ("required extensions", "a*", "ab"),
    )
    for how, colliding in (("one write", one_write), ("byte by byte", colliding_keys.by_byte))
}
TABLES["15 keys of 100 KB, short paths"] = long_keys(False)
TABLES["15 keys of 100 KB, long paths"] = long_keys(True)

OTHERS = {
    "tries, a shared start": shapes(
        lambda index, _: "a" * SHARED + code(index, "ab", 18) + "*",
        lambda index, _: "a" * SHARED + code(index, "ab", 18) + "/x.rs",
        lambda index, _: word(index, SHARED + 18) + "*",
        lambda index, _: word(index, SHARED + 18) + "/x.rs",
    ),
    "tries, a shared end": shapes(
        lambda index, _: "*" + code(index, "ab", 18) + "a" * SHARED,
        lambda index, _: "src/x" + code(index, "ab", 18) + "a" * SHARED,
        lambda index, _: "*" + word(index, SHARED + 18),
        lambda index, _: "src/x" + word(index, SHARED + 18),
    ),
    "tries, each begins with another": shapes(
        lambda index, count: nested(index, count) + "*",
        lambda index, count: code(index // nesting(count)) + "a" * nesting(count),
        lambda index, count: word(index, len(nested(index, count))) + "*",
        lambda index, count: word(index, 4 + nesting(count)),
    ),
    "tries, many children": shapes(
        lambda index, _: code(index, CHARACTERS, 3) + "*",
        lambda index, _: code(index, CHARACTERS, 3) + "/x.rs",
        lambda index, _: word(index, len(code(index, CHARACTERS, 3).encode())) + "*",
        lambda index, _: word(index, len(code(index, CHARACTERS, 3).encode())) + "/x.rs",
    ),
    "lazy DFA, many sets": shapes(
        lambda index, _: f"*a????????.e{index}",
        lambda index, _: f"{code(index, 'ab', 18)}{code(index, 'ba', 18)}.e{index}",
        lambda index, _: f"*{word(index, 9)}.e{index}",
        lambda index, _: f"{word(index + 1, 27)}{word(index, 9)}.e{index}",
    ),
    "braces, nested": shapes(
        lambda index, _: NESTED_BRACES + code(index),
        lambda index, _: "f" + code(index),
        lambda index, _: ORDINARY_BRACES + code(index),
        lambda index, _: "mno" + code(index),
    ),
    "braces, repeated": shapes(
        lambda index, _: OPTIONAL_LETTERS + code(index),
        lambda index, _: "aaaaa" + code(index),
        lambda index, _: "{" + word(index, 9) + "," + word(index + 1, 8) + "}" + code(index),
        lambda index, _: word(index, 9) + code(index),
    ),
    "stars": shapes(
        lambda index, _: "*a*a*a*a*" + code(index),
        lambda index, _: "a" * 40 + code(index),
        lambda index, _: "*" + word(index, 7) + "*" + code(index),
        lambda index, _: word(index + 1, 33) + word(index, 7) + code(index),
    ),
    "stars, recursive": shapes(
        lambda index, _: "**/a/**/a/**/a/" + code(index),
        lambda index, _: "a/" * 20 + code(index),
        lambda index, _: "**/" + word(index, 11) + "/" + code(index),
        lambda index, _: "src/" * 7 + word(index, 11) + "/" + code(index),
    ),
}
ROWS = {**{f"tables: {name}": lists for name, lists in TABLES.items()}, **OTHERS}
