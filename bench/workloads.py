"""Globs and paths for the benchmark. Everything is made from fixed seeds, so two runs have the same workloads."""

import random

FOLDERS = (
    "src lib app bin core util common config docs tests examples scripts tools assets images fonts styles public static"
    " server client shared api models views forms routes hooks store queue cache auth user admin vendor target build dist"
    " node_modules include kernel driver net crypto codec parser lexer syntax types math time file"
).split()
NAMES = (
    "main index mod test utils helper config setup parser reader writer buffer stream socket request response handler"
    " session token table schema query record column filter sorter worker logger matcher pattern string number vector"
    " matrix graph node edge tree list map set heap trie hash error result option state"
).split()
EXTENSIONS = (
    "rs c h cc hpp py js ts tsx json toml yaml md txt html css scss svg png jpg gif o a so lock log go java rb sh"
).split()


def path(rng):
    """A path as in a source repository: up to seven folders, and mostly an extension."""
    depth = rng.choices(range(8), weights=[3, 7, 10, 10, 7, 4, 2, 1])[0]
    folders = [rng.choice(FOLDERS) + (str(rng.randrange(100)) if rng.random() < 0.25 else "") for _ in range(depth)]
    name = rng.choice(NAMES)
    if rng.random() < 0.6:
        name += rng.choice("_-.") + rng.choice(NAMES)
    if rng.random() < 0.04:
        name = "." + name
    if rng.random() < 0.9:
        name += "." + rng.choice(EXTENSIONS)
    return "/".join(folders + [name])


def paths(count, seed=11):
    rng = random.Random(seed)
    return [path(rng) for _ in range(count)]


def long_paths(count):
    """Paths of about 1,000 bytes."""
    rng = random.Random(12)
    return ["/".join(path(rng) for _ in range(32)) for _ in range(count)]


def repeated_letters(count):
    """Paths of 20 to 60 times the letter a, on which a search that goes back would be slow."""
    rng = random.Random(13)
    return ["a" * rng.randint(20, 60) + rng.choice(["", "b", "c", ".a"]) for _ in range(count)]


IGNORED = (
    "target/** dist/** vendor/** *.o *.a *.so *.lock *.log **/node_modules/** **/.git* **/build/* **/*.png **/*.gif"
    " **/cache/** **/test_* Makefile README* **/.env docs/** src/*.rs src/**/*.bak lib/**/*.h **/*~ *.swp"
    " **/__pycache__/** *.py[co] assets/*.svg **/*.min.js setup.json **/static/*.json"
).split()


def more_ignored():
    """The 100 globs of a long ignore file."""
    folders = (
        "node_modules __pycache__ .cache .venv .tox .gradle .idea .vscode bower_components .next .parcel coverage .eggs"
        " Pods .bundle .sass-cache CMakeFiles"
    ).split()
    roots = "target dist out obj logs tmp docs/_build public/assets vendor/bundle .git".split()
    extensions = (
        "o a so dylib dll exe pyc class jar log tmp swp swo bak orig rej iml iws pdb lib obj pid seed tgz"
    ).split()
    others = (
        "*.py[co] *.sw[a-p] **/.DS_Store **/Thumbs.db **/*~ .#* **/.env.* npm-debug.log* **/*.egg-info/** [Dd]ebug/**"
        " [Rr]elease/** **/[Bb]in/** **/[Oo]bj/** **/*_test.go **/test_*.py src/**/generated/** lib/**/*.min.js"
        " docs/**/*.html assets/**/*.map **/Makefile.in **/static/**/*.csv **/.#* **/#*# **/package-lock.json"
        " Cargo.lock **/index/*.json **/cmake-build-*/** *.[Tt]mp"
    ).split()
    globs = [f"**/{folder}/**" for folder in folders] + [f"{root}/**" for root in roots]
    globs += [f"*.{extension}" for extension in extensions] + others
    globs += [f"**/{folder}/*.{extension}" for folder in FOLDERS[:6] for extension in EXTENSIONS[:5]]
    return globs[:100]


LONG_PATH_GLOBS = more_ignored()[:26] + ["*token*[0-9]*lock*", "**/parser/**/lexer/*", "*.py[co]", "**/*_test_*", "zz*"]


def owners():
    """1,000 globs as in a file that says who owns which folder."""
    rng = random.Random(14)
    globs = []
    for _ in range(1000):
        folders = [rng.choice(FOLDERS) + rng.choice(["", str(rng.randrange(100))]) for _ in range(rng.randint(1, 3))]
        globs.append("/".join(folders) + rng.choice(["/**", "/**", "/*", "/**/*.rs", "/**/test*"]))
    return globs


def words_in_order():
    """1,000 globs, each of two words that a path contains in this order."""
    rng = random.Random(15)
    return [
        f"*{rng.choice(FOLDERS)}{rng.randrange(100)}*{rng.choice(['', '/', '_', '-'])}{rng.choice(NAMES)}*"
        for _ in range(1000)
    ]


def folders_below_folders():
    rng = random.Random(16)
    return [
        f"{rng.choice(FOLDERS)}/{rng.choice(FOLDERS)}{index}/**/{rng.choice(NAMES)}*" for index in range(1000)
    ]


def infixes_with_digits():
    """1,000 globs of words with numbers, of which few are in the paths, though their words are in many."""
    rng = random.Random(18)
    return [f"*{rng.choice(FOLDERS)}{rng.randrange(1000)}*" for _ in range(1000)]


def workloads(lines):
    """The name, the arguments and the paths of each workload. The last ones have fewer lines, as they are slow."""
    usual = paths(lines)
    few = usual[: max(1, lines // 10)]
    long = long_paths(max(1, lines // 100))
    return [
        ("1 extension", ["*.rs"], usual),
        ("1 glob with **, -s", ["-s", "src/**/*.rs"], usual),
        ("1 glob with classes", ["**/[a-m]*.[ch]"], usual),
        ("1 glob with braces", ["*.{c,h,cc,hpp}"], usual),
        ("1 part of a path", ["*token*"], usual),
        ("2 globs, -i", ["-i", "*README*", "*.JPG"], usual),
        ("1,000 whole paths", paths(1000, seed=17), usual),
        ("30 extensions", [f"*.{extension}" for extension in EXTENSIONS], usual),
        ("30 ignored", IGNORED, usual),
        ("30 ignored, -s", ["-s"] + IGNORED, usual),
        ("30 ignored, -n", ["-n"] + IGNORED, usual),
        (
            "300 endings",
            [f"{one}*/{two}*.{end}" for one in FOLDERS[:10] for two in NAMES[:10] for end in ("rs", "c", "py")],
            usual,
        ),
        ("100 with ? and *", [f"*{one}?{two}*" for one in NAMES[:10] for two in NAMES[30:40]], usual),
        ("100 ignored", more_ignored(), usual),
        ("1,000 owned folders", owners(), usual),
        (
            "10,000 extensions",
            [f"**/*.x{index}" for index in range(10_000 - len(EXTENSIONS))] + [f"**/*.{e}" for e in EXTENSIONS],
            usual,
        ),
        (
            "repeated letters",
            "*a*a*a*a*b *aaaa?aaaa*c a*a*a*b*a*c **/a?a?a*[xyz] *ab*ba* *{aab,aba,baa}* [ab]*[ab]*c*".split(),
            repeated_letters(max(1, lines // 5)),
        ),
        ("1,000-byte paths", LONG_PATH_GLOBS, long),
        ("1,000-byte paths, -n", ["-n"] + LONG_PATH_GLOBS, long),
        ("1,000 infixes with digits", infixes_with_digits(), usual[: max(1, lines // 20)]),
        ("1,000 with two words in order", words_in_order(), usual[: max(1, lines // 20)]),
        ("1,000 below folders, -s", ["-s"] + folders_below_folders(), few),
    ]


# Kinds of globs: for each a function from an index to the glob with this index.
KINDS = {
    "whole paths": lambda index: f"src/part{index % 97}/file{index}.rs",
    "last components": lambda index: f"**/name{index}.rs",
    "extensions": lambda index: f"*.x{index}",
    "prefixes": lambda index: f"folder{index}/**",
    "suffixes": lambda index: f"*_{index}_test",
    "two numbers": lambda index: f"*a{index}*b{index}*",
}


def globs_of_kind(kind, count):
    return [KINDS[kind](index) for index in range(count)]


def direct_globs(count):
    """Globs that hash tables and tries decide, a fifth of each kind."""
    kinds = [kind for kind in KINDS if kind != "two numbers"]
    return [KINDS[kinds[index % len(kinds)]](index) for index in range(count)]
