"""The sets of globs and the paths of `bench/calls`. They are made from fixed seeds, unless a comment says otherwise."""

import random
import re
import subprocess

import workloads

# The patterns of an ignore file, as they stand there.
IGNORE_FILE = """target/ /dist/ vendor/* keep.txt *.o *.a *.so *.lock *.log node_modules/ .env .env.* /build/** **/cache/*.json
*.png *.gif [Tt]humbs.db *~ *.sw[a-p] __pycache__/ *.py[co] /docs/**/*.html src/**/*.bak lib/*/generated *.min.js /assets/*.svg
test_?[0-9]* /tools/** .*.lock *.tmp""".split()
PLAIN = re.compile("[A-Za-z0-9_][A-Za-z0-9_./+-]*")


def paths(count):
    """So many paths in random order: those of the files below /usr of this machine, and if there are too few, others."""
    found = subprocess.run(["find", "/usr", "-type", "f", "-print0"], stdout=subprocess.PIPE, check=False).stdout
    # A file of paths has one in each line.
    usable = sorted(path[1:].decode() for path in found.split(b"\0") if path and path.isascii() and b"\n" not in path)
    rng = random.Random(31)
    rng.shuffle(usable)
    usable = usable[:count]
    usable += workloads.paths(count - len(usable))
    rng.shuffle(usable)
    return usable


def ignored(patterns):
    """Globs for the patterns of an ignore file: for what a pattern names, and for all below it."""
    globs = []
    for pattern in patterns:
        glob = pattern.strip("/")
        if "/" not in pattern.rstrip("/"):
            glob = "**/" + glob
        if not pattern.endswith("/"):
            globs.append(glob)
        if not pattern.endswith("/**"):
            globs.append(glob + "/**")
    return globs


def plain(lines):
    """Those of the paths that are globs which match themselves alone."""
    return [path for path in lines if PLAIN.fullmatch(path)]


def whole_paths(count, lines):
    return random.Random(32).sample(plain(lines), count)


def owned_folders(count, lines):
    """Globs as in a file that says who owns which folder, for folders of the paths."""
    rng = random.Random(33)
    globs = {}
    while len(globs) < count:
        folders = rng.choice(lines).split("/")[:-1]
        folder = "/".join(folders[: rng.randint(1, 5)])
        if PLAIN.fullmatch(folder):
            globs[folder + rng.choice(["/**", "/**", "/*", "/**/*.rs", "/**/test*"])] = None
    return list(globs)


def sets(lines):
    """The name, whether `*` and `?` leave out `/`, and the globs of each set, for these paths."""
    return [
        ("`*.rs`", False, ["*.rs"]),
        ("`src/**/*.rs`", False, ["src/**/*.rs"]),
        (f"{len(IGNORE_FILE)} lines of an ignore file", True, ignored(IGNORE_FILE)),
        ("100 with `?` and `*`", False, [f"*{one}?{two}*" for one in workloads.NAMES[:10] for two in workloads.NAMES[30:40]]),
        ("1,000 whole paths", False, whole_paths(1_000, lines)),
        ("1,000 owned folders", False, owned_folders(1_000, lines)),
    ]
