#!/usr/bin/env python3
"""Makes each allocation of each call fail, one after another, over an extension module that is linked with failing_malloc.c.

Each call has to raise MemoryError or to answer as it does otherwise, and all objects have to answer after it.
"""

import os

from globset import Glob, GlobError, GlobSet, IgnoreRules, IgnoreStack, escape
from globset.relations import covering, overlap, unreachable, unreachable_rules

PATHS = ["src/a.py", b"b.c", "README", "a" * 300] * 600
LINES = ["*.py", "!keep.py", "/src/**/[ab]*", "build/", "[a"]
PATTERNS = ["*.py", "src/**/[ab]*", "{a,b*}c", "**", "*a*b*", "README"]


def rejected():
    try:
        Glob("{a" * 200)
    except GlobError as error:
        return str(error)


def on_set(call):
    return lambda: call(GlobSet(PATTERNS))


def on_ignore(call):
    return lambda: call(IgnoreRules(LINES))


def in_walk():
    walk = IgnoreStack(ignore_case=True)
    walk.add_file(LINES)
    walk.enter("src/tool")
    walk.add_file("!/*.py")
    said = walk.decide("a.py"), walk.decide_many(["a.py", "build/"])
    walk.leave()
    return said, walk.decide("src/tool/a.py")


CALLS = {
    "Glob": lambda: Glob("src/**/[ab]*.{py,c}").pattern,
    "GlobError": rejected,
    "regex": lambda: Glob("*[a-z]" * 100).regex,
    "Glob.match": lambda: Glob("src/*.py").match("src/a.py"),
    "Glob.match_many": lambda: Glob("*[ab]*.py").match_many(PATHS),
    "Glob.filter": lambda: Glob("*[ab]*.py").filter(PATHS),
    "GlobSet": on_set(len),
    "match": on_set(lambda globs: globs.match("src/b.py")),
    "matches": on_set(lambda globs: globs.matches("src/b.py")),
    "matches_all": on_set(lambda globs: globs.matches_all("src/b.py")),
    "can_match_below": on_set(lambda globs: globs.can_match_below("src")),
    "match_many": on_set(lambda globs: globs.match_many(PATHS)),
    "matches_many": on_set(lambda globs: globs.matches_many(PATHS)),
    "filter": on_set(lambda globs: globs.filter(PATHS)),
    "escape": lambda: escape("*" * 1000),
    "covering": lambda: covering("src/**/[ab]*.py", PATTERNS),
    "overlap": lambda: overlap("a*", "*b"),
    "unreachable": lambda: unreachable(PATTERNS),
    "unreachable_rules": on_ignore(unreachable_rules),
    "IgnoreRules.decide": on_ignore(lambda rules: rules.decide("src/a/b/a.py", by="nearest")),
    "IgnoreRules.decide_many": on_ignore(lambda rules: rules.decide_many(PATHS)),
    "IgnoreRules.rules_many": on_ignore(lambda rules: rules.rules_many(PATHS)),
    "IgnoreRules.filter": on_ignore(lambda rules: rules.filter(PATHS)),
    "IgnoreRules.unread_lines": on_ignore(lambda rules: rules.unread_lines()),
    "IgnoreRules.line_text": on_ignore(lambda rules: rules.line_text(3)),
    "IgnoreStack": in_walk,
}


def outcome(call, number):
    """Returns what a call returns while an allocation fails, or MemoryError."""
    os.environ["GLOBSET_FAILED"] = str(number)
    try:
        return call()
    except MemoryError:
        return MemoryError
    finally:
        os.environ["GLOBSET_FAILED"] = ""


def main():
    kept, failures, answers = GlobSet(PATTERNS), 0, 0
    indexes = kept.matches_many(PATHS[:4])
    for name, call in CALLS.items():
        expected, count = call(), 1
        # A call ends without an error if it makes fewer allocations.
        while outcome(call, -count) is MemoryError:
            count += 1
            # This ends the count of the call, too.
            assert kept.matches_many(PATHS[:4]) == indexes, name
        assert count > 1, f"{name}: no allocation fails"
        failures += count - 1
        for number in range(1, count + 1):
            assert kept.matches_many(PATHS[:4]) == indexes, name
            said = outcome(call, number)
            if said is MemoryError:
                failures += 1
            else:
                assert said == expected, name
                answers += 1
    print(f"failed memory: {failures} exceptions and {answers} answers where an allocation failed")


if __name__ == "__main__":
    main()
