"""What a program that is checked by mypy has: it is not run."""

from __future__ import annotations

import pathlib
from typing import Dict, Iterator, List, Optional, Tuple

from globset import ErrorKind, Glob, GlobError, GlobSet, IgnoreRules, IgnoreStack, escape, ignore, pathspec, relations, walk

one: Glob = Glob("*.py", case_insensitive=True)
yes: bool = one.match("a.py")
some: List[str] = one.filter(["a.py"])
bytes_of: List[bytes] = GlobSet([one, "*.c"]).filter(iter([b"a.c"]))
paths: List[pathlib.Path] = GlobSet([one]).filter(pathlib.Path(".").iterdir())
indexes: List[List[int]] = GlobSet([one]).matches_many(["a", b"b", pathlib.Path("c")])
answers: List[bool] = GlobSet([one]).match_many({"a": 1})
globs: Tuple[Glob, ...] = GlobSet([one]).globs
first: Glob = GlobSet([one])[0]
others: Tuple[Glob, ...] = GlobSet(GlobSet([one]))[1:]
patterns: List[str] = [glob.pattern for glob in GlobSet([one]) if glob in GlobSet([one])]
options: Dict[str, bool] = one.options
counts: Dict[GlobSet, int] = {GlobSet([]): len(GlobSet([]))}
texts: Iterator[str] = walk(".", ["*.py"], ignored=GlobSet(["build/**"]))
raw: Iterator[bytes] = walk(b".", [one])
below: bool = GlobSet([one]).can_match_below(b"a")
escaped: str = escape("a")
covered: relations.Coverage = relations.covering("*.c", [one, "*"], domain=relations.Domain.ALL_PATHS)
missed: str = covered.path or ""
shared: relations.Intersection = relations.overlap(one, "a", limit=9)
never: List[Tuple[int, ...]] = [rule.cover or () for rule in relations.unreachable(GlobSet([one]))]
never_of: List[relations.RuleReachability] = relations.unreachable_rules(IgnoreStack(), 1, limit=9)
ignored_lines: List[Optional[int]] = [rule.below_ignored for rule in relations.unreachable_rules(IgnoreRules("a"))]

visible: Iterator[str] = walk(".", ["*.py"], ignored=True)
rules: IgnoreRules = IgnoreRules(["*.o", b"*.a"], ignore_case=True)
ignored: bool = rules.is_ignored(pathlib.Path("a"), is_dir=True, by="nearest")
decision: Optional[ignore.Decision] = rules.decide(b"a")
decisions: List[Optional[bool]] = IgnoreStack().decide_many(["a", b"b"], "path")
rules_of_many: List[Optional[ignore.Decision]] = IgnoreStack().rules_many(["a", b"b"], "path")
others_of: List[pathlib.Path] = rules.filter(pathlib.Path(".").iterdir())
unread: List[int] = rules.unread_lines() + IgnoreStack().unread_lines(0)
line_texts: List[str] = [rules.line_text(1), IgnoreStack().line_text(0, 1)]
spec: pathspec.GitIgnoreSpec = pathspec.GitIgnoreSpec.from_lines(["*.o"]) + pathspec.PathSpec.from_lines("gitignore", ["a"])
named: pathspec.GitIgnoreSpec = pathspec.GitIgnoreSpec.from_lines("gitwildmatch", ["*.o"])
matching: List[pathlib.Path] = list(spec.match_files([pathlib.Path("a.o")], negate=True))
found: List[str] = list(spec.match_tree_files(pathlib.Path(".")))
index: Optional[int] = spec.check_file("a.o").index


def kind_of(text: str) -> ErrorKind:
    try:
        Glob(text)
    except GlobError as error:
        return error.kind
    raise ValueError(text)


class Named(GlobSet):
    """A class of a program's own."""
