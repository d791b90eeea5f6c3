"""The classes and calls of the package ``pathspec`` that programs use, over ``globset.ignore``.

>>> from globset.pathspec import GitIgnoreSpec, PathSpec
>>> spec = GitIgnoreSpec.from_lines(["*.log", "!keep.log", "build/"])
>>> spec.match_file("a/b.log"), spec.match_file("keep.log"), spec.match_file("build/out.txt")
(True, False, True)
>>> list(spec.match_files(["a.log", "a.txt"]))
['a.log']

Lines are read as git reads those of a ``.gitignore``. The classes differ in what they decide below a directory:

- ``GitIgnoreSpec`` follows git's rule: everything below an ignored directory is ignored, and no line keeps it;
- ``PathSpec`` takes the nearest decision: that about the path, or else about the nearest directory above it that has one. This is
  what lists of files to include mean.

A path is ``str`` or ``os.PathLike``. ``normalize_file`` of ``util`` is applied to it: ``./x`` and ``/x`` are read as ``x``. A
``/`` at the end says that it is the path of a directory. An empty path, as ``./`` is read, is that of the root, about which no
line decides. To match means to be included, by a line without ``!``: where the lines are those of a ``.gitignore``, to be
ignored.
"""

from __future__ import annotations

import codecs
import os
from dataclasses import dataclass
from itertools import islice
from typing import (
    TYPE_CHECKING,
    Any,
    Callable,
    Collection,
    Iterable,
    Iterator,
    List,
    Optional,
    Tuple,
    Type,
    TypeVar,
    Union,
)

from . import _pathspec_util as util
from ._pathspec_util import OnError, TreeEntry
from .ignore import IgnoreRules

if TYPE_CHECKING:
    from .ignore import By

__all__ = [
    *("CheckResult", "GitIgnorePattern", "GitIgnorePatternError", "GitIgnoreSpec", "GitWildMatchPattern"),
    *("GitWildMatchPatternError", "PathSpec", "util"),
]

_Path = Union[str, "os.PathLike[str]"]
_AnyPath = TypeVar("_AnyPath", bound=_Path)
_AnySpec = TypeVar("_AnySpec", bound="PathSpec")
_Line = Union[str, bytes]
_Separators = Optional[Collection[str]]
_Factory = Union[str, Callable[[Any], "GitIgnorePattern"]]

# How many paths of an iterator are asked about at a time.
_BLOCK = 1024


class GitIgnorePatternError(ValueError):
    """A line has a pattern that git cannot read."""


GitWildMatchPatternError = GitIgnorePatternError


class GitIgnorePattern:
    """A line of an ignore file.

    ``pattern`` is the line as it was given. ``include`` is ``True`` if paths that match it are included, ``False`` if it is
    negated by ``!``, and ``None`` if it has no pattern, as a comment. Raises ``GitIgnorePatternError``, which is a
    ``ValueError``, if git cannot read the pattern.

    >>> [GitIgnorePattern(line).include for line in ["*.c", "!a.c", "# text"]]
    [True, False, None]
    """

    __slots__ = ("pattern", "include")

    pattern: _Line
    include: Optional[bool]

    def __init__(self, pattern: _Line) -> None:
        rules = IgnoreRules([pattern])
        if rules.unread_lines():
            raise GitIgnorePatternError(f"Invalid git pattern: {pattern!r}")
        self.pattern = pattern
        self.include = _include_of(str.encode(pattern, "utf-8", "surrogateescape") if isinstance(pattern, str) else pattern)

    def __eq__(self, other: object) -> bool:
        if not isinstance(other, GitIgnorePattern):
            return NotImplemented
        return self.pattern == other.pattern

    def __hash__(self) -> int:
        return hash(self.pattern)

    def __repr__(self) -> str:
        return f"{type(self).__name__}({self.pattern!r})"


GitWildMatchPattern = GitIgnorePattern


@dataclass(frozen=True)
class CheckResult:
    """What a spec says of a path: ``file``, the path; ``include``, whether it is included; ``index``, the deciding pattern's.

    ``include`` is ``False`` if a negated pattern decides. If no pattern does, ``include`` and ``index`` are ``None``.
    """

    file: Any
    include: Optional[bool]
    index: Optional[int]


class PathSpec:
    """Patterns of which the nearest decision counts: that about a path, or else about the nearest directory above with one.

    About each path or directory, the last pattern that matches it decides. The package ``pathspec`` takes instead the last
    pattern that matches the path or some directory above it.

    Specs are equal if their patterns are, in the same order. ``+`` makes a spec of the patterns of both, and ``+=`` adds those of
    another. A spec without patterns is false.

    >>> spec = PathSpec.from_lines("gitwildmatch", ["/src", "!/src/secret.py"])
    >>> spec.match_file("src/run.py"), spec.match_file("src/secret.py")
    (True, False)
    """

    _by: By = "nearest"
    # Both are replaced together, so a call of another thread has what belongs together.
    _state: Tuple[Tuple[GitIgnorePattern, ...], IgnoreRules]

    def __init__(self, patterns: Iterable[GitIgnorePattern]) -> None:
        each = tuple(patterns)
        for pattern in each:
            if not isinstance(pattern, GitIgnorePattern):
                raise TypeError(f"a pattern is a GitIgnorePattern, not {type(pattern).__name__}")
        self._state = each, IgnoreRules(pattern.pattern for pattern in each)

    @classmethod
    def from_lines(cls: Type[_AnySpec], pattern_factory: _Factory, lines: Iterable[_Line]) -> _AnySpec:
        """Makes a spec of lines, with or without their ends. Lines without any character are left out.

        ``pattern_factory`` is ``"gitwildmatch"``, ``"gitignore"`` or ``GitIgnorePattern``. Raises ``KeyError`` for another name,
        ``TypeError`` if the lines are one text, ``ValueError`` if a line has a line feed before its end, and
        ``GitIgnorePatternError`` for the first line that git cannot read.

        >>> len(PathSpec.from_lines("gitwildmatch", ["*.c\\n", "", "!a.c"]))
        2
        """
        return cls(_patterns_of(pattern_factory, lines))

    @property
    def patterns(self) -> Tuple[GitIgnorePattern, ...]:
        """The patterns, one for each line.

        >>> PathSpec.from_lines("gitignore", ["*.c", "!a.c"]).patterns[1].pattern
        '!a.c'
        """
        return self._state[0]

    def match_file(self, file: _Path, separators: _Separators = None) -> bool:
        """Returns whether the path is included.

        >>> PathSpec.from_lines("gitwildmatch", ["src/**/*.py"]).match_file("./src/a/b.py")
        True
        """
        name = util.normalize_file(file, separators)
        return bool(name) and self._state[1].is_ignored(name, by=self._by)

    def check_file(self, file: _AnyPath, separators: _Separators = None) -> CheckResult:
        """Returns whether the path is included, and the index of the pattern that decides.

        >>> PathSpec.from_lines("gitwildmatch", ["*.py", "!a.py"]).check_file("a.py")
        CheckResult(file='a.py', include=False, index=1)
        """
        name = util.normalize_file(file, separators)
        decision = self._state[1].decide(name, by=self._by) if name else None
        if decision is None:
            return CheckResult(file, None, None)
        return CheckResult(file, not decision.negated, decision.line - 1)

    def check_files(self, files: Iterable[_AnyPath], separators: _Separators = None) -> Iterator[CheckResult]:
        """Yields what ``check_file`` returns for each path. Raises ``TypeError`` if ``files`` is one path."""
        return (self.check_file(file, separators) for file in _many(files))

    def match_files(
        self, files: Iterable[_AnyPath], separators: _Separators = None, *, negate: Optional[bool] = None
    ) -> Iterator[_AnyPath]:
        """Yields the paths that are included, or with ``negate`` those that are not.

        Raises ``TypeError`` if ``files`` is one path. It reads up to 1,024 paths ahead, and decides about them by one call of
        the library.

        >>> list(PathSpec.from_lines("gitwildmatch", ["*.py"]).match_files(["a.py", "b.c"], negate=True))
        ['b.c']
        """
        named = ((file, util.normalize_file(file, separators)) for file in _many(files))
        return self._matching(named, bool(negate))

    def match_entries(
        self, entries: Iterable[TreeEntry], separators: _Separators = None, *, negate: Optional[bool] = None
    ) -> Iterator[TreeEntry]:
        """Yields the entries of a tree that are included, or with ``negate`` the others.

        The entry of a directory, and of a link to one, counts as a directory.
        """
        named = ((entry, util.normalize_file(entry.path, separators) + "/" * entry.is_dir()) for entry in _many(entries))
        return self._matching(named, bool(negate))

    def match_tree_entries(
        self, root: _Path, on_error: OnError = None, follow_links: Optional[bool] = None, *, negate: Optional[bool] = None
    ) -> Iterator[TreeEntry]:
        """Yields the entries below a directory that are included, with their paths relative to it.

        ``root``, ``on_error`` and ``follow_links`` are those of ``util.iter_tree_entries``, which says what is raised. A link
        that is not followed is no directory.
        """
        entries = util.iter_tree_entries(root, on_error, follow_links)
        return self._matching(((entry, entry.path + "/" * entry.is_dir(follow_links)) for entry in entries), bool(negate))

    def match_tree_files(
        self, root: _Path, on_error: OnError = None, follow_links: Optional[bool] = None, *, negate: Optional[bool] = None
    ) -> Iterator[str]:
        """Yields the paths of the files below a directory that are included, as ``match_tree_entries`` does for entries."""
        return self.match_files(util.iter_tree_files(root, on_error, follow_links), negate=negate)

    match_tree = match_tree_files

    def check_tree_files(
        self, root: _Path, on_error: OnError = None, follow_links: Optional[bool] = None
    ) -> Iterator[CheckResult]:
        """Yields what ``check_file`` returns for each file below a directory."""
        return self.check_files(util.iter_tree_files(root, on_error, follow_links))

    def _matching(self, named: Iterable[Tuple[Any, str]], negate: bool) -> Iterator[Any]:
        """Yields the objects whose paths are included."""
        rules, rest = self._state[1], iter(named)
        block = list(islice(rest, _BLOCK))
        while block:
            decisions = rules.decide_many([name for _, name in block], self._by)
            for (asked, name), is_included in zip(block, decisions):
                if (bool(name) and is_included is True) != negate:
                    yield asked
            block = list(islice(rest, _BLOCK))

    def __len__(self) -> int:
        return len(self._state[0])

    def __eq__(self, other: object) -> bool:
        if not isinstance(other, PathSpec):
            return NotImplemented
        return self._by == other._by and self.patterns == other.patterns

    def __add__(self: _AnySpec, other: PathSpec) -> _AnySpec:
        if not isinstance(other, PathSpec):
            return NotImplemented
        return type(self)(self.patterns + other.patterns)

    def __iadd__(self: _AnySpec, other: PathSpec) -> _AnySpec:
        if not isinstance(other, PathSpec):
            return NotImplemented
        self._state = type(self)(self.patterns + other.patterns)._state
        return self

    def __repr__(self) -> str:
        return f"{type(self).__name__}({list(self.patterns)!r})"


class GitIgnoreSpec(PathSpec):
    """Patterns that follow git's rule: everything below an ignored directory is ignored, and no pattern keeps it.

    About a path or a directory, the last pattern that matches it decides. A directory that a pattern keeps says nothing about
    what is below it.

    >>> spec = GitIgnoreSpec.from_lines(["/src", "!/src/secret.py"])
    >>> spec.check_file("src/secret.py")
    CheckResult(file='src/secret.py', include=True, index=0)
    """

    _by: By = "git"

    @classmethod
    def from_lines(  # type: ignore[override]
        cls: Type[_AnySpec],
        lines: Union[Iterable[_Line], _Factory],
        pattern_factory: Union[Iterable[_Line], _Factory, None] = None,
    ) -> _AnySpec:
        """Makes a spec of lines, as that of ``PathSpec``, also with the name of the pattern before or after them.

        >>> GitIgnoreSpec.from_lines("gitwildmatch", ["a"]) == GitIgnoreSpec.from_lines(["a"])
        True
        """
        if pattern_factory is None:
            return cls(_patterns_of(GitIgnorePattern, lines))
        if isinstance(lines, str) or callable(lines):
            lines, pattern_factory = pattern_factory, lines
        return cls(_patterns_of(pattern_factory, lines))


def _patterns_of(factory: Any, lines: Any) -> List[GitIgnorePattern]:
    """Returns the patterns of lines."""
    if isinstance(factory, str):
        if factory not in ("gitwildmatch", "gitignore"):
            raise KeyError(f"a pattern is 'gitwildmatch' or 'gitignore', not {factory!r}")
        factory = GitIgnorePattern
    if not callable(factory):
        raise TypeError(f"a pattern is given by its name or its class, not by {type(factory).__name__}")
    if isinstance(lines, (str, bytes)) or not hasattr(lines, "__iter__"):
        raise TypeError(f"lines are an iterable of them, not {type(lines).__name__}")
    return [factory(line) for line in lines if line]


def _include_of(line: bytes) -> Optional[bool]:
    """Returns whether a line includes paths, if git can read it. Its text ends before a NUL, and has no spaces at its end."""
    # Like a file, it may begin with a byte order mark.
    text = line[len(codecs.BOM_UTF8) :] if line.startswith(codecs.BOM_UTF8) else line
    text = text[:-1] if text.endswith(b"\n") else text
    # A space that a `\` escapes stays. Without it the text has a pattern, too.
    text = (text[:-1] if text.endswith(b"\r") else text).partition(b"\0")[0].rstrip(b" ")
    is_negated = text.startswith(b"!")
    if text.startswith(b"#") or text[is_negated:] in (b"", b"/", b"//"):
        return None
    return not is_negated


def _many(files: Iterable[Any]) -> Iterable[Any]:
    """Returns the paths, which are not one path."""
    if isinstance(files, (str, bytes)) or not hasattr(files, "__iter__"):
        raise TypeError(f"files are an iterable of them, not one {type(files).__name__}")
    return files
