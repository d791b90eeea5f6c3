"""Questions about all paths at once: whether globs cover a glob, whether two overlap, and which globs or rules never decide.

An answer that is about one path has a shortest such path, and the others hold for each path of a ``Domain``. Globs match as
``Glob.match`` does, also those that match nothing in a ``GlobSet``. Where a glob is asked for, a ``str`` is read as one under the
default options. The path of an answer is a ``str`` like those of ``os.fsdecode``: bytes that are not UTF-8 are surrogates in it.

Each question searches over rows, and ``limit`` is how many a search may have. A row is a set of states of the globs together with
a place in the domain. Paths may lead to exponentially many rows, but seldom do. Where a search has more, the answer is not known.
Searches release the interpreter's lock, and take memory that is at most linear in the rows, times the states of the globs.

>>> from globset import relations
>>> relations.covering("src/a/*.c", ["docs/**", "src/**"])
Coverage(covered=True, path=None)
>>> relations.overlap("a*", "*b")
Intersection(disjoint=False, path='ab')
"""

from __future__ import annotations

import enum
import operator
import sys
from typing import TYPE_CHECKING, Iterable, List, NamedTuple, Optional, Tuple, Union

from . import Glob, IgnoreRules, IgnoreStack, _read_globs
from .ignore import _index_of, _text_of

if TYPE_CHECKING:
    from . import _by_ctypes as _binding
    from ._library import RuleTold, Told
else:
    from ._choice import binding as _binding

__all__ = [
    *("Coverage", "Decides", "Domain", "Intersection", "Reachability", "RuleReachability"),
    *("covering", "overlap", "unreachable", "unreachable_rules"),
]


class Domain(enum.Enum):
    """The paths that a question is about."""

    #: All lists of bytes.
    ALL_PATHS = 0
    #: Relative paths as file systems have them: components with a ``/`` between them. None is empty, ``.`` or ``..``, or has a
    #: NUL.
    RELATIVE_PATHS = 1


class Decides(enum.Enum):
    """Which of the globs of a list that match a path decides about it."""

    FIRST = 0
    LAST = 1


class Coverage(NamedTuple):
    """Whether globs cover a glob. If they do not, ``path`` is a shortest path that the glob matches and they miss.

    ``covered`` is ``None``, and so is ``path``, if the search has more rows than its limit.
    """

    covered: Optional[bool]
    path: Optional[str]


class Intersection(NamedTuple):
    """Whether two globs match no path in common. If they match some, ``path`` is a shortest path that both match.

    ``disjoint`` is ``None``, and so is ``path``, if the search has more rows than its limit.
    """

    disjoint: Optional[bool]
    path: Optional[str]


class Reachability(NamedTuple):
    """Whether a glob of a list ever decides.

    If it does, ``path`` is a shortest path about which it decides. If it does not, ``cover`` has the indexes of globs that decide
    instead of it, and cover it together. None of them can be left out. It is one index if one of them covers the glob alone, and
    none if the glob matches no path of the domain.

    All three are ``None`` if a search has more rows than its limit.
    """

    decides: Optional[bool]
    path: Optional[str]
    cover: Optional[Tuple[int, ...]]


class RuleReachability(NamedTuple):
    """Whether a rule of an ignore file ever decides, by git's rule. Rules are named by the numbers of their lines, from 1.

    ``line`` is that of the rule. If it decides, ``path`` is a shortest path about which it does. If it does not, one of the
    others says why. ``cover`` has the lines of later rules that cover it together. None of them can be left out. It is one line
    if one of them covers the rule alone, and none if the rule matches no path of the domain. ``below_ignored`` is the line of a
    rule that ignores a directory: each path about which this rule would decide lies below an ignored directory.

    All but ``line`` are ``None`` if a search has more rows than its limit.
    """

    line: int
    decides: Optional[bool]
    path: Optional[str]
    cover: Optional[Tuple[int, ...]]
    below_ignored: Optional[int]


_AnyGlob = Union[str, Glob]


def covering(
    glob: _AnyGlob, by: Iterable[_AnyGlob], *, domain: Domain = Domain.RELATIVE_PATHS, limit: int = 100_000
) -> Coverage:
    """Returns whether other globs together match each path of the domain that a glob matches, or a shortest path that they miss.

    >>> covering("[ab].c", ["b*"])
    Coverage(covered=False, path='a.c')
    >>> covering("*", ["*.c"], limit=0)
    Coverage(covered=None, path=None)
    """
    told = _binding.covering(_glob_of(glob), _globs_of(by), domain.value, _limit_of(limit))
    return Coverage(*_answer(told))


def overlap(a: _AnyGlob, b: _AnyGlob, *, domain: Domain = Domain.RELATIVE_PATHS, limit: int = 100_000) -> Intersection:
    """Returns whether two globs match no path of the domain in common, or a shortest path that both match.

    >>> overlap("*.c", "*.h")
    Intersection(disjoint=True, path=None)
    """
    told = _binding.overlap(_glob_of(a), _glob_of(b), domain.value, _limit_of(limit))
    return Intersection(*_answer(told))


def unreachable(
    globs: Iterable[_AnyGlob],
    *,
    decides: Decides = Decides.LAST,
    domain: Domain = Domain.RELATIVE_PATHS,
    limit: int = 100_000,
) -> List[Reachability]:
    """Returns for each glob of a list, of which the first or the last that matches a path decides, whether it ever decides.

    Each glob takes a few searches. Each search has the limit.

    >>> for answer in unreachable(["a.log", "*.log", "debug.log"]):
    ...     print(answer)
    Reachability(decides=False, path=None, cover=(1,))
    Reachability(decides=True, path='.log', cover=None)
    Reachability(decides=True, path='debug.log', cover=None)
    """
    answers = _binding.unreachable(_globs_of(globs), decides.value, domain.value, _limit_of(limit))
    return [_reachability(told) for told in answers]


def unreachable_rules(
    rules: Union[IgnoreRules, IgnoreStack],
    file: int = 0,
    *,
    domain: Domain = Domain.RELATIVE_PATHS,
    limit: int = 100_000,
) -> List[RuleReachability]:
    """Returns for each rule of an ignore file, in order, whether it ever decides by git's rule, if there were no other file.

    The file is that of an index, as ``Decision`` has it, and paths begin in its directory. Raises ``IndexError`` if there is no
    such file. Each rule takes a few searches. Each search has the limit. Other calls with ``rules`` wait until it has ended.

    >>> for rule in unreachable_rules(IgnoreRules(["*.log", "/src", "!/src/a", "*.log"])):
    ...     print(rule)
    RuleReachability(line=1, decides=False, path=None, cover=(4,), below_ignored=None)
    RuleReachability(line=2, decides=True, path='src', cover=None, below_ignored=None)
    RuleReachability(line=3, decides=False, path=None, cover=None, below_ignored=2)
    RuleReachability(line=4, decides=True, path='.log', cover=None, below_ignored=None)
    """
    if not isinstance(rules, (IgnoreRules, IgnoreStack)):
        raise TypeError(f"rules are IgnoreRules or IgnoreStack, not {type(rules).__name__}")
    lines, answers = rules._files.unreachable(_index_of(file), domain.value, _limit_of(limit))
    return [_rule_reachability(line, told, lines) for line, told in zip(lines, answers)]


def _glob_of(glob: _AnyGlob) -> Glob:
    return glob if isinstance(glob, Glob) else Glob(glob)


def _globs_of(globs: Iterable[_AnyGlob]) -> Tuple[Glob, ...]:
    if isinstance(globs, (str, bytes, Glob)):
        raise TypeError(f"globs are an iterable of them, not one {type(globs).__name__}")
    return _read_globs(globs)


def _limit_of(limit: int) -> int:
    number = operator.index(limit)
    if number < 0:
        raise ValueError("a limit is not negative")
    return min(number, sys.maxsize)


def _answer(told: Told) -> Tuple[Optional[bool], Optional[str]]:
    """Returns whether there is no path, and the path."""
    if told is None:
        return None, None
    return (False, _text_of(told)) if isinstance(told, bytes) else (True, None)


def _reachability(told: Told) -> Reachability:
    if told is None:
        return Reachability(None, None, None)
    if isinstance(told, bytes):
        return Reachability(True, _text_of(told), None)
    return Reachability(False, None, told)


def _rule_reachability(line: int, told: RuleTold, lines: List[int]) -> RuleReachability:
    if told is None:
        return RuleReachability(line, None, None, None, None)
    if isinstance(told, bytes):
        return RuleReachability(line, True, _text_of(told), None, None)
    if isinstance(told, int):
        return RuleReachability(line, False, None, None, lines[told])
    return RuleReachability(line, False, None, tuple(lines[index] for index in told), None)
