"""Ignore files, such as ``.gitignore``: which paths they ignore, by git's rules.

>>> from globset.ignore import IgnoreRules, IgnoreStack
>>> rules = IgnoreRules(["*.o", "build/", "!keep.o"])
>>> rules.is_ignored("src/main.o"), rules.is_ignored("keep.o"), rules.is_ignored("build/")
(True, False, True)
>>> rules.decide("keep.o")
Decision(file=0, line=3, negated=True)

An ignore file is ``bytes``, ``str``, or an iterable of its lines, with or without their ends. Each line with a pattern is a
rule. The last rule in a file that matches a path decides about it, and of several files the one in the deepest directory that
has such a rule. Lines have numbers, from 1. A line that git cannot read matches nothing, and ``unread_lines`` has its number.

A path is ``str``, ``bytes`` or ``os.PathLike``, relative, with ``/`` between its components, and is read as its bytes, as by
``Glob.match``. ``is_dir`` says whether it is that of a directory, and if it is ``None``, a ``/`` at the end of the path says
it. No call looks at the file system. ``by`` is the rule for what is below a directory:

=========== ====================================================================
``by``      Decides about a path
=========== ====================================================================
``git``     everything below an ignored directory is ignored, and no rule keeps it
``nearest`` the decision about the path, or else about the nearest directory above it that has one
``path``    the decision about the path alone
=========== ====================================================================

Several threads may use an object at the same time; their calls are made one after another. By ``ctypes``, a handler of a signal
or a finalizer that uses an object while its own thread reads what the library lends gets a ``RuntimeError``. Every call may
raise ``MemoryError``, and then it has changed nothing. A surrogate that ``os.fsdecode`` did not make raises
``UnicodeEncodeError``.
"""

from __future__ import annotations

import operator
import sys
from typing import TYPE_CHECKING, Any, Iterable, List, Literal, NamedTuple, NoReturn, Optional, Tuple, Type, TypeVar, Union

if TYPE_CHECKING:
    from . import _by_ctypes as _binding
    from ._by_ctypes import Path
else:
    from ._choice import binding as _binding

__all__ = ["Decision", "IgnoreRules", "IgnoreStack"]

_AnyPath = TypeVar("_AnyPath", bound="Path")
_AnyRules = TypeVar("_AnyRules", bound="IgnoreRules")
_AnyStack = TypeVar("_AnyStack", bound="IgnoreStack")
By = Literal["git", "nearest", "path"]
_Lines = Union[str, bytes, Iterable[Union[str, bytes]]]

_BY = {"git": 0, "nearest": 1, "path": 2}
# The bit of the library's options.
_IGNORE_CASE = 1


class Decision(NamedTuple):
    """The rule that decides about a path.

    ``file`` is the index of its file: 0 for ``IgnoreRules``, and for ``IgnoreStack`` it counts the files that are there in the
    order in which they were added. ``line`` is the number of its line, from 1. ``negated`` is whether it is a rule with ``!``,
    which keeps the path, and otherwise the path is ignored.
    """

    file: int
    line: int
    negated: bool


class _Decides:
    """What is asked about paths, for one ignore file and for several."""

    __slots__ = ("_files",)

    _files: _binding.IgnoreFiles

    def is_ignored(self, path: Path, is_dir: Optional[bool] = None, by: By = "git") -> bool:
        """Returns whether a rule ignores the path.

        Raises ``ValueError`` if the path ends with ``/`` and ``is_dir`` is false, or if there is no such ``by``. It takes a
        pass over the path for each file, and if a rule matches a directory above, at most such passes for each of those.

        >>> IgnoreRules("build/").is_ignored("build"), IgnoreRules("build/").is_ignored("build", is_dir=True)
        (False, True)
        >>> rules = IgnoreRules("/src/*\\n!/src/lib")
        >>> [rules.is_ignored(path, by="nearest") for path in ["src/a/b.c", "src/lib/b.c"]]
        [True, False]
        """
        decided = self._decided(path, is_dir, by)
        return decided is not None and decided[0]

    def decide(self, path: Path, is_dir: Optional[bool] = None, by: By = "git") -> Optional[Decision]:
        """Returns the rule that decides about the path, or ``None`` if there is none. It raises what ``is_ignored`` raises.

        >>> IgnoreRules("*.log\\n/docs").decide("docs/index.html")
        Decision(file=0, line=2, negated=False)
        """
        return _decision_of(self._decided(path, is_dir, by))

    def _decided(self, path: Path, is_dir: Optional[bool], by: By) -> Optional[Tuple[bool, int, int]]:
        return self._files.decide(path, -1 if is_dir is None else int(bool(is_dir)), _number_of(by))

    def decide_many(self, paths: Iterable[Path], by: By = "git") -> List[Optional[bool]]:
        """Returns for each path ``True`` if it is ignored, ``False`` if a rule keeps it, and ``None`` if no rule decides.

        A path that ends with ``/`` is that of a directory. All are decided about by one call of the library, without the
        interpreter's lock. Raises ``ValueError`` if there is no such ``by``. It keeps the bytes of all paths until it returns.

        >>> IgnoreRules("*.o\\n!a.o\\nbuild/").decide_many(["b.o", "a.o", "a.c", "build/"])
        [True, False, None, True]
        """
        return self._files.decide_many(paths, _number_of(by))

    def rules_many(self, paths: Iterable[Path], by: By = "git") -> List[Optional[Decision]]:
        """Returns for each path the rule that decides, as ``decide`` does. It is otherwise as ``decide_many``.

        >>> IgnoreRules("*.o\\n!a.o").rules_many(["b.o", "a.o", "a.c"])
        [Decision(file=0, line=1, negated=False), Decision(file=0, line=2, negated=True), None]
        """
        return [_decision_of(decided) for decided in self._files.rules_many(paths, _number_of(by))]

    def filter(self, paths: Iterable[_AnyPath], by: By = "git") -> List[_AnyPath]:
        """Returns the paths that are not ignored, in order. It is otherwise as ``decide_many``.

        >>> IgnoreRules("*.o\\nbuild/").filter(["a.c", "a.o", "build/a.c", "build"])
        ['a.c', 'build']
        """
        return self._files.filter(paths, _number_of(by))


class IgnoreRules(_Decides):
    """One ignore file, in the directory from which paths are given.

    ``ignore_case`` compares ASCII letters without regard to case, as git does under ``core.ignoreCase``. ``dfa_size_limit`` is
    how many bytes of rows of its automaton the file may keep, as that of ``GlobSet`` is for a set. Raises ``ValueError`` if one
    of several lines has a line feed before its end, or the limit is negative.

    Rules do not change. They are equal if their files have the same bytes, with line feeds between lines, and ``ignore_case`` is
    the same. They can be copied and pickled. They keep the bytes of the file, and memory for the calls.

    >>> with open("/dev/null") as lines:
    ...     IgnoreRules(lines).is_ignored("a")
    False
    >>> IgnoreRules("*.O", ignore_case=True).is_ignored("a.o")
    True
    """

    __slots__ = ("_file", "_ignore_case", "_limit", "__weakref__")

    _file: bytes
    _ignore_case: bool
    _limit: Optional[int]

    def __new__(
        cls: Type[_AnyRules], lines: _Lines, *, ignore_case: bool = False, dfa_size_limit: Optional[int] = None
    ) -> _AnyRules:
        self = super().__new__(cls)
        self._file = _file_of(lines)
        self._ignore_case = bool(ignore_case)
        self._limit = limit_of(dfa_size_limit)
        files = _files_with(ignore_case, self._limit)
        files.add_file(self._file)
        self._files = files
        return self

    def unread_lines(self) -> List[int]:
        """Returns the numbers of the lines that git cannot read, in ascending order. No blank line and no comment is among them.

        >>> IgnoreRules(["# [", "[a", "", "b\\\\"]).unread_lines()
        [2, 4]
        """
        return self._files.unread_lines(0)

    def line_text(self, line: int) -> str:
        """Returns the text of a line by its number, as ``git check-ignore -v`` prints that of a rule.

        It is without what git removes at the end of a line, and is a ``str`` like those of ``os.fsdecode``: bytes that are not
        UTF-8 are surrogates in it. Raises ``IndexError`` if there is no such line. It takes a pass over the file up to the line.

        >>> rules = IgnoreRules("# objects\\n*.o  \\n")
        >>> rules.line_text(rules.decide("a.o").line)
        '*.o'
        """
        return _text_of(self._files.line_text(0, _index_of(line)))

    def __eq__(self, other: object) -> bool:
        if not isinstance(other, IgnoreRules):
            return NotImplemented
        return self._file == other._file and self._ignore_case == other._ignore_case

    def __hash__(self) -> int:
        return hash((self._file, self._ignore_case))

    def __repr__(self) -> str:
        case = ", ignore_case=True" if self._ignore_case else ""
        limit = "" if self._limit is None else f", dfa_size_limit={self._limit}"
        return f"{type(self).__name__}({self._file!r}{case}{limit})"

    def __reduce__(self) -> Tuple[Any, ...]:
        return _make_rules, (type(self), self._file, self._ignore_case, self._limit)

    def __copy__(self: _AnyRules) -> _AnyRules:
        return self

    def __deepcopy__(self: _AnyRules, memo: Any) -> _AnyRules:
        return self


class IgnoreStack(_Decides):
    """The ignore files of nested directories: those of the directory that a walk is in, and of the directories above it.

    A walk begins in its top directory, without files. Paths are relative to the directory that it is in. ``ignore_case`` is as
    that of ``IgnoreRules``, and so is ``dfa_size_limit``, for each file.

    The object changes. It cannot be copied or pickled: this raises ``TypeError``.

    >>> walk = IgnoreStack()
    >>> walk.add_file("*.log")
    >>> walk.enter("src")
    >>> walk.add_file(["!kept.log"])
    >>> walk.decide("kept.log"), walk.decide("a.log")
    (Decision(file=1, line=1, negated=True), Decision(file=0, line=1, negated=False))
    >>> walk.leave()
    >>> walk.is_ignored("kept.log")
    True
    """

    __slots__ = ("__weakref__",)

    def __new__(
        cls: Type[_AnyStack], *, ignore_case: bool = False, dfa_size_limit: Optional[int] = None
    ) -> _AnyStack:
        self = super().__new__(cls)
        self._files = _files_with(ignore_case, limit_of(dfa_size_limit))
        return self

    def add_file(self, lines: _Lines) -> None:
        """Adds an ignore file of the directory that the walk is in. It takes precedence over those that are there.

        Raises ``ValueError`` if one of several lines has a line feed before its end. The memory for its rules is kept until the
        walk leaves the directory.
        """
        self._files.add_file(_file_of(lines))

    def enter(self, name: Path) -> None:
        """Goes down into the directory of a name, or of several names with ``/`` between them, which ``leave`` leaves at once.

        A ``/`` at the end is left out.
        """
        self._files.enter(name)

    def leave(self) -> None:
        """Goes up to where the walk was before it entered last, without the files added since. At the top it does nothing."""
        self._files.leave()

    def unread_lines(self, file: int) -> List[int]:
        """Returns the numbers of the lines of a file that git cannot read, by the file's index, as ``Decision`` has it.

        Raises ``IndexError`` if there is no such file.

        >>> walk = IgnoreStack()
        >>> walk.add_file(["a", "[b"])
        >>> walk.unread_lines(0)
        [2]
        """
        return self._files.unread_lines(_index_of(file))

    def line_text(self, file: int, line: int) -> str:
        """Returns the text of a line, by the index of its file and its number, as ``Decision`` has them.

        It is that of ``IgnoreRules.line_text``. Raises ``IndexError`` if there is no such file or line.

        >>> walk = IgnoreStack()
        >>> walk.add_file("*.log")
        >>> walk.add_file(["", "!kept.log"])
        >>> decision = walk.decide("kept.log")
        >>> walk.line_text(decision.file, decision.line)
        '!kept.log'
        """
        return _text_of(self._files.line_text(_index_of(file), _index_of(line)))

    def __reduce__(self) -> NoReturn:
        raise TypeError(f"{type(self).__name__} cannot be copied or pickled")


def limit_of(dfa_size_limit: Optional[int]) -> Optional[int]:
    """Returns a limit on the bytes of rows as a number, or ``None`` if there is none."""
    limit = None if dfa_size_limit is None else operator.index(dfa_size_limit)
    if limit is not None and limit < 0:
        raise ValueError("a limit is not negative")
    return limit


def _files_with(ignore_case: bool, limit: Optional[int]) -> _binding.IgnoreFiles:
    return _binding.IgnoreFiles(_IGNORE_CASE if ignore_case else 0, -1 if limit is None else min(limit, sys.maxsize))


def _decision_of(decided: Optional[Tuple[bool, int, int]]) -> Optional[Decision]:
    if decided is None:
        return None
    is_ignored, file, line = decided
    return Decision(file, line, not is_ignored)


def _index_of(number: int) -> int:
    """Returns an index of a file or a number of a line as the library takes it."""
    index = operator.index(number)
    if index < 0:
        raise IndexError("there is no ignore file or line of this index")
    return min(index, sys.maxsize)


def _text_of(data: bytes) -> str:
    return data.decode("utf-8", "surrogateescape")


def _number_of(by: str) -> int:
    number = _BY.get(by) if isinstance(by, str) else None
    if number is None:
        raise ValueError(f"by is 'git', 'nearest' or 'path', not {by!r}")
    return number


def _file_of(lines: _Lines) -> bytes:
    """Returns the bytes of an ignore file."""
    if isinstance(lines, (str, bytes)):
        return _bytes_of(lines)
    try:
        each = iter(lines)
    except TypeError:
        raise TypeError(f"an ignore file is str, bytes or an iterable of lines, not {type(lines).__name__}") from None
    return b"".join(_line_of(line, number) for number, line in enumerate(each, 1))


def _line_of(line: Union[str, bytes], number: int) -> bytes:
    """Returns a line with its end."""
    if not isinstance(line, (str, bytes)):
        raise TypeError(f"line {number} is str or bytes, not {type(line).__name__}")
    data = _bytes_of(line)
    if b"\n" in data[:-1]:
        raise ValueError(f"line {number} has a line feed before its end")
    return data if data.endswith(b"\n") else data + b"\n"


def _bytes_of(text: Union[str, bytes]) -> bytes:
    """Returns the bytes of a text, whatever methods a class that is derived from ``str`` or ``bytes`` has."""
    return str.encode(text, "utf-8", "surrogateescape") if isinstance(text, str) else bytes.__getitem__(text, slice(None))


def _make_rules(kind: Type[_AnyRules], file: bytes, ignore_case: bool, limit: Optional[int] = None) -> _AnyRules:
    """Makes rules again from what ``pickle`` has of them."""
    if limit is None:
        return kind(file, ignore_case=ignore_case)
    return kind(file, ignore_case=ignore_case, dfa_size_limit=limit)
