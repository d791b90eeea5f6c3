"""What ``Glob`` and ``GlobSet`` are derived from, over ctypes. ``_extension.c`` has the same, with this documentation."""

from __future__ import annotations

import ctypes
import os
from array import array
from collections import deque
from functools import partial
from itertools import accumulate, compress
from threading import RLock
from typing import Any, Callable, Deque, Iterable, List, Optional, Tuple, Type, TypeVar, Union

from . import _library
from ._errors import glob_error
from ._library import Lent, Object, RuleTold, Searcher, Told

Path = Union[str, bytes, "os.PathLike[str]", "os.PathLike[bytes]"]

_AnyPath = TypeVar("_AnyPath", bound=Path)
_AnyGlob = TypeVar("_AnyGlob", bound="GlobBase")
_AnySet = TypeVar("_AnySet", bound="GlobSetBase")
_Lent = TypeVar("_Lent", bound=ctypes.Structure)
_Copy = TypeVar("_Copy")


class GlobBase:
    """A glob of a text and the bits of its options."""

    __slots__ = ("_glob", "_matcher")

    _glob: Object
    _matcher: Object

    def __new__(cls: Type[_AnyGlob], pattern: str, options: int, /) -> _AnyGlob:
        self = object.__new__(cls)
        data, error, glob = str.encode(pattern), _library.Error(), Object()
        status = _library.glob_new(data, len(data), options, ctypes.byref(error), ctypes.byref(glob))
        if status == _library.REJECTED:
            message = _library.text_of(_library.error_text, ctypes.byref(error), data, len(data))
            raise glob_error(message, pattern, error.kind, error.start, error.end, error.offset)
        _library.raise_unless_done(status)
        self._glob = glob
        self._matcher = Object()
        return self

    @property
    def regex(self) -> str:
        """A regular expression over bytes that matches the paths that the glob matches.

        It is in the syntax of the Rust crate ``regex``, where ``(?-u)`` turns Unicode off, and a ``.`` in it is any byte. The
        module ``re`` reads what follows ``(?-u)``, and matches paths of ``bytes``:
        ``re.compile(glob.regex[5:].encode(), re.DOTALL).fullmatch(path)``.

        >>> Glob("*.py").regex
        '(?-u)^.*\\\\.py$'
        """
        return _library.text_of(_library.glob_regex, ctypes.byref(Lent(self._glob.at)))

    def match(self, path: Path, /) -> bool:
        """Returns whether the glob matches the whole path, as `fullmatch` of the module `re` does.

        >>> Glob("src/**/*.py").match("src/a/b.py")
        True
        """
        data = _bytes_of(path)
        matcher = self._matcher
        if not matcher.at:
            matcher = self._make_matcher()
        return _library.answer(_library.matcher_is_match(ctypes.byref(Lent(matcher.at)), data, len(data)))

    def match_many(self, paths: Iterable[Path], /) -> List[bool]:
        """Returns for each path whether the glob matches it, in less time than a call for each takes.

        >>> Glob("*.py").match_many(["main.c", "run.py"])
        [False, True]
        """
        return [self.match(path) for path in _many(paths)]

    def filter(self, paths: Iterable[_AnyPath], /) -> List[_AnyPath]:
        """Returns the paths that the glob matches, in order.

        >>> Glob("*.py").filter(["main.c", "run.py", "a/b.py"])
        ['run.py', 'a/b.py']
        """
        return [path for path in _many(paths) if self.match(path)]

    def _make_matcher(self) -> Object:
        """Makes the matcher. If threads do so at the same time, the last one's stays, and each uses its own."""
        matcher = Object()
        _library.raise_unless_done(_library.matcher_new(ctypes.byref(Lent(self._glob.at)), ctypes.byref(matcher)))
        self._matcher = matcher
        return matcher


class GlobSetBase:
    """A set of the globs of a tuple, and how many bytes of rows it may keep, or -1."""

    __slots__ = ("_set", "_at", "_searchers")

    _set: Object
    _at: int
    # The searchers that no call uses. A call takes one, and puts it back. So there are as many as there were calls at a time, and
    # each is in one call, whichever thread makes it: also if a signal's handler or a finalizer makes a call while another of the
    # same thread is not over. `pop` and `append` of a deque need no lock. One that an exception keeps from being put back is
    # freed.
    _searchers: Deque[Searcher]

    def __new__(cls: Type[_AnySet], globs: Tuple[GlobBase, ...], limit: int, /) -> _AnySet:
        self = object.__new__(cls)
        builder, lent = Object(), Lent()
        builder_at, lent_at = ctypes.addressof(builder), ctypes.addressof(lent)
        _library.raise_unless_done(_library.builder_new(builder_at))
        if limit >= 0:
            _library.raise_unless_done(_library.builder_set_dfa_size_limit(builder_at, limit))
        for glob in globs:
            if not issubclass(type(glob), GlobBase):
                raise TypeError("a set is made of globs")
            lent.at = glob._glob.at
            _library.raise_unless_done(_library.builder_add(builder_at, lent_at))
        self._set = Object()
        _library.raise_unless_done(_library.builder_build(builder_at, ctypes.byref(self._set)))
        self._at = self._set.at
        self._searchers = deque()
        return self

    def match(self, path: Path, /) -> bool:
        """Returns whether some glob of the set matches the path.

        >>> GlobSet(["*.py", "*.c"]).match("main.c")
        True
        """
        data = _bytes_of(path)
        searcher = self._take_searcher()
        status = _library.searcher_is_match(searcher.at, data, len(data))
        self._searchers.append(searcher)
        return _library.answer(status)

    def matches(self, path: Path, /) -> List[int]:
        """Returns the indexes of the globs that match the path, in ascending order.

        >>> GlobSet(["*.py", "*.c", "main.*"]).matches("main.c")
        [1, 2]
        """
        data = _bytes_of(path)
        searcher = self._take_searcher()
        indexes = searcher.matches(data)
        self._searchers.append(searcher)
        return indexes

    def matches_all(self, path: Path, /) -> bool:
        """Returns whether all globs of the set match the path.

        >>> GlobSet(["*.c", "main.*"]).matches_all("main.c")
        True
        """
        data = _bytes_of(path)
        searcher = self._take_searcher()
        status = _library.searcher_matches_all(searcher.at, data, len(data))
        self._searchers.append(searcher)
        return _library.answer(status)

    def match_many(self, paths: Iterable[Path], /) -> List[bool]:
        """Returns for each path whether some glob of the set matches it, in less time than a call for each takes.

        >>> GlobSet(["*.py", "*.c"]).match_many(["main.c", "README", "run.py"])
        [True, False, True]
        """
        return [byte == 1 for byte in self._ask_many([_bytes_of(path) for path in _many(paths)])]

    def matches_many(self, paths: Iterable[Path], /) -> List[List[int]]:
        """Returns for each path the indexes of the globs that match it, in less time than a call for each takes.

        >>> GlobSet(["*.py", "*.c", "main.*"]).matches_many(["main.c", "README", "run.py"])
        [[1, 2], [], [0]]
        """
        parts = [_bytes_of(path) for path in _many(paths)]
        searcher = self._take_searcher()
        indexes = [searcher.matches(data) for data in parts]
        self._searchers.append(searcher)
        return indexes

    def filter(self, paths: Iterable[_AnyPath], /) -> List[_AnyPath]:
        """Returns the paths that some glob of the set matches, in order.

        >>> GlobSet(["*.py", "*.c"]).filter(["main.c", "README", "run.py"])
        ['main.c', 'run.py']
        """
        asked = list(_many(paths))
        return list(compress(asked, self._ask_many([_bytes_of(path) for path in asked])))

    def can_match_below(self, folder: Path, /) -> bool:
        """Returns whether some path below the directory can match: the directory, a ``/``, and any bytes, perhaps none.

        >>> sources = GlobSet(["src/**/*.py"])
        >>> sources.can_match_below("src/tool"), sources.can_match_below("docs")
        (True, False)
        """
        data = _bytes_of(folder)
        searcher = self._take_searcher()
        status = _library.searcher_can_match_below(searcher.at, data, len(data))
        self._searchers.append(searcher)
        return _library.answer(status)

    def _ask_many(self, parts: List[bytes]) -> bytes:
        """Returns a byte for each path: 1 if some glob matches it, and else 0."""
        count = len(parts)
        if count == 0:
            return b""
        data = b"".join(parts)
        ends = _ends_of(parts)
        answers = ctypes.create_string_buffer(count)
        ends_at, _ = ends.buffer_info()
        searcher = self._take_searcher()
        status = _library.searcher_is_match_many(searcher.at, data, len(data), ends_at, count, answers, count)
        self._searchers.append(searcher)
        _library.raise_unless_done(status)
        return answers.raw

    def _take_searcher(self) -> Searcher:
        """Returns a searcher of the set that no other call uses."""
        try:
            return self._searchers.pop()
        except IndexError:
            return Searcher(self._at)


class IgnoreFiles:
    """The directory that a walk is in, with the ignore files in it and in those above it.

    It is made of the bits of their options, and of the limit on the bytes of rows of each, or a negative number for the default.
    """

    __slots__ = ("_object", "_at", "_turn", "_is_lent")

    _object: Object
    _at: int
    # Who makes a call has its turn. A signal's handler or a finalizer may make a call meanwhile, in the same thread.
    _turn: RLock
    # Whether a call of the thread that has its turn reads what the library lends.
    _is_lent: bool

    def __new__(cls, options: int, limit: int, /) -> IgnoreFiles:
        self = object.__new__(cls)
        self._object = Object()
        self._at = ctypes.addressof(self._object)
        _library.raise_unless_done(_library.ignore_new(options, self._at))
        if limit >= 0:
            _library.raise_unless_done(_library.ignore_set_dfa_size_limit(self._at, limit))
        self._turn = RLock()
        self._is_lent = False
        return self

    def add_file(self, file: bytes, /) -> None:
        """Adds an ignore file of the directory that the walk is in. It takes precedence over those that are there."""
        data = bytes.__getitem__(file, slice(None))
        _library.raise_unless_done(self._call(_library.ignore_add_file, data, len(data)))

    def enter(self, name: Path, /) -> None:
        """Goes down into the directory of a name, without a ``/`` at its end."""
        data = _bytes_of(name)
        data = data[:-1] if data.endswith(b"/") else data
        _library.raise_unless_done(self._call(_library.ignore_enter, data, len(data)))

    def leave(self) -> None:
        """Goes up, without the files that were added since. In the top directory it does nothing."""
        _library.raise_unless_done(self._call(_library.ignore_leave))

    def decide(self, path: Path, is_directory: int, by: int, /) -> Optional[Tuple[bool, int, int]]:
        """Returns whether a rule ignores the path, the index of its file and the number of its line, or None without a rule.

        ``is_directory`` is -1 if a ``/`` at the end of the path says it.
        """
        data = _bytes_of(path)
        if data.endswith(b"/"):
            if is_directory == 0:
                raise ValueError("a path that ends with / is that of a directory")
            data, is_directory = data[:-1], 1
        file, line = ctypes.c_size_t(), ctypes.c_size_t()
        places = ctypes.byref(file), ctypes.byref(line)
        is_ignored = _library.answer(self._call(_library.ignore_decide, data, len(data), is_directory == 1, by, *places))
        return (is_ignored, file.value, line.value) if line.value > 0 else None

    def decide_many(self, paths: Iterable[Path], by: int, /) -> List[Optional[bool]]:
        """Returns for each path whether a rule ignores it, or None without a rule. A ``/`` at its end is that of a directory."""
        decisions = (None, True, False)
        return [decisions[byte] for byte in self._answers([_bytes_of(path) for path in list(_many(paths))], by)]

    def rules_many(self, paths: Iterable[Path], by: int, /) -> List[Optional[Tuple[bool, int, int]]]:
        """Returns for each path what ``decide`` returns. A ``/`` at its end is that of a directory."""
        parts = [_bytes_of(path) for path in list(_many(paths))]
        rules = (_library.ToldRule * max(len(parts), 1))()
        self._ask_many(_library.ignore_rules_many, parts, by, rules)
        return [(rule.decision == 1, rule.file, rule.line) if rule.decision else None for rule in rules[: len(parts)]]

    def filter(self, paths: Iterable[_AnyPath], by: int, /) -> List[_AnyPath]:
        """Returns the paths that no rule ignores, in order."""
        asked = list(_many(paths))
        answers = self._answers([_bytes_of(path) for path in asked], by)
        return [path for path, byte in zip(asked, answers) if byte != 1]

    def unread_lines(self, file: int, /) -> List[int]:
        """Returns the numbers of the lines of a file that cannot be read, by its index."""
        return self._copied(_library.ignore_unread_lines, (file,), _library.no_indexes(), _library.numbers_of)

    def line_text(self, file: int, line: int, /) -> bytes:
        """Returns the text of a line, by the index of its file and its number."""
        return self._copied(_library.ignore_line_text, (file, line), _library.no_bytes(), _library.bytes_of)

    def unreachable(self, file: int, domain: int, limit: int, /) -> Tuple[List[int], List[RuleTold]]:
        """Returns the numbers of the lines of the rules of a file, and what is told of each rule, which names rules by indexes.

        It is a shortest path about which the rule decides, the indexes of rules that cover it, or None at the limit. If each path
        about which it would decide lies below an ignored directory, it is the index of a rule that ignores one.
        """
        answers = _library.Answers(partial(self._call, _library.ignore_unreachable, file, domain, limit))
        lines = answers.lines()
        return lines, [answers.told_of_rule(index) for index in range(len(lines))]

    def _answers(self, parts: List[bytes], by: int) -> bytes:
        """Returns a byte for each path: 1 if it is ignored, 2 if it is kept, and 0 if no rule decides."""
        answers = ctypes.create_string_buffer(max(len(parts), 1))
        self._ask_many(_library.ignore_decide_many, parts, by, answers)
        return answers.raw[: len(parts)]

    def _ask_many(self, call: Callable[..., int], parts: List[bytes], by: int, told: Any) -> None:
        """Has the library write what it tells of each path."""
        data, ends, count = b"".join(parts), _ends_of(parts), len(parts)
        ends_at, _ = ends.buffer_info()
        _library.raise_unless_done(self._call(call, data, len(data), ends_at, count, by, told, count))

    def _call(self, call: Callable[..., int], *arguments: Any) -> int:
        """Makes a call of the library when no other thread makes one."""
        with self._turn:
            self._refuse_if_lent()
            return call(self._at, *arguments)

    def _copied(self, call: Callable[..., int], which: Tuple[int, ...], lent: _Lent, copy: Callable[[_Lent], _Copy]) -> _Copy:
        """Returns a copy of what a call of the library lends."""
        with self._turn:
            self._refuse_if_lent()
            self._is_lent = True
            try:
                status = call(self._at, *which, ctypes.byref(lent))
                copied = copy(lent)
            finally:
                self._is_lent = False
        _library.raise_unless_done(status)
        return copied

    def _refuse_if_lent(self) -> None:
        if self._is_lent:
            raise RuntimeError("globset: these ignore files are in a call of this thread that is not over")


def covering(glob: GlobBase, by: Tuple[GlobBase, ...], domain: int, limit: int, /) -> Told:
    """Returns a shortest path that a glob matches and others miss, no indexes if there is none, or None at the limit."""
    lent = ctypes.byref(Lent(glob._glob.at))
    ask = partial(_library.covering, lent, _lend_globs(by), len(by), domain, limit)
    return _library.Answers(ask).told(0)


def overlap(a: GlobBase, b: GlobBase, domain: int, limit: int, /) -> Told:
    """Returns a shortest path that two globs match, no indexes if there is none, or None at the limit."""
    lent_a, lent_b = ctypes.byref(Lent(a._glob.at)), ctypes.byref(Lent(b._glob.at))
    return _library.Answers(partial(_library.overlap, lent_a, lent_b, domain, limit)).told(0)


def unreachable(globs: Tuple[GlobBase, ...], decides: int, domain: int, limit: int, /) -> List[Told]:
    """Returns for each glob a shortest path about which it decides, the indexes of globs that cover it, or None at the limit."""
    answers = _library.Answers(partial(_library.unreachable, _lend_globs(globs), len(globs), decides, domain, limit))
    return [answers.told(index) for index in range(len(globs))]


def _lend_globs(globs: Tuple[GlobBase, ...]) -> Any:
    return _library.lend_all([glob._glob.at for glob in globs])


def escape(text: str, /) -> str:
    """Returns the text with each of ``?``, ``*``, ``[``, ``]``, ``{`` and ``}`` in brackets.

    As a glob with the default options it matches this text and nothing else, if the text has no ``\\``.

    >>> escape("what?.txt")
    'what[?].txt'
    """
    if not isinstance(text, str):
        raise TypeError("a text is str")
    data = str.encode(text)
    return _library.text_of(_library.escape, data, len(data))


def version() -> int:
    """Returns the version of the library, as 1,000,000 times the first number, 1,000 times the second, and the third."""
    return int(_library.version())


def _bytes_of(path: Path) -> bytes:
    """Returns the bytes of a path. A text is encoded in UTF-8, as a glob is, and what `os.fsdecode` made of other bytes is they.

    They are the object's own, and exactly ``bytes``: a class that is derived from ``bytes`` or ``str`` may have another ``len``
    or ``encode``, and the library would read beyond the bytes.
    """
    if type(path) is str:
        return path.encode("utf-8", "surrogateescape")
    if type(path) is bytes:
        return path
    other: Any = path
    data: Any = os.fspath(other)
    if issubclass(type(data), str):
        return str.encode(data, "utf-8", "surrogateescape")
    return bytes.__getitem__(data, slice(None))


def _ends_of(parts: List[bytes]) -> "array[int]":
    """Returns where each part ends if they stand one after another. There is one end more, since no array may be null."""
    # A `size_t` has 8 bytes, as a `Q` has, where there is a library.
    return array("Q", accumulate([*map(len, parts), 0]))


def _many(paths: Iterable[_AnyPath]) -> Iterable[_AnyPath]:
    """Returns the paths, which are not one path."""
    if isinstance(paths, (str, bytes)):
        raise TypeError(f"paths are an iterable of them, not one {'str' if isinstance(paths, str) else 'bytes'}")
    return paths
