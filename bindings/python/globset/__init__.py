"""Globs, and sets of globs: which paths match patterns such as ``src/**/*.py``.

>>> import globset
>>> sources = globset.GlobSet(["*.py", "src/**", "Makefile"])
>>> sources.match("src/tool/run.py")
True
>>> sources.matches("src/tool/run.py")
[0, 1]
>>> sources.match_many(["Makefile", "README.md"])
[True, False]
>>> sources.filter(["Makefile", "README.md"])
['Makefile']

A path is ``str``, ``bytes`` or ``os.PathLike``, and is matched as its bytes: ``str`` is encoded in UTF-8, as a glob is, and the
bytes of names that are not UTF-8 are as ``os.fsencode`` has them. Another surrogate raises ``UnicodeEncodeError``. A glob
matches whole paths, ``/`` is the only separator, and no path is changed before it is matched.

========== ====================================================================
Pattern    Matches
========== ====================================================================
``?``      any one byte; under ``whole_character`` any one character in UTF-8
``*``      any bytes, or none; ``/`` too, unless ``literal_separator`` is set
``**/``    at the start: any directories, or none
``/**``    at the end: everything in a directory
``/**/``   a ``/``, and any directories after it
``**``     alone: every path
``{a,b}``  ``a`` or ``b``, which are globs; braces nest
``[ab]``   one byte of the class; so does ``[a-z]``
``[!ab]``  one byte that is not in the class; so does ``[^ab]``
``\\``      the character after it
========== ====================================================================

All objects may be used by several threads at the same time. Calls about many paths release the interpreter's lock while they
match. Every call may raise ``MemoryError``, and all objects can be used on after it.

The C library is called by an extension module, or by ``ctypes`` where there is none. The environment variable
``GLOBSET_BINDING`` chooses one of them, by the value ``extension`` or ``ctypes``.
"""

from __future__ import annotations

import operator
import os
import sys
from typing import (
    TYPE_CHECKING,
    Any,
    AnyStr,
    Callable,
    Dict,
    Iterable,
    Iterator,
    List,
    Optional,
    Tuple,
    Type,
    TypeVar,
    Union,
    overload,
)

from . import _walk
from ._errors import ErrorKind, GlobError, surrogate_error
from .ignore import IgnoreRules, IgnoreStack

if TYPE_CHECKING:
    from . import _by_ctypes as _binding
    from ._by_ctypes import GlobBase, GlobSetBase, escape
else:
    from ._choice import binding as _binding

    GlobBase, GlobSetBase, escape = _binding.GlobBase, _binding.GlobSetBase, _binding.escape

__all__ = ["ErrorKind", "Glob", "GlobError", "GlobSet", "IgnoreRules", "IgnoreStack", "escape", "walk"]
__version__ = "0.4.21.1"

_AnyGlob = TypeVar("_AnyGlob", bound="Glob")
_AnySet = TypeVar("_AnySet", bound="GlobSet")

# The options: a name, the bit that stands for the value that is not the default, and the default.
_OPTIONS = (
    ("case_insensitive", 1, False),
    ("literal_separator", 2, False),
    ("backslash_escape", 4, True),
    ("empty_alternates", 8, False),
    ("allow_unclosed_class", 16, False),
    ("whole_character", 32, False),
)


class Glob(GlobBase):
    """A glob.

    The options, of which all but ``backslash_escape`` are off by default:

    - ``case_insensitive``: ASCII letters match in both cases;
    - ``literal_separator``: ``?`` and ``*`` do not match ``/``;
    - ``backslash_escape``: ``\\`` outside classes escapes the character after it;
    - ``empty_alternates``: empty branches of braces count, as the second of ``{a,}``;
    - ``allow_unclosed_class``: a ``[`` without ``]`` matches itself;
    - ``whole_character``: ``?`` matches all bytes of one character in UTF-8.

    Raises ``GlobError``, which is a ``ValueError``, if the text is no glob.

    A glob does not change. Globs are equal if their patterns and all options are. They can be copied and pickled.

    >>> Glob("*.PY", case_insensitive=True).match("setup.py")
    True
    """

    __slots__ = ("_pattern", "_options", "__weakref__")

    _pattern: str
    _options: int

    def __new__(
        cls: Type[_AnyGlob],
        pattern: str,
        *,
        case_insensitive: bool = False,
        literal_separator: bool = False,
        backslash_escape: bool = True,
        empty_alternates: bool = False,
        allow_unclosed_class: bool = False,
        whole_character: bool = False,
    ) -> _AnyGlob:
        if not isinstance(pattern, str):
            raise TypeError(f"a pattern is str, not {type(pattern).__name__}")
        values = (
            case_insensitive,
            literal_separator,
            backslash_escape,
            empty_alternates,
            allow_unclosed_class,
            whole_character,
        )
        options = sum(bit for (_, bit, default), value in zip(_OPTIONS, values) if bool(value) != default)
        try:
            self = super().__new__(cls, pattern, options)
        except UnicodeEncodeError as error:
            raise surrogate_error(pattern, error.start) from None
        self._pattern = pattern
        self._options = options
        return self

    @property
    def pattern(self) -> str:
        """The text of the glob.

        >>> Glob("*.py").pattern
        '*.py'
        """
        return self._pattern

    @property
    def options(self) -> Dict[str, bool]:
        """The options of the glob, by their names: ``Glob(glob.pattern, **glob.options)`` is equal to it.

        >>> [name for name, value in Glob("*.c", case_insensitive=True).options.items() if value]
        ['case_insensitive', 'backslash_escape']
        """
        return {name: (self._options & bit != 0) != default for name, bit, default in _OPTIONS}

    def _changed_options(self) -> Dict[str, bool]:
        """Returns the options that do not have their defaults."""
        return {name: not default for name, bit, default in _OPTIONS if self._options & bit}

    def __eq__(self, other: object) -> bool:
        if not isinstance(other, Glob):
            return NotImplemented
        return self._pattern == other._pattern and self._options == other._options

    def __hash__(self) -> int:
        return hash((self._pattern, self._options))

    def __repr__(self) -> str:
        options = "".join(f", {name}={value}" for name, value in self._changed_options().items())
        return f"{type(self).__name__}({self._pattern!r}{options})"

    def __reduce__(self) -> Tuple[Any, ...]:
        return _make_glob, (type(self), self._pattern, self._changed_options())

    def __copy__(self: _AnyGlob) -> _AnyGlob:
        return self

    def __deepcopy__(self: _AnyGlob, memo: Dict[int, Any]) -> _AnyGlob:
        return self


class GlobSet(GlobSetBase):
    """A set of globs, which is asked about all of them at once.

    It is made from an iterable of ``str`` and ``Glob``, whose first glob has index 0. A ``str`` is read under the default
    options; it raises the exceptions that ``Glob`` raises for it, with its ``index``. A glob that reads as ``**/..``, and is not
    case-insensitive, matches nothing in a set.

    The globs of a set can be iterated over, counted by ``len``, and be had by an index or as a slice, as those of a tuple.
    ``glob in globs`` returns whether a ``Glob`` is one of them; a path is no glob, so with a path it raises ``TypeError``.

    A set does not change. Sets are equal if they have equal globs in the same order. They can be copied and pickled. A set
    keeps memory for as many calls as were made at the same time, which it takes at the first of them.

    ``dfa_size_limit`` limits the bytes of rows of automata, by default to 16 MiB. A call takes as many as the C header
    ``globset.h`` says of a searcher. No answer depends on it: with fewer bytes a question may take more time.

    >>> GlobSet(["*.py", Glob("*.C", case_insensitive=True)]).matches("main.c")
    [1]
    """

    __slots__ = ("_globs", "_limit", "__weakref__")

    _globs: Tuple[Glob, ...]
    _limit: Optional[int]

    def __new__(
        cls: Type[_AnySet], globs: Iterable[Union[str, Glob]], *, dfa_size_limit: Optional[int] = None
    ) -> _AnySet:
        if isinstance(globs, (str, bytes, Glob)):
            raise TypeError(f"the globs of a set are an iterable of them, not one {type(globs).__name__}")
        read = _read_globs(globs)
        limit = None if dfa_size_limit is None else operator.index(dfa_size_limit)
        if limit is not None and limit < 0:
            raise ValueError("a limit is not negative")
        self = super().__new__(cls, read, -1 if limit is None else min(limit, sys.maxsize))
        self._globs = read
        self._limit = limit
        return self

    @property
    def globs(self) -> Tuple[Glob, ...]:
        """The globs of the set, in order.

        >>> GlobSet(["*.py", "*.c"]).globs[1].pattern
        '*.c'
        """
        return self._globs

    def __len__(self) -> int:
        return len(self._globs)

    def __iter__(self) -> Iterator[Glob]:
        return iter(self._globs)

    @overload
    def __getitem__(self, index: int) -> Glob: ...

    @overload
    def __getitem__(self, index: slice) -> Tuple[Glob, ...]: ...

    def __getitem__(self, index: Union[int, slice]) -> Union[Glob, Tuple[Glob, ...]]:
        return self._globs[index]

    def __contains__(self, glob: object) -> bool:
        if not isinstance(glob, Glob):
            raise TypeError(f"a set has globs, not {type(glob).__name__}: `match` returns whether one of them matches a path")
        return glob in self._globs

    def __eq__(self, other: object) -> bool:
        if not isinstance(other, GlobSet):
            return NotImplemented
        return self._globs == other._globs

    def __hash__(self) -> int:
        return hash(self._globs)

    def __repr__(self) -> str:
        limit = "" if self._limit is None else f", dfa_size_limit={self._limit}"
        return f"{type(self).__name__}([{', '.join(map(repr, self._globs))}]{limit})"

    def __reduce__(self) -> Tuple[Any, ...]:
        return _make_set, (type(self), list(self._globs), self._limit)

    def __copy__(self: _AnySet) -> _AnySet:
        return self

    def __deepcopy__(self: _AnySet, memo: Dict[int, Any]) -> _AnySet:
        return self


_Globs = Union[GlobSet, Iterable[Union[str, Glob]]]


def walk(
    top: Union[AnyStr, "os.PathLike[AnyStr]"],
    globs: _Globs,
    *,
    ignored: Union[_Globs, bool] = (),
    on_error: Optional[Callable[[OSError], object]] = None,
) -> Iterator[AnyStr]:
    """Yields the paths of the files below ``top`` that some glob matches, relative to ``top``, with ``/`` between names.

    ``globs`` is a ``GlobSet`` or what one is made from, and so is ``ignored``. A directory is opened only if some path below
    it can match a glob, and ``ignored`` does not match the directory itself. A file that ``ignored`` matches is left out.
    Symbolic links below ``top`` are not followed: they are files, whatever they name.

    If ``ignored`` is ``True``, the walk leaves out what the files ``.gitignore`` in ``top`` and below it ignore, by git's rule,
    and does not open the directories that they ignore. It reads such a file in each directory that it opens; as git does, it
    reads no symbolic link of that name. A directory ``.git`` is walked as any other, unless a rule ignores it.

    The files of a directory come before the contents of its directories, both in the order of their names. The paths are
    ``bytes`` if ``top`` is. If a directory cannot be read, ``on_error`` is called with the ``OSError``, and the walk goes on
    after it; without ``on_error`` the exception is raised.

    >>> import os, tempfile
    >>> with tempfile.TemporaryDirectory() as top:
    ...     os.makedirs(os.path.join(top, "src", "tool"))
    ...     for name in ["setup.py", "src/run.c", "src/run.py", "src/tool/old.py"]:
    ...         open(os.path.join(top, name), "w").close()
    ...     list(walk(top, ["src/**/*.py"], ignored=["**/old.*"]))
    ...     with open(os.path.join(top, "src", ".gitignore"), "w") as file:
    ...         _ = file.write("/tool")
    ...     list(walk(top, ["**/*.py"], ignored=True))
    ['src/run.py']
    ['setup.py', 'src/run.py']
    """
    start, wanted = os.fspath(top), _set_of(globs)
    if isinstance(ignored, bool):
        return _walk.files(start, wanted, _walk.GitIgnored() if ignored else _walk.Unwanted(None), on_error)
    unwanted = _set_of(ignored)
    return _walk.files(start, wanted, _walk.Unwanted(unwanted if len(unwanted) > 0 else None), on_error)


def _set_of(globs: _Globs) -> GlobSet:
    return globs if isinstance(globs, GlobSet) else GlobSet(globs)


def _read_globs(globs: Iterable[Union[str, Glob]]) -> Tuple[Glob, ...]:
    """Returns the globs of a set. An exception of a text has its index."""
    read: List[Glob] = []
    for glob in globs:
        try:
            read.append(glob if isinstance(glob, Glob) else Glob(glob))
        except GlobError as error:
            error.index = len(read)
            raise
    return tuple(read)


def _make_set(kind: Type[_AnySet], globs: List[Glob], limit: Optional[int]) -> _AnySet:
    """Makes a set again from what ``pickle`` has of it."""
    return kind(globs) if limit is None else kind(globs, dfa_size_limit=limit)


def _make_glob(kind: Type[_AnyGlob], pattern: str, options: Dict[str, bool]) -> _AnyGlob:
    """Makes a glob again from what ``pickle`` has of it."""
    return kind(pattern, **options)
