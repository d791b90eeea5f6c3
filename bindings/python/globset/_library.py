"""The C library by ctypes: the numbers, types and functions of globset_raw.h, and the memory that calls use."""

from __future__ import annotations

import ctypes
import os
from typing import Any, Callable, List, Sequence, Tuple, Union

# What a call returns.
DONE, NO, YES, OUT_OF_MEMORY, REJECTED = range(5)
TOO_SMALL = 9
LIMIT_REACHED = 10
BAD_INDEX = 11
BELOW_IGNORED = 12

# GLOBSET_INTERFACE of the header that this file was written after.
INTERFACE = 1


class Owned(ctypes.Structure):
    """globset_owned: an object that the caller owns."""

    _fields_ = [("at", ctypes.c_void_p)]


class Lent(ctypes.Structure):
    """globset_lent: an object that is lent to a call."""

    _fields_ = [("at", ctypes.c_void_p)]


class Error(ctypes.Structure):
    """globset_error: the error of a text."""

    _fields_ = [
        ("kind", ctypes.c_uint32),
        ("start", ctypes.c_uint32),
        ("end", ctypes.c_uint32),
        ("offset", ctypes.c_size_t),
    ]


class Bytes(ctypes.Structure):
    """globset_bytes: bytes that answers or ignore files lend."""

    _fields_ = [("at", ctypes.c_void_p), ("count", ctypes.c_size_t)]


class Indexes(ctypes.Structure):
    """globset_indexes: indexes or numbers of lines that a searcher, answers or ignore files lend."""

    _fields_ = [("at", ctypes.c_void_p), ("count", ctypes.c_size_t)]


class ToldRule(ctypes.Structure):
    """globset_told_rule: the rule that decides about a path, and a number: 1 ignores the path, 2 keeps it, 0 is no rule."""

    _fields_ = [("file", ctypes.c_size_t), ("line", ctypes.c_size_t), ("decision", ctypes.c_uint32)]


def _load() -> ctypes.CDLL:
    """Loads the library beside this file, or if there is none, the one that the system's loader finds."""
    beside = os.path.join(os.path.dirname(os.path.abspath(__file__)), "libglobset.so")
    try:
        library = ctypes.CDLL(beside if os.path.exists(beside) else f"libglobset.so.{INTERFACE}")
    except OSError as error:
        raise ImportError(
            f"the C library cannot be loaded ({error}). The wheel py3-none has it, and the one for Python 3.10 and later has not"
        ) from error
    if library.globset_interface() != INTERFACE:
        raise ImportError(f"libglobset has the interface {library.globset_interface()}, and the module needs {INTERFACE}")
    return library


_library = _load()
_BYTES, _SIZE = ctypes.c_char_p, ctypes.c_size_t
# Addresses of values of the types above, of which a call is given `byref`, or the number, which takes less time.
_OWNED = _LENT = _LENTS = _ERROR = _LENT_BYTES = _INDEXES = _RESULT = ctypes.c_void_p
_NUMBER = ctypes.c_uint32
_ROOM = (ctypes.c_void_p, _SIZE, _RESULT)


def _declare(name: str, *types: Any, result: Any = ctypes.c_uint32) -> Callable[..., Any]:
    function = _library[f"globset_{name}"]
    function.argtypes, function.restype = types, result
    return function


glob_new = _declare("raw_glob_new", _BYTES, _SIZE, ctypes.c_uint32, _ERROR, _OWNED)
error_text = _declare("raw_error_text", _ERROR, _BYTES, _SIZE, *_ROOM)
glob_regex = _declare("raw_glob_regex", _LENT, *_ROOM)
matcher_new = _declare("raw_matcher_new", _LENT, _OWNED)
matcher_is_match = _declare("raw_matcher_is_match_plain", _LENT, _BYTES, _SIZE)
builder_new = _declare("raw_builder_new", _OWNED)
builder_add = _declare("raw_builder_add", _OWNED, _LENT)
builder_set_dfa_size_limit = _declare("raw_builder_set_dfa_size_limit", _OWNED, _SIZE)
builder_build = _declare("raw_builder_build", _OWNED, _OWNED)
searcher_new = _declare("raw_searcher_new", _LENT, _OWNED)
searcher_is_match = _declare("raw_searcher_is_match", _OWNED, _BYTES, _SIZE)
searcher_matches_all = _declare("raw_searcher_matches_all", _OWNED, _BYTES, _SIZE)
searcher_find = _declare("raw_searcher_find", _OWNED, _BYTES, _SIZE, _RESULT)
searcher_found = _declare("raw_searcher_found", _OWNED, _INDEXES)
searcher_is_match_many = _declare(
    "raw_searcher_is_match_many", _OWNED, _BYTES, _SIZE, ctypes.c_void_p, _SIZE, ctypes.c_void_p, _SIZE
)
searcher_can_match_below = _declare("raw_searcher_can_match_below", _OWNED, _BYTES, _SIZE)
covering = _declare("raw_covering", _LENT, _LENTS, _SIZE, _NUMBER, _SIZE, _OWNED)
overlap = _declare("raw_overlap", _LENT, _LENT, _NUMBER, _SIZE, _OWNED)
unreachable = _declare("raw_unreachable", _LENTS, _SIZE, _NUMBER, _NUMBER, _SIZE, _OWNED)
answers_at = _declare("raw_answers_at", _OWNED, _SIZE, _LENT_BYTES, _INDEXES)
ignore_new = _declare("raw_ignore_new", _NUMBER, _OWNED)
ignore_set_dfa_size_limit = _declare("raw_ignore_set_dfa_size_limit", _OWNED, _SIZE)
ignore_add_file = _declare("raw_ignore_add_file", _OWNED, _BYTES, _SIZE)
ignore_enter = _declare("raw_ignore_enter", _OWNED, _BYTES, _SIZE)
ignore_leave = _declare("raw_ignore_leave", _OWNED)
ignore_decide = _declare("raw_ignore_decide", _OWNED, _BYTES, _SIZE, _NUMBER, _NUMBER, _RESULT, _RESULT)
ignore_decide_many = _declare(
    "raw_ignore_decide_many", _OWNED, _BYTES, _SIZE, ctypes.c_void_p, _SIZE, _NUMBER, ctypes.c_void_p, _SIZE
)
ignore_rules_many = _declare(
    "raw_ignore_rules_many", _OWNED, _BYTES, _SIZE, ctypes.c_void_p, _SIZE, _NUMBER, ctypes.c_void_p, _SIZE
)
ignore_unread_lines = _declare("raw_ignore_unread_lines", _OWNED, _SIZE, _INDEXES)
ignore_line_text = _declare("raw_ignore_line_text", _OWNED, _SIZE, _SIZE, _LENT_BYTES)
ignore_unreachable = _declare("raw_ignore_unreachable", _OWNED, _SIZE, _NUMBER, _SIZE, _OWNED)
answers_lines = _declare("raw_answers_lines", _OWNED, _INDEXES)
escape = _declare("raw_escape", _BYTES, _SIZE, *_ROOM)
version = _declare("version")
_free = _declare("raw_free", Owned, result=None)


class Object(Owned):
    """An object of the library, which is freed when nothing refers to this value. At first it is none."""

    # `free` is an argument, since at the end of the interpreter names of modules may be gone.
    def __del__(self, free: Callable[[Owned], None] = _free) -> None:
        if self.at:
            free(self)


# Where a place points that has nothing: it has to be valid before a call that writes it.
_NONE = (ctypes.c_size_t * 1)()
_NONE_AT = ctypes.addressof(_NONE)


def no_bytes() -> Bytes:
    return Bytes(_NONE_AT, 0)


def no_indexes() -> Indexes:
    return Indexes(_NONE_AT, 0)


def bytes_of(lent: Bytes) -> bytes:
    """Returns a copy of bytes that are lent."""
    return ctypes.string_at(lent.at, lent.count) if lent.count else b""


def numbers_of(lent: Indexes) -> List[int]:
    """Returns a copy of numbers that are lent."""
    return ctypes.cast(lent.at, ctypes.POINTER(ctypes.c_size_t))[: lent.count] if lent.count else []


class Searcher:
    """What one call on a set uses at a time: a searcher of the library, and places for results."""

    __slots__ = ("_object", "_count", "_count_at", "_indexes", "_indexes_at", "_found", "at")

    def __init__(self, set_at: int) -> None:
        self._object = Object()
        self.at = ctypes.addressof(self._object)
        raise_unless_done(searcher_new(ctypes.byref(Lent(set_at)), self.at))
        self._count = ctypes.c_size_t()
        self._count_at = ctypes.addressof(self._count)
        self._indexes = Indexes()
        self._indexes_at = ctypes.addressof(self._indexes)
        # The field `at` of `_indexes`, seen as a pointer to indexes.
        self._found = ctypes.POINTER(ctypes.c_size_t).from_buffer(self._indexes)

    def matches(self, path: bytes) -> List[int]:
        """Returns the indexes of the globs that match a path."""
        raise_unless_done(searcher_find(self.at, path, len(path), self._count_at))
        if not self._count:
            return []
        indexes = self._indexes
        indexes.at, indexes.count = _NONE_AT, 0
        raise_unless_done(searcher_found(self.at, self._indexes_at))
        return self._found[: indexes.count]


# What an answer tells: a path, indexes, or nothing where the limit was reached. One about a rule may tell the index of a rule
# that ignores a directory.
Told = Union[bytes, Tuple[int, ...], None]
RuleTold = Union[Told, int]


class Answers:
    """Answers of the library to a question about all paths. `ask` makes them at the address that it is given."""

    def __init__(self, ask: Callable[[Any], int]) -> None:
        self._object = Object()
        raise_unless_done(ask(ctypes.byref(self._object)))

    def told(self, index: int) -> Told:
        """Returns what the answer of an index tells, which is about no rule."""
        told = self.told_of_rule(index)
        if isinstance(told, int):
            raise failure(BELOW_IGNORED)
        return told

    def told_of_rule(self, index: int) -> RuleTold:
        """Returns what the answer of an index tells, which may be about a rule."""
        path, indexes = no_bytes(), no_indexes()
        status = answers_at(ctypes.byref(self._object), index, ctypes.byref(path), ctypes.byref(indexes))
        if status == LIMIT_REACHED:
            return None
        if status == YES:
            return bytes_of(path)
        if status == NO:
            return tuple(numbers_of(indexes))
        if status == BELOW_IGNORED:
            return numbers_of(indexes)[0]
        raise failure(status)

    def lines(self) -> List[int]:
        """Returns the numbers of the lines of the rules that the answers are about."""
        lines = no_indexes()
        raise_unless_done(answers_lines(ctypes.byref(self._object), ctypes.byref(lines)))
        return numbers_of(lines)


def lend_all(addresses: Sequence[int]) -> Any:
    """Returns an array of handles of lent objects, for one call."""
    # It has one more, since no array may be null.
    return (Lent * (len(addresses) + 1))(*map(Lent, addresses))


def failure(status: int) -> Exception:
    """Returns the exception for a status that is no answer."""
    if status == OUT_OF_MEMORY:
        return MemoryError()
    if status == BAD_INDEX:
        return IndexError("there is no ignore file or line of this index")
    return RuntimeError(f"globset: a call returned the status {status}")


def raise_unless_done(status: int) -> None:
    """Raises an exception for any status but that of a call that did what it is for."""
    if status != DONE:
        raise failure(status)


def answer(status: int) -> bool:
    """Returns the answer that a status is, or raises an exception."""
    if status == YES:
        return True
    if status == NO:
        return False
    raise failure(status)


def text_of(call: Callable[..., int], *arguments: Any) -> str:
    """Returns the text that a call writes into room that it is given after these arguments."""
    needed = ctypes.c_size_t(256)
    status = TOO_SMALL
    while status == TOO_SMALL:
        room = ctypes.create_string_buffer(max(needed.value, 1))
        status = call(*arguments, room, len(room), ctypes.byref(needed))
    raise_unless_done(status)
    return ctypes.string_at(room, needed.value).decode()
