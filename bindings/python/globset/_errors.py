"""The exception of texts that are no globs."""

from __future__ import annotations

import enum
from typing import Any, Optional, Tuple

__all__ = ["ErrorKind", "GlobError"]


class ErrorKind(enum.Enum):
    """Why a text is no glob.

    >>> ErrorKind.UNCLOSED_CLASS.name
    'UNCLOSED_CLASS'
    """

    #: A surrogate, which is no character.
    SURROGATE = 0
    #: A ``[`` without ``]``.
    UNCLOSED_CLASS = 1
    #: A range in a class that goes down, as ``[z-a]``.
    INVALID_RANGE = 2
    #: A ``}`` without ``{``.
    UNOPENED_ALTERNATES = 3
    #: A ``{`` without ``}``.
    UNCLOSED_ALTERNATES = 4
    #: A ``\\`` at the end, with nothing to escape.
    DANGLING_ESCAPE = 5


class GlobError(ValueError):
    """A text is no glob. The first error in the text counts, and a surrogate before all others.

    ``glob`` is the text, and ``kind`` why it is none. ``start`` and ``end`` are the characters of an invalid range, and
    ``None`` at other kinds. The error stands at ``glob[offset]``: at the ``[`` of an unclosed class or of one with an invalid
    range, at a ``}`` that closes nothing, at the last ``\\``, at the outermost ``{`` that is open at the end of the text, or at
    the first surrogate. ``index`` is that of the text among those that a set is made of, and ``None`` if there is no set.

    >>> try:
    ...     Glob("[z-a]")
    ... except GlobError as error:
    ...     print(error)
    ...     print(error.glob, error.kind.name, error.start, error.end, error.offset)
    error parsing glob '[z-a]': invalid range; 'z' > 'a'
    [z-a] INVALID_RANGE z a 0
    """

    def __init__(
        self,
        message: str,
        glob: str,
        kind: ErrorKind,
        start: Optional[str] = None,
        end: Optional[str] = None,
        offset: Optional[int] = None,
        index: Optional[int] = None,
    ) -> None:
        super().__init__(message)
        self.glob = glob
        self.kind = kind
        self.start = start
        self.end = end
        self.offset = offset
        self.index = index

    def __reduce__(self) -> Tuple[Any, ...]:
        return type(self), (str(self), self.glob, self.kind, self.start, self.end, self.offset, self.index)


def glob_error(message: str, glob: str, number: int, start: int, end: int, offset: int) -> GlobError:
    """Returns the exception of what the library says of a text. It counts bytes, and an index of a ``str`` counts characters."""
    kind = ErrorKind(number)
    at = len(str.encode(glob)[:offset].decode())
    if kind is ErrorKind.INVALID_RANGE:
        return GlobError(message, glob, kind, chr(start), chr(end), at)
    return GlobError(message, glob, kind, offset=at)


def surrogate_error(glob: str, offset: int) -> GlobError:
    """Returns the exception of a text that has a surrogate at an index, and so cannot be encoded."""
    shown = str.encode(glob, "utf-8", "backslashreplace").decode()
    return GlobError(f"error parsing glob '{shown}': a surrogate is no character", glob, ErrorKind.SURROGATE, offset=offset)
