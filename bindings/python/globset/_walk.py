"""A walk that opens only directories in which something can match."""

from __future__ import annotations

import os
import stat
from typing import TYPE_CHECKING, AnyStr, Callable, Iterator, List, Optional, Tuple, Union

from .ignore import IgnoreStack

if TYPE_CHECKING:
    from ._by_ctypes import GlobSetBase

_OnError = Optional[Callable[[OSError], object]]


class Unwanted:
    """Leaves out the paths that a set matches."""

    def __init__(self, globs: Optional[GlobSetBase]) -> None:
        self._globs = globs

    def open(self, start: AnyStr, at: AnyStr, names: List[AnyStr]) -> None:
        """Is called when a directory is opened: what the paths in it begin with, where it is, and the paths of its files."""

    def keep(self, start: AnyStr, paths: List[AnyStr], *, are_folders: bool) -> List[AnyStr]:
        """Returns those of the paths in an opened directory that are not left out."""
        if self._globs is None:
            return paths
        return [path for path, is_unwanted in zip(paths, self._globs.match_many(paths)) if not is_unwanted]


class GitIgnored:
    """Leaves out what the files ``.gitignore`` ignore. They are read when their directories are opened, from the top down."""

    def __init__(self) -> None:
        self._stack = IgnoreStack()
        self._depth = 0

    def open(self, start: AnyStr, at: AnyStr, names: List[AnyStr]) -> None:
        """As that of ``Unwanted``. Raises ``OSError`` if the ignore file cannot be read."""
        text = os.fsencode(start)
        depth = text.count(b"/")
        if depth > 0:
            for _ in range(self._depth - depth + 1):
                self._stack.leave()
            self._stack.enter(text[:-1].rpartition(b"/")[2])
        self._depth = depth
        name = os.fsencode(".gitignore") if isinstance(start, bytes) else ".gitignore"
        if start + name in names:
            self._add(os.path.join(at, name))

    def _add(self, at: AnyStr) -> None:
        # Git reads no symbolic link, and opening a pipe would wait.
        if stat.S_ISREG(os.lstat(at).st_mode):
            with open(at, "rb") as file:
                self._stack.add_file(file.read())

    def keep(self, start: AnyStr, paths: List[AnyStr], *, are_folders: bool) -> List[AnyStr]:
        """As that of ``Unwanted``."""
        names = [os.fsencode(path[len(start) :]) + (b"/" if are_folders else b"") for path in paths]
        decisions = self._stack.decide_many(names)
        return [path for path, is_ignored in zip(paths, decisions) if not is_ignored]


def files(
    top: AnyStr,
    wanted: GlobSetBase,
    unwanted: Union[Unwanted, GitIgnored],
    on_error: _OnError,
) -> Iterator[AnyStr]:
    """Yields the paths of the files below a directory that a set matches, and that are not unwanted."""
    slash = os.fsencode("/") if isinstance(top, bytes) else "/"
    # The directories to open, the next one last: what the paths in them begin with, and where they are.
    pending: List[Tuple[AnyStr, AnyStr]] = [(top[:0], top)]
    while pending:
        start, at = pending.pop()
        try:
            names, folders = _read(start, at)
            unwanted.open(start, at, names)
        except OSError as error:
            if on_error is None:
                raise
            on_error(error)
            continue
        yield from unwanted.keep(start, wanted.filter(names), are_folders=False)
        opened = [folder for folder in folders if wanted.can_match_below(folder)]
        opened = unwanted.keep(start, opened, are_folders=True)
        pending.extend((folder + slash, os.path.join(top, folder)) for folder in reversed(opened))


def _read(start: AnyStr, at: AnyStr) -> Tuple[List[AnyStr], List[AnyStr]]:
    """Returns the paths of the files and of the directories in a directory, in the order of their names."""
    names: List[AnyStr] = []
    folders: List[AnyStr] = []
    with os.scandir(at) as entries:
        for entry in entries:
            is_folder = entry.is_dir(follow_symlinks=False)
            (folders if is_folder else names).append(start + entry.name)
    return sorted(names), sorted(folders)
