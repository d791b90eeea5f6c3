"""What the module ``pathspec`` has of the paths and the trees of file systems: ``globset.pathspec.util``."""

from __future__ import annotations

import os
import pathlib
import stat
from typing import Callable, Collection, Dict, Iterator, List, Optional, Tuple, Union

__all__ = ["RecursionError", "TreeEntry", "append_dir_sep", "iter_tree_entries", "iter_tree_files", "normalize_file"]

OnError = Optional[Callable[[OSError], object]]
# The separators of the system other than `/`.
_SEPARATORS = [separator for separator in (os.sep, os.altsep) if separator and separator != "/"]


def append_dir_sep(path: "os.PathLike[str]") -> str:
    """Returns the text of a path, with the separator of the system at its end if the path is that of a directory that is there.

    >>> append_dir_sep(pathlib.Path("/dev")), append_dir_sep(pathlib.Path("/dev/null"))
    ('/dev/', '/dev/null')
    """
    return str(path) + os.sep if pathlib.Path(path).is_dir() else str(path)


def normalize_file(file: Union[str, "os.PathLike[str]"], separators: Optional[Collection[str]] = None) -> str:
    """Returns a path with ``/`` in place of each separator, and without a ``/`` or else a ``./`` at its start.

    The separators are by default those of the system other than ``/``: on Linux there are none.

    >>> normalize_file("./a/b"), normalize_file("/a"), normalize_file("a\\\\b", separators=["\\\\"])
    ('a/b', 'a', 'a/b')
    """
    text = os.fspath(file)
    if not isinstance(text, str):
        raise TypeError(f"a path is str or os.PathLike, not {type(file).__name__}")
    if separators is None:
        separators = _SEPARATORS
    for separator in separators:
        text = text.replace(separator, "/")
    return text[1:] if text.startswith("/") else text[2:] if text.startswith("./") else text


class RecursionError(Exception):
    """A link leads to a directory above it, ``real_path``. The others are the paths by which this directory was reached."""

    def __init__(self, real_path: str, first_path: str, second_path: str) -> None:
        super().__init__(real_path, first_path, second_path)
        self.real_path = real_path
        self.first_path = first_path
        self.second_path = second_path

    def __str__(self) -> str:
        return f"the directory {self.real_path!r} was reached as {self.first_path!r} and again as {self.second_path!r}"


class TreeEntry:
    """An entry of a tree: its ``name``, and its ``path`` relative to the root of the tree."""

    __slots__ = ("name", "path", "_lstat", "_stat")

    def __init__(self, name: str, path: str, lstat: os.stat_result, stat_: os.stat_result) -> None:
        self.name = name
        self.path = path
        self._lstat = lstat
        self._stat = stat_

    def is_dir(self, follow_links: Optional[bool] = None) -> bool:
        """Returns whether it is a directory; links are followed unless ``follow_links`` is ``False``."""
        return stat.S_ISDIR(self.stat(follow_links).st_mode)

    def is_file(self, follow_links: Optional[bool] = None) -> bool:
        """Returns whether it is a regular file; links are followed unless ``follow_links`` is ``False``."""
        return stat.S_ISREG(self.stat(follow_links).st_mode)

    def is_symlink(self) -> bool:
        """Returns whether it is a symbolic link."""
        return stat.S_ISLNK(self._lstat.st_mode)

    def stat(self, follow_links: Optional[bool] = None) -> os.stat_result:
        """Returns what the system said of it when the tree was read."""
        return self._lstat if follow_links is not None and not follow_links else self._stat

    def __repr__(self) -> str:
        return f"{type(self).__name__}({self.path!r})"


def iter_tree_entries(
    root: Union[str, "os.PathLike[str]"], on_error: OnError = None, follow_links: Optional[bool] = None
) -> Iterator[TreeEntry]:
    """Yields the entries below a directory, those of a directory after it, in the order in which the system has them.

    Entries are directories, regular files, and links. Links are followed unless ``follow_links`` is ``False``. Where a directory
    cannot be read, ``on_error`` is called with the ``OSError``, and without it the exception is raised. An entry that cannot be
    read, as a link to nothing, is passed over, after a call of ``on_error`` if it is given. Raises ``RecursionError`` if a link
    leads to a directory above it, and ``TypeError`` if ``on_error`` cannot be called.
    """
    if on_error is not None and not callable(on_error):
        raise TypeError(f"on_error is a function, not {type(on_error).__name__}")
    return _entries(os.path.abspath(root), "", {}, on_error, follow_links is None or bool(follow_links))


def iter_tree_files(
    root: Union[str, "os.PathLike[str]"], on_error: OnError = None, follow_links: Optional[bool] = None
) -> Iterator[str]:
    """Yields the paths of the files below a directory, relative to it. It is otherwise as ``iter_tree_entries``."""
    entries = iter_tree_entries(root, on_error, follow_links)
    return (entry.path for entry in entries if not entry.is_dir(follow_links))


def _entries(root: str, start: str, above: Dict[str, str], on_error: OnError, follows: bool) -> Iterator[TreeEntry]:
    """Yields the entries below one directory of a tree. ``above`` has the directories above it, by their real paths."""
    at = os.path.join(root, start)
    real = os.path.realpath(at)
    if real in above:
        raise RecursionError(real, above[real], start)
    for entry in _scanned(at, on_error):
        try:
            stats = _stats(entry)
        except OSError as error:
            if on_error is not None:
                on_error(error)
            continue
        path = os.path.join(start, entry.name)
        node = TreeEntry(entry.name, path, *stats)
        if node.is_dir() or node.is_file() or node.is_symlink():
            yield node
        if node.is_dir(follows):
            yield from _entries(root, path, {**above, real: start}, on_error, follows)


def _scanned(directory: str, on_error: OnError) -> List["os.DirEntry[str]"]:
    """Returns what is in a directory. If it cannot be read, that is nothing, after a call of ``on_error`` if it is given."""
    try:
        with os.scandir(directory) as scanned:
            return list(scanned)
    except OSError as error:
        if on_error is None:
            raise
        on_error(error)
        return []


def _stats(entry: "os.DirEntry[str]") -> Tuple[os.stat_result, os.stat_result]:
    """Returns what the system says of an entry, without following a link, and with it."""
    lstat = entry.stat(follow_symlinks=False)
    return lstat, entry.stat() if entry.is_symlink() else lstat
