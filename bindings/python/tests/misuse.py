#!/usr/bin/env python3
"""Makes 10,000 random calls that nobody should make, in 8 threads at a time: each has to end in an answer or an exception.

Usage: misuse.py [SEED [CALLS]]

Arguments are of any type; paths run code of Python while they are read, which makes further calls, drops the objects that are in
use, and changes the lists that are read. After it sets and rules have to answer as at first. A crash ends the interpreter, so the
program is worth most over an extension module that was built with sanitizers.
"""

import copy
import gc
import os
import pathlib
import pickle
import random
import sys
import threading
import weakref

import globset
from globset import Glob, GlobSet, IgnoreRules, IgnoreStack, escape, relations

PATTERNS = ["*.py", "src/**", "{a,b}*", "[a-c]?", "**", "a\\*", "é*", "*a*b*c", "", "x" * 300, "**/..", "[!x]*"]
REJECTED = ["[a", "[z-a]", "a}", "{a", "\\", "\udc80", "a\ud800"]
PATHS = ["a.py", "src/a", "", "b", "abc", "a\0b", "é", "a/b/c/d.py", "\udcff", "\ud800", b"a.py", b"\xff\0", b"", "a" * 5000]
MANY = ["match_many", "matches_many", "filter"]
LINES = ["*.py", "!a.py", "src/", "/b/**", "# text", "", "[a", "a\\", "[!x]*", b"\xff", "é?\r\n"]
IGNORE_METHODS = ["is_ignored", "decide", "decide_many", "rules_many", "filter", "unread_lines", "line_text"]
IGNORE_METHODS += ["add_file", "enter", "leave"]
METHODS = ["match", "matches", "matches_all", "can_match_below", *MANY, "regex", "pattern", "globs"]
THREADS = 8
# How deep calls within calls go.
DEPTH = 3


class Misuse:
    """The random calls of one thread, on objects that all threads share."""

    def __init__(self, seed, shared, ignores):
        self.rng = random.Random(seed)
        self.shared = shared
        self.ignores = ignores
        self.depth = 0
        self.answers = self.exceptions = 0

    def chance(self, part):
        return self.rng.random() < part

    def path(self):
        """Returns what may stand where a path is wanted."""
        if self.chance(0.5):
            return self.rng.choice(PATHS)
        return self.rng.choice(
            [
                lambda: pathlib.PurePosixPath("src/a.py"),
                lambda: Hostile(self),
                lambda: Hostile(self),
                lambda: Subclass("a.py"),
                lambda: Long(b"a.py"),
                lambda: Other("abc"),
                lambda: bytearray(b"a"),
                lambda: memoryview(b"a"),
                lambda: self.rng.choice([None, 7, 2**80, 1.5, (), [], {}, object, Ellipsis, int, GlobSet, self.one()]),
            ]
        )()

    def paths(self):
        """Returns what may stand where paths are wanted."""
        count = self.rng.choice([0, 1, 5, 40, 1100])
        many = [self.path() if self.chance(0.1) else self.rng.choice(PATHS) for _ in range(count)]
        kinds = [lambda: many, lambda: tuple(many), lambda: iter(many), lambda: Changing(self, many), lambda: failing(many)]
        return self.rng.choice([*kinds, self.path])()

    def one(self):
        """Returns an object of those that are shared, or a new one."""
        try:
            return self.rng.choice(self.shared)
        except IndexError:
            return GlobSet(["*"])

    def call(self):
        """Makes one call."""
        if self.depth >= DEPTH:
            return
        self.depth += 1
        try:
            asks = [self.ask, self.ask, self.ask, self.ask, self.ask, self.ask_ignore, self.ask_ignore, self.relate_ignore]
            self.rng.choice([*asks, self.make, self.make, self.make_ignore, self.drop, self.wrong])()
            self.answers += 1
        except RecursionError:
            raise
        except Exception:
            self.exceptions += 1
        finally:
            self.depth -= 1

    def ask(self):
        name = self.rng.choice(METHODS)
        value = getattr(self.one(), name)
        if callable(value):
            argument = self.paths() if name in MANY else self.path()
            value(*([argument] if self.chance(0.95) else [argument] * self.rng.choice([0, 2])))

    def one_ignore(self):
        """Returns ignore files of those that are shared, or new ones."""
        try:
            return self.rng.choice(self.ignores)
        except IndexError:
            return IgnoreStack()

    def lines(self):
        """Returns what may stand where an ignore file is wanted."""
        lines = self.rng.choices(LINES, k=self.rng.randrange(5))
        return self.rng.choice([lambda: lines, lambda: iter(lines), lambda: Changing(self, lines), self.paths, self.path])()

    def ask_ignore(self):
        ignore, name = self.one_ignore(), self.rng.choice(IGNORE_METHODS)
        if not hasattr(ignore, name):
            name = "filter"
        by = [self.rng.choice(["git", "nearest", "path"]) if self.chance(0.9) else self.path()]
        arguments = {
            "is_ignored": lambda: [self.path(), self.rng.choice([None, True, False]), *by],
            "decide": lambda: [self.path(), self.path(), *by],
            "decide_many": lambda: [self.paths(), *by],
            "rules_many": lambda: [self.paths(), *by],
            "filter": lambda: [self.paths(), *by],
            "unread_lines": lambda: self.numbers(isinstance(ignore, IgnoreStack)),
            "line_text": lambda: self.numbers(1 + isinstance(ignore, IgnoreStack)),
            "add_file": lambda: [self.lines()],
            "enter": lambda: [self.rng.choice(["a", "b/c", b"\xff", self.path()])],
            "leave": list,
        }[name]()
        getattr(ignore, name)(*(arguments if self.chance(0.97) else [*arguments, self.path()]))
        # Files that are not left take time and memory.
        if name in ("add_file", "enter") and isinstance(ignore, IgnoreStack):
            for _ in range(self.rng.randrange(4)):
                ignore.leave()

    def numbers(self, count):
        """Returns what may stand where so many indexes are wanted."""
        return [self.rng.choice([0, 0, 1, 3, -1, 2**64, self.path()]) for _ in range(count)]

    def relate_ignore(self):
        domain = self.rng.choice([*relations.Domain, self.path()])
        ignore = self.one_ignore() if self.chance(0.9) else self.path()
        relations.unreachable_rules(ignore, *self.numbers(self.rng.randrange(2)), domain=domain, limit=self.rng.randrange(99))

    def make_ignore(self):
        if self.chance(0.2):
            self.ignores.append(IgnoreStack(ignore_case=self.chance(0.5)))
        elif self.chance(0.8):
            self.ignores.append(IgnoreRules(self.lines(), ignore_case=self.chance(0.5)))
        elif self.chance(0.5):
            globset._binding.IgnoreFiles(*[self.path() for _ in range(self.rng.randrange(3))])
        else:
            files = globset._binding.IgnoreFiles(self.rng.randrange(3), self.rng.randrange(-1, 1 << 20))
            arguments = [self.path() for _ in range(self.rng.randrange(4))]
            names = ["add_file", "enter", "decide", "decide_many", "rules_many", "filter", "unread_lines", "line_text"]
            names.append("unreachable")
            getattr(files, self.rng.choice(names))(*arguments)

    def make(self):
        text = self.rng.choice(PATTERNS) if self.chance(0.8) else self.rng.choice([*REJECTED, self.path()])
        if self.chance(0.3):
            self.shared.append(Glob(text, case_insensitive=self.chance(0.5), backslash_escape=self.chance(0.5)))
        elif self.chance(0.8):
            texts = PATTERNS[: self.rng.randrange(9)]
            self.shared.append(GlobSet(self.rng.choice([text, self.one()]) if self.chance(0.1) else each for each in texts))
        elif self.chance(0.5):
            globset.GlobBase(*[self.path() for _ in range(self.rng.randrange(4))])
        else:
            globset.GlobSetBase(*[(self.one(), self.path())[: self.rng.randrange(3)] for _ in range(self.rng.randrange(3))])

    def drop(self):
        shared = self.shared if self.chance(0.7) else self.ignores
        if shared and self.chance(0.7):
            del shared[self.rng.randrange(len(shared))]
        else:
            gc.collect(self.rng.randrange(2))

    def wrong(self):
        """Makes a call that is none of those of the documentation."""
        one, path, ignore = self.one(), self.path(), self.one_ignore()
        self.rng.choice(
            [
                lambda: pickle.loads(pickle.dumps(ignore)),
                lambda: copy.copy(ignore),
                lambda: (ignore == path, hash(ignore), repr(ignore)),
                lambda: object.__new__(type(ignore)).is_ignored(path),
                lambda: setattr(ignore, "_files", path),
                lambda: setattr(ignore, "__class__", self.rng.choice([IgnoreRules, IgnoreStack])),
                lambda: type(ignore._files).filter(path, path, path),
                lambda: object.__new__(type(ignore._files)).leave(),
                lambda: GlobSet.match(Glob("a"), path),
                lambda: Glob.match(GlobSet([]), path),
                lambda: globset.GlobSetBase.filter(path, path),
                lambda: type(one).__new__(type(one)),
                lambda: object.__new__(type(one)).match(path),
                lambda: globset.GlobBase.__new__(GlobSet, "a", 0),
                lambda: one.__init__(path),
                lambda: setattr(one, "_globs", path),
                lambda: setattr(one, "_pattern", path),
                lambda: delattr(one, "_pattern"),
                lambda: setattr(one, "__class__", self.rng.choice([Glob, GlobSet])),
                lambda: pickle.loads(pickle.dumps(one)),
                lambda: copy.deepcopy([one, one]),
                lambda: weakref.ref(one)(),
                lambda: (one == path, hash(one), repr(one)),
                lambda: escape(path),
                lambda: one.__reduce_ex__(4),
                lambda: one.__setstate__({}),
                lambda: one.match(path=path),
                lambda: type(one)(path, path),
            ]
        )()


class Hostile:
    """A path that runs other code while it is read."""

    def __init__(self, misuse):
        self.misuse = misuse

    def __fspath__(self):
        misuse = self.misuse
        if misuse.chance(0.5):
            misuse.call()
        if misuse.chance(0.1):
            misuse.shared.clear()
        if misuse.chance(0.1):
            raise LookupError
        return misuse.rng.choice([*PATHS, None, 7, self, Subclass("b")])

    def __del__(self):
        self.misuse.call()


class Changing:
    """Paths whose list changes while they are read."""

    def __init__(self, misuse, paths):
        self.misuse, self.paths = misuse, paths

    def __iter__(self):
        for path in self.paths:
            if self.misuse.chance(0.02):
                self.misuse.call()
                self.paths.clear()
            yield path


class Subclass(str):
    __slots__ = ()

    def __eq__(self, other):
        raise LookupError

    __hash__ = str.__hash__


class Long(bytes):
    """Bytes that say that they are more than they are."""

    def __len__(self):
        return 10**9


class Other(str):
    """A text that says that it is another."""

    def encode(self, *arguments):
        return Long(b"z")


def failing(paths):
    yield from paths
    raise LookupError


def main():
    seed = int(sys.argv[1]) if len(sys.argv) > 1 else 1
    calls = int(sys.argv[2]) if len(sys.argv) > 2 else 10_000
    shared, ignores = [], []
    kept, rules = GlobSet(PATTERNS), IgnoreRules(LINES)
    asked = [path for path in PATHS if path != "\ud800"]
    expected, decided = [kept.matches(path) for path in asked], rules.decide_many(asked)
    misuses = [Misuse(f"{seed}.{number}", shared, ignores) for number in range(THREADS)]

    def work(misuse):
        for _ in range(calls // THREADS):
            misuse.call()
            if misuse.chance(0.05):
                kept.matches_many(["a.py", "src/a"] * 600)
                rules.filter(["a.py", "src/a"] * 600)
                shared.append(kept)

    sys.setswitchinterval(1e-5)
    threads = [threading.Thread(target=work, args=[misuse]) for misuse in misuses]
    for thread in threads:
        thread.start()
    for thread in threads:
        thread.join()
    shared.clear()
    ignores.clear()
    gc.collect()
    assert [kept.matches(path) for path in asked] == expected
    assert rules.decide_many(asked) == decided
    answers, exceptions = [sum(getattr(misuse, name) for misuse in misuses) for name in ("answers", "exceptions")]
    assert answers + exceptions >= calls // THREADS * THREADS, (answers, exceptions)
    print(f"misuse: {answers} answers and {exceptions} exceptions by {os.path.basename(globset._binding.__file__)}")


if __name__ == "__main__":
    main()
