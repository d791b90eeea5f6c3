"""Tests of globset.pathspec: the calls that programs make of the package pathspec, with what git and the nearest decision say."""

import doctest
import os
import pathlib
import tempfile
import unittest

from globset import _pathspec_util, pathspec
from globset.pathspec import (
    CheckResult,
    GitIgnorePattern,
    GitIgnorePatternError,
    GitIgnoreSpec,
    GitWildMatchPattern,
    GitWildMatchPatternError,
    PathSpec,
    util,
)

# Lines, a path, and what GitIgnoreSpec and PathSpec say: whether it is included, and the index of the pattern.
CHECKS = [
    (["*.py"], "a/b.py", (True, 0), (True, 0)),
    (["*.py", "!b.py"], "a/b.py", (False, 1), (False, 1)),
    (["*.py"], "a.c", (None, None), (None, None)),
    (["/src", "!/src/secret.py"], "src/secret.py", (True, 0), (False, 1)),
    (["!/src/a", "/src"], "src/a/b", (True, 1), (False, 0)),
    (["src/*", "!src/a/"], "src/a/b", (None, None), (False, 1)),
    (["src/**", "!src/a/"], "src/a/b", (True, 0), (True, 0)),
    (["*", "!*/"], "a/b", (True, 0), (True, 0)),
    (["a**/b"], "ab", (True, 0), (True, 0)),
    (["?/**/"], "a/b", (None, None), (None, None)),
    (["build/"], "build", (None, None), (None, None)),
    (["build/"], "build/", (True, 0), (True, 0)),
    (["build/"], "build/a", (True, 0), (True, 0)),
    (["# a", "a"], "a", (True, 1), (True, 1)),
    (["a\n", "!b\r\n"], "b", (False, 1), (False, 1)),
    (["*"], "./", (None, None), (None, None)),
    (["*"], "", (None, None), (None, None)),
    (["/x"], "/x", (True, 0), (True, 0)),
    (["/x"], "./x", (True, 0), (True, 0)),
    ([b"\xc3\xa9"], "é", (True, 0), (True, 0)),
]


class Specs(unittest.TestCase):
    def test_checks(self):
        for lines, path, *wanted in CHECKS:
            for spec, (include, index) in zip([GitIgnoreSpec.from_lines(lines), PathSpec.from_lines("gitignore", lines)], wanted):
                with self.subTest(lines=lines, path=path, spec=spec):
                    self.assertEqual(spec.check_file(path), CheckResult(path, include, index))
                    self.assertIs(spec.match_file(path), include is True)
                    self.assertEqual(list(spec.match_files([path])), [path] if include else [])
                    self.assertEqual(list(spec.match_files([path], negate=True)), [] if include else [path])
                    if path:
                        asked = pathlib.PurePosixPath(path)
                        self.assertEqual(spec.check_file(asked).file, asked)

    def test_from_lines(self):
        wanted = GitIgnoreSpec.from_lines(["a", "!b"])
        for name in ["gitwildmatch", "gitignore", GitIgnorePattern, GitWildMatchPattern]:
            self.assertEqual(GitIgnoreSpec.from_lines(name, ["a", "!b"]), wanted)
            self.assertEqual(GitIgnoreSpec.from_lines(["a", "!b"], name), wanted)
            self.assertEqual(GitIgnoreSpec.from_lines(lines=["a", "!b"], pattern_factory=name), wanted)
            self.assertEqual(PathSpec.from_lines(name, iter(["a", "!b"])), PathSpec.from_lines("gitwildmatch", "a !b".split()))
        for spec in [PathSpec, GitIgnoreSpec]:
            self.assertRaises(KeyError, spec.from_lines, "regex", ["a"])
            for factory, lines in [("gitignore", "a"), ("gitignore", b"a"), ("gitignore", 7), (7, ["a"])]:
                self.assertRaises(TypeError, spec.from_lines, factory, lines)
            self.assertRaises(TypeError, spec, ["a"])
        with tempfile.TemporaryFile("w+") as file:
            file.write("# text\n\n*.py\n")
            file.seek(0)
            spec = PathSpec.from_lines("gitwildmatch", file)
        self.assertEqual([pattern.pattern for pattern in spec.patterns], ["# text\n", "\n", "*.py\n"])
        self.assertEqual(spec.check_file("a.py").index, 2)

    def test_patterns(self):
        for line, include in [
            ("a", True), ("!a", False), ("# a", None), ("", None), ("\n", None), ("  ", None), ("/", None), ("!", None),
            ("!/", None), ("\\ ", True), ("\\!a", True), ("a\0b", True), ("\0", None), ("\r\n", None), (b"!a", False),
            ("\ufeff!a", False), ("\ufeff# a", None), ("\ufeff", None), ("!\\ ", False), ("a" + " " * 2**20, True),
            ("//", None), ("!//", None), ("///", True),
        ]:  # fmt: skip
            with self.subTest(line=line):
                self.assertIs(GitIgnorePattern(line).include, include)
        self.assertEqual(len({GitIgnorePattern("a"), GitIgnorePattern("a"), GitIgnorePattern("b")}), 2)
        self.assertNotEqual(GitIgnorePattern("a"), "a")
        spec = PathSpec([GitIgnorePattern("a"), GitIgnorePattern("!b")])
        self.assertEqual([pattern.pattern for pattern in spec.patterns], ["a", "!b"])
        self.assertEqual(repr(spec), "PathSpec([GitIgnorePattern('a'), GitIgnorePattern('!b')])")

    def test_errors(self):
        self.assertIs(GitWildMatchPatternError, GitIgnorePatternError)
        self.assertTrue(issubclass(GitIgnorePatternError, ValueError))
        for line in ["[a", "a\\", "![", "[[:nothing:]]"]:
            for call in [GitIgnorePattern, lambda line: PathSpec.from_lines("gitwildmatch", ["a", line])]:
                with self.assertRaises(GitIgnorePatternError) as raised:
                    call(line)
                self.assertEqual(str(raised.exception), f"Invalid git pattern: {line!r}")
        with self.assertRaises(ValueError):
            PathSpec.from_lines("gitwildmatch", ["a\nb"])
        self.assertRaises(TypeError, GitIgnorePattern, 7)

    def test_operators(self):
        a, b = (PathSpec.from_lines("gitwildmatch", [line]) for line in ["a", "!a"])
        both = a + b
        self.assertEqual((len(a), len(both), bool(both), bool(PathSpec([]))), (1, 2, True, False))
        self.assertEqual((a.match_file("a"), both.match_file("a")), (True, False))
        other = a
        other += b
        self.assertEqual((other is a, a == both, a != both, a.match_file("a")), (True, True, False, False))
        ignore = GitIgnoreSpec.from_lines(["a"])
        self.assertIsInstance(ignore + b, GitIgnoreSpec)
        self.assertNotEqual(ignore, PathSpec.from_lines("gitwildmatch", ["a"]))
        self.assertNotEqual(a, "a")
        for call in [lambda: a + ["a"], lambda: a.__iadd__(["a"]) is NotImplemented and 1 + a, lambda: hash(a)]:
            self.assertRaises(TypeError, call)

    def test_many(self):
        spec = PathSpec.from_lines("gitwildmatch", ["*.py", "!b.py"])
        paths = ["a.py", "b.py", "./c.py", pathlib.PurePosixPath("d.py"), "e"]
        self.assertEqual(list(spec.match_files(paths)), [paths[0], *paths[2:4]])
        self.assertEqual(list(spec.match_files(iter(paths), negate=True)), ["b.py", "e"])
        self.assertEqual([check.include for check in spec.check_files(paths)], [True, False, True, True, None])
        self.assertEqual(len(list(spec.match_files(["a.py", "e"] * 3000))), 3000)
        for call in [spec.match_files, spec.check_files, spec.match_entries]:
            self.assertRaises(TypeError, call, "a.py")
            self.assertRaises(TypeError, call, 7)
        self.assertRaises(TypeError, spec.match_file, b"a.py")
        self.assertRaises(TypeError, spec.match_file, 7)

    def test_separators(self):
        spec = PathSpec.from_lines("gitwildmatch", ["/src/a.py"])
        self.assertTrue(spec.match_file("src\\a.py", separators=["\\"]))
        self.assertFalse(spec.match_file("src\\a.py"))
        self.assertTrue(spec.check_file(".\\src\\a.py", ["\\"]).include)
        self.assertEqual(list(spec.match_files(["src:a.py"], separators=":")), ["src:a.py"])


class Trees(unittest.TestCase):
    def setUp(self):
        folder = tempfile.TemporaryDirectory()
        self.addCleanup(folder.cleanup)
        self.top = folder.name
        for path in ["a.py", "b.c", "src/a.py", "src/build/b.py"]:
            at = os.path.join(self.top, path)
            os.makedirs(os.path.dirname(at), exist_ok=True)
            with open(at, "w", encoding="utf-8"):
                pass

    def test_tree(self):
        spec = GitIgnoreSpec.from_lines(["*.py", "!/a.py", "build/"])
        for root in [self.top, pathlib.Path(self.top)]:
            for call in [spec.match_tree_files, spec.match_tree]:
                self.assertEqual(sorted(call(root)), ["src/a.py", "src/build/b.py"])
                self.assertEqual(sorted(call(root, negate=True)), ["a.py", "b.c"])
            entries = sorted(entry.path for entry in spec.match_tree_entries(root))
            self.assertEqual(entries, ["src/a.py", "src/build", "src/build/b.py"])
            checks = sorted(spec.check_tree_files(root), key=lambda check: check.file)
            self.assertEqual(checks[:2], [CheckResult("a.py", False, 1), CheckResult("b.c", None, None)])

    def test_links(self):
        os.symlink("src", os.path.join(self.top, "link"))
        os.symlink("nothing", os.path.join(self.top, "broken.py"))
        spec, errors = PathSpec.from_lines("gitwildmatch", ["*.py", "link"]), []
        found = ["a.py", "link/a.py", "link/build/b.py", "src/a.py", "src/build/b.py"]
        self.assertEqual(sorted(spec.match_tree_files(self.top, on_error=errors.append)), found)
        self.assertEqual([error.filename for error in errors], [os.path.join(self.top, "broken.py")])
        found = ["a.py", "link", "src/a.py", "src/build/b.py"]
        self.assertEqual(sorted(spec.match_tree_files(self.top, follow_links=False)), found)
        for follow_links, found in [(True, ["link", "link/a.py", "link/build", "link/build/b.py"]), (False, [])]:
            entries = PathSpec.from_lines("gitwildmatch", ["link/"]).match_tree_entries(self.top, follow_links=follow_links)
            self.assertEqual(sorted(entry.path for entry in entries), found)
        os.symlink("..", os.path.join(self.top, "src", "up"))
        with self.assertRaises(util.RecursionError) as raised:
            list(spec.match_tree_files(self.top))
        self.assertIn("was reached as '' and again as ", str(raised.exception))

    def test_errors(self):
        spec, errors = PathSpec.from_lines("gitwildmatch", ["*"]), []
        missing = os.path.join(self.top, "nothing")
        self.assertRaises(FileNotFoundError, list, spec.match_tree_files(missing))
        self.assertEqual(list(spec.match_tree_files(missing, errors.append)), [])
        self.assertEqual([type(error) for error in errors], [FileNotFoundError])
        self.assertRaises(TypeError, spec.match_tree_files, self.top, 7)

    def test_entries(self):
        os.mkfifo(os.path.join(self.top, "pipe"))
        entries = {entry.path: entry for entry in util.iter_tree_entries(self.top)}
        self.assertEqual(sorted(entries), ["a.py", "b.c", "src", "src/a.py", "src/build", "src/build/b.py"])
        folder, file = entries["src/build"], entries["src/build/b.py"]
        self.assertEqual((folder.name, folder.is_dir(), folder.is_file(), folder.is_symlink()), ("build", True, False, False))
        self.assertEqual((file.name, file.is_dir(), file.is_file(follow_links=False)), ("b.py", False, True))
        self.assertEqual(file.stat().st_size, 0)
        self.assertEqual(util.append_dir_sep(pathlib.Path(self.top)), self.top + "/")
        self.assertEqual(util.append_dir_sep(pathlib.Path(self.top, "a.py")), os.path.join(self.top, "a.py"))

    def test_normalize_file(self):
        for path, wanted in [("a", "a"), ("/a", "a"), ("./a", "a"), ("//a", "/a"), ("././a", "./a"), ("a/", "a/"), (".", ".")]:
            self.assertEqual(util.normalize_file(path), wanted)
        self.assertEqual(util.normalize_file(pathlib.PurePosixPath("a/b")), "a/b")


class Documentation(unittest.TestCase):
    def test_examples_of_the_documentation(self):
        for module, least in [(pathspec, 14), (_pathspec_util, 2)]:
            failed, tried = doctest.testmod(module)
            self.assertEqual(failed, 0)
            self.assertGreaterEqual(tried, least)


if __name__ == "__main__":
    unittest.main()
