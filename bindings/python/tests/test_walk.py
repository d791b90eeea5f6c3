"""Tests of globset.walk."""

import os
import pathlib
import random
import tempfile
import unittest
from unittest import mock

from globset import Glob, GlobSet, walk


def all_files(top):
    """Returns the paths of all files below a folder, relative to it."""
    return [
        os.path.relpath(os.path.join(at, name), top)
        for at, folders, names in os.walk(top)
        for name in [*names, *(folder for folder in folders if os.path.islink(os.path.join(at, folder)))]
    ]


class Walk(unittest.TestCase):
    def setUp(self):
        folder = tempfile.TemporaryDirectory()
        self.addCleanup(folder.cleanup)
        self.top = folder.name

    def make(self, *paths):
        for path in paths:
            at = os.path.join(self.top, path)
            os.makedirs(os.path.dirname(at), exist_ok=True)
            with open(at, "w", encoding="utf-8"):
                pass

    def opened(self, *arguments, **options):
        """Returns what a walk yields, and the folders that it opens, relative to the top."""
        folders, scandir = [], os.scandir

        def note(path):
            folders.append(os.path.relpath(path, self.top))
            return scandir(path)

        with mock.patch("os.scandir", note):
            return list(walk(self.top, *arguments, **options)), folders

    def test_files(self):
        self.make("a.py", "b.c", "src/x.py", "src/a/y.py", "src/a/z.c", "zoo/a.py")
        self.assertEqual(list(walk(self.top, ["*.py"])), ["a.py", "src/x.py", "src/a/y.py", "zoo/a.py"])
        self.assertEqual(list(walk(self.top, GlobSet(["src/**"]))), ["src/x.py", "src/a/y.py", "src/a/z.c"])
        self.assertEqual(list(walk(self.top, [])), [])
        self.assertEqual(list(walk(self.top, [Glob("*.PY", case_insensitive=True, literal_separator=True)])), ["a.py"])

    def test_opened_folders(self):
        self.make("src/x.py", "src/a/y.py", "docs/x.py", "docs/deep/er/x.py", "target/x.py", "src/target/x.py")
        self.assertEqual(self.opened(["src/*.py"])[1], [".", "src", "src/a", "src/target"])
        self.assertEqual(self.opened([Glob("src/*.py", literal_separator=True)]), (["src/x.py"], [".", "src"]))
        self.assertEqual(self.opened([Glob("*.py", literal_separator=True)]), ([], ["."]))
        files, folders = self.opened(["*.py"], ignored=["**/target", "docs/deep", "src/x.py"])
        self.assertEqual((files, folders), (["docs/x.py", "src/a/y.py"], [".", "docs", "src", "src/a"]))

    def test_types_of_top(self):
        self.make("a/b.py")
        os.makedirs(os.path.join(os.fsencode(self.top), b"a\xff"))
        with open(os.path.join(os.fsencode(self.top), b"a\xff/c.py"), "w", encoding="utf-8"):
            pass
        self.assertEqual(list(walk(os.fsencode(self.top), ["**/*.py"])), [b"a/b.py", b"a\xff/c.py"])
        self.assertEqual(list(walk(pathlib.Path(self.top), ["**/*.py"])), ["a/b.py", os.fsdecode(b"a\xff/c.py")])
        with self.assertRaises(TypeError):
            walk(7, ["*"])
        with self.assertRaises(TypeError):
            walk(self.top, "*")
        with self.assertRaises(TypeError):
            walk(self.top, ["*"], ignored="a")

    def test_links(self):
        self.make("a/b.py")
        os.symlink("a", os.path.join(self.top, "link"))
        os.symlink("nothing", os.path.join(self.top, "a", "broken.py"))
        self.assertEqual(list(walk(self.top, ["*"])), ["link", "a/b.py", "a/broken.py"])

    def test_errors(self):
        self.make("a/b.py", "c/d.py")
        scandir, errors = os.scandir, []

        def refuse(path):
            if path.endswith("/a"):
                raise PermissionError(13, "refused", path)
            return scandir(path)

        with mock.patch("os.scandir", refuse):
            self.assertEqual(list(walk(self.top, ["*"], on_error=errors.append)), ["c/d.py"])
            self.assertEqual([error.filename for error in errors], [os.path.join(self.top, "a")])
            with self.assertRaises(PermissionError):
                list(walk(self.top, ["*"]))
        with self.assertRaises(FileNotFoundError):
            list(walk(os.path.join(self.top, "nothing"), ["*"]))

    def write(self, path, text):
        self.make(path)
        with open(os.path.join(self.top, path), "w", encoding="utf-8") as file:
            file.write(text)

    def test_ignored_by_git(self):
        self.make("a.o", "a.c", "src/a.o", "src/kept.o", "src/build/a.c", "src/deep/a/b/x.c", "zoo/build", "zoo/y.c", "build/z.c")
        self.write(".gitignore", "*.o\nbuild/\n/.gitignore")
        self.write("src/.gitignore", "!kept.o\n/deep/a/b")
        self.write("src/deep/.gitignore", "nothing")
        self.write("zoo/.gitignore", "y.c\n[")
        wanted = ["a.c", "src/.gitignore", "src/kept.o", "src/deep/.gitignore", "zoo/.gitignore", "zoo/build"]
        self.assertEqual(self.opened(["**"], ignored=True), (wanted, [".", "src", "src/deep", "src/deep/a", "zoo"]))
        self.assertEqual(list(walk(os.fsencode(self.top), ["**"], ignored=True)), [os.fsencode(path) for path in wanted])
        self.assertIn("a.o", list(walk(self.top, ["**"], ignored=False)))

    def test_ignore_files_that_are_none(self):
        """Git reads no link and no directory as an ignore file, and no file that a walk below the directory has left."""
        self.make("a/x", "b/x", "c/.gitignore/x", "c/x")
        self.write("a/.gitignore", "x")
        os.symlink("../a/.gitignore", os.path.join(self.top, "b", ".gitignore"))
        os.mkfifo(os.path.join(self.top, ".gitignore"))
        wanted = [".gitignore", "a/.gitignore", "b/.gitignore", "b/x", "c/x", "c/.gitignore/x"]
        self.assertEqual(list(walk(self.top, ["**"], ignored=True)), wanted)

    def test_ignore_file_that_cannot_be_read(self):
        self.make("a/x", "b/x", "b/c/x")
        self.write("a/.gitignore", "x")
        self.write("b/.gitignore", "c")
        lstat, errors = os.lstat, []

        def refuse(path, **options):
            if os.fspath(path).endswith("a/.gitignore"):
                raise PermissionError(13, "refused", path)
            return lstat(path, **options)

        with mock.patch("os.lstat", refuse):
            self.assertEqual(list(walk(self.top, ["**"], ignored=True, on_error=errors.append)), ["b/.gitignore", "b/x"])
            self.assertEqual([error.filename for error in errors], [os.path.join(self.top, "a/.gitignore")])
            self.assertRaises(PermissionError, list, walk(self.top, ["**"], ignored=True))

    def test_deep(self):
        path = "/".join("d" * 200) + "/x.py"
        self.make(path)
        self.assertEqual(list(walk(self.top, ["**/x.py"])), [path])

    def test_random_trees(self):
        """A walk yields what a walk that opens every folder yields, and opens no folder in vain."""
        rng = random.Random(7)
        for _ in range(40):
            with tempfile.TemporaryDirectory() as self.top:
                names = ["/".join(rng.choice("abc") for _ in range(rng.randint(1, 4))) for _ in range(12)]
                self.make(*{f"{name}/f.{rng.choice('xy')}" for name in names})
                globs = GlobSet(rng.sample(["a/**", "*.x", "b/?/*", "**/c/*.y", "[ab]/*", "c/{a,b}/**"], 2))
                files, folders = self.opened(globs)
                self.assertEqual(sorted(files), sorted(globs.filter(all_files(self.top))))
                self.assertTrue(all(folder == "." or globs.can_match_below(folder) for folder in folders))


if __name__ == "__main__":
    unittest.main()
