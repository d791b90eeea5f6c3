"""Tests of what the two bindings have to do alike: which of them is used, and the bytes of paths and globs."""

import os
import random
import re
import sys
import unittest

import globset
from globset import Glob, GlobError, GlobSet, escape
from test_globset import IS_CTYPES, TextPath, run_python


class LongBytes(bytes):
    def __len__(self):
        return 10**9


class ShortBytes(bytes):
    def __len__(self):
        return 1

    def __getitem__(self, index):
        return b"z"

    def __iter__(self):
        return iter(b"z")

    def __bytes__(self):
        return b"z"

    def __buffer__(self, flags):
        return memoryview(b"z")


class OtherText(str):
    def encode(self, *arguments):
        return LongBytes(b"zzz")

    def __len__(self):
        return 10**9

    def __str__(self):
        return "zzz"


class Bindings(unittest.TestCase):
    def test_binding(self):
        chosen = os.environ.get("GLOBSET_BINDING", "")
        if chosen:
            names = {"extension": "globset._extension", "ctypes": "globset._by_ctypes"}
            self.assertEqual(globset._binding.__name__, names[chosen])
        ran = run_python("import os; os.environ['GLOBSET_BINDING'] = 'c'; import globset")
        self.assertEqual(ran.returncode, 1)
        self.assertIn(b"ImportError: GLOBSET_BINDING is extension or ctypes, not 'c'", ran.stderr)
        if not os.path.isfile(os.path.join(os.path.dirname(globset.__file__), "libglobset.so")):
            ran = run_python("import globset", GLOBSET_BINDING="ctypes")
            self.assertEqual(ran.returncode, 1)
            for text in [b"ImportError: GLOBSET_BINDING is ctypes, which cannot be used: ", b"The wheel py3-none has it"]:
                self.assertIn(text, ran.stderr)

    def test_no_binding(self):
        """Where neither binding can be used, the exception says why of both."""
        ran = run_python(
            """
import sys
sys.modules["globset._extension"] = sys.modules["globset._library"] = None
import globset
""",
            GLOBSET_BINDING="",
        )
        self.assertEqual(ran.returncode, 1)
        for text in ["ImportError: globset: neither its extension module nor ctypes", "globset._extension", "globset._library"]:
            self.assertIn(text.encode(), ran.stderr)

    def test_python_without_its_lock(self):
        ran = run_python("import sys; sys._is_gil_enabled = lambda: False; import globset")
        self.assertEqual(ran.returncode, 1)
        self.assertIn(b"ImportError: globset is for Python with its lock", ran.stderr)

    @unittest.skipIf(IS_CTYPES or sys.version_info < (3, 12), "interpreters with a lock of their own are there from 3.12 on")
    def test_other_interpreters(self):
        """Interpreters with a lock of their own import the module, in several threads at the same time."""
        asked = """
from globset import Glob, GlobError, GlobSet
for number in range(300):
    globs = GlobSet(["*.py", Glob(f"*a{number}*")])
    assert globs.matches(f"xa{number}.py") == [0, 1] and globs.match_many(["a", "b.py"] * 600) == [False, True] * 600
    try:
        Glob("[")
    except GlobError:
        pass
"""
        program = f"""
import threading
def run():
    try:
        import _interpreters
        said = _interpreters.exec(_interpreters.create("isolated"), {asked!r})
    except ImportError:
        import _xxsubinterpreters
        said = _xxsubinterpreters.run_string(_xxsubinterpreters.create(isolated=True), {asked!r})
    results.append(said)
results = []
threads = [threading.Thread(target=run) for _ in range(4)]
for thread in threads:
    thread.start()
for thread in threads:
    thread.join()
print(results)
"""
        ran = run_python(program)
        self.assertEqual((ran.returncode, ran.stdout), (0, b"[None, None, None, None]\n"), ran.stderr)


class Bytes(unittest.TestCase):
    def test_classes_that_lie(self):
        """A path and a pattern are their own bytes, whatever methods of a derived class say of them."""
        paths = [LongBytes(b"a.py"), ShortBytes(b"a.py"), OtherText("a.py")]
        paths += [TextPath(path) for path in paths]
        glob, globs = Glob("*a*p*"), GlobSet(["zzz", "z", "*a*p*", "a.py"])
        for path in paths:
            self.assertTrue(glob.match(path))
            self.assertFalse(Glob("zzz").match(path) or Glob("z").match(path))
            self.assertTrue(globs.match(path))
            self.assertEqual(globs.matches(path), [2, 3])
            self.assertFalse(globs.matches_all(path))
            self.assertTrue(GlobSet(["a.py/b"]).can_match_below(path))
            self.assertFalse(GlobSet(["zzz/b", "z/b"]).can_match_below(path))
        mixed, answers = [*paths, "x", b"a.py"] * 300, [True] * 6 + [False, True]
        self.assertEqual(globs.match_many(mixed), answers * 300)
        self.assertEqual(glob.match_many(mixed), answers * 300)
        self.assertEqual(globs.matches_many(mixed), [[2, 3] if answer else [] for answer in answers] * 300)
        self.assertEqual(len(glob.filter(mixed)), 2100)
        self.assertTrue(Glob(OtherText("a.*")).match("a.py") and GlobSet([OtherText("a.*")]).match("a.py"))
        self.assertEqual(escape(OtherText("a*")), "a[*]")
        for text, offset in [("é[z-a]", 1), ("éé\udc80", 2)]:
            with self.assertRaises(GlobError) as raised:
                Glob(OtherText(text))
            self.assertEqual(raised.exception.offset, offset)

    def test_another_encoding_of_names(self):
        """A path and a glob of one text match under every locale, and bytes that are not UTF-8 are matched as they are."""
        program = """
import os, sys
from globset import Glob, GlobSet
assert Glob("a?b").match(os.fsdecode(b"a\\xffb") if sys.getfilesystemencoding() != "iso8859-1" else b"a\\xffb")
assert Glob("\\xe9*").match("\\xe9.txt") and GlobSet(["?", "\\xe9"]).matches("\\xe9") == [1] and Glob("\\xe9").filter(["\\xe9"])
assert Glob("\\xe9").match("\\udcc3\\udca9")
"""
        for locale in ["C", "C.UTF-8", "en_US.ISO-8859-1"]:
            ran = run_python(program, PYTHONUTF8="0", PYTHONCOERCECLOCALE="0", LC_ALL=locale)
            self.assertEqual((ran.returncode, ran.stderr), (0, b""))

    def test_regex_by_re(self):
        """What the documentation says of the module `re` is so, also for line feeds."""
        pieces = ["a", "b", "*", "?", "/", "**/", "/**", "{a,", "}", "[!a]", "[a-b]", "\n", ".", "é", "\\*"]
        rng, tried = random.Random(1), 0
        while tried < 500:
            try:
                glob = Glob("".join(rng.choices(pieces, k=rng.randrange(6))), case_insensitive=rng.random() < 0.3)
            except GlobError:
                continue
            self.assertEqual(glob.regex[:5], "(?-u)")
            expression = re.compile(glob.regex[5:].encode(), re.DOTALL)
            for _ in range(10):
                path = bytes(rng.choices(b"abA/\n.\xff\xc3\xa9*", k=rng.randrange(6)))
                self.assertEqual(expression.fullmatch(path) is not None, glob.match(path), (glob, path))
            tried += 1


if __name__ == "__main__":
    unittest.main()
