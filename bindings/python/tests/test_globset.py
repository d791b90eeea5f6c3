"""Tests of the module globset: its calls, exceptions and types, threads, and the end of the interpreter."""

import copy
import ctypes
import gc
import os
import pathlib
import pickle
import resource
import signal
import subprocess
import sys
import threading
import time
import unittest
from contextlib import suppress
from unittest import mock

import globset
from globset import ErrorKind, Glob, GlobError, GlobSet, escape

HERE = os.path.dirname(os.path.dirname(os.path.realpath(__file__)))
TOP = os.path.dirname(os.path.dirname(HERE))

# The table of README.md on the syntax: a glob, paths that it matches, and paths that it does not match.
SYNTAX = [
    ("a?c", ["abc", "a/c"], ["ac"]),
    ("*.c", ["a.c", ".c", "src/a.c"], []),
    ("**/a", ["a", "x/y/a"], ["xa"]),
    ("a/**", ["a/x/y", "a/"], ["a"]),
    ("a/**/b", ["a/b", "a/x/b"], ["a/xb"]),
    ("**", ["a", "x/y"], []),
    ("{a,b{c,d}}", ["a", "bc"], ["b"]),
    ("[a-c]", ["b"], ["d"]),
    ("[!a-c]", ["d", "/"], ["b"]),
    ("\\*", ["*"], ["a"]),
    ("[é]", [], ["é"]),
]

# A rejected text, the kind of its error, the characters of a range, and what is printed after the text.
ERRORS = [
    ("[a", ErrorKind.UNCLOSED_CLASS, None, None, "unclosed character class; missing ']'"),
    ("a[z-a]", ErrorKind.INVALID_RANGE, "z", "a", "invalid range; 'z' > 'a'"),
    ("[☃-é]", ErrorKind.INVALID_RANGE, "☃", "é", "invalid range; '☃' > 'é'"),
    ("a}", ErrorKind.UNOPENED_ALTERNATES, None, None, "unopened alternate group; missing '{' (maybe escape '}' with '[}]'?)"),
    ("{a,b", ErrorKind.UNCLOSED_ALTERNATES, None, None, "unclosed alternate group; missing '}' (maybe escape '{' with '[{]'?)"),
    ("a\\", ErrorKind.DANGLING_ESCAPE, None, None, "dangling '\\'"),
]


IS_CTYPES = globset._binding.__name__.endswith("_by_ctypes")


class Number:
    """An integer of another kind, as numpy has them."""

    def __init__(self, number):
        self.number = number

    def __index__(self):
        return self.number


class TextPath:
    def __init__(self, path):
        self.path = path

    def __fspath__(self):
        return self.path


def run_python(program, *arguments, **variables):
    """Runs a program in an interpreter of its own, which finds the same module, with these variables of the environment."""
    folder = os.path.dirname(os.path.dirname(globset.__file__))
    return subprocess.run(
        [sys.executable, "-X", "dev", *arguments, "-c", program],
        stdout=subprocess.PIPE,
        stderr=subprocess.PIPE,
        env={**os.environ, "PYTHONPATH": folder, "PYTHONDONTWRITEBYTECODE": "1", **variables},
        timeout=60,
    )


class Globs(unittest.TestCase):
    def test_syntax(self):
        for pattern, matching, others in SYNTAX:
            for path, wanted in [(path, True) for path in matching] + [(path, False) for path in others]:
                with self.subTest(pattern=pattern, path=path):
                    self.assertIs(Glob(pattern).match(path), wanted)
                    self.assertIs(GlobSet([pattern]).match(path), wanted)

    def test_options(self):
        for pattern, options, path in [
            ("*.C", {"case_insensitive": True}, "a.c"),
            ("a*c", {"literal_separator": False}, "a/c"),
            ("a\\", {"backslash_escape": False}, "a\\"),
            ("a{,b}", {"empty_alternates": True}, "a"),
            ("[a", {"allow_unclosed_class": True}, "[a"),
            ("?", {"whole_character": True}, "é"),
        ]:
            with self.subTest(pattern=pattern, options=options):
                self.assertTrue(Glob(pattern, **options).match(path))
                name, value = next(iter(options.items()))
                try:
                    self.assertFalse(Glob(pattern, **{name: not value}).match(path))
                except GlobError:
                    self.assertIn(name, ("backslash_escape", "allow_unclosed_class"))

    def test_options_are_keywords(self):
        with self.assertRaises(TypeError):
            Glob("a", True)

    def test_pattern_and_regex(self):
        glob = Glob("src/*.é", literal_separator=True)
        self.assertEqual(glob.pattern, "src/*.é")
        self.assertEqual(glob.regex, r"(?-u)^src/[^/]*\.\xc3\xa9$")
        self.assertEqual(Glob("a" * 1000).regex, f"(?-u)^{'a' * 1000}$")
        with self.assertRaises(AttributeError):
            glob.pattern = "a"

    def test_options_of_a_glob(self):
        options = {
            "case_insensitive": True,
            "literal_separator": False,
            "backslash_escape": False,
            "empty_alternates": False,
            "allow_unclosed_class": False,
            "whole_character": False,
        }
        self.assertEqual(Glob("a", case_insensitive=True, backslash_escape=False).options, options)
        for name, value in Glob("a").options.items():
            glob = Glob("a", **{name: not value})
            self.assertEqual(Glob(glob.pattern, **glob.options), glob)
            self.assertEqual(glob.options, {**Glob("a").options, name: not value})

    def test_equality_and_hash(self):
        self.assertEqual(Glob("a"), Glob("a"))
        self.assertEqual(hash(Glob("a")), hash(Glob("a")))
        self.assertNotEqual(Glob("a"), Glob("b"))
        self.assertNotEqual(Glob("a"), "a")
        for name in ["case_insensitive", "literal_separator", "empty_alternates", "allow_unclosed_class", "whole_character"]:
            self.assertNotEqual(Glob("a"), Glob("a", **{name: True}))
        self.assertNotEqual(Glob("a"), Glob("a", backslash_escape=False))
        self.assertEqual(len({Glob("a"), Glob("a"), Glob("b")}), 2)

    def test_repr(self):
        self.assertEqual(repr(Glob("a'b")), "Glob(\"a'b\")")
        glob = Glob("a", case_insensitive=True, backslash_escape=False)
        self.assertEqual(repr(glob), "Glob('a', case_insensitive=True, backslash_escape=False)")
        self.assertEqual(eval(repr(glob)), glob)
        globs = GlobSet(["a", Glob("b", whole_character=True)])
        self.assertEqual(repr(globs), "GlobSet([Glob('a'), Glob('b', whole_character=True)])")

    def test_copies(self):
        glob = Glob("*.A", case_insensitive=True)
        globs = GlobSet([glob, "b"])
        for made in [copy.copy, copy.deepcopy, lambda value: pickle.loads(pickle.dumps(value))]:
            self.assertEqual(made(glob), glob)
            self.assertTrue(made(glob).match("x.a"))
            self.assertEqual(made(globs).globs, globs.globs)
            self.assertEqual(made(globs).matches("x.a"), [0])
            self.assertEqual(made(globs).matches("b"), [1])

    def test_escape(self):
        self.assertEqual(escape("src/**/*.{a,b}?[é]"), "src/[*][*]/[*].[{]a,b[}][?][[]é[]]")
        self.assertEqual(escape(""), "")
        self.assertTrue(Glob(escape("a[*]")).match("a[*]"))
        long = "*" * 1000
        self.assertEqual(escape(long), "[*]" * 1000)

    def test_large(self):
        glob = Glob("{" * 100_000 + "a" + "}" * 100_000)
        self.assertTrue(glob.match("a"))
        self.assertFalse(glob.match("b"))
        self.assertTrue(Glob("*" + "a" * 100_000).match("a" * 200_000))
        self.assertEqual(GlobSet(["a" * 100_000, "*"]).matches("a" * 100_000), [0, 1])

    def test_many(self):
        glob = Glob("src/*.c", literal_separator=True)
        self.assertEqual(glob.match_many(["src/a.c", b"src/a/b.c", TextPath("src/b.c")]), [True, False, True])
        self.assertEqual(glob.match_many(iter([])), [])
        paths = [f"src/{number}.{'c' if number % 3 == 0 else 'h'}" for number in range(5000)]
        self.assertEqual(glob.match_many(paths), [number % 3 == 0 for number in range(5000)])
        self.assertEqual(glob.filter(path for path in paths), paths[::3])

    def test_version(self):
        self.assertRegex(globset.__version__, r"\A0\.4\.21\.[1-9][0-9]*\Z")
        self.assertEqual(globset._binding.version(), 4021)

    @unittest.skipIf(IS_CTYPES, "they are written in Python")
    def test_bases(self):
        """What the classes are made of refuses what they never pass."""
        for call in [
            lambda: globset.GlobBase("a"),
            lambda: globset.GlobBase("a", "b"),
            lambda: globset.GlobBase(),
            lambda: globset.GlobSetBase(),
            lambda: globset.GlobSetBase(()),
            lambda: globset.GlobSetBase(["a"], 0),
            lambda: globset.GlobSetBase(("a",), 0),
            lambda: globset.GlobSetBase((7,), 0),
            lambda: globset.GlobSetBase((), "a"),
            lambda: globset.GlobSetBase((), 2**70),
            lambda: Glob.__new__(Glob),
            lambda: GlobSet.__new__(GlobSet),
            lambda: object.__new__(Glob).match("a"),
            lambda: object.__new__(GlobSet).match("a"),
        ]:
            with self.assertRaises((TypeError, AttributeError, OverflowError)):
                call()
        with self.assertRaises(RuntimeError):
            globset.GlobBase("a", 64)


class Errors(unittest.TestCase):
    def test_each_kind(self):
        self.assertEqual({kind for _, kind, _, _, _ in ERRORS} | {ErrorKind.SURROGATE}, set(ErrorKind))
        for text, kind, start, end, said in ERRORS:
            for make in [Glob, lambda text: GlobSet(["a", text])]:
                with self.subTest(text=text), self.assertRaises(GlobError) as raised:
                    make(text)
                error = raised.exception
                self.assertIsInstance(error, ValueError)
                self.assertEqual(str(error), f"error parsing glob '{text}': {said}")
                self.assertEqual((error.glob, error.kind, error.start, error.end), (text, kind, start, end))

    def test_index(self):
        for globs, index in [(["[a"], 0), (["a", Glob("b"), "[a", "{"], 2), (iter(["a", "\udc80"]), 1)]:
            with self.assertRaises(GlobError) as raised:
                GlobSet(globs)
            self.assertEqual(raised.exception.index, index)
            self.assertEqual(pickle.loads(pickle.dumps(raised.exception)).index, index)
        with self.assertRaises(GlobError) as raised:
            Glob("[a")
        self.assertIsNone(raised.exception.index)

    def test_copies(self):
        with self.assertRaises(GlobError) as raised:
            Glob("[z-a]")
        error = raised.exception
        for made in [copy.copy(error), pickle.loads(pickle.dumps(error))]:
            self.assertEqual(str(made), str(error))
            self.assertEqual((made.glob, made.kind, made.start, made.end), ("[z-a]", ErrorKind.INVALID_RANGE, "z", "a"))
            self.assertEqual(made.offset, 0)

    def test_offsets(self):
        rows = [("a[b", 1), ("é[a-z][z-a][y-b]", 6), ("é{a,b}}", 6), ("😀/{*.c,*.{h,hpp}", 2), ("é\\", 1), ("é[\udc80", 2)]
        for text, offset in rows:
            with self.subTest(text=text), self.assertRaises(GlobError) as raised:
                Glob(text)
            self.assertEqual(raised.exception.offset, offset)

    def test_options_of_an_error(self):
        with self.assertRaises(GlobError):
            Glob("a\\")
        Glob("a\\", backslash_escape=False)
        with self.assertRaises(GlobError):
            Glob("[a\\", backslash_escape=False)
        Glob("[a\\", backslash_escape=False, allow_unclosed_class=True)

    def test_surrogate(self):
        for make in [Glob, lambda text: GlobSet(["a", text])]:
            for text in ["a\udc80", "\ud800", "[\udc80"]:
                with self.assertRaises(GlobError) as raised:
                    make(text)
                error = raised.exception
                self.assertEqual((error.glob, error.kind, error.start, error.end), (text, ErrorKind.SURROGATE, None, None))
                str(error).encode()
                self.assertEqual(pickle.loads(pickle.dumps(error)).glob, text)
        with self.assertRaises(UnicodeEncodeError):
            escape("\udc80")

    def test_types(self):
        for call in [
            lambda: Glob(b"a"),
            lambda: Glob(7),
            lambda: GlobSet("*.c"),
            lambda: GlobSet(Glob("*.c")),
            lambda: GlobSet([b"*.c"]),
            lambda: GlobSet(7),
            lambda: Glob("a").match(7),
            lambda: Glob("a").match(bytearray(b"a")),
            lambda: GlobSet(["a"]).match(None),
            lambda: GlobSet(["a"]).matches(7),
            lambda: GlobSet(["a"]).match_many("a"),
            lambda: GlobSet(["a"]).match_many(["a", 7]),
            lambda: GlobSet(["a"]).match_many(7),
            lambda: GlobSet(["a"]).matches_many(b"a"),
            lambda: GlobSet(["a"]).matches_many([None]),
            lambda: GlobSet(["a"]).filter("a"),
            lambda: GlobSet(["a"]).filter([7]),
            lambda: GlobSet(["a"]).can_match_below(7),
            lambda: Glob("a").match_many("a"),
            lambda: Glob("a").filter(["a", 7]),
            lambda: GlobSet(["a"]).match(TextPath(7)),
            lambda: GlobSet(["a"], dfa_size_limit="a"),
            lambda: GlobSet(["a"], dfa_size_limit=1.5),
            lambda: GlobSet(["a"], 7),
            lambda: escape(b"a"),
            lambda: escape(7),
        ]:
            with self.assertRaises(TypeError):
                call()

    @unittest.skipUnless(IS_CTYPES, "the functions of the library are no objects")
    def test_statuses(self):
        library, globs, glob = globset._library, GlobSet(["a"]), Glob("a")
        for name, call in [
            ("searcher_new", lambda: GlobSet(["a"]).match("a")),
            ("searcher_is_match", lambda: globs.match("a")),
            ("searcher_find", lambda: globs.matches("a")),
            ("searcher_found", lambda: globs.matches("a")),
            ("searcher_matches_all", lambda: globs.matches_all("a")),
            ("searcher_is_match_many", lambda: globs.match_many(["a"])),
            ("searcher_can_match_below", lambda: globs.can_match_below("a")),
            ("matcher_new", lambda: glob.match("a")),
            ("glob_regex", lambda: glob.regex),
            ("escape", lambda: escape("a")),
            ("glob_new", lambda: Glob("a")),
            ("builder_new", lambda: GlobSet(["a"])),
            ("builder_add", lambda: GlobSet(["a"])),
            ("builder_build", lambda: GlobSet(["a"])),
        ]:
            with self.subTest(name=name):
                with mock.patch.object(library, name, return_value=3), self.assertRaises(MemoryError):
                    call()
                with mock.patch.object(library, name, return_value=7), self.assertRaises(RuntimeError):
                    call()
                call()

    def test_memory(self):
        ran = run_python(
            """
import resource
from globset import Glob, GlobSet, GlobError
text = "a?" * 1_000_000
with open("/proc/self/statm") as file:
    used = int(file.read().split()[0]) * resource.getpagesize()
globs = GlobSet(["*.c", "[ab]*c"])
assert globs.matches("a.c") == [0, 1]
resource.setrlimit(resource.RLIMIT_AS, (used + 12_000_000, used + 12_000_000))
for _ in range(3):
    try:
        Glob(text)
    except MemoryError:
        print("out of memory")
assert globs.matches("a.c") == [0, 1] and Glob("*.c").match("a.c")
"""
        )
        self.assertEqual((ran.returncode, ran.stdout, ran.stderr), (0, b"out of memory\n" * 3, b""))


class Paths(unittest.TestCase):
    def test_types(self):
        glob, globs = Glob("src/*.c"), GlobSet(["src/*.c", "*.h"])
        paths = ["src/a.c", b"src/a.c", pathlib.PurePosixPath("src/a.c"), TextPath("src/a.c"), TextPath(b"src/a.c")]
        for path in paths:
            self.assertIs(glob.match(path), True)
            self.assertIs(globs.match(path), True)
            self.assertEqual(globs.matches(path), [0])
            self.assertIs(globs.matches_all(path), False)
        self.assertEqual(globs.match_many(paths), [True] * len(paths))
        self.assertEqual(globs.match_many(iter(paths)), [True] * len(paths))

    def test_bytes(self):
        self.assertTrue(Glob("a?b").match(b"a\xffb"))
        self.assertTrue(Glob("a?b").match(os.fsdecode(b"a\xffb")))
        self.assertTrue(Glob("a?b").match(b"a\0b"))
        self.assertFalse(Glob("a").match("a\0"))
        self.assertFalse(Glob("a").match("a\n"))
        self.assertTrue(Glob("").match(""))
        self.assertTrue(Glob("é").match("é"))

    def test_surrogates(self):
        globs = GlobSet(["a?b", "\u00e9*"])
        self.assertEqual(globs.matches("a\udcffb"), [0])
        self.assertEqual(globs.matches(TextPath("\udcc3\udca9x")), [1])
        self.assertEqual(globs.match_many(["a\udcffb", "\udcff"]), [True, False])
        self.assertEqual(globs.filter(["\udcff", "a\udcffb"]), ["a\udcffb"])
        for call in [globs.match, globs.matches, Glob("*").match, globs.can_match_below, lambda path: globs.filter([path])]:
            with self.assertRaises(UnicodeEncodeError):
                call("a\ud800")

    def test_many(self):
        globs = GlobSet(["*.c", ""])
        self.assertEqual(globs.match_many([]), [])
        self.assertEqual(globs.match_many([""]), [True])
        self.assertEqual(globs.match_many(["", "", "a", "", "b.c", b"\0.c"]), [True, True, False, True, True, True])
        paths = [f"a/{number}.{'c' if number % 3 == 0 else 'h'}" for number in range(10_000)]
        answers = globs.match_many(paths)
        self.assertEqual(answers, [number % 3 == 0 for number in range(10_000)])
        self.assertEqual({type(answer) for answer in answers}, {bool})


class Sets(unittest.TestCase):
    def test_indexes(self):
        globs = GlobSet(["*.py", Glob("SRC/*", case_insensitive=True), "src/**/a.*", "nothing"])
        self.assertEqual(globs.matches("src/b/a.py"), [0, 1, 2])
        self.assertEqual(globs.matches("src/a"), [1])
        self.assertEqual(globs.matches("x"), [])
        self.assertEqual({type(index) for index in globs.matches("src/b/a.py")}, {int})
        self.assertEqual(len(globs), 4)
        self.assertEqual([glob.pattern for glob in globs.globs], ["*.py", "SRC/*", "src/**/a.*", "nothing"])

    def test_all(self):
        self.assertTrue(GlobSet(["*.c", "a*"]).matches_all("a.c"))
        self.assertFalse(GlobSet(["*.c", "a*"]).matches_all("b.c"))

    def test_matches_many(self):
        globs = GlobSet(["*.c", "", "a*"])
        self.assertEqual(globs.matches_many([]), [])
        self.assertEqual(globs.matches_many(["", b"a.c", TextPath("x"), "b.c"]), [[1], [0, 2], [], [0]])
        paths = [f"{'ab'[number % 2]}{number}.{'ch'[number % 3 == 0]}" for number in range(5000)]
        self.assertEqual(globs.matches_many(iter(paths)), [globs.matches(path) for path in paths])
        many = GlobSet(["*"] * 300)
        self.assertEqual(many.matches_many(["a"] * 1500), [list(range(300))] * 1500)

    def test_filter(self):
        globs = GlobSet(["*.c", "a*"])
        paths = ["b.c", b"a", TextPath("c.c"), pathlib.PurePosixPath("x"), "h"]
        kept = globs.filter(paths)
        self.assertEqual(len(kept), 3)
        for one, other in zip(kept, paths):
            self.assertIs(one, other)
        self.assertEqual(globs.filter([]), [])
        self.assertEqual(globs.filter(f"{number}.c" for number in range(3000)), [f"{number}.c" for number in range(3000)])

    def test_can_match_below(self):
        globs = GlobSet(["src/**/*.py", Glob("docs/*.md", literal_separator=True)])
        for folder, wanted in [("src", True), (b"src/a/b", True), ("docs", True), ("docs/a", False), (TextPath("lib"), False)]:
            self.assertIs(globs.can_match_below(folder), wanted, folder)
        self.assertFalse(GlobSet([]).can_match_below("a"))

    def test_equality_and_hash(self):
        one, other = GlobSet(["a", Glob("b", whole_character=True)]), GlobSet(["a", Glob("b", whole_character=True)])
        self.assertEqual(one, other)
        self.assertEqual(hash(one), hash(other))
        self.assertNotEqual(one, GlobSet(["a", "b"]))
        self.assertNotEqual(one, GlobSet([Glob("b", whole_character=True), "a"]))
        self.assertNotEqual(one, ["a"])
        self.assertEqual(len({one, other, GlobSet([])}), 2)

    def test_as_a_tuple(self):
        first, second = Glob("*.py"), Glob("*.C", case_insensitive=True)
        globs = GlobSet([first, second])
        self.assertEqual([*globs], [first, second])
        self.assertEqual((globs[0], globs[-1], globs[:1], globs[::-1]), (first, second, (first,), (second, first)))
        self.assertTrue(Glob("*.py") in globs and second in globs)
        self.assertFalse(Glob("*.C") in globs)
        self.assertEqual(GlobSet(globs), globs)
        self.assertEqual(list(reversed(globs)), [second, first])
        for wrong in ["*.py", b"a.py", 7, pathlib.PurePosixPath("a.py")]:
            with self.assertRaises(TypeError):
                wrong in globs
        with self.assertRaises(IndexError):
            globs[2]

    def test_dfa_size_limit(self):
        globs = [f"*{one}*{other}*" for one in "abc" for other in "def"]
        paths = ["a-e", "bcd", "", "cabf", "x" * 50 + "ad"]
        expected = GlobSet(globs).matches_many(paths)
        for limit in [0, 1, 5000, 2**40, 2**80]:
            made = GlobSet(globs, dfa_size_limit=limit)
            self.assertEqual(made.matches_many(paths), expected)
            self.assertEqual(made, GlobSet(globs))
            self.assertEqual(repr(made)[-len(f", dfa_size_limit={limit})") :], f", dfa_size_limit={limit})")
            self.assertEqual(repr(pickle.loads(pickle.dumps(made))), repr(made))
        self.assertEqual(repr(GlobSet([], dfa_size_limit=Number(7))), "GlobSet([], dfa_size_limit=7)")
        for wrong in [-1, Number(-1)]:
            with self.assertRaises(ValueError):
                GlobSet(globs, dfa_size_limit=wrong)

    def test_subclasses(self):
        class Named(GlobSet):
            def __new__(cls, globs, name=""):
                self = super().__new__(cls, globs)
                self.name = name
                return self

        class Text(str):
            pass

        named = Named(["*.c"], name="c")
        self.assertEqual((named.name, named.matches("a.c"), repr(named)), ("c", [0], "Named([Glob('*.c')])"))
        self.assertEqual(GlobSet([Text("*.c")]).filter([Text("a.c")]), ["a.c"])

    @unittest.skipIf(IS_CTYPES, "classes over ctypes have no module of C")
    def test_a_class_of_another_module(self):
        """A class that another module in C derives has that module, and makes sets all the same."""

        class Spec(ctypes.Structure):
            _fields_ = [("name", ctypes.c_char_p), ("size", ctypes.c_int), ("item_size", ctypes.c_int)]
            _fields_ += [("flags", ctypes.c_uint), ("slots", ctypes.c_void_p)]

        no_slots = (ctypes.c_void_p * 2)()
        spec = Spec(b"other.Set", 0, 0, 0, ctypes.addressof(no_slots))
        make = ctypes.pythonapi.PyType_FromModuleAndSpec
        make.argtypes, make.restype = [ctypes.py_object, ctypes.c_void_p, ctypes.py_object], ctypes.py_object
        other = make(unittest, ctypes.addressof(spec), (globset.GlobSetBase,))
        self.assertEqual(other((Glob("*.c"),), -1).matches("a.c"), [0])

    def test_no_globs(self):
        globs = GlobSet([])
        self.assertEqual((globs.match("a"), globs.matches("a"), globs.matches_all("a")), (False, [], True))
        self.assertEqual(globs.match_many(["a", "b"]), [False, False])
        self.assertEqual(len(globs), 0)

    def test_iterators(self):
        self.assertEqual(GlobSet(f"*.{ending}" for ending in "abc").matches("x.b"), [1])

    def test_same_glob(self):
        glob = Glob("*.c")
        self.assertEqual(GlobSet([glob, glob, "*.c"]).matches("a.c"), [0, 1, 2])

    def test_left_out(self):
        self.assertTrue(Glob("**/..").match("a/.."))
        self.assertEqual(GlobSet(["**/.."]).matches("a/.."), [])

    def test_long_answers(self):
        globs = GlobSet([f"*{number}*" for number in range(1000)])
        path = "".join(f"{number}," for number in range(1000))
        self.assertEqual(globs.matches(path), list(range(1000)))
        self.assertTrue(globs.matches_all(path))
        self.assertEqual(globs.matches("-"), [])


class Use(unittest.TestCase):
    def test_threads(self):
        globs, glob = GlobSet(["*[0-4]", "{a,b}*", "*7*"]), Glob("?*[13579]")
        start, wrong = threading.Barrier(8), []

        def ask(first):
            start.wait()
            for number in range(first, first + 1000):
                text = str(number)
                wanted = [index for index, yes in enumerate([text[-1] in "01234", False, "7" in text]) if yes]
                if globs.matches(text) != wanted or globs.match(text) != (wanted != []) or globs.matches_all(text):
                    wrong.append(text)
                if glob.match(text) != (len(text) > 1 and number % 2 == 1):
                    wrong.append(text)
                if globs.match_many([text, f"a{text}", "x"]) != [wanted != [], True, False]:
                    wrong.append(text)
                if Glob(f"{text}*").match("x") or GlobSet([text, "x"]).matches("x") != [1]:
                    wrong.append(text)

        threads = [threading.Thread(target=ask, args=(first * 1000,)) for first in range(8)]
        for thread in threads:
            thread.start()
        for thread in threads:
            thread.join()
        self.assertEqual(wrong, [])

    def test_calls_inside_calls(self):
        globs, inner = GlobSet(["a*", "*b"]), []

        class Asks:
            def __fspath__(self):
                inner.append(globs.matches("xb"))
                return "a"

        self.assertEqual(globs.matches(Asks()), [0])
        self.assertEqual(globs.match_many([Asks(), "x", Asks()]), [True, False, True])
        self.assertEqual(globs.matches_many([Asks(), Asks()]), [[0], [0]])
        self.assertEqual(len(globs.filter(Asks() for _ in range(1100))), 1100)
        self.assertEqual(inner, [[1]] * 1105)

    def test_a_path_that_ends_what_is_used(self):
        class Ends:
            def __init__(self, at):
                self.at = at

            def __fspath__(self):
                holder.clear()
                paths.clear()
                gc.collect()
                return f"{self.at}.c"

        for call in ["match", "matches", "matches_all", "can_match_below"]:
            holder, paths = [GlobSet(["*.c"])], []
            self.assertIn(getattr(holder[0], call)(Ends(1)), (True, False, [0]))
        for call in ["match_many", "matches_many", "filter"]:
            holder, paths = [GlobSet(["*.c"])], [Ends(1), Ends(2), Ends(3)]
            self.assertIn(len(getattr(holder[0], call)(paths)), (1, 3))
        for call in ["match_many", "filter"]:
            holder, paths = [Glob("*.c")], [Ends(1), Ends(2)]
            self.assertIn(len(getattr(holder[0], call)(paths)), (1, 2))

    def test_an_iterator_that_fails(self):
        def paths():
            yield from ["a.c"] * 1500
            raise LookupError

        globs = GlobSet(["*.c"])
        for call in [globs.match_many, globs.matches_many, globs.filter, Glob("*").match_many, Glob("*").filter]:
            with self.assertRaises(LookupError):
                call(paths())

    def test_the_lock_is_released(self):
        """Another thread runs during a call about many paths, and while a set is made.

        With so long a switch interval it can only do so when the call releases the lock, however busy the machine is.
        """
        globs, paths = GlobSet(["*a*[xy]*c", "*[xy]*a*c"]), [b"ab" * 100_000 + b"c"] * 50
        many = tuple(Glob(f"*{number}*[xy]*") for number in range(2000))
        counts, is_over = [0], threading.Event()

        def count():
            while not is_over.is_set():
                counts[0] += 1
                time.sleep(0.0005)

        def runs_during(call, *arguments):
            before = counts[0]
            call(*arguments)
            return counts[0] != before

        def runs_in_the_end(*call):
            end = time.monotonic() + 60
            while not runs_during(*call):
                if time.monotonic() > end:
                    return False
            return True

        interval = sys.getswitchinterval()
        sys.setswitchinterval(1000)
        thread = threading.Thread(target=count)
        thread.start()
        try:
            for call in [globs.match_many, globs.matches_many, globs.filter, globs.globs[0].match_many, globs.globs[1].filter]:
                self.assertTrue(runs_in_the_end(call, paths), call)
            for limit in [-1, 0]:
                self.assertTrue(runs_in_the_end(globset.GlobSetBase, many, limit), limit)
        finally:
            is_over.set()
            sys.setswitchinterval(interval)
            thread.join()

    @unittest.skipIf(IS_CTYPES, "all paths are made before any is matched")
    def test_keyboard_interrupt(self):
        ran = run_python(
            """
import itertools, signal
from globset import GlobSet
signal.setitimer(signal.ITIMER_REAL, 0.1)
signal.signal(signal.SIGALRM, signal.default_int_handler)
try:
    GlobSet(["*.c"]).filter(itertools.repeat("a"))
except KeyboardInterrupt:
    print("interrupted")
"""
        )
        self.assertEqual((ran.returncode, ran.stdout, ran.stderr), (0, b"interrupted\n", b""))

    def test_signals(self):
        globs, handled = GlobSet(["a*", "*b", "*c*"]), []
        before = signal.signal(signal.SIGALRM, lambda *_: handled.append(globs.matches("xcb")))
        signal.setitimer(signal.ITIMER_REAL, 0.0002, 0.0002)
        try:
            wrong, end = [], time.monotonic() + 10
            while len(handled) < 200 and time.monotonic() < end:
                if globs.matches("a") != [0] or globs.matches("acb") != [0, 1, 2] or globs.matches("x") != []:
                    wrong.append(len(handled))
        finally:
            signal.setitimer(signal.ITIMER_REAL, 0)
            signal.signal(signal.SIGALRM, before)
        self.assertEqual(wrong, [])
        self.assertNotEqual(handled, [])
        self.assertEqual(handled, [[1, 2]] * len(handled))

    def test_memory_is_freed(self):
        def use():
            for number in range(500):
                globs = GlobSet([f"*a{number}*b{other}*" for other in range(20)])
                globs.matches(f"a{number}b1")
                globs.globs[0].match("a")
                with self.assertRaises(GlobError):
                    Glob("{a" * 200)

        use()
        gc.collect()
        before = resource.getrusage(resource.RUSAGE_SELF).ru_maxrss
        use()
        use()
        after = resource.getrusage(resource.RUSAGE_SELF).ru_maxrss
        self.assertLess(after - before, 4_000, "in KiB")

    def test_references(self):
        """No call keeps a reference to what it was passed, also if it raises an exception."""
        glob, globs = Glob("*.c"), GlobSet(["*.c", "a*"])
        paths = [TextPath("".join(["a", ".c"])), "".join(["x", ".c"]), bytes([97, 98]), TextPath(7), "".join(["\ud800"])]
        watched = [Glob, GlobSet, TextPath, glob, globs, *paths, paths]

        def use():
            for call in [glob.match, globs.match, globs.matches, globs.matches_all, globs.can_match_below]:
                for path in paths:
                    with suppress(TypeError, UnicodeEncodeError):
                        call(path)
            for call in [glob.match_many, glob.filter, globs.match_many, globs.matches_many, globs.filter]:
                for several in [paths, paths[:3], paths[:2] * 600, iter(paths), paths[0]]:
                    with suppress(TypeError, UnicodeEncodeError):
                        call(several)
            for text in ["a", "[", 7, "\ud800"]:
                with suppress(TypeError, GlobError):
                    GlobSet([glob, text]).match(Glob(text).pattern)

        use()
        gc.collect()
        before = [sys.getrefcount(value) for value in watched]
        use()
        gc.collect()
        self.assertEqual([sys.getrefcount(value) for value in watched], before)

    def test_finalizers_after_exceptions(self):
        def ask(self):
            with suppress(AttributeError):
                self.match("a")

        for base, error, arguments in [(Glob, GlobError, ["["]), (globset.GlobSetBase, TypeError, [("a",), -1])]:
            asking = type("Asking", (base,), {"__del__": ask})
            with self.assertRaises(error):
                asking(*arguments)

    def test_end_of_the_interpreter(self):
        ran = run_python(
            """
import atexit, threading, time
import globset
glob, globs = globset.Glob("*.c"), globset.GlobSet(["*.c"])
assert glob.match("a.c") and globs.matches("a.c") == [0]
class Late:
    def __init__(self): self.globs, self.me = globs, self
    def __del__(self): self.globs.matches("a.c")
late = Late()
atexit.register(lambda: globs.match("a.c"))
def ask():
    while True:
        globs.matches("a.c")
for _ in range(3):
    threading.Thread(target=ask, daemon=True).start()
time.sleep(0.05)
"""
        )
        self.assertEqual((ran.returncode, ran.stdout, ran.stderr), (0, b"", b""))

    def test_fork(self):
        globs = GlobSet(["*.c"])
        self.assertTrue(globs.match("a.c"))
        child = os.fork()
        if child == 0:
            os._exit(0 if globs.matches("a.c") == [0] and Glob("*a").match("a") else 1)
        self.assertEqual(os.waitpid(child, 0)[1], 0)


if __name__ == "__main__":
    unittest.main()
