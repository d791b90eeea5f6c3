"""Tests of globset.ignore: what rules decide, what objects refuse, and threads."""

import copy
import doctest
import gc
import itertools
import os
import pathlib
import pickle
import random
import signal
import subprocess
import sys
import tempfile
import threading
import unittest
import weakref
from unittest import mock

import globset
from globset import IgnoreRules, IgnoreStack, ignore
from globset.ignore import Decision
from globset.relations import unreachable_rules
from test_globset import IS_CTYPES, TOP, Number, TextPath, run_python

sys.path.append(os.path.join(TOP, "model"))
import git_rules
import ignore_files

# Lines, a path, and the decision by git's rule, by the nearest decision, and about the path alone: the line, which is negative if
# it has `!`, or 0. From docs/GIT_IGNORE.md, and from `git check-ignore`.
DECISIONS = [
    (["*.o"], "a.o", 1, 1, 1),
    (["*.o"], "src/a.o", 1, 1, 1),
    (["*.o", "!a.o"], "a.o", -2, -2, -2),
    (["/a.o"], "src/a.o", 0, 0, 0),
    (["build/"], "build", 0, 0, 0),
    (["build/"], "build/", 1, 1, 1),
    (["build/"], "build/a.c", 1, 1, 0),
    (["/src", "!/src/a"], "src/a", 1, -2, -2),
    (["/src", "!/src/a"], "src/a/b", 1, -2, 0),
    (["!/src/a", "/src"], "src/a/b", 2, -1, 0),
    (["*", "!a/"], "a/", -2, -2, -2),
    (["!a/"], "a/b", 0, -1, 0),
    (["# *", "", "\\#a", "\\!a"], "#a", 3, 3, 3),
    (["a/**/b"], "a/x/y/b", 1, 1, 1),
    (["é?"], "éa", 1, 1, 1),
    ([b"a\xff*"], b"a\xffb", 1, 1, 1),
    (["a\r\n", "b \n"], "b", 2, 2, 2),
]
BY = ["git", "nearest", "path"]
# What the model has for each of these.
MODEL = [git_rules.rule_below, git_rules.nearest_rule, git_rules.files_rule]


def line_of(decision):
    return 0 if decision is None else -decision.line if decision.negated else decision.line


class Rules(unittest.TestCase):
    def test_decisions(self):
        for lines, path, *wanted in DECISIONS:
            with self.subTest(lines=lines, path=path):
                rules = IgnoreRules(lines)
                self.assertEqual([line_of(rules.decide(path, by=by)) for by in BY], wanted)
                self.assertEqual([rules.is_ignored(path, by=by) for by in BY], [line > 0 for line in wanted])
                for by, line in zip(BY, wanted):
                    self.assertEqual(rules.decide_many([path, path], by), [None if line == 0 else line > 0] * 2)
                    decision = None if line == 0 else Decision(0, abs(line), line < 0)
                    self.assertEqual(rules.rules_many([path, path], by), [decision] * 2)
                    self.assertEqual(rules.filter([path, path], by=by), [] if line > 0 else [path] * 2)

    @unittest.skipIf(sys.version_info < (3, 9), "the model is for later versions of Python")
    def test_random_files(self):
        """Rules decide as the model does, which is compared with git."""
        for seed in range(300):
            ignore_case = seed % 2 == 1
            text = ignore_files.ignore_file(random.Random(seed))
            rules = IgnoreRules(text, ignore_case=ignore_case)
            case = ignore_files.case_of(text, 20, ignore_case)
            for path, (by, model) in itertools.product(case.paths, zip(BY, MODEL)):
                with self.subTest(seed=seed, path=path, by=by):
                    found = model(case.files, path, case.is_folder(path), ignore_case)
                    wanted = None if found is None else Decision(0, found[1], found[2])
                    self.assertEqual(rules.decide(path, case.is_folder(path), by), wanted)

    def test_forms_of_a_file(self):
        for lines in [["a", "!b"], ["a\n", b"!b\n"], "a\n!b", b"a\n!b\n", ("a\r\n", "!b"), iter(["a", "!b"])]:
            rules = IgnoreRules(lines)
            self.assertEqual((rules.decide("a"), rules.decide("b")), (Decision(0, 1, False), Decision(0, 2, True)))
        with tempfile.TemporaryFile("w+") as file:
            file.write("x\na\n")
            file.seek(0)
            self.assertEqual(IgnoreRules(file).decide("a"), Decision(0, 2, False))
        for empty in ["", b"", [], [""], ["\n", "# a"]]:
            self.assertIsNone(IgnoreRules(empty).decide("a"))
        with self.assertRaisesRegex(ValueError, "^line 2 has a line feed before its end$"):
            IgnoreRules(["a", "b\nc"])
        for lines, said in [
            (7, "^an ignore file is str, bytes or an iterable of lines, not int$"),
            (pathlib.Path("a"), "an iterable of lines, not PosixPath$"),
            (["a", 7], "^line 2 is str or bytes, not int$"),
            (bytearray(b"a"), "^line 1 is str or bytes, not int$"),
        ]:
            with self.assertRaisesRegex(TypeError, said):
                IgnoreRules(lines)
        with self.assertRaises(UnicodeEncodeError):
            IgnoreRules("\ud800")

    def test_paths(self):
        rules = IgnoreRules(["a/", "b", b"\xff"])
        for path in ["a/", b"a/", TextPath("a/"), TextPath(b"a/")]:
            self.assertTrue(rules.is_ignored(path))
            self.assertTrue(rules.is_ignored(path, is_dir=True))
            with self.assertRaisesRegex(ValueError, "^a path that ends with / is that of a directory$"):
                rules.is_ignored(path, is_dir=False)
        self.assertEqual([rules.is_ignored("a", is_dir) for is_dir in (None, False, True)], [False, False, True])
        self.assertEqual([rules.is_ignored("b", is_dir) for is_dir in (None, False, True)], [True] * 3)
        self.assertTrue(rules.is_ignored(pathlib.Path("c/b")) and rules.is_ignored(os.fsdecode(b"\xff")))
        paths = [pathlib.Path("c/b"), "c", "a/", b"\xff"]
        self.assertEqual(rules.filter(paths), ["c"])
        self.assertEqual(rules.filter(iter(paths)), ["c"])
        self.assertEqual((rules.filter([]), rules.decide_many(()), rules.rules_many(iter([]))), ([], [], []))
        self.assertEqual(rules.decide_many(["c", "b"] * 5000), [None, True] * 5000)
        self.assertEqual(rules.rules_many(["c", "b"] * 5000), [None, Decision(0, 2, False)] * 5000)
        for call in [rules.filter, rules.decide_many, rules.rules_many]:
            for paths in ["b", b"b", 7, ["b", 7]]:
                self.assertRaises(TypeError, call, paths)
        for call in [rules.is_ignored, rules.decide]:
            self.assertRaises(TypeError, call, 7)
            self.assertRaises(UnicodeEncodeError, call, "\ud800")

    def test_by(self):
        rules = IgnoreRules("a")
        for by in ["", "Git", 0, None, []]:
            for call in [rules.is_ignored, rules.decide]:
                with self.assertRaisesRegex(ValueError, "^by is 'git', 'nearest' or 'path', not "):
                    call("a", by=by)
            for call in [rules.filter, rules.decide_many, rules.rules_many]:
                with self.assertRaisesRegex(ValueError, "^by is 'git', 'nearest' or 'path', not "):
                    call(["a"], by=by)

    def test_case(self):
        self.assertEqual([IgnoreRules("*.O", ignore_case=case).is_ignored("a.o") for case in (False, True)], [False, True])
        stack = IgnoreStack(ignore_case=True)
        stack.add_file("A")
        self.assertTrue(stack.is_ignored("a"))

    def test_dfa_size_limit(self):
        lines = [f"*{one}*{other}*" for one in "abc" for other in "def"]
        paths = ["a-e", "bcd", "", "cabf", "x" * 50 + "ad"]
        expected = IgnoreRules(lines).decide_many(paths)
        for limit in [0, 1, 5000, 2**40, 2**80]:
            made = IgnoreRules(lines, dfa_size_limit=limit)
            self.assertEqual(made.decide_many(paths), expected)
            self.assertEqual(made, IgnoreRules(lines))
            self.assertEqual(repr(made)[-len(f", dfa_size_limit={limit})") :], f", dfa_size_limit={limit})")
            self.assertEqual(repr(pickle.loads(pickle.dumps(made))), repr(made))
            walk = IgnoreStack(dfa_size_limit=limit)
            walk.add_file(lines)
            self.assertEqual(walk.decide_many(paths), expected)
        for make in [lambda limit: IgnoreRules("a", dfa_size_limit=limit), lambda limit: IgnoreStack(dfa_size_limit=limit)]:
            self.assertRaises(ValueError, make, -1)
            self.assertRaises(TypeError, make, "a")

    def test_unread_lines(self):
        self.assertEqual(IgnoreRules(["[a", "a", "", "# [", "b\\", "!["]).unread_lines(), [1, 5, 6])
        self.assertEqual(IgnoreRules("").unread_lines(), [])
        self.assertFalse(IgnoreRules("[a").is_ignored("[a"))

    def test_line_text(self):
        rules = IgnoreRules(b"\xef\xbb\xbf*.o\r\n\n# text  \n!a\\ \\b  \n[c\n/d\0e\n\xff \n\xc3\xa9")
        texts = ["*.o", "", "# text", "!a\\ \\b", "[c", "/d", "\udcff", "é"]
        self.assertEqual([rules.line_text(line) for line in range(1, 9)], texts)
        for line in [0, 9, -1, 2**63]:
            self.assertRaises(IndexError, rules.line_text, line)
        self.assertEqual(IgnoreRules("").line_text(1), "")

    def test_copies(self):
        rules = IgnoreRules(["a", "b"], ignore_case=True)
        self.assertEqual(rules, IgnoreRules("a\nb\n", ignore_case=True))
        self.assertEqual(len({rules, IgnoreRules("a\nb\n", ignore_case=True), IgnoreRules("a\nb\n")}), 2)
        self.assertNotEqual(rules, "a")
        for copied in [copy.copy(rules), copy.deepcopy(rules), pickle.loads(pickle.dumps(rules))]:
            self.assertEqual(copied, rules)
            self.assertTrue(copied.is_ignored("B"))
        self.assertEqual(repr(rules), "IgnoreRules(b'a\\nb\\n', ignore_case=True)")
        self.assertEqual(eval(repr(rules)), rules)
        self.assertIs(weakref.ref(rules)(), rules)


class Stack(unittest.TestCase):
    def test_files(self):
        stack = IgnoreStack()
        self.assertIsNone(stack.decide("a"))
        stack.add_file("*.log\n/x/y")
        stack.add_file("!top.log")
        stack.enter("x")
        self.assertEqual(stack.decide("y"), Decision(0, 2, False))
        stack.add_file("!*.log")
        self.assertEqual(stack.decide("a.log"), Decision(2, 1, True))
        self.assertTrue(stack.is_ignored("y/a.log"))
        self.assertFalse(stack.is_ignored("y/a.log", by="nearest"))
        stack.enter(b"z/w")
        self.assertEqual(stack.decide_many(["a.log", "a"]), [False, None])
        self.assertEqual(stack.rules_many(["a.log", "a"]), [Decision(2, 1, True), None])
        stack.leave()
        stack.leave()
        self.assertEqual(stack.decide("top.log"), Decision(1, 1, True))
        self.assertEqual(stack.filter(["a.log", "top.log"]), ["top.log"])
        rules = [Decision(1, 1, True), Decision(0, 1, False), Decision(0, 2, False)]
        self.assertEqual(stack.rules_many(["top.log", "a.log", "x/y/a"]), rules)
        stack.leave()
        stack.leave()
        self.assertEqual(stack.decide("top.log"), Decision(1, 1, True))
        for name in ["x/", b"x/", pathlib.PurePosixPath("x/")]:
            stack.enter(name)
            self.assertEqual(stack.decide("y"), Decision(0, 2, False))
            stack.leave()
        for call in [stack.enter, stack.add_file]:
            self.assertRaises(TypeError, call, 7)

    def test_unread_lines(self):
        stack = IgnoreStack()
        stack.add_file("a\n[")
        stack.add_file("[\n[")
        self.assertEqual([stack.unread_lines(file) for file in range(2)], [[2], [1, 2]])
        for file in [2, -1, 2**63, 2**200]:
            with self.assertRaisesRegex(IndexError, "^there is no ignore file or line of this index$"):
                stack.unread_lines(file)
        self.assertRaises(TypeError, stack.unread_lines, "a")

    def test_line_text(self):
        stack = IgnoreStack()
        stack.add_file("a")
        stack.enter("d")
        stack.add_file("# b\n!b \n")
        self.assertEqual([stack.line_text(*place) for place in [(0, 1), (1, 1), (1, 2), (1, 3)]], ["a", "# b", "!b", ""])
        for place in [(0, 0), (0, 2), (1, 4), (2, 1), (-1, 1), (0, -1), (2**63, 1), (0, 2**200)]:
            with self.assertRaisesRegex(IndexError, "^there is no ignore file or line of this index$"):
                stack.line_text(*place)
        self.assertEqual(stack.line_text(Number(1), Number(2)), "!b")
        for place in [("a", 1), (0, None), (0, 1.0)]:
            self.assertRaises(TypeError, stack.line_text, *place)
        stack.leave()
        self.assertRaises(IndexError, stack.line_text, 1, 1)

    def test_no_copies(self):
        stack = IgnoreStack()
        for call in [copy.copy, copy.deepcopy, pickle.dumps]:
            with self.assertRaisesRegex(TypeError, "^IgnoreStack cannot be copied or pickled$"):
                call(stack)
        self.assertRaises((TypeError, ValueError), pickle.dumps, globset._binding.IgnoreFiles(0, -1))

    def test_base_class(self):
        def files(*options):
            return globset._binding.IgnoreFiles(*options, -1)

        for call in [lambda: files(2), lambda: files(0).decide("a", 0, 3), lambda: files(0).decide_many(["a"], 3)]:
            self.assertRaises(RuntimeError, call)
        self.assertRaises(RuntimeError, files(0).rules_many, ["a"], 3)
        for call in [lambda: files(), lambda: files("a"), lambda: files(0).add_file("a"), lambda: files(0).unread_lines("a")]:
            self.assertRaises((TypeError, ctypes_error()), call)
        for call in [lambda: files(0).line_text(0), lambda: files(0).line_text("a", 1), lambda: files(0).unreachable(0, 0, "a")]:
            self.assertRaises((TypeError, ctypes_error()), call)
        one = files(0)
        one.add_file(b"a")
        self.assertRaises(RuntimeError, one.unreachable, 0, 2, 9)
        self.assertRaises(IndexError, one.unreachable, 1, 0, 9)

    @unittest.skipUnless(IS_CTYPES, "the functions of the library are no objects")
    def test_statuses(self):
        stack = IgnoreStack()
        stack.add_file("a")
        for name, call in [
            ("ignore_new", IgnoreStack),
            ("ignore_set_dfa_size_limit", lambda: IgnoreStack(dfa_size_limit=0)),
            ("ignore_add_file", lambda: stack.add_file("b")),
            ("ignore_enter", lambda: stack.enter("b")),
            ("ignore_leave", stack.leave),
            ("ignore_decide", lambda: stack.decide("a")),
            ("ignore_decide_many", lambda: stack.decide_many(["a"])),
            ("ignore_rules_many", lambda: stack.rules_many(["a"])),
            ("ignore_unread_lines", lambda: stack.unread_lines(0)),
            ("ignore_line_text", lambda: stack.line_text(0, 1)),
            ("ignore_unreachable", lambda: unreachable_rules(stack)),
            ("answers_lines", lambda: unreachable_rules(stack)),
            ("answers_at", lambda: unreachable_rules(stack)),
        ]:
            with self.subTest(name=name):
                with mock.patch.object(globset._library, name, return_value=3), self.assertRaises(MemoryError):
                    call()
                with mock.patch.object(globset._library, name, return_value=7), self.assertRaises(RuntimeError):
                    call()
                call()

    @unittest.skipUnless(IS_CTYPES, "no code of Python runs in a call of the extension module")
    def test_call_in_a_call(self):
        """What is lent is not read on after a call that a handler made: that call is refused."""
        stack, refused = IgnoreStack(), []
        stack.add_file("[")
        unread = globset._library.ignore_unread_lines

        def interrupted(*arguments):
            status = unread(*arguments)
            for call in [
                *(stack.leave, lambda: stack.add_file("a"), lambda: stack.decide("a"), lambda: stack.unread_lines(0)),
                *(lambda: stack.line_text(0, 1), lambda: unreachable_rules(stack)),
            ]:
                try:
                    call()
                except RuntimeError:
                    refused.append(call)
            return status

        with mock.patch.object(globset._library, "ignore_unread_lines", interrupted):
            self.assertEqual(stack.unread_lines(0), [1])
        self.assertEqual(len(refused), 6)
        self.assertEqual(stack.unread_lines(0), [1])


class Threads(unittest.TestCase):
    def test_threads(self):
        """Threads use one object, and each call answers by the files that are there between two others."""
        stack, rules, wrong = IgnoreStack(), IgnoreRules(["*.o", "!a.o"]), []
        stack.add_file("*.log")

        def ask(number):
            for _ in range(100):
                if rules.decide_many(["b.o", "a.o", "c"] * 50) != [True, False, None] * 50 or not stack.is_ignored("a.log"):
                    wrong.append(number)
                stack.enter("src")
                stack.add_file(["*.c", "["])
                stack.filter(["a.c", "b.log", "c"] * 100)
                stack.leave()
                if stack.unread_lines(0) or stack.line_text(0, 1) != "*.log":
                    wrong.append(number)
                if rules.line_text(2) != "!a.o" or [rule.path for rule in unreachable_rules(rules)] != [".o", "a.o"]:
                    wrong.append(number)

        threads = [threading.Thread(target=ask, args=[number]) for number in range(4)]
        for thread in threads:
            thread.start()
        for thread in threads:
            thread.join()
        self.assertEqual(wrong, [])
        for _ in range(400):
            stack.leave()
        self.assertEqual(stack.decide_many(["a.log", "a.c"]), [True, None])

    def test_calls_while_paths_are_read(self):
        stack = IgnoreStack()
        stack.add_file("a")

        class Path:
            def __fspath__(self):
                stack.enter("b")
                stack.add_file("c")
                answers.append(stack.decide("a"))
                stack.leave()
                return "a"

        answers = []
        self.assertEqual(stack.decide(Path()), Decision(0, 1, False))
        self.assertEqual(stack.decide_many([Path(), "c"]), [True, None])
        self.assertEqual(stack.rules_many([Path(), "c"]), [Decision(0, 1, False), None])
        self.assertEqual(len(stack.filter([Path(), "c", Path()])), 1)
        stack.enter(Path())
        self.assertEqual(answers, [Decision(0, 1, False)] * 6)

    def test_list_that_changes(self):
        rules, paths = IgnoreRules("a"), []

        class Path:
            def __fspath__(self):
                paths.clear()
                gc.collect()
                return "a"

        paths.extend([Path(), "a", "b"])
        self.assertEqual(rules.decide_many(paths), [True, True, None])

    @unittest.skipUnless(hasattr(signal, "setitimer"), "there are no timers")
    @unittest.skipIf(IS_CTYPES, "a lock of Python stays taken where the end of the interpreter ends its thread")
    def test_end_of_the_interpreter(self):
        """What is called at the end of the interpreter does not wait for threads that ended in a call."""
        ran = run_python(
            """
import os, threading, time
from globset import IgnoreRules
class Late:
    def __init__(self, rules): self.rules, self.write = rules, os.write
    def __del__(self):
        self.rules.is_ignored("a")
        self.write(1, b"ended")
# It is of another module, since a thread that runs keeps the names of its function's module.
other = {}
exec('''
def ask(call, asked):
    while True:
        call(asked)
''', other)
rules, paths = IgnoreRules(["*a*[xy]*c"]), [b"ab" * 1000 + b"c"] * 1000
late = Late(rules)
for asked in [(rules.decide_many, paths), (rules.decide_many, paths), (rules.decide, "a"), (rules.decide, "a")]:
    threading.Thread(target=other["ask"], args=asked, daemon=True).start()
time.sleep(0.2)
"""
        )
        self.assertEqual((ran.returncode, ran.stdout, ran.stderr), (0, b"ended", b""))

    def test_signals(self):
        """A handler of a signal uses the object that the interrupted call uses."""
        stack, count = IgnoreStack(), [0]
        stack.add_file(["a", "["])

        def handle(number, frame):
            count[0] += 1
            try:
                assert stack.is_ignored("a") and stack.unread_lines(0) == [2]
            except RuntimeError:
                pass

        before = signal.signal(signal.SIGALRM, handle)
        try:
            signal.setitimer(signal.ITIMER_REAL, 0.0005, 0.0005)
            while count[0] < 50:
                self.assertEqual((stack.is_ignored("a"), stack.unread_lines(0)), (True, [2]))
                self.assertEqual(stack.filter(["a", "b"]), ["b"])
        finally:
            signal.setitimer(signal.ITIMER_REAL, 0)
            signal.signal(signal.SIGALRM, before)


def has_git():
    try:
        return subprocess.run(["git", "--version"], stdout=subprocess.DEVNULL).returncode == 0
    except OSError:
        return False


class Git(unittest.TestCase):
    @unittest.skipUnless(has_git(), "git is not there")
    def test_random_files(self):
        """Rules decide as git does."""
        rng = random.Random(3)
        pieces = ["a", "b", "*", "?", "/", "**/", "/**", "[ab]", "!", "\\a"]
        paths = ["a", "b", "ab", "a/b", "b/a", "a/a/b", "b/ab/a", "ab/a"]
        environment = {**os.environ, "GIT_CONFIG_GLOBAL": "/dev/null", "GIT_CONFIG_NOSYSTEM": "1"}
        with tempfile.TemporaryDirectory() as top:
            subprocess.run(["git", "init", "-q", top], check=True, env=environment)
            for _ in range(60):
                lines = ["".join(rng.choices(pieces, k=rng.randint(1, 4))) for _ in range(4)]
                with open(os.path.join(top, ".gitignore"), "w", encoding="utf-8") as file:
                    file.write("\n".join(lines))
                ran = subprocess.run(
                    ["git", "-C", top, "check-ignore", "--no-index", "-v", "-n", "--stdin"],
                    input="\n".join(paths),
                    stdout=subprocess.PIPE,
                    env=environment,
                    universal_newlines=True,
                )
                wanted = [said.split("\t")[0].split(":")[1] for said in ran.stdout.splitlines()]
                decisions = map(IgnoreRules(lines).decide, paths)
                self.assertEqual([str(decision.line) if decision else "" for decision in decisions], wanted, lines)

    @unittest.skipUnless(has_git(), "git is not there")
    def test_texts_and_rules_that_never_decide(self):
        """The texts of lines are those that git prints. No path of many is decided by a rule that never decides."""
        rng = random.Random(4)
        pieces = ["a", "b", "*", "/", "**/", "/**", "[ab]", "!", "\\a", "a/", "*/", " ", "\\ "]
        names = ["a", "b", "ab"]
        paths = [*names, *("/".join(path) for path in itertools.product(names, repeat=2))]
        paths += ["/".join(path) for path in itertools.product("ab", repeat=3)]
        for _ in range(40):
            lines = ["".join(rng.choices(pieces, k=rng.randint(1, 3))) for _ in range(5)]
            rules, reached = IgnoreRules(lines), set()
            answers = unreachable_rules(rules)
            # A path of which an answer tells may be that of a directory or of a file.
            found = [answer.path for answer in answers if answer.decides]
            for line, text in self.told_by_git(lines, [*paths, *found]):
                self.assertEqual(rules.line_text(line), text, lines)
                reached.add(line)
            self.assertEqual({answer.line for answer in answers if answer.decides} - reached, set(), lines)
            self.assertEqual({answer.line for answer in answers if not answer.decides} & reached, set(), lines)

    def told_by_git(self, lines, paths):
        """Returns the lines, and their texts, that decide about paths, as those of directories and as those of files."""
        environment = {**os.environ, "GIT_CONFIG_GLOBAL": "/dev/null", "GIT_CONFIG_NOSYSTEM": "1"}
        told = []
        for makes_directories in [False, True]:
            with tempfile.TemporaryDirectory() as top:
                subprocess.run(["git", "init", "-q", top], check=True, env=environment)
                with open(os.path.join(top, ".gitignore"), "w", encoding="utf-8") as file:
                    file.write("\n".join(lines))
                for path in paths if makes_directories else []:
                    os.makedirs(os.path.join(top, path), exist_ok=True)
                ran = subprocess.run(
                    ["git", "-C", top, "check-ignore", "--no-index", "-v", "-z", "--stdin"],
                    input="".join(path + "\0" for path in paths),
                    stdout=subprocess.PIPE,
                    env=environment,
                    universal_newlines=True,
                )
                said = ran.stdout.split("\0")
                told += zip(map(int, said[1::4]), said[2::4])
        return told


class Documentation(unittest.TestCase):
    def test_examples_of_the_documentation(self):
        failed, tried = doctest.testmod(ignore)
        self.assertEqual(failed, 0)
        self.assertGreaterEqual(tried, 20)


def ctypes_error():
    """Returns the exception of ctypes for an argument of a wrong type, or one of the others."""
    return globset._library.ctypes.ArgumentError if IS_CTYPES else TypeError


if __name__ == "__main__":
    unittest.main()
