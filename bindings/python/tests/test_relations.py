"""Tests of questions about all paths, by rows whose answers follow from the meaning of the globs, and by answers of `match`."""

import doctest
import unittest

import globset
from globset import Glob, GlobError, GlobSet, IgnoreRules, IgnoreStack, relations
from globset.relations import Coverage, Decides, Domain, Intersection, Reachability, RuleReachability
from globset.relations import covering, overlap, unreachable, unreachable_rules
from test_globset import Number

COVERED = [
    ("*.c", ["*"], True, True),
    ("*", ["*.c"], False, False),
    ("**/a", ["a", "?*/**/a"], False, True),
    ("src/**", ["src/*", "src/*/**"], True, True),
    ("", [], False, True),
    ("[.]", [], False, True),
    ("a[!b]", ["a[a-z]", "a[!a-z]"], True, True),
    ("a[!b]", ["a[a-y]", "a[!a-z]"], False, False),
]
DISJOINT = [
    ("*.c", "*.h", True, True),
    ("a*", "*b", False, False),
    ("a/..", "a/*", False, True),
    ("a/b", "a//b", True, True),
    ("{a,b}/**", "**/[b-d]/c", False, False),
]
NEVER = [
    (Decides.LAST, ["*", "a", "*"], [(2,), (2,), None]),
    (Decides.FIRST, ["a*", "*", "ab"], [None, None, (0,)]),
    (Decides.LAST, ["a[!b]", "a[a-z]", "b", "a[!a-z]"], [(1, 3), None, None, None]),
    (Decides.LAST, ["..", "a//b", "a"], [(), (), None]),
    (Decides.FIRST, [], []),
]
# An ignore file, and of each rule its line, and the only shortest path about which it decides by git's rule, the lines that
# cover it, or the line that ignores a directory.
RULES = [
    (["*.log", "# a", "!kept.log", "", "*.log"], [(1, (5,)), (3, (5,)), (5, ".log")]),
    (["[x", "/src", "!/src/a"], [(2, "src"), (3, 2)]),
    (["out/", "!out/keep", "out/*.o"], [(1, "out"), (2, 1), (3, 1)]),
    (["/src/[bc]", "!/src/b", "/src/b/c"], [(1, "src/c"), (2, "src/b"), (3, "src/b/c")]),
    (["[ab]", "b", "!a"], [(1, (2, 3)), (2, "b"), (3, "a")]),
    (["a/", "!a"], [(1, (2,)), (2, "a")]),
    (["a", "!a/"], [(1, "a"), (2, "a")]),
    (["a//b", "..", "a"], [(1, ()), (2, ()), (3, "a")]),
    (["é", b"\xff"], [(1, "é"), (2, "\udcff")]),
    (["# a", "["], []),
]


def glob(text):
    return Glob(text, literal_separator=True)


def rule_answer(line, told):
    if isinstance(told, str):
        return RuleReachability(line, True, told, None, None)
    return RuleReachability(line, False, None, *((None, told) if isinstance(told, int) else (told, None)))


class Relations(unittest.TestCase):
    def test_covering(self):
        for text, by, *wanted in COVERED:
            for domain, covered in zip(Domain, wanted):
                with self.subTest(text=text, by=by, domain=domain):
                    answer = covering(glob(text), map(glob, by), domain=domain)
                    self.assertIs(answer.covered, covered)
                    self.assertEqual(answer.path is None, covered)
                    if not covered:
                        self.assertTrue(glob(text).match(answer.path))
                        self.assertFalse(any(glob(other).match(answer.path) for other in by))

    def test_overlap(self):
        for a, b, *wanted in DISJOINT:
            for domain, disjoint in zip(Domain, wanted):
                with self.subTest(a=a, b=b, domain=domain):
                    answer = overlap(glob(a), glob(b), domain=domain)
                    self.assertIs(answer.disjoint, disjoint)
                    self.assertEqual(answer.path is None, disjoint)
                    if not disjoint:
                        self.assertTrue(glob(a).match(answer.path) and glob(b).match(answer.path))

    def test_unreachable(self):
        for decides, texts, wanted in NEVER:
            with self.subTest(texts=texts):
                answers = unreachable(map(glob, texts), decides=decides)
                self.assertEqual([answer.cover and tuple(sorted(answer.cover)) for answer in answers], wanted)
                for answer, cover in zip(answers, wanted):
                    self.assertIs(answer.decides, cover is None)
                    self.assertEqual(answer.path is None, cover is not None)

    def test_unreachable_rules(self):
        for lines, wanted in RULES:
            with self.subTest(lines=lines):
                stack = IgnoreStack()
                stack.add_file("*")
                stack.add_file(lines)
                for answers in [unreachable_rules(IgnoreRules(lines)), unreachable_rules(stack, 1)]:
                    answers = [answer._replace(cover=answer.cover and tuple(sorted(answer.cover))) for answer in answers]
                    self.assertEqual(answers, [rule_answer(*answer) for answer in wanted])
                unknown = [RuleReachability(line, None, None, None, None) for line, _ in wanted]
                self.assertEqual(unreachable_rules(stack, 1, limit=0), unknown)

    def test_unreachable_rules_by_options(self):
        self.assertEqual([answer.path for answer in unreachable_rules(IgnoreRules(".."), domain=Domain.ALL_PATHS)], [".."])
        rules = [IgnoreRules("ab\nAB", ignore_case=ignore_case) for ignore_case in (False, True)]
        self.assertEqual([unreachable_rules(each, limit=10**30)[0].decides for each in rules], [True, False])
        for file in [1, -1, 2**70]:
            self.assertRaises(IndexError, unreachable_rules, rules[0], file)
        self.assertRaises(IndexError, unreachable_rules, IgnoreStack())
        self.assertRaises(ValueError, unreachable_rules, rules[0], limit=-1)
        for lines in ["a", ["a"], None]:
            self.assertRaises(TypeError, unreachable_rules, lines)

    def test_paths(self):
        every = Domain.ALL_PATHS
        self.assertEqual(covering("", [], domain=every), Coverage(False, ""))
        self.assertEqual(covering("{abc,de}", ["x"]), Coverage(False, "de"))
        self.assertEqual(covering("é", ["e"]), Coverage(False, "é"))
        self.assertEqual(covering("a\0", ["a"], domain=every), Coverage(False, "a\0"))
        self.assertEqual(covering("a\0", ["a"]), Coverage(True, None))
        # The class has each byte of ASCII but some that are special in classes, which have globs of their own.
        plain = "".join(chr(code) for code in range(128) if chr(code) not in "[]!^-\\")
        answer = covering("?", [f"[{plain}]", "[]]", "[[]", "!", "-", "\\^", "\\\\"], domain=every)
        self.assertEqual((answer.covered, len(answer.path.encode("utf-8", "surrogateescape"))), (False, 1))
        self.assertTrue("\udc80" <= answer.path <= "\udcff" and Glob("?").match(answer.path))

    def test_limits(self):
        self.assertEqual(covering("a", ["a"], limit=0), Coverage(None, None))
        self.assertEqual(overlap("a", "a", limit=0), Intersection(None, None))
        self.assertEqual(unreachable(["a", "a"], limit=0), [Reachability(None, None, None)] * 2)
        for limit in [10**30, Number(1000)]:
            self.assertEqual(covering("a", ["a"], limit=limit), Coverage(True, None))
        with self.assertRaises(ValueError):
            covering("a", ["a"], limit=-1)

    def test_globs(self):
        self.assertFalse(GlobSet(["**/.."]).match(".."))
        self.assertEqual(covering("..", ["**/.."], domain=Domain.ALL_PATHS), Coverage(True, None))
        self.assertEqual(covering("a", GlobSet([Glob("A", case_insensitive=True)])), Coverage(True, None))
        one = Glob("a")
        self.assertEqual(covering(one, [one, one]), Coverage(True, None))
        with self.assertRaises(GlobError) as raised:
            unreachable(["a", "["])
        self.assertEqual(raised.exception.index, 1)
        with self.assertRaises(TypeError):
            covering("a", "a")
        with self.assertRaises(TypeError):
            overlap("a", b"a")

    def test_base_functions(self):
        """The functions of both bindings refuse what is no glob, and numbers that stand for nothing."""
        binding = globset._binding
        for call in [lambda: binding.overlap(Glob("a"), Glob("a"), 2, 9), lambda: binding.unreachable((), 2, 0, 9)]:
            self.assertRaises(RuntimeError, call)
        for call in [lambda: binding.covering("a", (), 0, 9), lambda: binding.covering(Glob("a"), ("a",), 0, 9)]:
            self.assertRaises((TypeError, AttributeError), call)

    def test_examples_of_the_documentation(self):
        failed, tried = doctest.testmod(relations)
        self.assertEqual(failed, 0)
        self.assertGreaterEqual(tried, 6)


if __name__ == "__main__":
    unittest.main()
