"""What the documentation of the module says: its examples, and that both bindings have the same."""

import doctest
import importlib
import inspect
import os
import re
import unittest

import globset
from globset import Glob, GlobSet
from test_globset import HERE, TOP, run_python

# A block of Python in a document, and what it prints.
EXAMPLE = r"```python\n((?:(?!```).*\n)*)```\n\n```text\n((?:(?!```).*\n)*)```\n"


class Documentation(unittest.TestCase):
    def test_types_of_the_package(self):
        self.assertTrue(os.path.isfile(os.path.join(os.path.dirname(globset.__file__), "py.typed")))

    def test_examples_of_the_documentation(self):
        names = {name: getattr(globset, name) for name in globset.__all__}
        finder, runner = doctest.DocTestFinder(recurse=False), doctest.DocTestRunner()
        documented = [globset, *names.values()]
        members = [member for owner in [Glob, GlobSet] for member in inspect.getmembers(owner)]
        documented += [value for name, value in members if not name.startswith("_")]
        for value in documented:
            for example in finder.find(value, name=repr(value), module=False, globs={"globset": globset, **names}):
                runner.run(example)
        self.assertEqual(runner.failures, 0)
        self.assertGreaterEqual(runner.tries, 25)

    def test_documentation_of_both(self):
        """The extension module has the documentation and the parameters of the module over ctypes."""
        try:
            one, other = [importlib.import_module(f"globset.{name}") for name in ["_extension", "_by_ctypes"]]
        except (ImportError, OSError):
            self.skipTest("one of them is not there")
        functions = ["covering", "overlap", "unreachable", "escape", "version"]
        pairs = [(getattr(one, name), getattr(other, name)) for name in ["GlobBase", "GlobSetBase", "IgnoreFiles", *functions]]
        for first, second in pairs[:3]:
            names = [name for name in dir(second) if not name.startswith("_")]
            self.assertEqual([name for name in dir(first) if not name.startswith("_")], names)
            pairs += [(getattr(first, name), getattr(second, name)) for name in names]
        for first, second in pairs:
            self.assertEqual(inspect.getdoc(first), inspect.getdoc(second))
            if inspect.isfunction(second):
                names = [list(inspect.signature(function).parameters) for function in (first, second)]
                self.assertEqual(*names)

    def test_examples_of_the_documents(self):
        count = 0
        for name in [f"{HERE}/README.md", f"{TOP}/README.md", f"{TOP}/packaging/INSTALL.md"]:
            with open(name, encoding="utf-8") as file:
                examples = re.findall(EXAMPLE, file.read())
            for program, wanted in examples:
                ran = run_python(program)
                self.assertEqual((ran.returncode, ran.stdout.decode(), ran.stderr), (0, wanted, b""), name)
                count += 1
        self.assertGreaterEqual(count, 3)

    def test_each_name_has_an_example(self):
        for owner in [Glob, GlobSet]:
            for name, value in inspect.getmembers(owner):
                if not name.startswith("_"):
                    self.assertIn(">>>", value.__doc__, name)
        for name in globset.__all__:
            self.assertIn(">>>", getattr(globset, name).__doc__, name)


if __name__ == "__main__":
    unittest.main()
