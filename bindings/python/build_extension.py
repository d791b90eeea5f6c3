#!/usr/bin/env python3
"""Builds the extension module of the package globset: _extension.abi3.so, for Python 3.10 and every later one.

Usage: build_extension.py LIBRARY FOLDER
       build_extension.py --check

LIBRARY is the directory that bindings/c/build filled, and libglobset.a in it is linked in. FOLDER gets the extension module and
the file NOTICE. It needs a C compiler (CC, else cc) and the header Python.h of Python 3.10 or later, of this
Python or of one in /usr/include. CFLAGS are more arguments for the compiler. With --check the exit status says whether the
header is there.

The documentation in it is that of globset/_by_ctypes.py.
"""

import ast
import glob
import os
import shlex
import shutil
import subprocess
import sys
import sysconfig
import tempfile

HERE = os.path.dirname(os.path.realpath(__file__))
FLAGS = "-std=c11 -O2 -fPIC -shared -fvisibility=hidden -Wall -Wextra -Wconversion".split()
# What the macros of the documentation begin with, for each class.
CLASSES = {"GlobBase": "GLOB", "GlobSetBase": "SET", "IgnoreFiles": "IGNORE"}


def include():
    """Returns the directory of the newest header Python.h that is there."""
    version = sys.version_info[:2]
    folders = [(version, sysconfig.get_path("include"))]
    for folder in glob.glob("/usr/include/python3.*"):
        numbers = os.path.basename(folder)[len("python") :].split(".")
        if all(number.isdecimal() for number in numbers):
            folders.append((tuple(map(int, numbers)), folder))
    usable = [(number, folder) for number, folder in folders if number >= (3, 10) and os.path.isfile(f"{folder}/Python.h")]
    if not usable:
        raise SystemExit("build_extension.py: no Python.h of Python 3.10 or later is there (Debian: python3-dev)")
    # This Python's own comes first.
    return min(usable, key=lambda pair: pair[0] != version)[1]


def c_text(text):
    """Returns a text as a string of C."""
    escapes = {"\\": "\\\\", '"': '\\"', "\n": "\\n"}
    return '"' + "".join(escapes.get(letter, letter) for letter in text) + '"'


def macros(tree):
    """Yields the name and the text of each piece of documentation, of a function with its parameters."""
    yield "MODULE", "What globset._by_ctypes has, as an extension module."
    owners = [(CLASSES[node.name], node) for node in tree.body if isinstance(node, ast.ClassDef)]
    for name, node in owners:
        yield name, ast.get_docstring(node)
    for name, node in [("", tree), *owners]:
        for function in node.body:
            if not isinstance(function, ast.FunctionDef) or function.name.startswith("_"):
                continue
            is_property = any(getattr(decorator, "id", "") == "property" for decorator in function.decorator_list)
            names = [argument.arg for argument in function.args.posonlyargs if argument.arg != "self"]
            parameters = ", ".join(["$self" if name else "$module", *names, "/"])
            says = "" if is_property else f"{function.name}({parameters})\n--\n\n"
            yield f"{name}_{function.name}".lstrip("_").upper(), says + ast.get_docstring(function)


def build(library, folder):
    """Builds the extension module into a directory."""
    headers = include()
    with open(f"{HERE}/globset/_by_ctypes.py", encoding="utf-8") as file:
        tree = ast.parse(file.read())
    with tempfile.TemporaryDirectory() as room:
        with open(f"{room}/_extension_docs.h", "w", encoding="utf-8") as file:
            file.writelines(f"#define {name} {c_text(text)}\n" for name, text in macros(tree))
        with open(f"{room}/exports", "w", encoding="utf-8") as file:
            file.write("{ global: PyInit__extension; local: *; };\n")
        compiler = shlex.split(os.environ.get("CC", "cc"))
        folders = [f"-I{room}", f"-I{library}", "-isystem", headers]
        linked = [f"{library}/libglobset.a", f"-Wl,--version-script={room}/exports"]
        source, built = f"{HERE}/globset/_extension.c", f"{folder}/_extension.abi3.so"
        more = shlex.split(os.environ.get("CFLAGS", ""))
        command = [*compiler, *FLAGS, *more, *folders, source, *linked, "-o", built]
        try:
            status = subprocess.run(command).returncode
        except OSError as error:
            raise SystemExit(f"build_extension.py: {compiler[0]}: {error.strerror}")
        if status:
            raise SystemExit("build_extension.py: the extension module cannot be built")
    if os.path.realpath(library) != os.path.realpath(folder):
        shutil.copy(f"{library}/NOTICE", f"{folder}/NOTICE")


def main():
    if sys.argv[1:] == ["--check"]:
        include()
    elif len(sys.argv) == 3:
        build(*sys.argv[1:])
    else:
        raise SystemExit("Usage: build_extension.py LIBRARY FOLDER | --check")


if __name__ == "__main__":
    main()
