#!/usr/bin/env python3
"""Makes a wheel of the module globset for Linux, and prints its name.

Usage: build_wheel.py LIBRARY FOLDER

LIBRARY is what the wheel holds beside the module, with the file NOTICE in the same directory: the extension module
_extension.abi3.so, for a wheel for Python 3.10 and later, or the shared library libglobset.so, for one for Python 3.8 and later.
FOLDER is where the wheel is put. The same files give the same wheel, byte by byte; its files have the time SOURCE_DATE_EPOCH, or
1980. It needs `readelf`, to find what the library needs of the C library, and nothing else beside Python.
"""

import base64
import hashlib
import os
import re
import subprocess
import sys
import time
import zipfile

HERE = os.path.dirname(os.path.realpath(__file__))
TOP = os.path.dirname(os.path.dirname(HERE))
MODULE = (
    *("__init__.py", "_by_ctypes.py", "_choice.py", "_errors.py", "_library.py", "_pathspec_util.py", "_walk.py"),
    *("ignore.py", "pathspec.py", "py.typed", "relations.py"),
)
EXTENSION = "_extension.abi3.so"
# The least Python and the tag of a wheel with the extension module, and of one without it.
WITH_EXTENSION, WITHOUT = (("3.10", "cp310-abi3"), ("3.8", "py3-none"))
LICENSES = ("COPYING", "LICENSE-MIT", "UNLICENSE")
# The parts of the GNU C library, which every Linux that a tag `manylinux` names has.
C_LIBRARY = {"libc.so.6", "libm.so.6", "libpthread.so.0", "libdl.so.2", "ld-linux-x86-64.so.2", "libgcc_s.so.1"}

METADATA = """Metadata-Version: 2.4
Name: globset
Version: {version}
Summary: Globs and sets of globs: which paths match patterns such as src/**/*.py
License-Expression: MIT OR Unlicense
{licenses}Keywords: glob,pattern,path,match
Classifier: Operating System :: POSIX :: Linux
Classifier: Programming Language :: Python :: 3
Classifier: Typing :: Typed
Requires-Python: >={least}
Description-Content-Type: text/markdown

{description}"""

WHEEL = """Wheel-Version: 1.0
Generator: build_wheel.py
Root-Is-Purelib: false
{tags}"""


def read(path):
    with open(path, "rb") as file:
        return file.read()


def license_file(name):
    """Returns the path of a licence: beside this file in a source distribution, and at the top of the repository."""
    beside = f"{HERE}/{name}"
    return beside if os.path.isfile(beside) else f"{TOP}/{name}"


def metadata(least):
    """Returns the metadata of a distribution for this Python and later ones."""
    licenses = "".join(f"License-File: {name}\n" for name in (*LICENSES, "NOTICE"))
    description = read(f"{HERE}/README.md").decode()
    return METADATA.format(version=version(), least=least, licenses=licenses, description=description).encode()


def version():
    """Returns the version that the module has."""
    return re.search(r'(?m)^__version__ = "([^"]+)"$', read(f"{HERE}/globset/__init__.py").decode())[1]


def name_of(library):
    """Returns the name of a library in the wheel."""
    return EXTENSION if os.path.basename(library) == EXTENSION else "libglobset.so"


def readelf(option, library):
    command, environment = ["readelf", "--wide", option, library], {**os.environ, "LC_ALL": "C"}
    ran = subprocess.run(command, stdout=subprocess.PIPE, check=True, env=environment)
    return ran.stdout.decode()


def platforms(library):
    """Returns the systems that the library runs on, as tags: by the version of the GNU C library that it needs."""
    if "Advanced Micro Devices X86-64" not in readelf("--file-header", library):
        raise SystemExit(f"build_wheel.py: {library} is not for x86-64")
    needed = set(re.findall(r"\(NEEDED\)\s+Shared library: \[([^]]+)\]", readelf("--dynamic", library)))
    if not needed <= C_LIBRARY:
        return ["linux_x86_64"]
    versions = re.findall(r"\bGLIBC_2\.([0-9]+)", readelf("--version-info", library))
    # 17 is the least that all pips know that know this form of a tag.
    least = max([17, *map(int, versions)])
    return [f"manylinux_2_{least}_x86_64"] + ["manylinux2014_x86_64"] * (least == 17)


def files(library, least, tags):
    """Returns the files of the wheel without RECORD, by name."""
    info = f"globset-{version()}.dist-info"
    return {
        **{f"globset/{name}": read(f"{HERE}/globset/{name}") for name in MODULE},
        f"globset/{name_of(library)}": read(library),
        **{f"{info}/licenses/{name}": read(license_file(name)) for name in LICENSES},
        f"{info}/licenses/NOTICE": read(f"{os.path.dirname(os.path.abspath(library))}/NOTICE"),
        f"{info}/METADATA": metadata(least),
        f"{info}/WHEEL": WHEEL.format(tags="".join(f"Tag: {tag}\n" for tag in tags)).encode(),
    }


def record(contents):
    """Returns the text of RECORD, which has a hash of each file, and itself without one."""
    lines = []
    for name, content in contents.items():
        digest = base64.urlsafe_b64encode(hashlib.sha256(content).digest()).decode().rstrip("=")
        lines.append(f"{name},sha256={digest},{len(content)}\n")
    return "".join(lines) + f"globset-{version()}.dist-info/RECORD,,\n"


def write(path, contents):
    """Writes the files into a zip, whose bytes follow from them alone."""
    moment = max(int(os.environ.get("SOURCE_DATE_EPOCH", "0")), 315532800)
    with zipfile.ZipFile(path, "w", zipfile.ZIP_DEFLATED) as wheel:
        for name, content in contents.items():
            entry = zipfile.ZipInfo(name, time.gmtime(moment)[:6])
            entry.create_system = 3
            entry.external_attr = (0o100755 if name.endswith(".so") else 0o100644) << 16
            wheel.writestr(entry, content, zipfile.ZIP_DEFLATED)


def make(library, folder):
    """Makes the wheel of a library in a directory, and returns its name."""
    least, python = WITH_EXTENSION if name_of(library) == EXTENSION else WITHOUT
    systems = platforms(library)
    contents = files(library, least, [f"{python}-{system}" for system in systems])
    contents[f"globset-{version()}.dist-info/RECORD"] = record(contents).encode()
    name = f"globset-{version()}-{python}-{'.'.join(systems)}.whl"
    write(os.path.join(folder, name), contents)
    return name


def main():
    if len(sys.argv) != 3:
        raise SystemExit("Usage: build_wheel.py LIBRARY FOLDER")
    print(make(*sys.argv[1:]))


if __name__ == "__main__":
    main()
