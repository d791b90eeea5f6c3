"""Builds the module globset for pip and other builders, by the interface of PEP 517. `pyproject.toml` names it.

A wheel has the extension module where this Python is 3.10 or later and a C compiler and Python.h are there, and otherwise the
shared library, which is called by ctypes. The C library is looked for in the directory that GLOBSET_LIB_DIR names, in `lib`
beside this file, where a source distribution has it, in bindings/out, where `bindings/build` puts it, and in
crates/globset_c/out, where `rt lib` puts its archive.
"""

import gzip
import io
import os
import shutil
import subprocess
import sys
import tarfile
import tempfile

sys.path.insert(0, os.path.dirname(os.path.realpath(__file__)))
import build_extension
import build_wheel as wheels

HERE, TOP = wheels.HERE, wheels.TOP
ARCHIVE = f"{TOP}/crates/globset_c/out/libglobset_c.a"
# What a source distribution has beside the module, the licences and the library.
SOURCES = (
    *("pyproject.toml", "backend.py", "build_extension.py", "build_wheel.py", "README.md"),
    *("globset/_extension.c", "globset/_ignore.h", "globset/_relations.h"),
)
LIBRARY = ("libglobset.a", "libglobset.so", "globset.h", "globset_raw.h", "NOTICE")

MISSING = f"""globset: the C library is not there. One of these gives it:
- in a clone of the repository, with its toolchain: {TOP}/bindings/build
- the variable GLOBSET_LIB_DIR, with the directory that has libglobset.a, libglobset.so, globset.h, globset_raw.h and NOTICE
- a release, whose directory `python` has wheels, and a source distribution with the library inside"""


def _library(room):
    """Returns the directory of the C library, which is built in the directory `room` if only its archive is there."""
    given = os.environ.get("GLOBSET_LIB_DIR")
    folders = [given] if given else [f"{HERE}/lib", f"{TOP}/bindings/out"]
    for folder in folders:
        if all(os.path.isfile(f"{folder}/{name}") for name in LIBRARY):
            return folder
    if given or not os.path.isfile(ARCHIVE):
        raise SystemExit(MISSING)
    if subprocess.run([f"{TOP}/bindings/c/build", room]).returncode:
        raise SystemExit("globset: bindings/c/build failed")
    return room


def _built(library, room):
    """Returns the library that a wheel is made of: the extension module, or the shared library."""
    if sys.version_info >= (3, 10):
        try:
            build_extension.build(library, room)
            return f"{room}/{wheels.EXTENSION}"
        except SystemExit as error:
            print(f"globset: no extension module, so the wheel calls the library by ctypes: {error}", file=sys.stderr)
    shutil.copy(f"{library}/libglobset.so", f"{room}/shared.so")
    shutil.copy(f"{library}/NOTICE", f"{room}/NOTICE")
    return f"{room}/shared.so"


def build_wheel(wheel_directory, config_settings=None, metadata_directory=None):
    """Makes a wheel in a directory, and returns its name."""
    with tempfile.TemporaryDirectory() as c, tempfile.TemporaryDirectory() as room:
        return wheels.make(_built(_library(c), room), wheel_directory)


def _contents(library):
    """Returns the files of a source distribution, by name."""
    contents = {name: wheels.read(f"{HERE}/{name}") for name in SOURCES}
    contents.update({f"globset/{name}": wheels.read(f"{HERE}/globset/{name}") for name in wheels.MODULE})
    contents.update({name: wheels.read(wheels.license_file(name)) for name in wheels.LICENSES})
    contents.update({f"lib/{name}": wheels.read(f"{library}/{name}") for name in LIBRARY})
    contents["NOTICE"] = contents["lib/NOTICE"]
    contents["PKG-INFO"] = wheels.metadata(wheels.WITHOUT[0])
    return contents


def build_sdist(sdist_directory, config_settings=None):
    """Makes a source distribution in a directory, and returns its name. Its files and SOURCE_DATE_EPOCH decide its bytes."""
    top = f"globset-{wheels.version()}"
    moment = int(os.environ.get("SOURCE_DATE_EPOCH", "315532800"))
    with tempfile.TemporaryDirectory() as room:
        contents = _contents(_library(room))
    path = os.path.join(sdist_directory, f"{top}.tar.gz")
    with open(path, "wb") as file, gzip.GzipFile("", "wb", 9, file, 0) as packed:
        with tarfile.open(fileobj=packed, mode="w", format=tarfile.PAX_FORMAT) as tar:
            for name in sorted(contents):
                entry = tarfile.TarInfo(f"{top}/{name}")
                entry.size, entry.mtime, entry.mode = len(contents[name]), moment, 0o644
                tar.addfile(entry, io.BytesIO(contents[name]))
    return f"{top}.tar.gz"
