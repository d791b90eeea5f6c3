#!/usr/bin/env python3
"""The edits that the gate does not try: their folders, and the digest of what they are tried on.

Usage: tests/edits.py FOLDER [CRATE]

Prints the digest for the edits in tests/mutants/CRATE, or without a crate for those in tests/mutants_for_tests. FOLDER is the
repository or a copy of it. The digest is SHA-256 of the names and bytes of the edits and of the sources that decide whether
they are refused: the crate and the libraries below it, or the code of all crates and the tests.
"""

import hashlib
import os
import sys

SOURCES = ("src", "specs", "proofs")


def libraries(top):
    """Returns the lists of libraries in crates.txt, by crate."""
    with open(f"{top}/crates.txt", encoding="utf-8") as file:
        lines = [line.split(":") for line in file if ":" in line and not line.startswith("#")]
    return {names.split()[0]: used.split() for names, used in lines}


def with_libraries(top, name):
    """Returns a crate and the crates of the repository below it."""
    used, found, new = libraries(top), set(), [name]
    while new:
        crate = new.pop()
        if crate in used and crate not in found:
            found.add(crate)
            new += used[crate]
    return found


def digest(top, paths):
    """Returns SHA-256 of the names and bytes of files and of all files in folders."""
    files = []
    for path in paths:
        files += [path] if os.path.isfile(f"{top}/{path}") else []
        files += [os.path.relpath(f"{folder}/{name}", top) for folder, _, names in os.walk(f"{top}/{path}") for name in names]
    said = hashlib.sha256()
    for name in sorted(set(files)):
        with open(f"{top}/{name}", "rb") as file:
            said.update(f"{name} {hashlib.sha256(file.read()).hexdigest()}\n".encode())
    return said.hexdigest()


def digest_of_mutants(top, name):
    """Returns the digest for the edits of a crate that the checker has to refuse."""
    crates = with_libraries(top, name)
    return digest(top, [f"crates/{crate}/{folder}" for crate in crates for folder in SOURCES] + [f"tests/mutants/{name}"])


def digest_of_tests(top):
    """Returns the digest for the edits that tests have to refuse."""
    folder = "tests/mutants_for_tests"
    edits = [f"{folder}/{name}" for name in os.listdir(f"{top}/{folder}") if name.endswith(".edit")]
    sources = [f"crates/{crate}/src" for crate in libraries(top)]
    return digest(top, [*sources, *edits, f"{folder}/try", "tests/allocations", "tests/crates"])


def main():
    if len(sys.argv) not in (2, 3):
        sys.exit("Usage: tests/edits.py FOLDER [CRATE]")
    print(digest_of_mutants(*sys.argv[1:]) if len(sys.argv) == 3 else digest_of_tests(sys.argv[1]))


if __name__ == "__main__":
    main()
