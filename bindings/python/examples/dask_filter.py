#!/usr/bin/env python3
"""Filters many paths by a set of globs with Dask, on two processes, and compares the result with that of this process.

Usage: dask_filter.py [NUMBER]

NUMBER is how many paths there are (1,000,000). They are the lines of 20 files. The set travels to the processes, which read the
files themselves; what each keeps comes back in the order of the files. It needs the module `distributed` (Debian:
python3-distributed).
"""

import os
import sys
import tempfile
import time

from dask.distributed import Client, LocalCluster

from globset import Glob, GlobSet

PARTS = 20
FOLDERS = ["src", "src/parser", "docs", "tests/data", "target/debug"]
EXTENSIONS = ["py", "c", "H", "md", "txt", "o", "json"]


def paths_of(number):
    """Returns so many paths."""
    return [f"{FOLDERS[at % 5]}/{at}.{EXTENSIONS[at % 7]}" for at in range(number)]


def write_parts(folder, paths):
    """Writes the paths into files, and returns the names of these."""
    size = -(-len(paths) // PARTS)
    names = []
    for first in range(0, len(paths), size):
        names.append(os.path.join(folder, f"paths.{len(names):02}"))
        with open(names[-1], "w", encoding="utf-8") as file:
            file.writelines(f"{path}\n" for path in paths[first : first + size])
    return names


def kept_lines(name, globs):
    """Returns the paths of a file that a set of globs matches, as one text, which Dask sends faster than many."""
    with open(name, encoding="utf-8") as file:
        return "\n".join(globs.filter(file.read().splitlines()))


def main():
    number = int(sys.argv[1]) if len(sys.argv) > 1 else 1_000_000
    globs = GlobSet(["*.py", Glob("*.h", case_insensitive=True), "docs/**/*[05].{md,txt}"])
    paths = paths_of(number)
    with tempfile.TemporaryDirectory() as folder:
        names = write_parts(folder, paths)
        with LocalCluster(n_workers=2, threads_per_worker=1, dashboard_address=None) as cluster, Client(cluster) as client:
            start = time.perf_counter()
            parts = client.gather(client.map(kept_lines, names, globs=globs))
            seconds = time.perf_counter() - start
        start = time.perf_counter()
        expected = [path for name in names for path in kept_lines(name, globs).splitlines()]
        alone = time.perf_counter() - start
    kept = [path for part in parts for path in part.splitlines()]
    assert expected == globs.filter(paths)
    if kept != expected:
        raise SystemExit("the processes keep other paths, or in another order")
    print(f"{len(kept):,} of {number:,} paths are kept, in order")
    print(f"two processes: {seconds:.2f} s; this process alone: {alone:.2f} s", file=sys.stderr)


if __name__ == "__main__":
    main()
