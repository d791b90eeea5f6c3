#!/usr/bin/env python3
"""Prints the files below a directory that match one of the globs, which a process for each processor matches.

Usage: filter_files.py FOLDER GLOB..

The set of globs travels to the processes, which return the paths that match, in the order of the walk. The exit status is 0 if a
path matched, 1 if none did, and 2 after an error.
"""

import multiprocessing
import os
import sys

from globset import GlobError, GlobSet

# How many paths a process is sent at a time.
BATCH = 5_000


def stop(error):
    raise error


def paths_below(top):
    """Yields the paths of the files below a directory, relative to it. Raises the error of a directory that cannot be read."""
    for at, folders, names in os.walk(top, onerror=stop):
        folders.sort()
        start = os.path.relpath(at, top)
        yield from sorted(names if start == "." else (os.path.join(start, name) for name in names))


def batches(paths):
    """Yields the paths as lists."""
    batch = []
    for path in paths:
        batch.append(path)
        if len(batch) == BATCH:
            yield batch
            batch = []
    yield batch


def begin(globs):
    """Keeps the set of a process. It is sent once to each process, which makes it again of its globs."""
    global kept
    kept = globs


def matching(paths):
    return kept.filter(paths)


def print_matching(globs, top):
    """Prints the paths of the files below a directory that some glob matches. Returns whether there are any."""
    found = False
    # A new process for each worker: this one may have threads, and then its copy by `fork` may not match.
    with multiprocessing.get_context("spawn").Pool(initializer=begin, initargs=[globs]) as pool:
        for paths in pool.imap(matching, batches(paths_below(top))):
            for path in paths:
                sys.stdout.buffer.write(os.fsencode(path) + b"\n")
                found = True
    return found


def main():
    if len(sys.argv) < 3:
        print(__doc__, file=sys.stderr)
        return 2
    try:
        return 0 if print_matching(GlobSet(sys.argv[2:]), sys.argv[1]) else 1
    except GlobError as error:
        print(f"filter_files.py: glob {error.index + 1}: {error}", file=sys.stderr)
    except OSError as error:
        print(f"filter_files.py: {error}", file=sys.stderr)
    return 2


if __name__ == "__main__":
    sys.exit(main())
