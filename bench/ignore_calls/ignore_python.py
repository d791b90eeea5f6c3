"""Prints the paths of standard input that an ignore file does not ignore: bench/ignore measures it.

Usage: ignore_python.py FILE MODULE < PATHS, where the module is globset or pathspec.
"""

import sys


def kept_by_globset(file, paths):
    from globset import IgnoreRules

    return IgnoreRules(file).filter(paths)


def kept_by_pathspec(file, paths):
    import pathspec

    ignored = set(pathspec.GitIgnoreSpec.from_lines(file.splitlines()).match_files(paths))
    return [path for path in paths if path not in ignored]


def main():
    with open(sys.argv[1], encoding="utf-8") as file:
        text = file.read()
    kept = {"globset": kept_by_globset, "pathspec": kept_by_pathspec}[sys.argv[2]]
    paths = sys.stdin.read().split("\n")[:-1]
    sys.stdout.write("".join(f"{path}\n" for path in kept(text, paths)))


if __name__ == "__main__":
    main()
