"""The texts of documents and of the comments of the libraries: their lines, blocks and examples."""

import os
import re
import subprocess

TOP = os.path.dirname(os.path.dirname(os.path.realpath(__file__)))
# The documents whose commands, examples and statements on globs are tried.
DOCUMENTS = ("README.md", "docs/USING.md", "docs/PERFORMANCE.md")


class Failure(Exception):
    pass


class Block:
    """A block of a text: its language, its lines, the number of its first line, and the last line before it."""

    def __init__(self, name, at, language, lines, before):
        self.name, self.at, self.language, self.lines, self.before = name, at, language, lines, before
        self.text = "".join(f"{line}\n" for line in lines)
        self.place = f"{name}:{at}"

    def file(self):
        """Returns the file that the line before the block names, or None."""
        found = re.search(r"`([\w./]+\.rt)`:$", self.before)
        return found and found[1]


def lines_of(name):
    """Returns the lines of a document, or of the comments of a source, as pairs of a number and a text."""
    with open(f"{TOP}/{name}", encoding="utf-8") as file:
        lines = list(enumerate(file.read().split("\n"), 1))
    if not name.endswith(".rt"):
        return lines
    comments = [(at, re.match(r"\s*//[/!] ?(.*)", line)) for at, line in lines]
    return [(at, found[1] if found else "") for at, found in comments]


def blocks_of(name):
    """Returns the blocks of a text, in order."""
    blocks, opened, before = [], None, ""
    for at, line in lines_of(name):
        if opened is None and line.startswith("```"):
            opened = (at, line[3:], [])
        elif opened is not None and line == "```":
            blocks.append(Block(name, *opened, before))
            opened = None
        elif opened is not None:
            opened[2].append(line)
        elif line:
            before = line
    if opened is not None:
        raise Failure(f"{name}:{opened[0]}: the block is not closed")
    return blocks


def files_of(*patterns):
    """Returns the names of files of the repository."""
    said = subprocess.run(["git", "ls-files", "-z", *patterns], cwd=TOP, stdout=subprocess.PIPE, check=True, text=True)
    return [name for name in said.stdout.split("\0") if os.path.isfile(f"{TOP}/{name}")]


def documents():
    """Returns the names of the documents and of the sources of the crates."""
    return [*DOCUMENTS, *files_of("crates/*/src/*.rt")]


def examples():
    """Returns the blocks that are examples."""
    blocks = [block for name in documents() for block in blocks_of(name)]
    return [block for block in blocks if block.language == "rust" and not block.file()]


def write(path, text, mode=0o644):
    os.makedirs(os.path.dirname(path), exist_ok=True)
    with open(path, "w", encoding="utf-8") as file:
        file.write(text)
    os.chmod(path, mode)
