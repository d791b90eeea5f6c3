"""Compares what documents quote with the sources: clauses, definitions, bounds and names."""

import os
import re

from documents import TOP, blocks_of, files_of, lines_of

# The page whose tables begin with calls, and the page whose tables are of the files and types of crates.
CALLS = "docs/GUARANTEES.md"
FILES = "docs/DEFINITIONS.md"
# The pages that are compared, which have no other names in code.
QUOTING = (CALLS, "docs/READING.md", FILES)
# These are in code, but are no names of the sources: words of examples, and of other programs.
NO_NAMES = ("abd", "acd", "malloc", "src")
# What begins the names of exported functions, which pages leave out.
EXPORTED = "globset_raw_"
# A span with one of these is a glob, a path, a piece of a text, or the name of a toolchain.
NO_CODE = re.compile(r"[/*?\\]|^\S*[][{}.-]\S*$|^rattle-kit-")
SPAN = re.compile(r"`([^`\n]+)`")
WORD = re.compile(r"[^\W\d]\w*")
# What declares a name in Rattle, or implements it.
DECLARED = re.compile(
    r"\b(?:fn|struct|enum|trait|type|mod|const) (\w+)|\bimpl(?:<[^>]*>)? (?:\w+::)*(\w+)|\bderive\(([^)]*)\)"
)
# What stands for what in the words of a bound.
BOUND_WORDS = (("load_below", "load"), ("cost g", "cost"))
BOUND_WORDS += tuple((words, "n") for words in ("path bytes", "directory bytes", "length path", "length folder"))


def has(words, name):
    """Returns whether a name is among words, perhaps as that of an exported function. A `_` at its end stands for any text."""
    if name in words or EXPORTED + name in words:
        return True
    pattern = re.sub("^_|_$", lambda found: r"\w*_\w*", name)
    return pattern != name and any(re.fullmatch(f"(?:{EXPORTED})?{pattern}", word) for word in words)


def spaced(text):
    """Returns a text with one space for any white space."""
    return " ".join(text.split())


def statements(lines):
    """Returns each line with those below it that are indented further."""
    indents = [len(line) - len(line.lstrip()) if line.strip() else 0 for line in lines]
    for at, indent in enumerate(indents):
        end = next((end for end in range(at + 1, len(lines)) if indents[end] <= indent), len(lines))
        yield spaced(" ".join(lines[at:end]))


class Sources:
    """The code of the crates without comments, by file; its words; and what it declares."""

    def __init__(self):
        self.code = {}
        for name in files_of("crates/*/src/*.rt", "crates/*/specs/*.antt"):
            with open(f"{TOP}/{name}", encoding="utf-8") as file:
                text = file.read()
            comment = "//.*" if name.endswith(".rt") else "--.*"
            self.code[name] = re.sub(rf"""('"'|"(?:[^"\\\n]|\\.)*")|{comment}""", lambda found: found[1] or "", text)
        self.words = {name: {*WORD.findall(f"{name} {text}")} for name, text in self.code.items()}
        self.all_words = set().union(*self.words.values())
        self.spaced = {name: spaced(text) for name, text in self.code.items()}
        found = [match for text in self.code.values() for match in DECLARED.findall(text)]
        self.crates = {name.split("/")[1] for name in self.code}
        self.declared = self.crates | {word for match in found for group in match for word in WORD.findall(group)}
        self.bounds = {self.bound(line.partition(" = ")[2]) for text in self.code.values() for line in text.split("\n")}

    @staticmethod
    def bound(text):
        """Returns a bound in one form, as definitions and pages have it."""
        for words, sign in BOUND_WORDS:
            text = text.replace(words, sign)
        return text.strip()

    def fault_of_name(self, text):
        """Returns what is wrong with a span of code that has names, or None."""
        names = [name for name in WORD.findall(text) if len(name) > 1 and name not in NO_NAMES]
        unknown = [name for name in names if not has(self.all_words, name)]
        if unknown:
            return f"the sources have no {', '.join(unknown)}"
        having = [name for name, words in self.words.items() if {*names} <= words]
        if re.fullmatch(r"\w+(::\w+)+", text) and not any(names[-1] in WORD.findall(self.code[name]) for name in having):
            return f"no source has all of {text}"
        return None

    def has_clause(self, text):
        """Returns whether a contract has a clause, which may be without its name and braces."""
        clause = f" {text}" if text.endswith("}") else f"{{ {text} }}"
        return any(clause in code for code in self.spaced.values())

    def fault_of_span(self, text):
        """Returns what is wrong with a span of code, or None."""
        text = text.replace("\\|", "|")
        if re.search(r"\.(?:now|old|new|entry)\b", text) and " " in text:
            return None if self.has_clause(text) else f"no contract has the clause {text}"
        if re.search(r"\bbytes\b.* [+*] ", text):
            return None if self.bound(text) in self.bounds else f"no definition has the bound {text}"
        if re.fullmatch(r"\w+\.antt", text):
            is_there = any(os.path.basename(name) == text for name in self.code)
            return None if is_there else f"there is no {text}"
        return None if NO_CODE.search(text) else self.fault_of_name(text)

    def fault_of_block(self, lines, files):
        """Returns what is wrong with a quoted contract or with quoted definitions, or None. They are in one of some files."""
        names, where = [name for name in self.code if os.path.basename(name) in files], " and ".join(files)
        if lines[0].startswith("pub fn "):
            contract = f"{spaced(' '.join(lines))} {{"
            return None if any(contract in self.spaced[name] for name in names) else f"{where}: no function has this contract"
        there = {text for name in names for text in statements(self.code[name].split("\n"))}
        quoted = [text for line, text in zip(lines, statements(lines)) if not line.startswith(" ")]
        missing = [text for text in quoted if text not in there]
        return f"{where}: there is no {missing[0]}" if missing else None


def check_spans(name, units, sources, fail):
    """Checks each span of code in the items, rows and paragraphs of a document."""
    for first, unit in units:
        for found in SPAN.finditer(unit):
            fault = sources.fault_of_span(found[1])
            if fault:
                fail(name, first + unit.count("\n", 0, found.start()), fault)


def check_calls(name, units, sources, fail):
    """Checks that the calls in the first cells of a document's tables are declared."""
    for at, unit in units:
        for call in SPAN.findall(unit.split("|")[1]) if unit.startswith("|") else []:
            missing = [word for word in WORD.findall(call)[-1:] if not has(sources.declared, word)]
            if missing:
                fail(name, at, f"the sources declare no {call}")


def check_tables_of_files(name, units, sources, fail):
    """Checks that what a row names is in the sources of the crates that it names."""
    for at, unit in units:
        spans = [word for span in SPAN.findall(unit) for word in WORD.findall(span)]
        crates = sources.crates & {*spans, *re.findall(r"\[(\w+)\]", unit)}
        words = set().union(*(words for file, words in sources.words.items() if file.split("/")[1] in crates))
        missing = [word for word in spans if word not in {*sources.crates, *words, "specs", "src"}]
        if unit.startswith("|") and crates and missing:
            fail(name, at, f"{', '.join(sorted(crates))} have no {', '.join(missing)}")


def check_blocks(name, sources, fail):
    """Checks the blocks that quote a contract or definitions of the files that the text before them names."""
    lines = [line for _, line in lines_of(name)]
    files, last = [], 0
    for block in blocks_of(name):
        named = re.findall(r"\w+\.(?:antt|rt)\b", "\n".join(lines[last : block.at - 1]))
        files, last = list(dict.fromkeys(map(os.path.basename, named))) or files, block.at + len(block.lines)
        is_quoted = block.language == "text" and (block.lines[0].startswith("pub fn ") or " = " in block.lines[0])
        fault = is_quoted and sources.fault_of_block(block.lines, files)
        if fault:
            fail(name, block.at, fault)


def check_quotes(documents, fail):
    """Checks what these documents quote. `fail` takes note of a failure in a line of a file."""
    sources = Sources()
    for document in documents:
        units = document.units()
        check_spans(document.name, units, sources, fail)
        check_blocks(document.name, sources, fail)
        if document.name == CALLS:
            check_calls(document.name, units, sources, fail)
        if document.name == FILES:
            check_tables_of_files(document.name, units, sources, fail)
