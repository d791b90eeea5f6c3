"""Whether globs cover a glob, and whether two globs overlap, by a walk over sets of states.

A glob becomes states that read a byte, in the order of its tokens. The walk goes from the sets in which a path begins to those
that each byte leads to, by the length of paths, and keeps a path for each. What a glob matches is said by `globs.py`, and
`try_relations` compares the two.
"""

from functools import lru_cache

from globs import PREFIX, class_bytes, kept_branches, reading

BYTES = frozenset(range(256))
SLASH = frozenset(b"/")
CONTINUING = (0x80, 0xBF)
# The bytes of a character in UTF-8, by their ranges.
CHARACTERS = [
    [(0x00, 0x7F)],
    [(0xC2, 0xDF), CONTINUING],
    [(0xE0, 0xE0), (0xA0, 0xBF), CONTINUING],
    [(0xE1, 0xEC), CONTINUING, CONTINUING],
    [(0xED, 0xED), (0x80, 0x9F), CONTINUING],
    [(0xEE, 0xEF), CONTINUING, CONTINUING],
    [(0xF0, 0xF0), (0x90, 0xBF), CONTINUING, CONTINUING],
    [(0xF1, 0xF3), CONTINUING, CONTINUING, CONTINUING],
    [(0xF4, 0xF4), (0x80, 0x8F), CONTINUING, CONTINUING],
]
MOST_SETS = 500


class TooMany(Exception):
    """A walk needs more than `MOST_SETS` sets of states."""


# ---- Domains


def is_relative(path):
    """Returns whether a path is of the domain `relative`."""
    return b"\0" not in path and all(component not in (b"", b".", b"..") for component in path.split(b"/"))


def is_in(domain, path):
    return domain == "all" or is_relative(path)


def after_byte(component, byte):
    """Returns the last component of a path after one more byte, or None if no path of the domain `relative` begins so. A
    component that may end is `a`."""
    if byte == ord("/"):
        return b"" if component == b"a" else None
    longer = component + bytes([byte])
    return None if byte == 0 else longer if longer in (b".", b"..") else b"a"


# ---- The states of a glob


class States:
    """The states of some globs: the bytes that each reads, or none, and the states that follow it. The state 0 is the end."""

    def __init__(self, globs):
        self.reads, self.following, self.starts = [frozenset()], [[]], []
        for glob in globs:
            tokens = reading(glob)
            start = self.any_bytes(BYTES, 0) if tokens == (PREFIX,) else self.sequence(tokens, glob.options, 0)
            self.starts.append(start)

    def add(self, reads, following):
        self.reads.append(frozenset(reads))
        self.following.append(following)
        return len(self.reads) - 1

    def any_bytes(self, reads, after):
        """Adds states for any number of these bytes."""
        state = self.add((), [after])
        self.following[state].append(self.add(reads, [state]))
        return state

    def sequence(self, tokens, options, after):
        for token in reversed(tokens):
            after = self.token(token, options, after)
        return after

    def token(self, token, options, after):
        part = BYTES - SLASH if options.literal_separator else BYTES
        if token.kind == "literal":
            for byte in reversed(token.value.encode()):
                both = bytes([byte]).lower() + bytes([byte]).upper() if options.case_insensitive else [byte]
                after = self.add(both, [after])
            return after
        if token.kind == "?":
            return self.character(part, after) if options.whole_character else self.add(part, [after])
        if token.kind == "*":
            return self.any_bytes(part, after)
        if token.kind == "class":
            return self.add(class_bytes(token, options.case_insensitive), [after])
        if token.kind == "group":
            kept = kept_branches(token, options)
            return self.add((), [self.sequence(branch, options, after) for branch in kept]) if kept else after
        rest = self.any_bytes(BYTES, self.add(SLASH, [after]))
        if token.kind == "prefix":
            return self.add((), [after, rest])
        if token.kind == "suffix":
            return self.add(SLASH, [self.any_bytes(BYTES, after)])
        return self.add(SLASH, [after, rest])

    def character(self, part, after):
        starts = []
        for ranges in CHARACTERS:
            state = after
            for first, last in reversed(ranges):
                state = self.add(set(range(first, last + 1)) & part, [state])
            starts.append(state)
        return self.add((), starts)

    def closed(self, states):
        """Returns these states, and those that follow one that reads nothing."""
        found, pending = set(states), list(states)
        while pending:
            state = pending.pop()
            if not self.reads[state]:
                more = [it for it in self.following[state] if it not in found]
                found.update(more)
                pending += more
        return frozenset(it for it in found if self.reads[it] or it == 0)

    def after(self, states, byte):
        return self.closed({it for state in states if byte in self.reads[state] for it in self.following[state]})


# ---- The walk


def bytes_to_try(*all_states):
    """Returns a byte of each class that all states and `after_byte` treat alike."""
    sets = {reads for states in all_states for reads in states.reads} | {SLASH, frozenset(b"."), frozenset(b"\0")}
    return sorted({tuple(byte in reads for reads in sets): byte for byte in range(256)}.values())


def shortest(first, others, domain, both):
    """Returns a shortest path of the domain that a glob matches, and some of the others too, if `both`, or else none of them.
    Returns None if there is no such path."""
    glob, rest = States([first]), States(others)
    tried = bytes_to_try(glob, rest)
    start = glob.closed(glob.starts), rest.closed(rest.starts), b"" if domain == "relative" else b"a"
    paths = {start: b""}
    level = [start]
    while level:
        for row in level:
            if 0 in row[0] and (0 in row[1]) == both and row[2] == b"a":
                return paths[row]
        following = []
        for row in level:
            for byte in tried:
                last = after_byte(row[2], byte) if domain == "relative" else b"a"
                after = glob.after(row[0], byte), rest.after(row[1], byte), last
                if after[0] and (after[1] or not both) and last is not None and after not in paths:
                    paths[after] = paths[row] + bytes([byte])
                    following.append(after)
        if len(paths) > MOST_SETS:
            raise TooMany
        level = following
    return None


@lru_cache(maxsize=10_000)
def missed(glob, others, domain):
    """Returns a shortest path of a domain that a glob matches and none of the others does, or None if they cover it."""
    return shortest(glob, others, domain, both=False)


@lru_cache(maxsize=10_000)
def common(a, b, domain):
    """Returns a shortest path of a domain that both globs match, or None if they are disjoint."""
    return shortest(a, (b,), domain, both=True)
