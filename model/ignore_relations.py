"""Which rules of an ignore file never decide about a path, which later rules cover one, and which ignore the folders above all
paths that one decides about alone, by a walk over sets of states.

The elements of a pattern, as `git_rules.py` reads them, become states that read a byte, like those of globs in `relations.py`.
The walk reads the same bytes with all patterns of a file. So it finds each set of rules that match some relative path which no
other rule matches, with each set of rules that ignore folders above such a path, and a shortest such path. There are finitely
many sets, and all answers follow from them.
"""

from functools import lru_cache

from git_rules import INNER, rules_of
from relations import BYTES, SLASH, States, TooMany, after_byte, bytes_to_try

MOST_ROWS = 10_000


class PatternStates(States):
    """The states of a pattern, and the sets of them that paths lead to."""

    def __init__(self, elements, whole):
        super().__init__(())
        after = 0
        for element in reversed(elements):
            after = self.element(element, after)
        self.whole, self.start, self.known = whole, self.closed([after]), {}

    def element(self, element, after):
        if element.kind == "star":
            return self.any_bytes(INNER, after)
        if element.kind == "everything":
            return self.any_bytes(BYTES, after)
        if element.kind == "folders":
            return self.add((), [after, self.any_bytes(BYTES, self.add(SLASH, [after]))])
        # a state that reads nothing leads on, so what has no bytes leads nowhere
        return self.add(element.bytes, [after] if element.bytes else [])

    def after(self, states, byte):
        """Returns the states after one more byte. What is matched against last components begins anew after a `/`."""
        if byte == ord("/") and not self.whole:
            return self.start
        if (states, byte) not in self.known:
            self.known[states, byte] = super().after(states, byte)
        return self.known[states, byte]


@lru_cache(maxsize=1_000)
def states_of(elements, whole):
    return PatternStates(elements, whole)


def matched_by(sets):
    """Returns the indexes of the patterns that match the path that led to these sets of states, one for each pattern."""
    return frozenset(index for index, states in enumerate(sets) if 0 in states)


def ignoring(patterns, sets):
    """Returns the index of the pattern that ignores the folder that led to these sets of states, if there is one."""
    last = max(matched_by(sets), default=None)
    return frozenset() if last is None or patterns[last].negated else frozenset([last])


def matched_together(patterns):
    """Returns the sets of indexes of patterns that match some relative path which the others do not match, each with a set of
    those that ignore the folders above such a path, and a shortest such path, by the length of these."""
    all_states = [states_of(pattern.elements, pattern.whole) for pattern in patterns]
    tried = bytes_to_try(*all_states)
    start = tuple(states.start for states in all_states), b"", frozenset()
    paths, level, found = {start: b""}, [start], {}
    while level:
        following = []
        for row in level:
            sets, component, above = row
            if component == b"a":
                found.setdefault((matched_by(sets), above), paths[row])
            for byte in tried:
                last = after_byte(component, byte)
                if last is None:
                    continue
                below = above | ignoring(patterns, sets) if byte == ord("/") else above
                after = tuple(states.after(it, byte) for states, it in zip(all_states, sets)), last, below
                if after not in paths:
                    paths[after] = paths[row] + bytes([byte])
                    following.append(after)
        if len(paths) > MOST_ROWS:
            raise TooMany
        level = following
    return found


class IgnoreRelations:
    """What the walk finds about the rules of an ignore file, which are named by the numbers of their lines."""

    def __init__(self, text):
        self.rules = dict(rules_of(text, False))
        numbers, found = list(self.rules), matched_together(list(self.rules.values()))
        # the sets of rules that match some path together, the rules that ignore folders above it, and a shortest path for each,
        # by the length of these
        self.rows, self.paths = [], {}
        for sets, path in found.items():
            matched, above = (frozenset(numbers[index] for index in indexes) for indexes in sets)
            self.rows.append((matched, above, path))
            self.paths.setdefault(matched, path)

    def last(self, numbers, is_folder):
        """Returns the last of some rules that applies to a path of a folder, or of something else, that they match, or None."""
        return max((number for number in numbers if is_folder or not self.rules[number].folders_only), default=None)

    def decided(self, shown=False):
        """Returns for each rule that ever decides a shortest path that it decides about alone, and whether it is a folder's; or
        only of paths that do not lie below an ignored folder."""
        found = {}
        for numbers, above, path in self.rows:
            for is_folder in (False, True):
                if not (shown and above):
                    found.setdefault(self.last(numbers, is_folder), (path, is_folder))
        found.pop(None, None)
        return found

    def hidden(self):
        """Returns for each rule that decides about paths alone, but only below ignored folders, the rules that ignore a folder
        above a shortest of these paths."""
        decided, shown = self.decided(), self.decided(shown=True)
        found = {number: set() for number in decided if number not in shown}
        for numbers, above, path in self.rows:
            for number in {self.last(numbers, is_folder) for is_folder in (False, True)} & set(found):
                if len(path) == len(decided[number][0]):
                    found[number] |= above
        return found

    def rivals(self, number):
        """Returns the later rules that apply to folders and to others wherever a rule does."""
        folders_only = self.rules[number].folders_only
        return {other for other, rule in self.rules.items() if other > number and (folders_only or not rule.folders_only)}

    def covers(self, others, number):
        """Returns whether each relative path that a rule matches is matched by some of the others."""
        return all(numbers & others for numbers in self.paths if number in numbers)

    def fault(self, others, number):
        """Returns what is wrong if others are named as a least set of rules that cover a rule, or None."""
        rivals = self.rivals(number)
        if not others <= rivals:
            return "not all are later rules that apply wherever it does"
        if not self.covers(others, number):
            return "they do not cover it"
        if any(self.covers(others - {other}, number) for other in others):
            return "one of them can be left out"
        if len(others) > 1 and any(self.covers({other}, number) for other in rivals):
            return "one rule covers it alone"
        return None
