"""Keys that std's `FoldHasher` makes collide, and ordinary ones of the same lengths.

Its seed and its multiplier are fixed. All keys begin with `.` and go on with letters, digits, `_` and `-`, so that a key is a
path, a last component and an extension, and a glob of literals.
"""

import functools
import random
import re

MULTIPLIER = 0x9E37_79B9_7F4A_7C15
SEED = 0x243F_6A88_85A3_08D3
WORD = (1 << 64) - 1
LETTERS = "ABCDEFGHIJKLMNOPQRSTUVWXYZabcdefghijklmnopqrstuvwxyz0123456789_-"
LENGTH = 32
# What is between the first byte and the varied ones of a colliding key, repeated to its length.
FIXED = "generated-module-"
# Of how many lanes of 128 bits a number is, on which many states are stepped at once.
LANES = len(LETTERS) ** 2


def fold(a, b):
    product = a * b
    return (product ^ product >> 64) & WORD


def word(text, at):
    return int.from_bytes(text[at : at + 8], "little")


def digits(number, count):
    """So many letters that tell a number."""
    return "".join(LETTERS[number >> 6 * at & 63] for at in range(count))


def beginning(length):
    return ("." + FIXED * (length // len(FIXED) + 1))[:length]


def ordinary(count, length=LENGTH, seed=41):
    rng = random.Random(seed)
    return ["." + "".join(rng.choices(LETTERS, k=length - 1)) for _ in range(count)]


def one_write(count, length=LENGTH):
    """Different keys of a multiple of 16 bytes whose hash is 0 when each is hashed in one write.

    The hasher multiplies 8 bytes and its state, joined by xor, with the 8 bytes behind. If the bytes are equal to the state, the
    product is 0 whatever stands behind them.
    """
    start = beginning(length - 24).encode()
    state = (SEED + length) & WORD
    for at in range(0, length - 32, 16):
        state = fold(word(start, at) ^ state, word(start, at + 8) ^ MULTIPLIER)
    factor = word(start, length - 32) ^ state
    allowed = frozenset(LETTERS.encode())
    for number in range(1 << 24):
        varied = digits(number, 8)
        found = fold(factor, word(varied.encode(), 0) ^ MULTIPLIER).to_bytes(8, "little")
        if allowed.issuperset(found):
            break
    # In no order of the letters.
    ends = (digits(index * MULTIPLIER % (1 << 48), 8) for index in range(count))
    return [start.decode() + varied + found.decode() + end for end in ends]


def next_states(states, byte):
    """The states after a byte that is written by itself, of many states in lanes of 128 bits."""
    ones = int.from_bytes((b"\1" + bytes(15)) * LANES, "little")
    products = (states ^ byte * 0x01_01_01 * ones) * (MULTIPLIER ^ 2)
    return (products ^ products >> 64) & WORD * ones


def joined(states):
    return int.from_bytes(b"".join(state.to_bytes(16, "little") for state in states), "little")


def after_bytes(text, state):
    for byte in text.encode():
        state = fold(state ^ byte * 0x01_01_01, MULTIPLIER ^ 2)
    return state


def ends_in_first_groups(start, groups):
    """The keys that are `start` and three letters, and that have one tag and one of the first groups of a table."""
    before = after_bytes(start, fold(SEED ^ LENGTH, MULTIPLIER ^ 16))
    pairs = [one + two for one in LETTERS for two in LETTERS]
    states = joined(after_bytes(pair, before) for pair in pairs)
    for letter in LETTERS:
        hashes = next_states(states, ord(letter))
        shorts = (hashes ^ hashes >> 32).to_bytes(16 * LANES, "little")
        # The top byte is the tag, 0 and 1 are the same. The low bits tell the group.
        for lane in (found.start() for found in re.finditer(rb"[\0\1]", shorts[3::16])):
            if int.from_bytes(shorts[16 * lane : 16 * lane + 3], "little") % groups < max(1, groups // 8):
                yield start + pairs[lane] + letter


@functools.lru_cache(maxsize=None)
def by_byte(count, of):
    """Different keys that collide in std's `HashMap` of another number of keys when each byte is hashed in a write of its own.

    The map puts 9 keys or fewer in a group of 12 lanes, and goes on with the next group where one is full. So keys of the same
    tag in an eighth of the groups are compared with most of the others.
    """
    groups = 1
    while 9 * groups < of:
        groups *= 2
    found, number = [], 0
    while len(found) < count:
        start = beginning(LENGTH - 9) + digits(number, 6)
        found += ends_in_first_groups(start, groups)
        number += 1
    return found[:count]
