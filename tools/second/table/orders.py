"""Neighbouring splits: pairs of sets and slots that try the order of splits.

Sets are bytes here, as they stand in a split.
"""

from second.list.model import cut, number, unpack_set
from second.sizes import BYTE_VALUES, SET_SIZE

# Orders that are not the one of the rules. Each is a key of a set's bytes.
OTHERS = {
    "a number": number,
    "words of 8 bytes, low byte first": lambda s: [number(word) for word in cut(s, 8)],
    "words of 8 bytes, the last word first": lambda s: cut(s, 8)[::-1],
    "words of 4 bytes, low byte first": lambda s: [number(word) for word in cut(s, 4)],
    "words of 2 bytes, low byte first": lambda s: [number(word) for word in cut(s, 2)],
    "bytes from 128 on as negative": lambda s: [(byte + 128) % BYTE_VALUES for byte in s],
    "the states, lowest first": lambda s: sorted(unpack_set(s)),
    "bits, state 0 first": lambda s: [byte // 2 ** bit % 2 for byte in s for bit in range(8)],
    "how many states": lambda s: (len(unpack_set(s)), s),
}


def any_set(dice):
    """The bytes of a set of few states, of many, or of bytes next to the ends of their range."""
    shape = dice.below(4)
    if shape == 0:
        data = bytearray(SET_SIZE)
        for _ in range(dice.between(1, 5)):
            data[dice.below(SET_SIZE)] |= 2 ** dice.below(8)
        return bytes(data)
    if shape == 1:
        return bytes(dice.pick([0, 0, 1, 127, 128, 254, 255]) for _ in range(SET_SIZE))
    return dice.bytes(SET_SIZE)


def differ_at(dice, place):
    """Two sets, the lower first, that are equal before a byte and differ there. Behind it they
    are equal, or all goes the other way."""
    low = dice.pick([0, 0, 1, 126, 127, 127, 128, 253, 254, dice.below(255)])
    high = dice.pick([low + 1, 255, dice.between(low + 1, 255)])
    front = any_set(dice)[:place]
    behind = any_set(dice)[place + 1:]
    shape = dice.below(3)
    if shape == 0:
        above = behind
    elif shape == 1:
        behind, above = bytes(max(1, byte) for byte in behind), bytes(len(behind))
    else:
        above = bytes(dice.below(byte + 1) for byte in behind)
    return front + bytes([low]) + behind, front + bytes([high]) + above


def against(dice, key):
    """Two sets, the lower first, that another order takes the other way round."""
    while True:
        below, above = differ_at(dice, dice.below(SET_SIZE - 1))
        if key(above) < key(below):
            return below, above


def one_in_another(dice):
    """Two sets, the first one inside the other and so the lower."""
    while True:
        below = any_set(dice)
        above = bytes(byte | more for byte, more in zip(below, any_set(dice)))
        if below != above:
            return below, above


# Slots of two neighbours, by what those of the second are beside those of the first.
SLOTS_BESIDE = {
    "same": [([0], [0]), ([3], [3]), ([0, 1], [0, 1]), ([1, 2, 3], [1, 2, 3])],
    "first rising": [([0], [1]), ([0], [3]), ([1], [2]), ([0, 3], [1]), ([0], [1, 2]),
                     ([0, 3], [1, 2]), ([0, 1], [2, 3])],
    "first falling": [([1], [0]), ([3], [0]), ([2], [1]), ([1, 2], [0]), ([3], [0, 1]),
                      ([1, 2], [0, 3]), ([2, 3], [0, 1])],
    "later rising": [([0, 1], [0, 2]), ([0, 1], [0, 3]), ([1, 2], [1, 3]), ([0, 1, 2], [0, 1, 3])],
    "later falling": [([0, 2], [0, 1]), ([0, 3], [0, 1]), ([1, 3], [1, 2]), ([0, 1, 3], [0, 1, 2])],
    "more": [([0], [0, 1]), ([0], [0, 3]), ([1], [1, 2, 3]), ([0, 1], [0, 1, 2])],
    "less": [([0, 1], [0]), ([0, 3], [0]), ([1, 2, 3], [1]), ([0, 1, 2], [0, 1])],
}
