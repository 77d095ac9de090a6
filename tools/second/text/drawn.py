"""Signature texts and pieces at random."""

from second.text import model as texts

PLAIN = [bytes([b]) for b in range(256) if b not in texts.SPECIAL]
IN_CLASS = [bytes([b]) for b in range(256) if b not in texts.CLASS_SPECIAL]
MARKS = [b"*", b"+", b"?"]
RUNS = b"[" + b"".join(b"\\x%02X" % value for value in range(1, 256, 2)) + b"]"


def hexed(dice, value):
    """A byte as an escape; the case of each digit is drawn."""
    return b"\\x" + bytes(dice.pick([digit.lower(), digit.upper()]).encode()[0] for digit in "%02x" % value)


def count(dice, value):
    """A number with leading zeros, or none."""
    digits = dice.between(len(str(value)), 3)
    return ("%0*d" % (digits, value)).encode()


def repeat(dice, most):
    high = dice.between(0, most)
    return b"{" + count(dice, dice.between(0, high)) + b"," + count(dice, high) + b"}"


def single(dice, value):
    """A byte in a class, written in one of its ways."""
    ways = [hexed(dice, value)]
    if value not in texts.CLASS_SPECIAL:
        ways += [bytes([value])] * 3
    if value == 10:
        ways += [rb"\n"]
    return dice.pick(ways)


def some_class(dice):
    members = []
    for _ in range(dice.pick([1, 1, 2, 2, 3, 5])):
        kind = dice.below(10)
        if kind < 4:
            members.append(single(dice, dice.pick([97, 98, 99, 10, 0, 255, dice.below(256)])))
        elif kind < 6:
            members.append(rb"\s")
        else:
            ends = sorted([dice.pick([97, 98, 99, 0, 255, dice.below(256)]), dice.pick([98, 100, 10, 0, 255, dice.below(256)])])
            members.append(single(dice, ends[0]) + b"-" + single(dice, ends[1]))
    return b"[" + (b"^" if dice.chance(40) else b"") + b"".join(members) + b"]"


def leaf(dice):
    kind = dice.below(20)
    if kind < 13:
        return dice.pick([b"a", b"b", b"c", b"a", b"b"])
    if kind == 13:
        return dice.pick(PLAIN)
    if kind == 14:
        return hexed(dice, dice.pick([97, 98, 92, 46, 255, 0, dice.below(256)]))
    if kind == 15:
        return dice.pick([rb"\n", rb"\s"])
    return b"." if kind == 16 else some_class(dice)


def alternatives(dice, depth, most):
    rows = []
    for _ in range(dice.pick([1, 1, 1, 1, 2, 2, 3])):
        items = []
        for _ in range(dice.pick([0, 1, 1, 2, 2, 3, 4])):
            item = leaf(dice) if depth == 0 or dice.chance(60) else b"(" + alternatives(dice, depth - 1, most) + b")"
            if dice.chance(45):
                item += dice.pick(MARKS + [repeat(dice, most)])
            items.append(item)
        rows.append(b"".join(items))
    return b"|".join(rows)


def places(text):
    """Its positions, of a text that fits."""
    return texts.positions(texts.tree(text)[1])


def good_text(dice, depth=3, most=4, limit=40):
    """A text that fits, with so many positions at most."""
    while True:
        text = (b"^" if dice.chance(45) else b"") + alternatives(dice, depth, most)
        if places(text) <= limit:
            return text


def piece_of(dice, length):
    return bytes(dice.pick([97, 98, 99, 97, 98, 10, 32, dice.below(256)]) for _ in range(length))
