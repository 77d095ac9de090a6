"""Lists, pieces and records at random."""

from second.list import model
from second.list.model import Flow, pack_flow
from second.sizes import BYTE_VALUES, MOST_OFFSET, RECORD_SIZE, SIGNATURES, STATES
from second.tape import MOST_WORDS

LETTERS = [0, 1, 31, 32, 48, 64, 65, 90, 97, 98, 99, 122, 127, 128, 200, 254, 255]
SOME_STATES = [0, 1, 2, 3, 5, 7, 8, 9, 15, 16, 31, 63, 64, 65, 71, 127, 128, 129, 192, 200, 255,
               256, 257, 300, 511, 512, 513, 639, 640, 700, 767, 768, 1000, STATES - 8, STATES - 2,
               STATES - 1]

FEW = 20  # lists or tables of a lesser kind
MANY = 60  # and of one that a rule hangs on


# Records of a list

def edge(low, high, source, target, either=0):
    return bytes([1, low, high, either]) + source.to_bytes(2, "little") + target.to_bytes(2, "little")


def start(state):
    return bytes([2, 0, 0, 0, 0, 0]) + state.to_bytes(2, "little")


def accept(state, signature):
    return bytes([3, 0, 0, 0]) + state.to_bytes(2, "little") + signature.to_bytes(2, "little")


class Sample:
    """A good list with the letters and states that it speaks of."""

    def __init__(self, records, letters, states):
        self.records = records
        self.data = b"".join(records)
        self.letters = letters
        self.states = states
        self.nfa = model.Automaton(self.data)
        assert model.list_refusal(self.data) == 0


def naming(records, members):
    """The records, and an accept record for each of these states that they do not name."""
    named = model.Automaton(b"".join(records)).named
    return list(records) + [accept(state, state % SIGNATURES) for state in sorted(set(members) - named)]


def search_list(dice):
    """A root that loops on all bytes, and one to three words behind it."""
    letters = dice.some(LETTERS, dice.between(2, 4))
    states = dice.some(SOME_STATES, 12)
    root, rest = states[0], states[1:]
    records = [start(root)]
    if dice.chance(85):
        records.append(edge(0, 255, root, root))
    else:
        records.append(edge(0, dice.pick(letters), root, root))
    if dice.chance(15):
        records.append(start(rest[0]))
    for _ in range(dice.between(1, 3)):
        at = root
        for _ in range(dice.between(1, 3)):
            to = rest.pop() if rest and dice.chance(80) else dice.pick(states)
            low = dice.pick(letters)
            high = dice.between(low, 255) if dice.chance(20) else low
            records.append(edge(low, high, at, to, int(dice.chance(25))))
            at = to
        records.append(accept(at, dice.below(SIGNATURES)))
        if dice.chance(30):
            records.append(accept(at, dice.pick([0, 7, SIGNATURES - 2, SIGNATURES - 1])))
    return Sample(dice.shuffled(records), letters, states)


def web_list(dice):
    """Edges between few states at random, with repeats and several starts."""
    letters = dice.some(LETTERS, dice.between(1, 4))
    states = dice.some(SOME_STATES, dice.between(2, 6))
    records = [start(dice.pick(states)) for _ in range(dice.pick([1, 1, 2, 3]))]
    for _ in range(dice.between(1, 9)):
        shape = dice.below(10)
        if shape < 5:
            low = high = dice.pick(letters)
        elif shape < 7:
            low, high = sorted([dice.pick(letters), dice.pick(letters)])
        elif shape < 8:
            low, high = 0, 255
        elif shape < 9:
            low, high = 0, dice.pick(letters)
        else:
            low, high = dice.pick(letters), 255
        records.append(edge(low, high, dice.pick(states), dice.pick(states),
                            int(dice.chance(25))))
    signatures = [dice.below(SIGNATURES) for _ in range(3)] + [SIGNATURES - 1]
    for _ in range(dice.below(7)):
        records.append(accept(dice.pick(states), dice.pick(signatures)))
    if dice.chance(40):
        records.append(dice.pick(records))
    return Sample(dice.shuffled(records), letters, states)


def crowded_list(dice, accepts):
    """Many accept records on one looping state."""
    letters = dice.some(LETTERS, 2)
    states = dice.some(SOME_STATES, 3)
    records = [start(states[0]), edge(0, 255, states[0], states[0]),
               edge(letters[0], letters[0], states[0], states[1])]
    if dice.chance(50):
        records.append(edge(0, 255, states[1], states[2]))
    many = dice.pick(states[:2])
    records += [accept(many, g) for g in dice.some(range(SIGNATURES), accepts)]
    records += [accept(dice.pick(states), dice.below(SIGNATURES)) for _ in range(3)]
    return Sample(dice.shuffled(records), letters, states)


def any_list(dice):
    shape = dice.below(10)
    if shape < 5:
        return search_list(dice)
    if shape < 9:
        return web_list(dice)
    return crowded_list(dice, dice.between(3, 14))


def broken_list(dice, sample, number):
    """A list near a good one that gives refusal 1, 2 or 3."""
    records = list(sample.records)
    if number == 1:
        data = sample.data
        return dice.pick([b"", data[:-1], data + b"\0", data[:RECORD_SIZE - 1],
                          data + bytes(4)])
    if number == 2:
        bad = dice.pick([bytes([4, 0, 0, 0, 0, 0, 0, 0]), edge(9, 8, 0, 0), start(STATES),
                         accept(0, SIGNATURES), accept(STATES + 44, 1), edge(0, 1, STATES, 0),
                         edge(0, 1, 0, 2 * STATES - 1), edge(0, 0, 0, 0, 2)])
        records.insert(dice.below(len(records) + 1), bad)
        return b"".join(records)
    records = [record for record in records if record[0] != 2]
    return b"".join(records) if records else edge(0, 0, 0, 0)


# Pieces and records of a flow

def a_piece(dice, sample, length):
    out = []
    for _ in range(length):
        near = dice.pick(sample.letters)
        shape = dice.below(20)
        if shape < 15:
            out.append(near)
        elif shape < 16:
            out.append(min(255, near + 1))
        elif shape < 17:
            out.append(max(0, near - 1))
        elif shape < 18:
            out.append(model.exchanged(near))
        else:
            out.append(dice.below(BYTE_VALUES))
    return bytes(out)


def short_length(dice):
    shape = dice.below(20)
    if shape < 1:
        return 0
    if shape < 6:
        return dice.between(1, 3)
    if shape < 15:
        return dice.between(4, 12)
    return dice.between(13, 40)


def word_count(dice):
    shape = dice.below(20)
    if shape < 8:
        return dice.below(8)
    if shape < 18:
        return dice.between(5, 60)
    return dice.between(61, MOST_WORDS) if dice.chance(20) else dice.between(61, 300)


def any_frontier(dice, sample):
    """States of the list, now and then with some that it does not name."""
    named = sample.nfa.named
    members = wild_frontier(dice, sample)
    return members if dice.chance(25) else members & named


def wild_frontier(dice, sample):
    shape = dice.below(12)
    if shape < 5:
        return dice.subset(sample.states, 60)
    if shape < 7:
        return dice.subset(range(STATES), 10)
    if shape < 8:
        return frozenset(range(STATES))
    if shape < 9:
        return frozenset()
    return dice.subset(sample.states, 50) | dice.subset(SOME_STATES, 20)


def any_flow(dice, frontier):
    offset = dice.pick([1, 2, dice.below(300), dice.below(70000), dice.below(2 ** 32),
                        MOST_OFFSET - dice.below(50)])
    most = STATES * offset
    rows = dice.pick([0, most, most - dice.below(most + 1)
                      if offset < 2 ** 32 // STATES - 1 else most - 1, offset])
    return pack_flow(Flow(frontier, offset, rows))
