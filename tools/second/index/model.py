"""The index of splits, the prepared feed with its hint, and splits with their index straight from a
list: from the rules, over lists and dicts.

An index is a set of states, then for each split an entry: for each byte a word, the place of the
entry that it leads to, and 2 ** 31 more where that one tells; the signatures told on reaching the
split; the rows of a byte there; whether the split's states are all named.
"""

from collections import namedtuple
from itertools import product

from second import sizes
from second.list import model
from second.list.model import Flow, cut, number
from second.sizes import (
    BYTE_VALUES, ENTRY_SIZE, FLOW_SIZE, MOST_BOUND, MOST_OFFSET, MOST_SPLITS, PREPARE_INDEX,
    PREPARE_SPLITS, RESERVED_AT, ROWS_AT, SET_SIZE, SIGNATURES, SPLIT_SIZE, STATES, TELLING, UNUSED,
)
from second.table import model as tables

WORD = 4  # bytes of a word
TOLD_AT = WORD * BYTE_VALUES  # places in an entry
COST_AT = TOLD_AT + SIGNATURES // 8
NAMED_AT = COST_AT + 1
ONE_ROW = 1  # what a byte costs in an index made straight from a list
LENT = (PREPARE_SPLITS, PREPARE_INDEX)  # bytes that are to be lent

Stood = namedtuple("Stood", "answer split")


def place_of(split):
    """Where the entry of a split stands; so many bytes has the index of as many splits."""
    return SET_SIZE + ENTRY_SIZE * split


def index_size(splits):
    return place_of(len(splits) // SPLIT_SIZE)


# The filler

def fill_refusal(data, table, bound, index):
    refusal = model.list_refusal(data)
    if refusal:
        return refusal
    if not 1 <= bound <= MOST_BOUND:
        return 7
    if tables.wrong_lists(table) or len(index) != index_size(table.splits):
        return 8
    return tables.table_refusal(data, table, bound)


def packed_index(nfa, sets, leads, costs):
    """The index of these sets: leads says for a set and a byte to which set it leads, costs what a
    byte costs at each."""
    places = {members: place_of(at) for at, members in reversed(list(enumerate(sets)))}
    tells = {members: nfa.signatures(members) for members in places}
    out = [model.pack_set(nfa.named)]
    for members, cost in zip(sets, costs):
        led = [leads(members, byte) for byte in range(BYTE_VALUES)]
        words = [places[to] + (TELLING if tells[to] else 0) for to in led]
        told = sum(2 ** signature for signature in tells[members])
        note = bytes([cost, int(members <= nfa.named)])
        entry = (b"".join(word.to_bytes(WORD, "little") for word in words)
                 + told.to_bytes(SIGNATURES // 8, "little") + note)
        out.append(entry + bytes(ENTRY_SIZE - len(entry)))
    return b"".join(out)


def filled(data, table):
    """The index of an accepted table, by its rows."""
    nfa, lists = model.automaton(data), tables.decoded(table)
    taken = {split.members: tables.taken_slots(split) for split in lists.splits}

    def leads(members, byte):
        return model.union(lists.row[slot, lists.classes[byte]] for slot in taken[members])

    sets = [split.members for split in lists.splits]
    return packed_index(nfa, sets, leads, [len(taken[members]) for members in sets])


def fill(data, table, bound, index):
    """The refusal, and the index after it."""
    refusal = fill_refusal(data, table, bound, index)
    return (refusal, index) if refusal else (0, filled(data, table))


# The prepared feed

def good_lists(splits, index):
    count, rest = divmod(len(splits), SPLIT_SIZE)
    return rest == 0 and 1 <= count <= MOST_SPLITS and len(index) == place_of(count)


def holds(splits, index, hint, frontier):
    """Whether the hint is the number of a split, and the frontier its set."""
    if not good_lists(splits, index) or hint >= len(splits) // SPLIT_SIZE:
        return False
    return splits[SPLIT_SIZE * hint:][:SET_SIZE] == model.pack_set(frontier)


def all_named(splits, index, hint, frontier):
    if holds(splits, index, hint, frontier):
        return index[place_of(hint) + NAMED_AT] != 0
    return len(index) < SET_SIZE or frontier <= model.unpack_set(index[:SET_SIZE])


def feed_refusal(splits, index, hint, record, start, piece):
    if len(record) != FLOW_SIZE or record[RESERVED_AT:ROWS_AT] != bytes(4):
        return 4
    flow = model.unpack_flow(record)
    if flow.rows > STATES * flow.offset:
        return 4
    if not all_named(splits, index, hint, flow.frontier):
        return 4
    if start != flow.offset:
        return 5
    if flow.offset + len(piece) > MOST_OFFSET:
        return 6
    if not good_lists(splits, index):
        return 8
    return 0


def sought(names, name):
    """The place of a name by halving, where the names need not be in order; else how many."""
    low, high = 0, len(names)
    while low < high:
        middle = (low + high) // 2
        if names[middle] == name:
            return middle
        if names[middle] < name:
            low = middle + 1
        else:
            high = middle
    return len(names)


class Entries:
    """An index read at any place, also where no entry begins."""

    def __init__(self, index, count):
        self.index, self.count = index, count

    def whole(self, place):
        return place in range(len(self.index) - ENTRY_SIZE + 1)

    def word(self, place, byte):
        """Whether it tells, and the place."""
        at = place + WORD * byte
        return divmod(number(self.index[at:at + WORD]), TELLING)

    def told(self, place):
        bits = number(self.index[place + TOLD_AT:place + COST_AT])
        return [signature for signature in range(SIGNATURES) if bits >> signature & 1]

    def cost(self, place):
        return self.index[place + COST_AT]

    def split(self, place):
        """The last split whose entry begins there or before, the first where none does; none where
        the entry is not whole."""
        if not self.whole(place):
            return self.count
        return max([0] + [at for at in range(self.count) if place_of(at) <= place])


def prepared_feed(splits, index, hint, record, start, words, piece):
    refusal = feed_refusal(splits, index, hint, record, start, piece)
    if refusal:
        return Stood(model.refused(refusal, words, record), hint)
    flow = model.unpack_flow(record)
    names = [split[:SET_SIZE] for split in cut(splits, SPLIT_SIZE)]
    entries = Entries(index, len(names))
    begun = holds(splits, index, hint, flow.frontier)
    place = place_of(hint if begun else sought(names, model.pack_set(flow.frontier)))
    told, consumed, rows = [], 0, 0
    for byte in piece:
        if not entries.whole(place):
            refusal = 14
            break
        tells, to = entries.word(place, byte)
        due = entries.told(to) if tells and entries.whole(to) else []
        if len(told) + len(due) > len(words) // 2:
            break
        told += [(signature, flow.offset + consumed + 1) for signature in due]
        rows += entries.cost(place)
        place = to
        consumed += 1
    at = entries.split(place)
    frontier = flow.frontier
    if consumed:
        frontier = model.unpack_set(names[at]) if at < len(names) else frozenset()
    written = [value for pair in told for value in pair]
    after = Flow(frontier, flow.offset + consumed, flow.rows + rows)
    answer = model.Answer(refusal, consumed, len(told), refusal == 0 and consumed == len(piece),
                          written + words[len(written):], model.pack_flow(after))
    return Stood(answer, at)


# Straight from a list

def reached(nfa, most):
    """The sets that can be reached from the start set, rising; none where there are more than so
    many."""
    classes = tables.byte_classes(nfa)
    lowest = [classes.index(group) for group in range(max(classes) + 1)]
    found, edge = {nfa.starts}, [nfa.starts]
    while edge and len(found) <= most:
        edge = [to for to in {nfa.step(*pair) for pair in product(edge, lowest)} if to not in found]
        found.update(edge)
    return None if len(found) > most else sorted(found, key=model.pack_set)


def prepare(data, lent):
    """What is answered for two lists of these lengths: a refusal, and where there is none the
    splits and the index."""
    refusal = model.list_refusal(data)
    if refusal:
        return refusal, None
    if any(length < least for length, least in zip(lent, LENT)):
        return 17, None
    nfa = model.automaton(data)
    sets = reached(nfa, MOST_SPLITS)
    if sets is None:
        return 16, None
    classes = tables.byte_classes(nfa)
    lowest = {group: classes.index(group) for group in set(classes)}
    slots = b"".join(slot.to_bytes(2, "little") for slot in tables.padded([]))
    assert slots == UNUSED.to_bytes(2, "little") * sizes.SLOTS
    index = packed_index(nfa, sets, lambda members, byte: nfa.step(members, lowest[classes[byte]]),
                         [ONE_ROW] * len(sets))
    return 0, (b"".join(model.pack_set(members) + slots for members in sets), index)
