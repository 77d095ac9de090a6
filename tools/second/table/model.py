"""The rules of the split table: its check, the split feed and the builder. A table is read into sets
and dicts.
"""

from collections import namedtuple
from functools import lru_cache

from second.list.model import (
    automaton, cut, feed_refusal, list_refusal, number, pack_set, refused, run, union, unpack_set,
)
from second.sizes import (
    BYTE_VALUES, LENT_CLASSES, LENT_PARTS, LENT_ROWS, LENT_SPLITS, MOST_BOUND, MOST_CLASS,
    MOST_PARTS, MOST_SPLITS, SET_SIZE, SLOTS, SPLIT_SIZE, UNUSED,
)

LENT = (LENT_CLASSES, LENT_PARTS, LENT_ROWS, LENT_SPLITS)
Table = namedtuple("Table", "classes parts rows splits")  # four byte lists
Split = namedtuple("Split", "name members slots")
EMPTY = Table(b"", b"", b"", b"")


# The split table

def wrong_lists(table):
    if len(table.classes) != BYTE_VALUES or max(table.classes) > MOST_CLASS:
        return True
    parts, splits = len(table.parts) // SET_SIZE, len(table.splits) // SPLIT_SIZE
    if len(table.parts) % SET_SIZE != 0 or not 1 <= parts <= MOST_PARTS:
        return True
    if len(table.splits) % SPLIT_SIZE != 0 or not 1 <= splits <= MOST_SPLITS:
        return True
    width = max(table.classes) + 1
    return len(table.rows) != parts * width * SET_SIZE


class Decoded:
    """A table whose four lists have the right lengths, read into sets."""

    def __init__(self, table):
        self.classes = list(table.classes)
        self.width = max(self.classes) + 1
        self.parts = [unpack_set(data) for data in cut(table.parts, SET_SIZE)]
        rows = [unpack_set(data) for data in cut(table.rows, SET_SIZE)]
        self.row = {(part, group): rows[part * self.width + group]
                    for part in range(len(self.parts)) for group in range(self.width)}
        self.splits = []
        for record in cut(table.splits, SPLIT_SIZE):
            name = record[:SET_SIZE]
            slots = [number(slot) for slot in cut(record[SET_SIZE:], 2)]
            self.splits.append(Split(name, unpack_set(name), slots))
        self.first = {}
        for split in self.splits:
            self.first.setdefault(split.members, split)


@lru_cache(maxsize=8)
def decoded(table):
    return Decoded(table)


def padded(slots):
    """The slots of a split that uses these: the rest are not in use."""
    return list(slots) + [UNUSED] * (SLOTS - len(slots))


def used_slots(split):
    return [slot for slot in split.slots if slot != UNUSED]


def taken_slots(split):
    if UNUSED in split.slots:
        return split.slots[:split.slots.index(UNUSED)]
    return split.slots


def unordered(table):
    """Whether some split's bytes are not greater than those of the one before: sorted and each
    taken once, the sets would be others or stand otherwise."""
    names = [split.name for split in table.splits]
    return names != sorted(set(names))


def breaks_9(table, bound):
    before = None
    for split in table.splits:
        used = used_slots(split)
        if [slot for slot in used if slot >= len(table.parts)]:
            return True
        if split.slots != padded(used):
            return True
        if used != sorted(set(used)):
            return True
        if len(used) > bound:
            return True
        if before is not None and not before < split.name:
            return True
        before = split.name
    return False


def breaks_10(table, nfa):
    return any(table.row[part, table.classes[byte]] != nfa.step(members, byte)
               for part, members in enumerate(table.parts) for byte in range(BYTE_VALUES))


def breaks_11(table):
    return any(split.members != union(table.parts[slot] for slot in used_slots(split))
               for split in table.splits)


def breaks_12(table, nfa):
    return nfa.starts not in table.first


def breaks_13(table, nfa):
    return any(nfa.step(split.members, byte) not in table.first
               for split in table.splits for byte in range(BYTE_VALUES))


@lru_cache(maxsize=8)
def deep_refusal(data, table):
    """The lowest of 10 to 13, for a table that passes 1 to 9."""
    nfa = automaton(data)
    lists = decoded(table)
    if breaks_10(lists, nfa):
        return 10
    if breaks_11(lists):
        return 11
    if breaks_12(lists, nfa):
        return 12
    if breaks_13(lists, nfa):
        return 13
    return 0


def table_refusal(data, table, bound):
    refusal = list_refusal(data)
    if refusal:
        return refusal
    if not 1 <= bound <= MOST_BOUND:
        return 7
    if wrong_lists(table):
        return 8
    if breaks_9(decoded(table), bound):
        return 9
    return deep_refusal(data, table)


def split_feed(data, table, bound, record, start, words, piece):
    refusal = feed_refusal(data, record, start, piece)
    if not refusal and not 1 <= bound <= MOST_BOUND:
        refusal = 7
    if not refusal and wrong_lists(table):
        refusal = 8
    if not refusal and unordered(decoded(table)):
        refusal = 9
    if refusal:
        return refused(refusal, words, record)
    lists = decoded(table)

    def move(frontier, byte):
        if frontier not in lists.first:
            return None
        taken = taken_slots(lists.first[frontier])
        if len(taken) > bound or [slot for slot in taken if slot >= len(lists.parts)]:
            return None
        group = lists.classes[byte]
        return union(lists.row[slot, group] for slot in taken), len(taken)

    return run(automaton(data), record, words, piece, move)


# The builder, by dictionaries

def byte_classes(nfa):
    """The class of each byte: bytes on which the same edges are taken, source and target, share one. They are numbered as they come."""
    moves = {byte: set() for byte in range(BYTE_VALUES)}
    for edge in nfa.edges:
        for byte in moves:
            if edge.takes(byte):
                moves[byte].add((edge.source, edge.target))
    numbers = {}
    return [numbers.setdefault(frozenset(moves[byte]), len(numbers)) for byte in range(BYTE_VALUES)]


def reached(nfa, classes):
    """From the start set a step for each class, and from each new set again: set to steps. It stops once there are too many."""
    lowest = [classes.index(group) for group in range(max(classes) + 1)]
    found = {}
    waiting = {nfa.starts: True}
    while waiting and len(found) + len(waiting) <= MOST_PARTS:
        members = next(iter(waiting))
        del waiting[members]
        found[members] = [nfa.step(members, byte) for byte in lowest]
        waiting.update((to, True) for to in found[members] if to not in found)
    return None if waiting else found


def build(data, lent):
    """What the builder answers for lists of these lengths: a refusal, and the table's four lists where there is none."""
    refusal = list_refusal(data)
    if refusal:
        return refusal, None
    if any(length < least for length, least in zip(lent, LENT)):
        return 17, None
    nfa = automaton(data)
    classes = byte_classes(nfa)
    found = reached(nfa, classes) if max(classes) <= MOST_CLASS else None
    if found is None:
        return 16, None
    parts = sorted(found, key=pack_set)
    return 0, Table(
        bytes(classes), b"".join(pack_set(part) for part in parts),
        b"".join(pack_set(to) for part in parts for to in found[part]),
        b"".join(pack_set(part) + b"".join(slot.to_bytes(2, "little") for slot in padded([at]))
                 for at, part in enumerate(parts)))
