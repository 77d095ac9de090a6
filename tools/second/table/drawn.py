"""Split tables at random: plans, that can be changed before they are packed."""

from second.list import model
from second.list.drawn import any_list
from second.list.model import pack_set
from second.sizes import BYTE_VALUES, MOST_BOUND, MOST_CLASS, STATES, UNUSED
from second.table.model import Table, padded

BOUNDS = range(1, MOST_BOUND + 1)

class Plan:
    """A table as sets and lists that can be changed before it is packed."""

    def __init__(self, classes, width, parts, rows, splits):
        self.classes = list(classes)
        self.width = width
        self.parts = list(parts)
        self.rows = dict(rows)
        self.splits = [(members, list(slots)) for members, slots in splits]

    def copy(self):
        return Plan(self.classes, self.width, self.parts, self.rows, self.splits)

    def sort(self):
        self.splits.sort(key=lambda split: pack_set(split[0]))

    def once(self):
        """Of the splits with one set the first, sorted."""
        first = {}
        for members, slots in self.splits:
            first.setdefault(members, slots)
        self.splits = list(first.items())
        self.sort()

    def table(self):
        return Table(
            bytes(self.classes),
            b"".join(pack_set(part) for part in self.parts),
            b"".join(pack_set(self.rows[p, k])
                     for p in range(len(self.parts)) for k in range(self.width)),
            b"".join(pack_set(members) + b"".join(slot.to_bytes(2, "little") for slot in slots)
                     for members, slots in self.splits))

    def used(self):
        return max(len([s for s in slots if s != UNUSED]) for _, slots in self.splits)


def alike(nfa):
    """All bytes in groups that take the same edges, by lowest byte."""
    groups = {}
    for byte in range(BYTE_VALUES):
        taken = frozenset(e for e in nfa.edges if e.takes(byte))
        groups.setdefault(taken, []).append(byte)
    return list(groups.values())


def close(nfa, sets, most):
    """The sets and all that steps lead to, or None when they are too many."""
    bytes_to_try = [group[0] for group in alike(nfa)]
    found = set(sets)
    todo = sorted(found, key=pack_set)
    while todo:
        members = todo.pop()
        for byte in bytes_to_try:
            after = nfa.step(members, byte)
            if after not in found:
                found.add(after)
                todo.append(after)
        if len(found) > most:
            return None
    return sorted(found, key=pack_set)


def cover(dice, members, bound, known):
    """At most bound sets whose union is members, some of them known ones."""
    if not members:
        return [frozenset()] if dice.chance(20) else []
    if dice.chance(10):
        return [members]
    chosen = []
    inside = [part for part in known if part and part <= members]
    for part in dice.shuffled(inside):
        if len(chosen) < bound - 1 and not part <= model.union(chosen):
            chosen.append(part)
    left = members - model.union(chosen)
    if left:
        pieces = bound - len(chosen)
        groups = [set() for _ in range(dice.between(1, pieces))]
        for state in sorted(left):
            dice.pick(groups).add(state)
        if dice.chance(40):
            for group in groups:
                group.update(dice.subset(sorted(members), 30))
        for group in groups:
            if group and frozenset(group) not in chosen:
                chosen.append(frozenset(group))
    return chosen


def build_plan(dice, sample, bound, most_sets=30, most_parts=12, wide=False):
    """A table that the check accepts at bound, or None when it grows too big."""
    nfa = sample.nfa
    sets = close(nfa, [nfa.starts], most_sets)
    if sets is None:
        return None
    for _ in range(dice.pick([0, 0, 1, 2])):
        more = dice.subset(sample.states, 40)
        larger = close(nfa, sets + [more], most_sets)
        if larger is not None:
            sets = larger

    parts = []
    covers = {}
    for members in dice.shuffled(sets):
        covers[members] = cover(dice, members, bound, parts)
        for part in covers[members]:
            if part not in parts:
                parts.append(part)
    spare = dice.pick([0, 0, 0, 1, 2])
    for _ in range(spare):
        parts.append(dice.pick([frozenset(), dice.subset(sample.states, 50),
                                dice.subset(range(STATES), 8)] + parts))
    if not parts:
        parts.append(dice.subset(sample.states, 50))
    if len(parts) > most_parts:
        return None
    parts = dice.shuffled(parts)

    splits = []
    for members in sets:
        slots = set()
        for part in covers[members]:
            places = [p for p, known in enumerate(parts) if known == part]
            slots.add(dice.pick(places))
        if len(slots) < bound and dice.chance(10):
            inside = [p for p, known in enumerate(parts) if known <= members]
            if inside:
                slots.add(dice.pick(inside))
        splits.append((members, padded(sorted(slots))))

    # Bytes of one class step alike for every part, perhaps finer than needed.
    groups = {}
    for byte in range(BYTE_VALUES):
        key = tuple(pack_set(nfa.step(part, byte)) for part in parts)
        groups.setdefault(key, []).append(byte)
    groups = list(groups.values())
    for _ in range(dice.pick([0, 0, 1, 2])):
        old = groups.pop(dice.below(len(groups)))
        out = dice.subset(old, dice.pick([5, 50]))
        groups += [half for half in ([b for b in old if b in out],
                                     [b for b in old if b not in out]) if half]
    if len(groups) > 9:
        return None
    if wide:
        names = sorted(dice.some(range(MOST_CLASS), len(groups) - 1)) + [MOST_CLASS]
    elif dice.chance(25):
        names = dice.some(range(len(groups) + 2), len(groups))
    else:
        names = dice.shuffled(range(len(groups)))
    names = dice.shuffled(names)
    classes = [0] * BYTE_VALUES
    rows = {}
    for name, group in zip(names, groups):
        for byte in group:
            classes[byte] = name
        for p, part in enumerate(parts):
            rows[p, name] = nfa.step(part, group[0])
    width = max(classes) + 1
    for p in range(len(parts)):
        for name in range(width):
            if name not in names:
                rows[p, name] = dice.pick([frozenset(), dice.subset(sample.states, 50),
                                           dice.subset(range(STATES), 30)])
    return Plan(classes, width, parts, rows, splits)


def good_table(dice, bound, most_sets=30, most_parts=12, wide=False):
    """A list and a plan accepted for it at bound."""
    while True:
        sample = any_list(dice)
        if len(sample.records) > 40:
            continue
        plan = build_plan(dice, sample, bound, most_sets, most_parts, wide)
        if plan is not None:
            return sample, plan
