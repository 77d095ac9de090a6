"""Single faults of a split table.

Each function changes a copy of a good plan and gives it back, packed or not,
or gives None where the fault can't be made. The name's number is the refusal
that the changed table gives.
"""

from second.list import model
from second.list.model import pack_set, union
from second.sizes import BYTE_VALUES, MOST_BOUND, MOST_CLASS, SET_SIZE, SLOTS, STATES, UNUSED
from second.table.model import padded

BAD_BOUNDS = [0, MOST_BOUND + 1, MOST_BOUND + 2, 255, 256, 257, 258, 65537, 2 ** 32,
              2 ** 32 + 1, 2 ** 32 + 4, 2 ** 63, 2 ** 64 - 1]


def toggled(members, state):
    return members ^ frozenset([state])


def used(slots):
    return [slot for slot in slots if slot != UNUSED]


def place(dice, count):
    """A place in a list: the last or the first more often than others."""
    return dice.pick([count - 1, count - 1, 0, dice.below(count)])


# 8: lengths and classes

def wrong_lists(dice, plan):
    """Every way in which one of the four lists is wrong."""
    table = plan.table()
    classes, parts, rows, splits = table
    count = len(plan.parts)
    out = []
    for changed in (b"", classes[:1], classes[:-1], classes + classes[:1], classes + bytes(44)):
        out.append(table._replace(classes=changed))
    for at in (0, BYTE_VALUES - 1, dice.below(BYTE_VALUES)):
        over = dice.pick([MOST_CLASS + 1, MOST_CLASS + 1, MOST_CLASS + 2, 128, 255])
        out.append(table._replace(classes=classes[:at] + bytes([over]) + classes[at + 1:]))
    out.append(table._replace(parts=b"", rows=b""))
    for changed in (b"", parts[:-1], parts + b"\0", parts[:-SET_SIZE], parts + parts[:SET_SIZE]):
        out.append(table._replace(parts=changed))
    for changed in (b"", rows[:-1], rows + b"\0", rows[:-SET_SIZE], rows + rows[:SET_SIZE],
                    rows[SET_SIZE * count:], rows + rows[:SET_SIZE * count]):
        out.append(table._replace(rows=changed))
    for changed in (b"", splits[:-1], splits + b"\0", splits[:-2 * SLOTS], splits[:-SET_SIZE],
                    splits + splits[:2 * SLOTS], splits + splits[:SET_SIZE]):
        out.append(table._replace(splits=changed))
    return out


def lists_8(dice, plan, bound, sample):
    return dice.pick(wrong_lists(dice, plan))


def wider_8(dice, plan, bound, sample):
    """One class is over the largest, and the rows have the length that this asks for."""
    if len(plan.parts) > 3:
        return None
    width = MOST_CLASS + 2
    for p in range(len(plan.parts)):
        for k in range(width):
            plan.rows.setdefault((p, k), frozenset())
    plan.classes[dice.below(BYTE_VALUES)] = MOST_CLASS + 1
    plan.width = width
    return plan


# 9: slots and order

def _slots(dice, plan, accept):
    """The place of a split whose used slots pass a test."""
    places = [i for i, (_, slots) in enumerate(plan.splits) if accept(used(slots))]
    if not places:
        return None
    return places[place(dice, len(places))]


def no_part_9(dice, plan, bound, sample):
    count = len(plan.parts)
    at = _slots(dice, plan, lambda slots: True)
    members, slots = plan.splits[at]
    named = used(slots)
    bad = dice.pick([count, count, 256 + dice.below(count), count + 1, UNUSED - 1, 32768])
    if len(named) < bound and dice.chance(60):
        named.append(bad)
    elif named:
        named[-1] = bad
    else:
        return None
    plan.splits[at] = (members, padded(named))
    return plan


def after_unused_9(dice, plan, bound, sample):
    at = _slots(dice, plan, lambda slots: 1 <= len(slots) < SLOTS)
    if at is None:
        return None
    members, slots = plan.splits[at]
    named = used(slots)
    gap = dice.below(len(named))
    moved = named[:gap] + [UNUSED] * dice.between(1, SLOTS - len(named)) + named[gap:]
    plan.splits[at] = (members, padded(moved))
    return plan


def equal_slots_9(dice, plan, bound, sample):
    at = _slots(dice, plan, lambda slots: 1 <= len(slots) < bound)
    if at is None:
        return None
    members, slots = plan.splits[at]
    named = used(slots)
    named.insert(0, dice.pick([named[0], named[-1]]))
    plan.splits[at] = (members, padded(named))
    return plan


def falling_9(dice, plan, bound, sample):
    at = _slots(dice, plan, lambda slots: len(slots) >= 2)
    if at is None:
        return None
    members, slots = plan.splits[at]
    named = used(slots)
    turn = dice.below(len(named) - 1)
    named[turn], named[turn + 1] = named[turn + 1], named[turn]
    plan.splits[at] = (members, padded(named))
    return plan


def too_many_9(dice, plan, bound, sample):
    """One split uses one slot more than the bound, and its union stays."""
    if bound == MOST_BOUND:
        return None
    places = []
    for i, (members, slots) in enumerate(plan.splits):
        inside = [p for p, part in enumerate(plan.parts) if part <= members]
        if len(inside) > bound and union(plan.parts[p] for p in inside) == members:
            places.append((i, inside))
    for i, inside in dice.shuffled(places):
        members, slots = plan.splits[i]
        named = set(used(slots))
        for p in dice.shuffled(inside):
            if len(named) <= bound:
                named.add(p)
        if len(named) == bound + 1:
            plan.splits[i] = (members, padded(sorted(named)))
            return plan
    return None


def order_9(dice, plan, bound, sample):
    if len(plan.splits) < 2:
        return None
    at = place(dice, len(plan.splits) - 1)
    plan.splits[at], plan.splits[at + 1] = plan.splits[at + 1], plan.splits[at]
    return plan


def word_order_9(dice, plan, bound, sample):
    """The order of 8-byte numbers with the low byte first, where it differs."""
    def as_words(split):
        return [model.number(word) for word in model.cut(pack_set(split[0]), 8)]

    def as_one_number(split):
        return model.number(pack_set(split[0]))

    changed = sorted(plan.splits, key=dice.pick([as_words, as_one_number]))
    if changed == plan.splits:
        return None
    plan.splits = changed
    return plan


def equal_sets_9(dice, plan, bound, sample):
    at = place(dice, len(plan.splits))
    members, slots = plan.splits[at]
    plan.splits.insert(at, (members, list(slots)))
    return plan


# 10: rows

def row_10(dice, plan, bound, sample):
    part = place(dice, len(plan.parts))
    group = plan.classes[dice.pick([0, 255, dice.below(BYTE_VALUES), dice.pick(sample.letters)])]
    state = dice.pick(sample.states + [0, STATES - 1])
    plan.rows[part, group] = toggled(plan.rows[part, group], state)
    return plan


def class_10(dice, plan, bound, sample):
    """One byte moves to a class whose other bytes step differently."""
    byte = dice.pick([0, 255, dice.pick(sample.letters), dice.below(BYTE_VALUES)])
    plan.classes[byte] = dice.pick(plan.classes)
    plan.width = max(plan.classes) + 1
    return plan


def case_10(dice, plan, bound, sample):
    """A letter moves to the class of its partner in the other case."""
    letters = [byte for byte in range(BYTE_VALUES)
               if plan.classes[byte] != plan.classes[model.exchanged(byte)]]
    if not letters:
        return None
    byte = dice.pick(letters)
    plan.classes[byte] = plan.classes[model.exchanged(byte)]
    plan.width = max(plan.classes) + 1
    return plan


def spare_10(dice, plan, bound, sample):
    """A wrong row of a part that no split uses."""
    named = {slot for _, slots in plan.splits for slot in used(slots)}
    spare = [p for p in range(len(plan.parts)) if p not in named]
    if not spare:
        return None
    part = dice.pick(spare)
    group = dice.pick(plan.classes)
    plan.rows[part, group] = toggled(plan.rows[part, group], dice.pick(sample.states))
    return plan


def swapped_10(dice, plan, bound, sample):
    """The rows stand class by class instead of part by part."""
    count = len(plan.parts)
    flat = [plan.rows[p, k] for k in range(plan.width) for p in range(count)]
    plan.rows = {(p, k): flat[p * plan.width + k]
                 for p in range(count) for k in range(plan.width)}
    return plan


# 11: unions

def state_11(dice, plan, bound, sample):
    at = place(dice, len(plan.splits))
    members, slots = plan.splits[at]
    state = dice.pick(sorted(members) + [dice.pick(sample.states)] + [STATES - 1])
    plan.splits[at] = (toggled(members, state), slots)
    plan.sort()
    return plan


def slots_11(dice, plan, bound, sample):
    """Other parts are named, or one less, or none."""
    at = place(dice, len(plan.splits))
    members, slots = plan.splits[at]
    named = used(slots)
    count = len(plan.parts)
    shape = dice.below(3)
    if shape == 0 and named:
        named.pop(dice.below(len(named)))
    elif shape == 1:
        named = []
    else:
        named = sorted(dice.some(range(count), min(count, dice.between(1, bound))))
    plan.splits[at] = (members, padded(named))
    return plan


# 12: the start set

def start_12(dice, plan, bound, sample):
    plan.splits = [split for split in plan.splits if split[0] != sample.nfa.starts]
    return plan if plan.splits else None


# 13: steps

def target_13(dice, plan, bound, sample):
    at = place(dice, len(plan.splits))
    plan.splits.pop(at)
    return plan if plan.splits else None


def empty_13(dice, plan, bound, sample):
    """The empty set is a step's target and no split."""
    before = len(plan.splits)
    plan.splits = [split for split in plan.splits if split[0]]
    return plan if 0 < len(plan.splits) < before else None


def unclosed_13(dice, plan, bound, sample):
    """One more split, right in itself, that nothing reaches and that steps out."""
    count = len(plan.parts)
    named = sorted(dice.some(range(count), min(count, dice.between(1, bound))))
    members = union(plan.parts[p] for p in named)
    if members in [split[0] for split in plan.splits]:
        return None
    plan.splits.append((members, padded(named)))
    plan.sort()
    return plan


SINGLE = [
    (8, wider_8, 8),
    (9, no_part_9, 30), (9, after_unused_9, 18), (9, equal_slots_9, 18), (9, falling_9, 18),
    (9, too_many_9, 18), (9, order_9, 18), (9, word_order_9, 18), (9, equal_sets_9, 18),
    (10, row_10, 40), (10, class_10, 30), (10, case_10, 30),
    (10, spare_10, 20), (10, swapped_10, 6),
    (11, state_11, 50), (11, slots_11, 40),
    (12, start_12, 70),
    (13, target_13, 50), (13, empty_13, 25), (13, unclosed_13, 40),
]

# Two faults in one table: the lower number is given.
DOUBLE = [
    (9, 10, no_part_9, row_10), (9, 11, falling_9, slots_11), (9, 13, order_9, target_13),
    (10, 11, row_10, slots_11), (10, 12, row_10, start_12), (10, 13, class_10, target_13),
    (11, 12, slots_11, start_12), (11, 13, slots_11, target_13),
    (12, 13, start_12, unclosed_13),
]


def last_9_first_11(dice, plan, bound, sample):
    """9 of the last split and 11 of the first."""
    if len(plan.splits) < 2:
        return None
    members, slots = plan.splits[0]
    named = [slot for slot in range(len(plan.parts)) if plan.parts[slot] != members]
    if not named:
        return None
    plan.splits[0] = (members, padded(named[:1]))
    members, slots = plan.splits[-1]
    plan.splits[-1] = (members, padded([len(plan.parts)]))
    return plan
