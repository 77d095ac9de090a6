"""Which record is bad and why, in the words of the rules. Not proved.

Each function gives sentences, none where there is no fault; fault and
table_fault give the refusal, as the model does, and where it comes from.
"""

from saying import phrase
from second.list import model
from second.list.model import cut, union
from second.sizes import (
    BYTE_VALUES, FLOW_SIZE, MOST_BOUND, MOST_CLASS, MOST_LIST, MOST_PARTS, MOST_SPLITS, RECORD_SIZE,
    RESERVED_AT, ROWS_AT, SET_SIZE, SIGNATURES, SPLIT_SIZE, STATES, UNUSED,
)
from second.table import model as tables
from second.table.model import used_slots

# Bytes of a record that are zero, by kind.
RESERVED = {1: [], 2: [1, 2, 3, 4, 5], 3: [1, 2, 3]}


# The list

def record_faults(record):
    kind, low, high, middle, last = phrase.fields(record)
    if kind not in RESERVED:
        return ["another kind: byte 0 is %d, and the kinds are 1 (edge), 2 (start) and 3 (accept)"
                % kind]
    out = ["a non-zero reserved byte: byte %d is %02X" % (at, record[at])
           for at in RESERVED[kind] if record[at]]
    if kind == 1 and record[3] > 1:
        out.append("a byte 3 that is neither 0 nor 1: it is %02X" % record[3])
    if kind == 1 and low > high:
        out.append("low over high: %s over %s" % (phrase.byte(low), phrase.byte(high)))
    named = {1: [("from", middle), ("to", last)], 2: [("state", last)], 3: [("state", middle)]}
    out += ["a state over the largest, %d: %s is %d" % (STATES - 1, name, state)
            for name, state in named[kind] if state >= STATES]
    if kind == 3 and last >= SIGNATURES:
        out.append("a signature over the largest, %d: signature is %d" % (SIGNATURES - 1, last))
    return out


def list_length_faults(data):
    if not data:
        return ["the list is empty"]
    out = []
    if len(data) > MOST_LIST:
        out.append("the list has %d bytes, over the most, %d" % (len(data), MOST_LIST))
    if len(data) % RECORD_SIZE:
        out.append("the list has %d bytes, no multiple of %d: %s left at its end" % (
            len(data), RECORD_SIZE, phrase.many(len(data) % RECORD_SIZE, "byte")))
    return out


def fault(data):
    """Refusal of a list, 0 for none, and why."""
    wrong = list_length_faults(data)
    if wrong:
        return 1, "; ".join(wrong)
    for at, record in enumerate(cut(data, RECORD_SIZE)):
        wrong = record_faults(record)
        if wrong:
            return 2, "record %d (%s) has %s" % (at, record.hex(" "), "; and ".join(wrong))
    if all(record[0] != 2 for record in cut(data, RECORD_SIZE)):
        return 3, "no record is a start record"
    return 0, ""


# The flow record

def flow_faults(record):
    """Why a feed refuses this record with 4."""
    if len(record) != FLOW_SIZE:
        return ["the record has %d bytes, not %d" % (len(record), FLOW_SIZE)]
    out = []
    if any(record[RESERVED_AT:ROWS_AT]):
        out.append("bytes %d to %d are not zero: %s" % (
            RESERVED_AT, ROWS_AT - 1, record[RESERVED_AT:ROWS_AT].hex(" ")))
    flow = model.unpack_flow(record)
    if flow.rows > STATES * flow.offset:
        out.append("rows read is %d, over %d times the offset, %d" % (
            flow.rows, STATES, STATES * flow.offset))
    return out


# The split table

def length_faults(table):
    out = []
    if len(table.classes) != BYTE_VALUES:
        out.append("classes has %d bytes, not %d" % (len(table.classes), BYTE_VALUES))
    over = [value for value, group in enumerate(table.classes) if group > MOST_CLASS]
    if over:
        out.append("the class of byte %s is %d, over the largest, %d" % (
            phrase.byte(over[0] % BYTE_VALUES), table.classes[over[0]], MOST_CLASS))
    for name, size, most in (("parts", SET_SIZE, MOST_PARTS), ("splits", SPLIT_SIZE, MOST_SPLITS)):
        length = len(getattr(table, name))
        if length % size:
            out.append("%s has %d bytes, no multiple of %d" % (name, length, size))
        elif not size <= length <= most * size:
            out.append("%s has %d records, and 1 to %d may be" % (name, length // size, most))
    if not out:
        parts, width = len(table.parts) // SET_SIZE, max(table.classes) + 1
        if len(table.rows) != parts * width * SET_SIZE:
            out.append("rows has %d bytes, not %d (%s, %s, %d bytes a set)" % (
                len(table.rows), parts * width * SET_SIZE, phrase.many(parts, "part"),
                phrase.many(width, "class"), SET_SIZE))
    return out


def order_fault(before, split):
    """Why a split's set is not greater than the one before."""
    if split.name == before.name:
        return "a set not greater than the one before: they are equal"
    at = next(i for i in range(SET_SIZE) if split.name[i] != before.name[i])
    return ("a set not greater, as a byte string, than the one before, %s: byte %d is %02X after"
            " %02X" % (phrase.members(before.members), at, split.name[at], before.name[at]))


def split_faults(split, before, parts, bound):
    """Rule 9 for one split and the one before it, or None."""
    used = used_slots(split)
    out = ["a used slot that names no part: slot %d names part %d, and the last is %d"
           % (at, slot, parts - 1)
           for at, slot in enumerate(split.slots) if slot != UNUSED and slot >= parts]
    gap = [at for at, slot in enumerate(split.slots)
           if slot != UNUSED and UNUSED in split.slots[:at]]
    if gap:
        out.append("a used slot after an unused one: slot %d after slot %d" % (
            gap[0], split.slots.index(UNUSED)))
    falls = [at for at in range(1, len(used)) if used[at] <= used[at - 1]]
    if falls:
        out.append("slots not strictly rising: part %d after part %d" % (
            used[falls[0]], used[falls[0] - 1]))
    if len(used) > bound:
        out.append("more slots used than the bound: %d, and the bound is %d" % (len(used), bound))
    if before is not None and not before.name < split.name:
        out.append(order_fault(before, split))
    return out


def where_9(table, bound):
    before = None
    for at, split in enumerate(table.splits):
        wrong = split_faults(split, before, len(table.parts), bound)
        if wrong:
            return "split %d, %s, has %s" % (
                at, phrase.members(split.members), "; and ".join(wrong))
        before = split
    return ""


def alike(nfa):
    """For each byte one that takes the same edges."""
    borders = set()
    for edge in nfa.edges:
        for low, high in phrase.runs(phrase.taken(edge)) if edge.either else [edge[:2]]:
            borders |= {low, high + 1}
    out = []
    for value in range(BYTE_VALUES):
        out.append(value if value == 0 or value in borders else out[-1])
    return out


def where_10(table, nfa):
    stands_for = alike(nfa)
    for part, held in enumerate(table.parts):
        for value in range(BYTE_VALUES):
            group = table.classes[value]
            row, right = table.row[part, group], nfa.step(held, stands_for[value])
            if row == right:
                continue
            fits = [other for other in range(BYTE_VALUES) if table.classes[other] == group
                    and nfa.step(held, stands_for[other]) == row]
            return "part %d, %s, on byte %s, class %d: the row is %s, the step is %s (%s)%s" % (
                part, phrase.members(held), phrase.byte(value), group, phrase.members(row),
                phrase.members(right), phrase.difference(row, right),
                "; it is right for byte %s of the same class" % phrase.byte(fits[0])
                if fits else "")
    return ""


def where_11(table):
    for at, split in enumerate(table.splits):
        used = used_slots(split)
        joined = union(table.parts[slot] for slot in used)
        if split.members != joined:
            return "split %d is %s, and %s %s (%s)" % (
                at, phrase.members(split.members),
                "the union of %s is" % phrase.counted("part", used) if used
                else "it uses no part: the union is",
                phrase.members(joined), phrase.difference(joined, split.members))
    return ""


def where_12(table, nfa):
    if nfa.starts in table.first:
        return ""
    return "the start set, %s, is no split" % phrase.members(nfa.starts)


def where_13(table, nfa):
    tried = sorted(set(alike(nfa)))
    for at, split in enumerate(table.splits):
        for value in tried:
            after = nfa.step(split.members, value)
            if after not in table.first:
                return "split %d, %s, on byte %s: the step is %s, and this is no split" % (
                    at, phrase.members(split.members), phrase.byte(value), phrase.members(after))
    return ""


def table_fault(data, table, bound):
    """Refusal of a table, 0 for none, and where it comes from."""
    refusal, why = fault(data)
    if refusal:
        return refusal, "the list: " + why
    if not 1 <= bound <= MOST_BOUND:
        return 7, "the bound is %d, and 1 to %d may be" % (bound, MOST_BOUND)
    wrong = length_faults(table)
    if wrong:
        return 8, "; ".join(wrong)
    nfa, lists = model.automaton(data), tables.decoded(table)
    for rule, where in ((9, lambda: where_9(lists, bound)), (10, lambda: where_10(lists, nfa)),
                        (11, lambda: where_11(lists)), (12, lambda: where_12(lists, nfa)),
                        (13, lambda: where_13(lists, nfa))):
        why = where()
        if why:
            return rule, why
    return 0, ""
