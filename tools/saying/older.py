"""Flow records and split tables of the time when there were 256 states, made into those of today.

A set then had 32 bytes, and every state of it is a state today: each set gets zeros behind it. That
changes neither its members nor the order of two sets as byte strings. A list needs no change.
"""

from second.list.model import Flow, cut, number, pack_flow, unpack_set
from second.sizes import BYTE_VALUES, MOST_CLASS, MOST_PARTS, MOST_SPLITS, SET_SIZE, SLOTS
from second.table.model import Table

STATES = 256
OLD_SET = STATES // 8
OLD_SPLIT = OLD_SET + 2 * SLOTS
OLD_FLOW = OLD_SET + 16


def set_today(old):
    return old + bytes(SET_SIZE - OLD_SET)


def flow_fault(old):
    """Why the matcher of that time refused this record when it was fed, or nothing."""
    if len(old) != OLD_FLOW:
        return "it has %d bytes, and a record of %d states had %d" % (len(old), STATES, OLD_FLOW)
    if any(old[OLD_SET + 4:OLD_SET + 8]):
        return "its four reserved bytes are not zero"
    offset, rows = number(old[OLD_SET:OLD_SET + 4]), number(old[OLD_SET + 8:])
    if rows > STATES * offset:
        return "its rows read, %d, are more than %d times its offset, %d" % (rows, STATES, offset)
    return None


def flow_today(old):
    """The record of the same frontier, offset and rows."""
    return pack_flow(Flow(unpack_set(set_today(old[:OLD_SET])),
                          number(old[OLD_SET:OLD_SET + 4]), number(old[OLD_SET + 8:])))


def table_fault(old):
    """Which of the four lists had not the length that it had to have, or nothing."""
    if len(old.classes) != BYTE_VALUES:
        return "classes has %d bytes, not %d" % (len(old.classes), BYTE_VALUES)
    if max(old.classes) > MOST_CLASS:
        return "a class is %d, over the largest, %d" % (max(old.classes), MOST_CLASS)
    for name, data, size, most in (("parts", old.parts, OLD_SET, MOST_PARTS),
                                   ("splits", old.splits, OLD_SPLIT, MOST_SPLITS)):
        if len(data) % size != 0 or not 1 <= len(data) // size <= most:
            return "%s has %d bytes, no 1 to %d records of %d" % (name, len(data), most, size)
    right = len(old.parts) * (max(old.classes) + 1)
    if len(old.rows) != right:
        return "rows has %d bytes, not %d" % (len(old.rows), right)
    return None


def table_today(old):
    """The table of the same classes, sets and slots."""
    return Table(old.classes,
                 b"".join(set_today(data) for data in cut(old.parts, OLD_SET)),
                 b"".join(set_today(data) for data in cut(old.rows, OLD_SET)),
                 b"".join(set_today(data[:OLD_SET]) + data[OLD_SET:]
                          for data in cut(old.splits, OLD_SPLIT)))
