"""Joining two lists and folding one, from their rules alone, over records as tuples.

A record is (kind, low, high, flag, first, second), where the last two are its two-byte numbers. The answer is a refusal, a length and the bytes of the
lent list at exit. The joined list is made with sets and dicts, the folded one by comparing the whole pasts of states.
"""

from collections import namedtuple

from second import sizes
from second.list import model

EDGE, START, ACCEPT = 1, 2, 3

Record = namedtuple("Record", "kind low high flag first second")
Made = namedtuple("Made", "refusal length left")


def unpack(data):
    return [Record(*one[:4], model.number(one[4:6]), model.number(one[6:8])) for one in model.cut(data, sizes.RECORD_SIZE)]


def pack(records):
    return b"".join(bytes(one[:4]) + one.first.to_bytes(2, "little") + one.second.to_bytes(2, "little") for one in records)


def named(records):
    """The states that records name."""
    return ({one.first for one in records if one.kind in (EDGE, ACCEPT)}
            | {one.second for one in records if one.kind in (EDGE, START)})


def renumber(one, number):
    """A record with its states renumbered; a signature, and a start's zeros, stay."""
    return one._replace(first=number(one.first) if one.kind in (EDGE, ACCEPT) else one.first,
                        second=number(one.second) if one.kind in (EDGE, START) else one.second)


# Joining

def ever(records):
    """The lowest start state with a loop that every byte takes; None where there is none."""
    starts = {one.second for one in records if one.kind == START}
    loops = [one.first for one in records
             if one.kind == EDGE and (one.low, one.high) == (0, 255) and one.first == one.second and one.first in starts]
    return min(loops, default=None)


def once(records):
    """The lowest start state that no edge leads to; None where there is none."""
    led = {one.second for one in records if one.kind == EDGE}
    starts = [one.second for one in records if one.kind == START and one.second not in led]
    return min(starts, default=None)


def shared(front, other):
    """The two states, of each list, that become one; None where there are none."""
    for kind in (ever, once):
        pair = kind(front), kind(other)
        if None not in pair:
            return pair
    return None


def joined(front, other):
    """The joined list of two that pass their check, as records."""
    base, pair = max(named(front)) + 1, shared(front, other)

    def number(state):
        if pair is None:
            return base + state
        return pair[0] if state == pair[1] else base + state - (state > pair[1])

    def spare(one):
        return pair is not None and one.second == pair[1] and (one.kind == START or one.kind == EDGE and one.first == pair[1])

    return front + [renumber(one, number) for one in other if not spare(one)]


def join(lent, used, other):
    front = lent[:used]
    refusal = model.list_refusal(front)
    if refusal == 0 and model.list_refusal(other) != 0:
        refusal = 27
    if refusal == 0:
        records = joined(unpack(front), unpack(other))
        size = sizes.RECORD_SIZE * len(records)
        if used > len(lent) or size > len(lent) or len(records) > sizes.MOST_RECORDS or max(named(records)) >= sizes.STATES:
            refusal = 28
    if refusal != 0:
        return Made(refusal, 0, lent)
    return Made(0, size, pack(records) + lent[size:])


# Folding

def chiefs_of(records):
    """The chief of each state: the lowest chief below it that has its past, once it has joined that one; or itself."""
    starts = {one.second for one in records if one.kind == START}
    into = {}
    for one in records:
        if one.kind == EDGE:
            into.setdefault(one.second, []).append(one)
    chief = {}

    def past(state, own, leader):
        return [(one.low, one.high, one.flag, leader if one.first == own else chief.get(one.first, one.first)) for one in into.get(state, [])]

    for state in range(max(named(records)) + 1):
        for leader in range(state):
            if (chief[leader] == leader and (state in starts) == (leader in starts)
                    and past(state, state, leader) == past(leader, state, leader)):
                chief[state] = leader
                break
        else:
            chief[state] = state
    return chief


def folded(records):
    """The folded list of one that passes its check, as records."""
    chief = chiefs_of(records)
    numbers = {leader: count for count, leader in enumerate(sorted(set(chief.values())))}
    kept = [one for one in records if one.kind == ACCEPT or chief[one.second] == one.second]
    return [renumber(one, lambda state: numbers[chief[state]]) for one in kept]


def fold(data, lent):
    refusal = model.list_refusal(data)
    if refusal != 0:
        return Made(refusal, 0, lent)
    made = pack(folded(unpack(data)))
    if len(made) > len(lent):
        return Made(28, 0, lent)
    return Made(0, len(made), made + lent[len(made):])
