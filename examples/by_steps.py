"""Lists for the examples, from a start, a step and what is told: a state of the list for each thing
that the steps lead to.

A step takes what has been read, as any value that a dict can be keyed by, and a byte, and gives what
has been read then.
"""


def record(kind, low, high, middle, last):
    return bytes([kind, low, high, 0]) + middle.to_bytes(2, "little") + last.to_bytes(2, "little")


def runs(values):
    """Where equal values stand one after the other: the first place, the last one and the value."""
    begin = 0
    for at in range(1, len(values) + 1):
        if at == len(values) or values[at] != values[begin]:
            yield begin, at - 1, values[begin]
            begin = at


def rules(start, step, told):
    """The list's bytes: an edge for each run of bytes with one target, then the start, then what
    `told` gives of a state, a signature or None."""
    states, order, records = {start: 0}, [start], []
    for here in order:  # which grows meanwhile
        for low, high, target in runs([step(here, byte) for byte in range(256)]):
            if target not in states:
                states[target] = len(order)
                order.append(target)
            records.append(record(1, low, high, states[here], states[target]))
    records.append(record(2, 0, 0, 0, 0))
    records += [record(3, 0, 0, states[here], told(here)) for here in order if told(here) is not None]
    return b"".join(records)


def front(word, read, byte):
    """How much of a word has been read with one more byte, where so much was read before."""
    text = word[:read] + bytes([byte])
    return max(n for n in range(len(word) + 1) if text.endswith(word[:n]))
