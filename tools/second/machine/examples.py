"""The worked examples of the automaton with bits and counters, as assertions about bits.py."""

from second.machine import model as machines


def program(*records):
    data = b"".join(bytes([kind, which]) + number.to_bytes(2, "little") for kind, which, number in records)
    return data + bytes(machines.X_PROGRAM_SIZE - len(data))


ONE = bytes(512)
TWO = b"\1\0" * 512
COUNTING = program((3, 0, 2)) + program((5, 0, 0), (8, 0, 9))
ALERTING = program((6, 0, 4), (1, 3, 0), (7, 3, 1), (6, 0, 4), (2, 3, 0), (7, 3, 2))


def check():
    opened = machines.open_flow(TWO, COUNTING, bytes(80), [8] * 4)
    assert (opened.refusal, opened.pairs) == (0, 0)
    fed = machines.feed(TWO, COUNTING, opened.record, 0, [8] * 4, b"....")
    assert fed.words == [9, 2, 8, 8] and fed.all and fed.pairs == 1
    fed = machines.feed(TWO, COUNTING, opened.record, 0, [8] * 4, b"...")
    assert machines.number(fed.record[16:20]) == 65536
    opened = machines.open_flow(ONE, ALERTING, bytes([7] * 80), [8] * 5)
    assert opened.words == [1, 0, 4, 0, 8]
    fed = machines.feed(ONE, ALERTING, opened.record, 0, [8] * 4, b"z")
    assert fed.words == [1, 1, 4, 1]
    assert machines.open_flow(ONE, ALERTING, bytes([7] * 80), [8] * 3) == (15, 0, [8] * 3, bytes([7] * 80))
    fed = machines.feed(ONE, ALERTING, opened.record, 0, [8] * 5, b"zz")
    assert (fed.consumed, fed.words) == (1, [1, 1, 4, 1, 8])
    fed = machines.feed(ONE, ALERTING, opened.record, 0, [8] * 3, b"zz")
    assert (fed.consumed, fed.words, fed.record) == (0, [8] * 3, opened.record)
    bad = opened.record[:20] + b"\1\0\1\0" + opened.record[24:]
    assert machines.feed(ONE, ALERTING, bad, 0, [8] * 4, b"z").refusal == 4
    assert machines.refused(ONE, program((4, 0, 1))) == 24
    assert machines.feed(ONE, program((4, 0, 1)), bytes(79), 0, [], b"").refusal == 24
