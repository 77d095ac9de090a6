"""The worked examples of the rules, as assertions on the model."""

from second import sizes
from second.list import model
from second.list.model import Flow, pack_flow, pack_set
from second.sizes import (
    BYTE_VALUES, FLOW_SIZE, MOST_BOUND, MOST_OFFSET, MOST_RECORDS, RECORD_SIZE, SET_SIZE, STATES,
)
from second.table import model as tables
from second.table.model import Table, padded

LIST = bytes.fromhex("0100FF0000000000" "0161610000000100" "0162620001000200"
                     "0200000000000000" "0300000002000700")
RECORDS = model.cut(LIST, RECORD_SIZE)
START = RECORDS[3]
AT_ONCE = LIST + b"".join(bytes([3, 0, 0, 0, 0, 0, signature, 0]) for signature in (5, 3, 5))
NO_START = b"".join(record for record in RECORDS if record != START)


def _set(*states):
    return pack_set(frozenset(states))


def _split(states, *slots):
    return _set(*states) + b"".join(slot.to_bytes(2, "little") for slot in padded(slots))


# As byte strings {0} = 01 00.. comes before {0,1} = 03 00.., and {0,2} = 05 00.. is last.
SPLITS = [_split([0], 0), _split([0, 1], 0, 1), _split([0, 2], 0, 2)]
TABLE = Table(
    bytes(1 if c == 97 else 2 if c == 98 else 0 for c in range(BYTE_VALUES)),
    _set(0) + _set(1) + _set(2),
    _set(0) + _set(0, 1) + _set(0) + _set() + _set() + _set(2) + _set() * 3,
    b"".join(SPLITS))
# A table of bound 1 for the list, by hand: each set that can be reached is a part and a split.
ONE = Table(TABLE.classes, _set(0) + _set(0, 1) + _set(0, 2),
            _set(0) + _set(0, 1) + _set(0) + _set(0) + _set(0, 1) + _set(0, 2) + _set(0) + _set(0, 1) + _set(0),
            _split({0}, 0) + _split({0, 1}, 1) + _split({0, 2}, 2))

# Start 4, and accept 6 under signature 200.
LONE = bytes.fromhex("0200000000000400" "030000000600C800")

WITHOUT_02 = TABLE._replace(splits=SPLITS[0] + SPLITS[1])
WITHOUT_0 = TABLE._replace(splits=SPLITS[1] + SPLITS[2])


def check():
    opened = model.open_flow(LIST, b"\xff" * FLOW_SIZE, [])
    assert opened == (0, 0, [], _set(0) + bytes(FLOW_SIZE - SET_SIZE))
    fresh = opened.record
    words = [11, 12, 13, 14, 15]

    # A start state that accepts: its pairs have offset 0, and 15 comes after 4.
    full = b"\xff" * FLOW_SIZE
    assert model.open_flow(AT_ONCE, full, words) == (0, 2, [3, 0, 5, 0, 15], fresh)
    assert model.open_flow(AT_ONCE, full, words[:3]) == (15, 0, words[:3], full)
    assert model.open_flow(AT_ONCE, full[1:], []) == (4, 0, [], full[1:])

    def plain(record, start, words, piece):
        return model.plain_feed(LIST, record, start, words, piece)

    def split(table, bound, words, piece, record=fresh, start=0):
        return tables.split_feed(LIST, table, bound, record, start, words, piece)

    # 1 and 2: the pairs of "abab" and 7 rows, the odd last word untouched.
    whole = plain(fresh, 0, words, b"abab")
    assert whole == (0, 4, 2, True, [7, 2, 7, 4, 15],
                     pack_flow(Flow(frozenset({0, 2}), 4, 7)))
    # 3: the same through the table at 2 and the larger bounds.
    for bound in range(2, MOST_BOUND + 1):
        assert tables.table_refusal(LIST, TABLE, bound) == 0
        assert split(TABLE, bound, words, b"abab") == whole
    assert model.unpack_flow(whole.record).rows == 7 <= 2 * 4
    # 4: the record after "aba".
    assert plain(fresh, 0, words, b"aba").record == bytes.fromhex(
        "03" + "00" * (SET_SIZE - 1) + "03000000" + "00000000" + "05" + "00" * 7)
    # 5 and 6: "a" then "bab"; "bab" from 0 is refused at offset 1 and at offset 4.
    first = plain(fresh, 0, words, b"a")
    assert (first.refusal, first.consumed, first.pairs, first.all) == (0, 1, 0, True)
    second = plain(first.record, 1, words, b"bab")
    assert second.words[:4] == [7, 2, 7, 4] and second.record == whole.record
    for record in (first.record, second.record):
        assert plain(record, 0, words, b"bab") == (5, 0, 0, False, words, record)
    # 7: room 1 and room 0.
    assert plain(fresh, 0, [1, 2], b"abab")[:5] == (0, 3, 1, False, [7, 2])
    assert plain(fresh, 0, [1], b"abab")[:5] == (0, 1, 0, False, [1])
    # 8: an empty piece is taken whole.
    assert plain(fresh, 0, [], b"") == (0, 0, 0, True, [], fresh)
    # 9 to 12.
    assert tables.table_refusal(LIST, TABLE, 1) == 9
    assert tables.table_refusal(LIST, WITHOUT_02, 2) == 13
    assert tables.table_refusal(LIST, WITHOUT_0, 2) == 12
    assert model.list_refusal(LIST) == 0
    assert model.list_refusal(NO_START) == 3

    # 14 keeps the bytes before it and is found before the byte's room.
    after_ab = pack_flow(Flow(frozenset({0, 2}), 2, 3))
    assert split(WITHOUT_02, 2, [0] * 8, b"abab") == (
        14, 2, 1, False, [7, 2, 0, 0, 0, 0, 0, 0], after_ab)
    assert split(WITHOUT_02, 2, [], b"abab")[:4] == (0, 1, 0, False)
    for bound_words in ([], [0] * 8):
        assert split(TABLE, 1, bound_words, b"abab") == (
            14, 1, 0, False, bound_words, pack_flow(Flow(frozenset({0, 1}), 1, 1)))
    assert split(WITHOUT_02, 2, [], b"", after_ab, 2) == (0, 0, 0, True, [], after_ab)

    # Lengths, the highest state and the highest offset.
    many = START * MOST_RECORDS
    assert model.list_refusal(many) == 0
    assert model.list_refusal(many + START) == 1
    assert model.list_refusal(START[:6] + (STATES - 1).to_bytes(2, "little")) == 0
    assert model.list_refusal(START[:6] + STATES.to_bytes(2, "little")) == 2
    last = pack_flow(Flow(frozenset({0}), MOST_OFFSET, STATES * MOST_OFFSET))
    assert plain(last, MOST_OFFSET, [], b"")[:4] == (0, 0, 0, True)
    assert plain(last, MOST_OFFSET, [], b"x") == (6, 0, 0, False, [], last)

    # Either case: the bytes of an edge from 0 to 1, alone on a list, by low, high and byte 3.
    def bytes_of(low, high, either):
        data = bytes([1, low, high, either, 0, 0, 1, 0]) + START
        assert model.list_refusal(data) == 0
        nfa = model.automaton(data)
        return [byte for byte in range(BYTE_VALUES) if nfa.step(frozenset({0}), byte)]

    def runs(*ends):
        return [byte for low, high in ends for byte in range(low, high + 1)]

    assert bytes_of(0x61, 0x61, 1) == [0x41, 0x61]
    assert bytes_of(0x5A, 0x61, 1) == runs((0x41, 0x41), (0x5A, 0x61), (0x7A, 0x7A))
    assert bytes_of(0x40, 0x5B, 1) == runs((0x40, 0x5B), (0x61, 0x7A))
    assert bytes_of(0xE1, 0xE1, 1) == [0xE1]
    assert bytes_of(0x5A, 0x61, 0) == runs((0x5A, 0x61))
    for record in ("0161610200000100", "01616101FFFF0100", "016161FF00000100", "0162610100000100",
                   "0200000100000000", "0300000100000000"):
        assert model.list_refusal(START + bytes.fromhex(record)) == 2
    # A table for byte 3 of 0 is refused with 10 for the list with 1.
    capitals = LIST.replace(bytes.fromhex("01616100"), bytes.fromhex("01616101"))
    assert model.list_refusal(capitals) == 0
    assert tables.table_refusal(capitals, TABLE, 2) == 10
    assert model.plain_feed(capitals, fresh, 0, words, b"AbaB")[:5] == (
        0, 4, 1, True, [7, 2, 13, 14, 15])

    # "abab" with the engine swapped twice: "a" plain, "b" through the table at 2, "ab" through the table of bound 1.
    assert tables.table_refusal(LIST, ONE, 1) == 0
    first = plain(fresh, 0, [0] * 2, b"a")
    second = split(TABLE, 2, [0] * 2, b"b", first.record, 1)
    third = split(ONE, 1, [0] * 2, b"ab", second.record, 2)
    assert [first.pairs, second.words, third.words] == [0, [7, 2], [7, 4]]
    assert third.record == pack_flow(Flow(frozenset({0, 2}), 4, 1 + 2 + 1 + 1))

    # A frontier with a state that no record names: 4, before 5 and for an empty piece; a signature names nothing.
    def at(data, states, start=0, piece=b"ab"):
        record = pack_flow(Flow(frozenset(states), 0, 0))
        answer = model.plain_feed(data, record, start, [0] * 8, piece)
        assert answer.refusal != 4 or answer == (4, 0, 0, False, [0] * 8, record)
        return answer.refusal

    assert at(LIST, {3}) == at(LIST, {0, 3}) == at(LIST, {3}, 1) == at(LIST, {3}, 0, b"") == 4
    assert at(LIST, {0, 1, 2}) == at(LIST, set()) == at(LIST, {2}, 0, b"") == 0
    assert at(LIST, {0, 1, 2}, 1) == 5
    assert at(LONE, {4, 6}) == at(LONE, {6}) == 0
    assert at(LONE, {200}) == at(LONE, {5}) == at(LONE, {4, 5, 6}) == 4
    assert model.open_flow(LONE, b"\xff" * FLOW_SIZE, [])[:2] == (0, 0)

    # {8} comes before {0} in the order of byte strings.
    assert _set(8) < _set(0)

    # A split feed refuses splits that do not rise with 9, of an empty piece too; slots are not
    # looked at.
    front, second, third = model.cut(TABLE.splits, sizes.SPLIT_SIZE)
    wild = front[:SET_SIZE] + bytes.fromhex("0700030084030100")
    for splits in (front + third + second, front + front + second + third):
        for piece in (b"abab", b""):
            assert split(TABLE._replace(splits=splits), 2, [0] * 8, piece) == (
                9, 0, 0, False, [0] * 8, fresh)
    assert split(TABLE._replace(splits=wild), 2, [], b"abab") == (14, 0, 0, False, [], fresh)
    assert split(TABLE._replace(splits=wild), 2, [], b"") == (0, 0, 0, True, [], fresh)
    eighth = _set(8) + front[SET_SIZE:]
    assert split(TABLE._replace(splits=eighth + TABLE.splits), 2, [0] * 8, b"abab")[0] == 0
    assert split(TABLE._replace(splits=front + eighth + second + third), 2, [], b"abab")[0] == 9
