"""The cases of segments and renewals, in groups."""

from second.index import model as indexes
from second.list import drawn, examples, model
from second.list.drawn import a_piece, any_list, broken_list
from second.list.model import Flow, pack_flow, unpack_flow
from second.machine import cases as machine_cases
from second.machine import model as machines
from second.segment import model as segments
from second.segment.model import CIRCLE, HALF
from second.segment.tape import MOST_WORDS
from second.sizes import (
    FLOW_SIZE, HELD_SIZE, MOST_BOUND, MOST_OFFSET, MOST_SEGMENT, RESERVED_AT, SET_SIZE, SPLIT_SIZE,
    STATES, X_FLOW_SIZE,
)
from second.table.drawn import good_table
from second.table.model import Table
from second.tape import put

ROOMS = [0, 2, 5, MOST_WORDS, MOST_WORDS]  # words of a feed


def at(after, step):
    return (after + step) % CIRCLE


NEXTS = [0, 1, 10, 4096, 65535, HALF - 1, HALF, HALF + 1, CIRCLE - 1, CIRCLE - 2, CIRCLE - 4096,
         CIRCLE - 65535]


def a_next(dice):
    return dice.pick(NEXTS) if dice.chance(60) else dice.below(CIRCLE)


def worked(tape, dice):
    """The worked cases: a held part at 13, of four bytes."""
    tape.sow_held(HELD_SIZE, 68)
    for after, start, count in ((10, 10, 3), (10, 8, 5), (10, 5, 5), (10, 13, 4), (10, 30, 0),
                                (4294967294, 4294967290, 10), (10, 10 + HALF, 1),
                                (10, 9 + HALF, 1), (10, 11 + HALF, 1)):
        tape.sow_segment(count, 97)
        tape.take(after, 0, 0, start)
        tape.due(after, 0, 0, start)
    for after, start, count in ((10, 10, 10), (13, 10, 10), (15, 10, 10), (17, 10, 10), (13, 30, 1),
                                (17, 30, 1), (10, 13, 4), (10, 30, 0), (17, 30, 0)):
        tape.sow_segment(count, 97)
        tape.take(after, 13, 4, start)
        tape.due(after, 13, 4, start)


def sizes(tape, dice):
    """Each size on both sides of its limit, beside good ones and beside each other."""
    for turn in range(70):
        for buffer in (0, HELD_SIZE - 1, HELD_SIZE, HELD_SIZE + 1):
            after = a_next(dice)
            tape.sow_held(buffer, turn)
            tape.sow_segment(dice.pick([0, 1, 5]), turn)
            tape.take(after, at(after, dice.between(-9, 9)), dice.below(5), at(after, dice.between(-3, 3)))
        tape.sow_held(HELD_SIZE, turn)
        for length in (0, 1, HELD_SIZE - 1, HELD_SIZE, HELD_SIZE + 1, CIRCLE - 1):
            after = a_next(dice)
            tape.sow_segment(dice.pick([0, 1, 5]), turn)
            tape.take(after, at(after, dice.pick([-HELD_SIZE, -1, 0, 1, 5000])), length,
                      at(after, dice.between(-3, 3)))
            tape.due(after, at(after, dice.pick([-HELD_SIZE, -1, 0, 1])), length,
                     at(after, dice.between(-3, 3)))
    for turn in range(62):
        for count in (HELD_SIZE - 1, HELD_SIZE, HELD_SIZE + 1):
            after = a_next(dice)
            tape.sow_held(HELD_SIZE, turn)
            tape.sow_segment(count, turn + 1)
            tape.take(after, at(after, -9), dice.pick([0, 9]), at(after, dice.pick([1, 2, HALF - 1, -1, 0])))
        for count in (MOST_SEGMENT, MOST_SEGMENT + 1):
            after = a_next(dice)
            tape.sow_segment(count, turn)
            tape.take(after, 0, 0, at(after, dice.pick([0, -1, -MOST_SEGMENT, 1 - MOST_SEGMENT, 1])))


def places(tape, dice):
    """Held parts and segments about the next byte, near the wrap and half the circle away."""
    near = [-HALF, 1 - HALF, HALF - 1, HALF - 2, 0, 1, -1, 2, -2]
    for turn in range(1500):
        after = a_next(dice)
        tape.sow_held(HELD_SIZE, dice.below(256))
        tape.sow_segment(dice.pick([0, 1, 2, 3, 7, 20, 60]), dice.below(256))
        held = dice.pick(near) if dice.chance(25) else dice.between(-40, 40)
        mine = dice.pick(near) if dice.chance(25) else dice.between(-70, 40)
        length = dice.pick([0, 1, 2, 5, 20, 39, 40, 41, HELD_SIZE])
        tape.take(after, at(after, held), length, at(after, mine))
        if turn % 2:
            tape.due(after, at(after, held), length, at(after, mine))


def claim(came, place, data):
    """Bytes first consumed or held count: these at places from `place` on."""
    for i, byte in enumerate(data):
        came.setdefault(place + i, byte)


def first_come(tape, dice, first, sample, hear, turns, rooms):
    """A flow whose bytes come cut, twice, out of order and with other content. Here is checked that
    what is passed down at each place is what came first for it. Answers that, and what is told."""
    came, stream, down, told = {}, a_piece(dice, sample, 400), b"", []
    for _ in range(turns):
        begin = max(0, len(down) + dice.pick([0, 0, 0, -1, -3, -9, 1, 4, 12, 40]))
        data = bytes(stream[begin:begin + dice.pick([0, 1, 2, 5, 9, 20])])
        if dice.chance(30):
            data = a_piece(dice, sample, len(data))
        tape.load_segment(data)
        for _ in range(40):
            held = tape.held
            heard = hear(dice.pick(rooms), at(first, begin))
            claim(came, len(down), heard.down)
            assert bytes(came[len(down) + i] for i in range(len(heard.down))) == heard.down
            down += heard.down
            told += heard.words[:2 * heard.pairs]
            if heard.held.length and heard.held[:2] != held[:2]:
                claim(came, len(down) + segments.place(heard.held.start, at(first, len(down))),
                      heard.held.buffer[:heard.held.length])
            if heard.all or heard.refusal or not heard.down:
                break
    return down, told


def list_flow(tape, dice, first, sample, hear, turns, rooms):
    """Such a flow of a list. Here is checked that the pairs are those of one plain feed of what is
    passed down."""
    tape.open(first)
    down, told = first_come(tape, dice, first, sample, hear, turns, rooms)
    opened = model.open_flow(sample.data, bytes(FLOW_SIZE), [0] * MOST_WORDS)
    once = model.plain_feed(sample.data, opened.record, 0, [0] * 100000, down)
    assert once.all and once.words[:2 * once.pairs] == told
    assert unpack_flow(once.record).frontier == unpack_flow(tape.record).frontier


def flows(tape, dice):
    for turn in range(120):
        tape.sow_held(HELD_SIZE, turn)
        tape.load_record(bytes(FLOW_SIZE))
        bound = 0 if turn % 2 else dice.between(1, MOST_BOUND)
        if bound:
            sample, plan = good_table(dice, bound)
            table = plan.table()
            if max(map(len, (table.parts, table.splits))) > 4300 or len(table.rows) > 8192:
                continue
            tape.load_table(table)
        else:
            sample = any_list(dice)
        if len(sample.data) > 4300:
            continue
        tape.load_list(sample.data)
        list_flow(tape, dice, a_next(dice), sample, lambda words, start: tape.hear(bound, words, start),
                  14, ROOMS)


def limits(tape, dice):
    """The last offsets: a part that ends past the largest gives 6."""
    sample = any_list(dice)
    while len(sample.data) > 4300:
        sample = any_list(dice)
    tape.load_list(sample.data)
    tape.sow_held(HELD_SIZE, 1)
    for turn in range(200):
        tape.load_record(bytes(FLOW_SIZE))
        tape.open(a_next(dice))
        start = sample.nfa.starts
        offset = MOST_OFFSET - dice.below(6)
        tape.load_record(pack_flow(Flow(start, offset, dice.below(9))))
        tape.load_segment(a_piece(dice, sample, dice.between(0, 9)))
        tape.hear(0, MOST_WORDS, at(tape.first, offset - dice.below(4)))
        tape.hear(0, MOST_WORDS, at(tape.first, offset + dice.between(-2, 2)))


def refusals(tape, dice):
    """Bad lists, records and tables, with segments due, dropped, ahead and too long."""
    bound, table = 2, examples.TABLE
    size = SPLIT_SIZE
    records = [examples.LIST[i:i + 8] for i in range(0, len(examples.LIST), 8)]
    sample = drawn.Sample(records, [97, 98, 99], [0, 1, 2])
    splits = table.splits
    swapped = table._replace(splits=splits[size:2 * size] + splits[:size] + splits[2 * size:])
    cut = table._replace(splits=splits[size:])
    good = pack_flow(Flow(sample.nfa.starts, 5, 3))
    for turn in range(66):
        tape.sow_held(HELD_SIZE, turn)
        tape.load_list(sample.data)
        tape.load_table(table)
        tape.load_record(bytes(FLOW_SIZE))
        tape.open(a_next(dice))

        def send(bound, record=good):
            tape.load_record(record)
            tape.load_segment(a_piece(dice, sample, dice.pick([0, 1, 4])))
            tape.hear(bound, MOST_WORDS, at(tape.first, 5 + dice.pick([0, 0, -1, -9, 3])))

        for number in (1, 2, 3):
            tape.load_list(broken_list(dice, sample, number))
            send(dice.pick([0, bound]))
        tape.load_list(sample.data)
        for record in (good[:-1], good + b"\0", good[:RESERVED_AT] + b"\1" + good[RESERVED_AT + 1:],
                       pack_flow(Flow(sample.nfa.starts, 5, 5 * STATES + 1))):
            send(dice.pick([0, bound]), record)
        send(dice.pick([5, 6, 257]))
        tape.load_table(table._replace(rows=table.rows[:-1]))
        send(bound)
        tape.load_table(swapped)
        send(bound)
        tape.load_table(cut)
        tape.load_record(good)
        tape.load_segment(a_piece(dice, sample, 4))
        tape.hear(bound, MOST_WORDS, at(tape.first, 5))
        tape.sow_held(dice.pick([HELD_SIZE - 1, HELD_SIZE + 1]), turn)
        send(dice.pick([0, bound]), dice.pick([good, good[:-1]]))
        tape.sow_held(HELD_SIZE, turn)


def still_due(tape, dice):
    """Held bytes whose pairs had no room are still due when another segment comes ahead: they go
    first, and the other is then held and not refused."""
    sample = drawn.Sample([examples.LIST[i:i + 8] for i in range(0, len(examples.LIST), 8)],
                             [97, 98, 99], [0, 1, 2])
    tape.load_list(sample.data)
    for turn in range(66):
        tape.sow_held(HELD_SIZE, turn)
        tape.load_record(bytes(FLOW_SIZE))
        tape.open(a_next(dice))

        def send(begin, data, words):
            tape.load_segment(data)
            return tape.hear(0, words, at(tape.first, begin))

        held = b"b" + a_piece(dice, sample, dice.below(5))
        ahead = 1 + len(held) + dice.between(1, 9)
        send(1, held, MOST_WORDS)
        before = send(0, b"a", dice.below(2))
        assert before.down == b"a"
        heard = send(ahead, a_piece(dice, sample, dice.between(1, 5)), MOST_WORDS)
        assert heard.refusal == 0 and heard.down == held
        send(0, a_piece(dice, sample, ahead), MOST_WORDS)


def any_record(dice):
    """A record of any states, good but where `spoilt` makes it bad."""
    offset = dice.pick([0, 1, 2, 255, 256, 65536, MOST_OFFSET - 1, MOST_OFFSET, dice.below(MOST_OFFSET)])
    rows = dice.pick([0, 1, offset, STATES * offset - 1, STATES * offset])
    return pack_flow(Flow(dice.subset(range(STATES), dice.pick([0, 1, 50, 100])), offset,
                          max(0, min(rows, STATES * offset))))


def spoilt(dice, record):
    """A row too many; a reserved byte; another length."""
    kind = dice.below(3)
    if kind == 0:
        flow = unpack_flow(record)
        return pack_flow(flow._replace(rows=dice.pick([STATES * flow.offset + 1, 2 ** 64 - 1])))
    if kind == 1:
        place = RESERVED_AT + dice.below(4)
        return record[:place] + bytes([dice.pick([1, 255])]) + record[place + 1:]
    size = dice.pick([0, 1, 48, 80, FLOW_SIZE - 1, FLOW_SIZE + 1, 2 * FLOW_SIZE])
    return (record + dice.bytes(FLOW_SIZE))[:size]


def renewals(tape, dice):
    """Records of any states, the most rows and one more, reserved bytes, other lengths; each renewed twice."""
    for turn in range(300):
        record = any_record(dice)
        tape.load_record(spoilt(dice, record) if turn % 2 else record)
        tape.offset()
        assert tape.renew() == (4 if turn % 2 else 0)
        tape.renew()
        tape.offset()


def offsets(tape, dice):
    """Any bytes, of either size of a record, one byte more and less, and others."""
    for turn in range(60):
        for size in (0, 4, 8, 79, 80, 81, FLOW_SIZE - 1, FLOW_SIZE, FLOW_SIZE + 1, 2 * FLOW_SIZE):
            tape.load_record(dice.pick([dice.bytes(size), b"\xff" * size, bytes(size)]))
            tape.offset()


def renewed_flows(tape, dice):
    """Flows that are renewed between segments. Here is checked that the pairs, with the bytes before
    the last renewal added to each offset, are those of one plain feed of all that was passed down."""
    for turn in range(70):
        sample = any_list(dice)
        if len(sample.data) > 4300:
            continue
        tape.sow_held(HELD_SIZE, turn)
        tape.load_record(bytes(FLOW_SIZE))
        tape.load_list(sample.data)
        first = a_next(dice)
        tape.open(first)
        stream, down, told, before = a_piece(dice, sample, 400), b"", [], 0
        for _ in range(14):
            begin = max(0, len(down) + dice.pick([0, 0, 0, -1, -3, -9, 1, 4, 12]))
            tape.load_segment(bytes(stream[begin:begin + dice.pick([0, 1, 2, 5, 9, 20])]))
            heard = tape.hear(0, MOST_WORDS, at(first, begin))
            down += heard.down
            words = heard.words[:2 * heard.pairs]
            told += [word + before * (i % 2) for i, word in enumerate(words)]
            if dice.chance(40):
                before += segments.offset(tape.record)
                assert tape.renew() == 0
                assert tape.first == at(first, before)
        opened = model.open_flow(sample.data, bytes(FLOW_SIZE), [0] * MOST_WORDS)
        once = model.plain_feed(sample.data, opened.record, 0, [0] * 100000, down)
        assert once.all and once.words[:2 * once.pairs] == told
        assert unpack_flow(once.record).frontier == unpack_flow(tape.record).frontier
        assert before + unpack_flow(tape.record).offset == len(down)


def past_the_end(tape, dice):
    """A segment that ends past the largest offset gives 6, once and again; the renewed record takes it."""
    sample = any_list(dice)
    while len(sample.data) > 4300:
        sample = any_list(dice)
    tape.load_list(sample.data)
    tape.sow_held(HELD_SIZE, 1)
    for turn in range(66):
        tape.load_record(bytes(FLOW_SIZE))
        tape.open(a_next(dice))
        offset = MOST_OFFSET - dice.below(6)
        tape.load_record(pack_flow(Flow(sample.nfa.starts, offset, dice.below(9))))
        tape.load_segment(a_piece(dice, sample, dice.between(6, 12)))
        start = at(tape.first, offset)
        for _ in range(2):
            assert tape.hear(0, MOST_WORDS, start).refusal == 6
        assert tape.renew() == 0
        heard = tape.hear(0, MOST_WORDS, start)
        assert heard.refusal == 0 and len(heard.down) == len(tape.segment)


# By an index, and by an automaton with bits and counters

def small_index(dice):
    """A sample, and the table of its splits and index: that of a table, or straight from the list."""
    while True:
        if dice.chance(50):
            sample, plan = good_table(dice, dice.between(1, MOST_BOUND))
            splits, index = plan.table().splits, indexes.filled(sample.data, plan.table())
        else:
            sample = any_list(dice)
            refusal, made = indexes.prepare(sample.data, indexes.LENT)
            splits, index = made if refusal == 0 else (b"", b"")
        if splits and len(index) <= 8192 and len(sample.data) <= 4300:
            return sample, Table(b"", b"", index, splits)


def index_flows(tape, dice):
    """Flows by an index, each segment from the split answered before, from another one, or from none."""
    for turn in range(14):
        sample, table = small_index(dice)
        tape.load_list(sample.data)
        tape.load_table(table)
        for again in range(5):
            tape.sow_held(HELD_SIZE, turn + again)
            tape.load_record(bytes(FLOW_SIZE))
            tape.split = 0

            def hear(words, start):
                hint = tape.split if dice.chance(60) else dice.pick([0, 1, 2, 4095, 4096, CIRCLE - 1])
                return tape.hear_at(hint, words, start)

            list_flow(tape, dice, a_next(dice), sample, hear, 14, ROOMS)


def index_refusals(tape, dice):
    """Bad records, lists and sizes, the last offsets, and frontiers that are no split."""
    sample, table = small_index(dice)
    while len(model.unpack_set(table.rows[:SET_SIZE])) < 6:
        sample, table = small_index(dice)
    named = model.unpack_set(table.rows[:SET_SIZE])
    known = {split[:SET_SIZE] for split in model.cut(table.splits, SPLIT_SIZE)}
    tape.load_list(sample.data)
    starts = sample.nfa.starts
    good = pack_flow(Flow(starts, 5, 3))

    def send(record, count=None, step=None):
        tape.load_record(bytes(FLOW_SIZE))
        tape.open(a_next(dice))
        tape.load_record(record)
        tape.load_segment(a_piece(dice, sample, dice.pick([0, 1, 4]) if count is None else count))
        start = at(tape.first, segments.offset(record) if len(record) == FLOW_SIZE else 5)
        hint = dice.pick([0, 1, 2, CIRCLE - 1])
        return tape.hear_at(hint, MOST_WORDS, at(start, dice.pick([0, 0, -1, -9, 3]) if step is None else step))

    tape.load_table(table)
    tape.sow_held(HELD_SIZE, 1)
    for turn in range(20):
        for record in (good[:-1], good + b"\0", good[:RESERVED_AT] + b"\1" + good[RESERVED_AT + 1:],
                       pack_flow(Flow(starts, 5, 5 * STATES + 1)),
                       pack_flow(Flow(starts | {dice.pick([s for s in range(STATES) if s not in named])}, 5, 3))):
            assert send(record).refusal == 4
    for turn in range(66):
        offset = MOST_OFFSET - dice.below(6)
        assert send(pack_flow(Flow(starts, offset, 3)), dice.between(6, 9), 0).refusal == 6
        lost = dice.subset(sorted(named), 50)
        if model.pack_set(lost) not in known:
            assert send(pack_flow(Flow(lost, 5, 3)), 4, 0).refusal == 14
        send(good, 4, 9)
        tape.load_segment(a_piece(dice, sample, 2))
        assert tape.hear_at(dice.below(4), MOST_WORDS, at(tape.first, 30)).refusal == 18
        tape.sow_held(dice.pick([HELD_SIZE - 1, HELD_SIZE + 1]), turn)
        assert send(dice.pick([good, good[:-1]])).refusal == 18
        tape.sow_held(HELD_SIZE, turn)
    for bad in (table._replace(rows=table.rows[:-1]), table._replace(rows=table.rows + b"\0"),
                table._replace(splits=table.splits[:-1]), table._replace(splits=b"")):
        tape.load_table(bad)
        for turn in range(20):
            assert send(good).refusal == 8


def machine_record(tape, dice, record):
    """A record of an automaton with bits and counters in a flow whose first number is any."""
    tape.load_record(bytes(FLOW_SIZE))
    tape.open(a_next(dice))
    tape.load_record(record)


def machine_flows(tape, dice):
    """Flows by an automaton with bits and counters. Here is checked that the pairs and the record are
    those of one feed of what is passed down."""
    tape.load_list(examples.LIST)
    sample = drawn.Sample([examples.LIST[i:i + 8] for i in range(0, len(examples.LIST), 8)],
                             [97, 98, 99], [0, 1, 2])
    for turn in range(60):
        moves, programs = machine_cases.machine(dice)
        tape.load_table(Table(b"", moves, programs, b""))
        opened = machines.open_flow(moves, programs, bytes(X_FLOW_SIZE), [0] * MOST_WORDS)
        tape.sow_held(HELD_SIZE, turn)
        machine_record(tape, dice, opened.record)
        down, told = first_come(tape, dice, tape.first, sample, tape.hear_x, 14, ROOMS)
        once = machines.feed(moves, programs, opened.record, 0, [0] * 100000, down)
        assert once.all and once.words[:2 * once.pairs] == told and once.record == tape.record


def machine_refusals(tape, dice):
    """Bad machines, records and sizes, and the last offsets."""
    tape.load_list(examples.LIST)
    moves, programs = machine_cases.machine(dice, 2)
    good = machine_cases.record(dice, 2, 5)
    bad_ones = [(moves[:-1], programs), (moves, programs[:-1]), (moves + moves, programs),
                (moves[:-2] + b"\2\0", programs), (moves, programs[:-4] + b"\11\0\0\0"), (b"", b"")]

    def send(record, count=None, step=None):
        machine_record(tape, dice, record)
        tape.load_segment(dice.bytes(dice.pick([0, 1, 4]) if count is None else count))
        start = at(tape.first, segments.offset(record) if len(record) == X_FLOW_SIZE else 5)
        return tape.hear_x(MOST_WORDS, at(start, dice.pick([0, 0, -1, -9, 3]) if step is None else step))

    tape.sow_held(HELD_SIZE, 1)
    for bad in bad_ones:
        tape.load_table(Table(b"", bad[0], bad[1], b""))
        for turn in range(12):
            assert send(dice.pick([good, good[:-1]])).refusal == 24
    tape.load_table(Table(b"", moves, programs, b""))
    for turn in range(66):
        for record in (good[:-1], good + b"\0", b"\2" + good[1:], good[:2] + b"\1" + good[3:],
                       put(good, 16 + 4 * dice.below(16), b"\1\0\1\0")):
            assert send(record).refusal == 4
        offset = MOST_OFFSET - dice.below(6)
        assert send(machine_cases.record(dice, 2, offset), dice.between(6, 9), 0).refusal == 6
        send(good, 4, 9)
        tape.load_segment(dice.bytes(2))
        assert tape.hear_x(MOST_WORDS, at(tape.first, 30)).refusal == 18
        tape.sow_held(dice.pick([HELD_SIZE - 1, HELD_SIZE + 1]), turn)
        assert send(dice.pick([good, good[:-1]])).refusal == 18
        tape.sow_held(HELD_SIZE, turn)


GROUPS = (worked, sizes, places, flows, limits, refusals, still_due, renewals, offsets,
          renewed_flows, past_the_end, index_flows, index_refusals, machine_flows, machine_refusals)
