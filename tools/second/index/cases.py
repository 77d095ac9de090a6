"""The cases of the filler of an index and of the prepared feed."""

from second import sizes
from second.index import model as indexes
from second.index.model import COST_AT, NAMED_AT, TOLD_AT, WORD, place_of
from second.list import drawn, model
from second.list.drawn import (
    a_piece, accept, any_flow, any_frontier, broken_list, edge, start, word_count,
)
from second.list.model import Flow, pack_flow, pack_set
from second.sizes import (
    BYTE_VALUES, ENTRY_SIZE, FLOW_SIZE, MOST_BOUND, MOST_OFFSET, OFFSET_AT, RESERVED_AT, ROWS_AT,
    SET_SIZE, SIGNATURES, SPLIT_SIZE, STATES, TELLING,
)
from second.table import faults
from second.table import model as tables
from second.table.drawn import good_table
from second.table.faults import BAD_BOUNDS
from second.table.model import Table
from second.tape import put

MOST_HINT = 2 ** 32 - 1


def offset_of(record):
    return model.number(record[OFFSET_AT:RESERVED_AT])


def word_place(split, byte):
    return place_of(split) + WORD * byte


def with_word(index, split, byte, word):
    return put(index, word_place(split, byte), word.to_bytes(WORD, "little"))


def names_of(splits):
    return [split[:SET_SIZE] for split in model.cut(splits, SPLIT_SIZE)]


def split_of(tape):
    """The split at which the record stands, as halving finds it."""
    return indexes.sought(names_of(tape.table.splits), tape.record[:SET_SIZE])


def hint_for(tape, dice):
    """The split at which the record stands, mostly; any other split, and numbers of none."""
    count = len(tape.table.splits) // SPLIT_SIZE
    if dice.chance(45):
        return split_of(tape)
    return dice.pick([0, dice.below(count + 1), max(count, 1) - 1, count, count + 1, MOST_HINT,
                      65536 + split_of(tape), dice.below(2 ** 32)])


def begin(tape):
    tape.load_record(bytes(FLOW_SIZE))
    tape.open()


def feed(tape, dice, piece, words=None):
    return tape.prepared_feed(hint_for(tape, dice), offset_of(tape.record),
                              word_count(dice) if words is None else words, piece)


def ask(tape, dice, sample, times=1):
    """Prepared feeds that go on from the record as it is."""
    for _ in range(times):
        feed(tape, dice, a_piece(dice, sample, drawn.short_length(dice)))


def go_on(tape, dice, sample, times):
    """Prepared feeds from opening, each with the split that the one before answered."""
    begin(tape)
    split = dice.pick([0, MOST_HINT])
    for _ in range(times):
        piece = a_piece(dice, sample, drawn.short_length(dice))
        split = tape.prepared_feed(split, offset_of(tape.record), word_count(dice), piece).split


def elsewhere(tape, dice, sample, plan):
    """From any record: a split's set, a set of named states, or any set."""
    frontier = dice.pick([dice.pick(plan.splits)[0], dice.subset(sample.states, 50),
                          any_frontier(dice, sample)])
    tape.load_record(any_flow(dice, frontier))
    ask(tape, dice, sample)


def agree(dice, sample, table, bound, index):
    """With a filled index both feeds answer and leave the same, on any record and for every hint;
    the split answered is that of the frontier."""
    names = names_of(table.splits)
    for frontier in (sample.nfa.starts, dice.subset(sample.states, 50)):
        record = pack_flow(Flow(frontier, 7, 9))
        piece, words = a_piece(dice, sample, 24), [0] * dice.pick([3, 40, 600])
        split = tables.split_feed(sample.data, table, bound, record, 7, words, piece)
        for hint in [*range(len(names) + 1), MOST_HINT]:
            stood = indexes.prepared_feed(table.splits, index, hint, record, 7, words, piece)
            assert stood.answer == split
            assert stood.split == (hint if split.refusal in (4, 5, 6, 8)
                                   else indexes.sought(names, split.record[:SET_SIZE]))


def filled_indexes(tape, dice):
    """Filled, of another table with as many splits, and changed in one place."""
    others = {}
    for turn in range(72):
        bound = 1 + turn % MOST_BOUND
        sample, plan = good_table(dice, bound, 24 if turn % 5 == 0 else 9,
                                  9, turn % 16 == 3)
        table = plan.table()
        count = len(plan.splits)
        size = indexes.index_size(table.splits)
        tape.load_list(sample.data)
        tape.load_table(table)
        for wrong in (size - 1, size + 1, dice.pick([0, 1, SET_SIZE, size - ENTRY_SIZE])):
            tape.sow(wrong, dice.below(256))
            tape.fill(bound)
        tape.fill(dice.pick(BAD_BOUNDS))
        tape.sow(size, dice.below(256))
        tape.fill(dice.pick(BAD_BOUNDS))
        for number in (1, 2, 3):
            tape.load_list(broken_list(dice, sample, number))
            tape.fill(dice.pick([bound, 0]))
        tape.load_list(sample.data)
        for other in range(1, MOST_BOUND + 1):
            if other != bound and dice.chance(30):
                tape.sow(size, dice.below(256))
                tape.fill(other)
        tape.sow(size, dice.below(256))
        assert tape.fill(bound) == 0
        index = tape.matrix
        agree(dice, sample, table, bound, index)
        go_on(tape, dice, sample, 3)
        begin(tape)
        ask(tape, dice, sample, 3)
        elsewhere(tape, dice, sample, plan)

        # Of the wrong length by one byte or an entry, and shorter than its first set.
        for data in (index[:-1], index + b"\0", index[:-ENTRY_SIZE],
                     index[:dice.pick([0, 1, SET_SIZE - 1])]):
            tape.load_matrix(data)
            begin(tape)
            ask(tape, dice, sample)
            elsewhere(tape, dice, sample, plan)

        # Of another table, with as many splits.
        if count in others:
            tape.load_matrix(others[count])
            begin(tape)
            ask(tape, dice, sample, 2)
            elsewhere(tape, dice, sample, plan)
        others[count] = index

        # A word past the last entry, or into the middle of one, on the way of a flow.
        where = dice.below(count)
        first = indexes.sought(names_of(table.splits), pack_set(sample.nfa.starts))
        for split in {where, first}:
            to = dice.pick([size, size, size - ENTRY_SIZE + 1, size - 1, TELLING - 1,
                            dice.below(size), dice.below(SET_SIZE), SET_SIZE - 1, 0])
            word = to + TELLING * dice.below(2)
            tape.load_matrix(with_word(index, split, dice.pick(sample.letters), word))
            begin(tape)
            ask(tape, dice, sample, 3)

        # A word that tells and should not, or the other way round.
        byte = dice.pick(sample.letters)
        old = model.number(index[word_place(first, byte):][:WORD])
        tape.load_matrix(with_word(index, first, byte, (old + TELLING) % 2 ** 32))
        begin(tape)
        ask(tape, dice, sample, 2)

        # Another note, set or first set.
        entry = place_of(where)
        for at in (entry + COST_AT, entry + NAMED_AT, entry + dice.between(TOLD_AT, COST_AT - 1),
                   entry + dice.between(NAMED_AT + 1, ENTRY_SIZE - 1), dice.below(SET_SIZE)):
            tape.load_matrix(put(index, at, dice.pick([b"\0", b"\1", dice.bytes(1)])))
            tape.load_record(any_flow(dice, plan.splits[where][0]))
            ask(tape, dice, sample, 2)
        tape.load_matrix(index)
        begin(tape)
        for split in range(count):
            if dice.chance(20):
                tape.load_record(any_flow(dice, plan.splits[split][0]))
                ask(tape, dice, sample)


def faulty_fills(tape, dice):
    """Tables that the check refuses: so does the filler, and the index stays; 8 where it has
    another length too."""
    for wanted in range(8, 14):
        made = 0
        ways = [fault for number, fault, _ in faults.SINGLE if number == wanted]
        while made < 64:
            bound = dice.between(1, MOST_BOUND)
            sample, plan = good_table(dice, bound, 9, 7)
            changed = dice.pick(ways)(dice, plan.copy(), bound, sample)
            if changed is None:
                continue
            table = changed if isinstance(changed, Table) else changed.table()
            if tables.table_refusal(sample.data, table, bound) != wanted:
                continue
            tape.load_list(sample.data)
            tape.load_table(table)
            size = indexes.index_size(table.splits)
            for length in (size, dice.pick([size + 1, size - 1])):
                tape.sow(length, dice.below(256))
                tape.fill(bound)
            made += 1


def foreign_word(dice, count):
    """Mostly an entry's place; else into the middle of one, before the first, or past the last."""
    size = place_of(count)
    shape = dice.below(100)
    if shape < 80:
        to = place_of(dice.below(count))
    elif shape < 88:
        to = dice.below(size - ENTRY_SIZE + 1)
    elif shape < 92:
        to = dice.pick([0, 1, SET_SIZE - 1, SET_SIZE + 1, size - ENTRY_SIZE])
    else:
        to = dice.pick([size - ENTRY_SIZE + 1, size - 1, size, size + 1, TELLING - 1,
                        dice.between(size, TELLING - 1)])
    return to + TELLING * dice.chance(35)


def foreign_index(tape, dice, sets, letters, first):
    """An index of no sense: bytes from a seed, with words for these letters and notes that tell
    few."""
    count = len(sets)
    tape.sow(place_of(count), dice.below(256))
    index = put(tape.matrix, 0, first)
    for split in range(count):
        for byte in letters:
            index = with_word(index, split, byte, foreign_word(dice, count))
        told = dice.subset(range(SIGNATURES), dice.pick([0, 1, 1, 2]))
        note = (sum(2 ** signature for signature in told).to_bytes(SIGNATURES // 8, "little")
                + bytes([dice.pick([0, 1, 4, 255, dice.below(256)]),
                         dice.pick([0, 1, 1, 1, 2, 255])]))
        index = put(index, place_of(split) + TOLD_AT, note)
    tape.load_matrix(index)
    return index


def any_indexes(tape, dice):
    """Indexes and splits of no sense, run as they stand; and each refusal of the feed."""
    for turn in range(66):
        sample = drawn.any_list(dice)
        letters = sorted({*sample.letters, *(model.exchanged(c) for c in sample.letters)})
        count = dice.between(1, 9)
        sets = [dice.pick([sample.nfa.starts, dice.subset(sample.states, 50)])
                for _ in range(count)]
        if turn % 2:
            sets.sort(key=pack_set)
        splits = b"".join(pack_set(members) + dice.bytes(8) for members in sets)
        first = dice.pick([b"\xff" * SET_SIZE, pack_set(sample.nfa.named),
                           pack_set(model.union(sets)), dice.bytes(SET_SIZE)])
        tape.load_list(sample.data)
        tape.load_table(Table(b"", b"", b"", splits))
        index = foreign_index(tape, dice, sets, letters, first)
        for _ in range(4):
            tape.load_record(any_flow(dice, dice.pick(sets)))
            ask(tape, dice, sample, 2)

        # Each hint at a set that may stand there more than once.
        members = dice.pick(sets)
        for hint in [*range(count), count, MOST_HINT]:
            tape.load_record(pack_flow(Flow(members, 5, 0)))
            tape.prepared_feed(hint, 5, word_count(dice), a_piece(dice, sample, dice.below(4)))

        # A state that is not named, with every hint; reserved bytes; rows; another length; start;
        # the last offset.
        lone = dice.below(STATES)
        tape.load_matrix(put(index, lone // 8, bytes([first[lone // 8] & ~(1 << lone % 8) & 255])))
        tape.load_record(any_flow(dice, dice.pick(sets) | {lone}))
        ask(tape, dice, sample)
        whole = put(index, 0, b"\xff" * SET_SIZE)
        at = dice.below(count)
        good = pack_flow(Flow(sets[at], 5, 0))
        for flag in (0, 1):
            for data in (whole, put(index, 0, bytes(SET_SIZE))):
                tape.load_matrix(put(data, place_of(at) + NAMED_AT, bytes([flag])))
                tape.load_record(good)
                tape.prepared_feed(dice.pick([at, at, count, (at + 1) % count]), 5, 9, b"a")
        tape.load_matrix(dice.pick([whole, index[:SET_SIZE - 1]]))
        for record in (put(good, RESERVED_AT + turn % 4, b"\1"),
                       put(good, ROWS_AT, (5 * STATES + 1).to_bytes(8, "little")),
                       good[:-1], good + b"\0"):
            tape.load_record(record)
            tape.prepared_feed(hint_for(tape, dice), 5, word_count(dice), b"ab")
        tape.load_matrix(put(whole, place_of(at) + NAMED_AT, b"\1"))
        tape.load_record(good)
        tape.prepared_feed(dice.pick([at, MOST_HINT]), dice.pick([4, 6, 2 ** 32 + 5]), 9, b"a")
        for begins, piece in ((1, b""), (1, b"a"), (1, b"ab"), (2, b"ab"), (0, b"ab")):
            tape.load_record(pack_flow(Flow(sets[at], MOST_OFFSET - 1, 0)))
            tape.prepared_feed(at, MOST_OFFSET - begins, 600, piece)

        # The splits, or the index, of another length, with a hint that would hold.
        for lent, data in ((splits[:-1], whole), (splits + b"\0", whole), (b"", whole[:SET_SIZE]),
                           (splits, whole[:-1]), (splits, whole + b"\0"),
                           (splits[:-SPLIT_SIZE], whole), (splits, whole)):
            tape.load_table(Table(b"", b"", b"", lent))
            tape.load_matrix(data)
            tape.load_record(good)
            tape.prepared_feed(at, 5, word_count(dice), a_piece(dice, sample, 3))


def most_splits(tape, dice):
    """4,096 splits and one more, by an index that is too short: 8 for either."""
    for count in (sizes.MOST_SPLITS, sizes.MOST_SPLITS + 1):
        for hint in (0, count - 1, count):
            tape.load_table(Table(b"", b"", b"", bytes(SPLIT_SIZE * count)))
            tape.sow(SET_SIZE + hint, 1)
            tape.load_record(pack_flow(Flow(frozenset(), 1, 0)))
            tape.prepared_feed(hint, 1, 4, b"a")


# Long pieces, at places where most bytes lead nowhere else

def stays(length, calm, leaves):
    """A piece of one byte, with other bytes at these places."""
    piece = bytearray([calm]) * length
    for at, byte in leaves:
        piece[at] = byte
    return bytes(piece)


def searching(words):
    """A list that finds these words anywhere, and what it tells: state 0 stays for ever."""
    records, state = [start(0), edge(0, 255, 0, 0)], 1
    for signature, word in enumerate(words):
        at = 0
        for byte in word:
            records.append(edge(byte, byte, at, state))
            at, state = state, state + 1
        records.append(accept(at, signature))
    return b"".join(records)


def quiet_pieces(tape, dice):
    """Pieces of which most bytes stay where the flow stands: the first byte that leaves at every
    place of 32, bytes at either end of the half below 64 and of the one above, comings and
    goings, more than one place that stays."""
    tails = [63, 64, 0, 255, 10, 65, 97, 32, 128]
    for turn in range(64):
        few = dice.some(tails, dice.between(1, 3))
        calm = dice.pick([c for c in (0, 1, 66, 62, 254, 120) if c not in few])
        words = [bytes([few[0]]), *(bytes([c, dice.pick([calm, few[0]])]) for c in few[1:])]
        data = searching(words)
        refusal, made = indexes.prepare(data, indexes.LENT)
        assert refusal == 0
        splits, index = made
        tape.load_list(data)
        tape.load_table(Table(b"", b"", b"", splits))
        tape.load_matrix(index)
        lengths = [dice.between(300, 420), dice.between(500, 1500) if turn % 4 == 0 else 352]
        for length in lengths:
            begin(tape)
            places = {dice.below(length) for _ in range(dice.pick([0, 1, 1, 2, 5, 12]))}
            near = length - dice.below(80)
            places |= {at for at in (64 + turn % 40, near) if at < length and dice.chance(60)}
            piece = stays(length, calm, [(at, dice.pick(few)) for at in sorted(places)])
            stood = feed(tape, dice, piece, dice.pick([0, 4, 40, 600]))
            same = model.plain_feed(data, tape_opened(data), 0, [0] * 600, piece)
            assert stood.answer.all is False or stood.answer.pairs == same.pairs


def tape_opened(data):
    return model.open_flow(data, bytes(FLOW_SIZE), [0] * 600).record


def foreign_calm(tape, dice):
    """Two or three places of no sense, each of which most bytes do not leave, or which tell at
    every byte that stays."""
    for turn in range(48):
        count = dice.between(1, 3)
        sets = [frozenset([at]) for at in range(count)]
        splits = b"".join(pack_set(members) + bytes(8) for members in sets)
        rest = [place_of(at) + (TELLING if dice.chance(12) else 0) for at in range(count)]
        entries = []
        for at in range(count):
            words = [rest[at]] * BYTE_VALUES
            for byte in dice.some([0, 1, 62, 63, 64, 65, 97, 200, 254, 255], dice.between(0, 4)):
                words[byte] = foreign_word(dice, count)
            told = (1 << dice.below(SIGNATURES)).to_bytes(SIGNATURES // 8, "little")
            note = bytes([dice.pick([0, 1, 255]), 1]) + bytes(ENTRY_SIZE - NAMED_AT - 1)
            entries.append(b"".join(word.to_bytes(WORD, "little") for word in words) + told + note)
        tape.load_table(Table(b"", b"", b"", splits))
        tape.load_matrix(b"\xff" * SET_SIZE + b"".join(entries))
        for _ in range(3):
            begun = dice.below(count)
            tape.load_record(pack_flow(Flow(sets[begun], 9, 0)))
            length = dice.pick([319, 320, 321, 352, 400, dice.between(256, 700)])
            calm = dice.pick([0, 66, 120])
            leaves = [(dice.below(length), dice.pick([0, 62, 63, 64, 65, 97, 254, 255]))
                      for _ in range(dice.pick([0, 1, 2, 3, 9]))]
            tape.prepared_feed(dice.pick([begun, MOST_HINT]), 9, dice.pick([0, 3, 40, 1200]),
                               stays(length, calm, leaves))


def straight(tape, dice):
    """Splits and an index straight from a list: from opening, cut anywhere, mixed with the plain
    feed, the pairs and frontiers of the plain feed at a row a byte."""
    made = 0
    while made < 64:
        sample = drawn.any_list(dice)
        sets = indexes.reached(sample.nfa, 12)
        if sets is None or len(sample.records) > 40:
            continue
        made += 1
        refusal, lists = indexes.prepare(sample.data, indexes.LENT)
        assert refusal == 0
        tape.load_list(sample.data)
        tape.load_table(Table(b"", b"", b"", lists[0]))
        tape.load_matrix(lists[1])
        begin(tape)
        plain = tape.record
        split = dice.below(len(sets))
        for _ in range(5):
            piece = a_piece(dice, sample, drawn.short_length(dice))
            offset = offset_of(tape.record)
            if dice.chance(25):
                tape.feed(offset, 1200, piece)
                told = None
            else:
                words = dice.pick([40, 600, 1200])
                stood = tape.prepared_feed(split, offset, words, piece)
                split, piece = stood.split, piece[:stood.answer.consumed]
                told = stood.answer.words[:2 * stood.answer.pairs]
            same = model.plain_feed(sample.data, plain, offset, [0] * 1200, piece)
            plain = same.record
            assert told is None or told == same.words[:2 * same.pairs]
            assert plain[:RESERVED_AT] == tape.record[:RESERVED_AT]
            assert sets.index(model.unpack_set(tape.record[:SET_SIZE])) == split or told is None


GROUPS = [filled_indexes, faulty_fills, any_indexes, most_splits, quiet_pieces, foreign_calm,
          straight]
