"""The cases of the signature list, of opening and of the plain feed, in groups; and those that go by
several feeds: the worked examples, either case, foreign records."""

from second.list import drawn, examples, model
from second.list.drawn import (
    FEW, MANY, Sample, a_piece, accept, any_flow, any_frontier, any_list, broken_list, crowded_list,
    edge, short_length, start, word_count,
)
from second.list.model import Flow, pack_flow, pack_set, unpack_flow
from second.sizes import (
    BYTE_VALUES, ENOUGH_WORDS, FLOW_SIZE, MOST_BOUND, MOST_OFFSET, MOST_RECORDS, OFFSET_AT,
    RECORD_SIZE, RESERVED_AT, ROWS_AT, SIGNATURES, STATES,
)
from second.table import drawn as table_drawn
from second.table import model as tables
from second.table.drawn import BOUNDS, good_table
from second.table.faults import BAD_BOUNDS
from second.tape import MOST_WORDS

PIECE = 4096  # bytes of a long piece


def offset_of(record):
    """The offset that a record of any length seems to have."""
    return model.number(record[OFFSET_AT:RESERVED_AT])


# The worked examples

def worked(tape, dice):
    tape.load_list(examples.LIST)
    tape.load_table(examples.TABLE)
    tape.load_record(b"\xff" * FLOW_SIZE)
    tape.check_list()
    for bound in (*BOUNDS, 0, MOST_BOUND + 1, 257, 2 ** 32 + 1):
        tape.check_table(bound)
    tape.open()
    fresh = tape.record
    for words in (0, 1, 2, 3, 4, 5, ENOUGH_WORDS):
        for piece in (b"abab", b"aba", b""):
            tape.load_record(fresh)
            tape.feed(0, words, piece)
            for bound in BOUNDS:
                tape.load_record(fresh)
                tape.split_feed(bound, 0, words, piece)
    tape.load_record(fresh)
    tape.feed(0, 4, b"a")
    tape.feed(0, 4, b"bab")
    tape.feed(1, 4, b"bab")
    tape.feed(0, 4, b"bab")
    for table in (examples.WITHOUT_02, examples.WITHOUT_0):
        tape.load_table(table)
        for bound in BOUNDS:
            tape.check_table(bound)
        for words in (0, 2, 8):
            tape.load_record(fresh)
            tape.split_feed(2, 0, words, b"abab")
    for data in (examples.NO_START, examples.LIST):
        tape.load_list(data)
        tape.check_list()
        tape.check_table(2)


# Lists

def ask_list(tape, dice, often):
    """The list check, and now and then the other entry points on this list."""
    tape.check_list()
    if dice.chance(often):
        tape.load_record(dice.bytes(FLOW_SIZE) if dice.chance(40)
                         else dice.pick([b"\xff" * FLOW_SIZE, bytes(FLOW_SIZE),
                                         bytes(FLOW_SIZE - 1), b"\x01" * (FLOW_SIZE + 1)]))
        tape.open()
    if dice.chance(often):
        at = offset_of(tape.record)
        tape.feed(dice.pick([at, at, at + 1]), word_count(dice), dice.bytes(dice.below(9)))
    if dice.chance(often):
        tape.check_table(dice.pick([*BOUNDS, 0, MOST_BOUND + 1]))
    if dice.chance(often):
        at = offset_of(tape.record)
        tape.split_feed(dice.pick([*BOUNDS, 0, MOST_BOUND + 1]), dice.pick([at, at, at + 1]),
                        word_count(dice), dice.bytes(dice.below(9)))


def with_record(dice, records, record):
    """The list with one more record at the front, in the middle or at the end."""
    records = list(records)
    records.insert(dice.pick([0, len(records), dice.below(len(records) + 1)]), record)
    return b"".join(records)


def around(most):
    """Numbers below a limit, and past it in either byte."""
    return (0, 1, 255, 256, 257, most // 2 - 1, most // 2, most - 2, most - 1, most, most + 1,
            2 * most - 2, 2 * most - 1, 2 * most, 4096, 32768, 65280, 65534, 65535)


def lists(tape, dice):
    tape.load_table(examples.TABLE)
    sample = any_list(dice)

    def ask(data, often=20):
        tape.load_list(data)
        ask_list(tape, dice, often)

    # Every kind byte on a record that is sound as each of the three kinds.
    for kind in range(BYTE_VALUES):
        ask(with_record(dice, dice.some(sample.records, 2) + [start(1)],
                        bytes([kind]) + bytes(RECORD_SIZE - 1)))

    # Every reserved byte of each kind, and every byte of a record in turn.
    for kind, places in ((2, [1, 2, 3, 4, 5]), (3, [1, 2, 3])):
        for at in places:
            for value in (1, 2, 4, 8, 16, 32, 64, 128, 255, dice.between(1, 254)):
                record = bytearray([kind]) + bytes(RECORD_SIZE - 1)
                record[at] = value
                ask(with_record(dice, [start(3), edge(0, 255, 3, 3)], bytes(record)))
    for kind in (1, 2, 3):
        for at in range(1, RECORD_SIZE):
            for value in (0, 1, 255):
                record = bytearray([kind]) + bytes(RECORD_SIZE - 1)
                record[at] = value
                ask(with_record(dice, [start(3)], bytes(record)))

    # Low against high.
    for low, high in ((0, 0), (255, 255), (0, 255), (255, 0), (1, 0), (255, 254), (254, 255),
                      (128, 127), (127, 128), (97, 96), (97, 97), (0, 1)):
        ask(with_record(dice, [start(3), accept(2, 4)], edge(low, high, 3, 2)))
    for _ in range(60):
        low, high = dice.below(BYTE_VALUES), dice.below(BYTE_VALUES)
        ask(with_record(dice, [start(3)], edge(low, high, 3, 2)))

    # States and signatures up to the last, and past it.
    past = dice.between(max(STATES, SIGNATURES), 65535)
    for state, signature in zip((*around(STATES), past), (*around(SIGNATURES), past)):
        for record in (edge(1, 2, state, 3), edge(1, 2, 3, state), start(state),
                       accept(state, 3), accept(3, signature)):
            ask(with_record(dice, [start(3), edge(0, 255, 3, 3)], record))
        ask(start(state))

    # No start, start last, and a bad record in a list without a start.
    for _ in range(60):
        other = any_list(dice)
        bare = [record for record in other.records if record[0] != 2]
        starts = [record for record in other.records if record[0] == 2]
        if bare:
            ask(b"".join(bare))
            bad = dice.pick([edge(3, 2, 0, 0), start(STATES), accept(1, 999),
                             bytes(RECORD_SIZE)])
            ask(with_record(dice, bare, bad))
        ask(b"".join(bare + starts))
        ask(b"".join(starts + bare))
        ask(b"".join(starts))
        ask(b"".join(other.records + other.records))

    # Lengths: fronts of a good list and of a bad one, zeros, and the ends of the range.
    for length in range(0, 58):
        for source in (b"".join([start(1), edge(0, 9, 1, 2), accept(2, SIGNATURES - 1)] * 3),
                       b"".join([edge(1, 0, 0, 0), start(1), accept(2, 300)] * 3)):
            ask(source[:length], 30)
    for length in (RECORD_SIZE, 2 * RECORD_SIZE, 5 * RECORD_SIZE):
        ask(bytes(length))
        ask(b"\xff" * length)

    # One byte of a good list changed, and bytes at random.
    for _ in range(1000):
        other = any_list(dice)
        data = bytearray(other.data)
        at = dice.below(len(data))
        data[at] = dice.pick([0, 1, 2, 3, 255, dice.below(BYTE_VALUES)])
        ask(bytes(data))
    for _ in range(80):
        data = b"".join(bytes([dice.between(1, 3)]) + dice.bytes(RECORD_SIZE - 1)
                        for _ in range(dice.between(1, 4)))
        ask(data, 10)


def longest_lists(tape, dice):
    """The most records and one more, with the start at either end."""
    tape.load_table(examples.TABLE)
    body = [edge(b % BYTE_VALUES, 255, b % 7, (b + 1) % 7) for b in range(MOST_RECORDS // 2)]
    body += [accept(b % 7, b % SIGNATURES) for b in range(MOST_RECORDS - 1 - len(body))]
    for data in (b"".join(body + [start(0)]), b"".join([start(0)] + body),
                 b"".join(body + [accept(0, 0)]), b"".join(body + [accept(0, SIGNATURES)]),
                 b"".join([start(0)] + body + [start(0)]), b"".join([start(0)] + body) + b"\2"):
        tape.load_list(data)
        tape.check_list()
        tape.load_record(b"\x55" * FLOW_SIZE)
        tape.open()
        for words in (MOST_WORDS, ENOUGH_WORDS, ENOUGH_WORDS - 1):
            tape.feed(offset_of(tape.record), words, b"ab\xff")
        tape.check_table(2)
        tape.split_feed(2, offset_of(tape.record), 600, b"ab")


def list_limits(tape, dice):
    """The last state and signature, and one more, in each place of a record that has one."""
    tape.load_table(examples.TABLE)
    for turn in range(15):
        sample = any_list(dice)
        low = dice.below(BYTE_VALUES)
        for state, signature in ((STATES - 1, SIGNATURES - 1), (STATES, SIGNATURES)):
            other, some = dice.below(STATES), dice.below(SIGNATURES)
            for record in (edge(low, 255, state, other), edge(0, low, other, state), start(state),
                           accept(state, some), accept(other, signature)):
                tape.load_list(with_record(dice, sample.records, record))
                tape.check_list()
                tape.load_record(dice.bytes(FLOW_SIZE))
                tape.open()
                tape.feed(offset_of(tape.record), word_count(dice), dice.bytes(3))
                if turn % 5 == 0:
                    tape.check_table(2)
                    tape.split_feed(2, offset_of(tape.record), 6, b"ab")


# Opening

def openings(tape, dice):
    for turn in range(90):
        sample = any_list(dice)
        data = sample.data if turn % 3 else broken_list(dice, sample, 1 + turn // 3 % 3)
        tape.load_list(data)
        tape.check_list()
        for length in (dice.some(range(FLOW_SIZE + 17), 3)
                       + [dice.pick([FLOW_SIZE - 1, FLOW_SIZE + 1])] + [FLOW_SIZE] * 4):
            content = dice.pick([bytes(length), b"\xff" * length, dice.bytes(length)])
            tape.load_record(content)
            tape.open()
            if dice.chance(30):
                tape.feed(offset_of(tape.record), word_count(dice),
                          a_piece(dice, sample, dice.below(6)))
    for length in range(FLOW_SIZE + 17):
        tape.load_list(any_list(dice).data)
        tape.load_record(dice.bytes(length))
        tape.open()
        tape.open()


def record_limits(tape, dice):
    """Records of the right size, a byte less or more, and of 48 bytes, which was the size with 256
    states; and of the right size with as many rows as there may be, and one more."""
    tape.load_table(examples.TABLE)
    for turn in range(60):
        tape.load_list(examples.LIST)
        for size in (48, FLOW_SIZE - 1, FLOW_SIZE, FLOW_SIZE + 1):
            content = dice.pick([bytes(size), b"\xff" * size, dice.bytes(size)])
            tape.load_record(content)
            tape.open()
            fresh = (pack_flow(Flow(frozenset({0}), 0, 0)) + bytes(1))[:size]
            for feed in (tape.feed, lambda *call: tape.split_feed(2, *call)):
                tape.load_record(fresh)
                answer = feed(0, 4, dice.pick([b"", b"ab", b"xaby"]))
                assert answer.refusal == (0 if size == FLOW_SIZE else 4)
        offset = dice.pick([0, 1, 2, 255, 256, 65535, 65536, dice.below(2 ** 32), MOST_OFFSET - 9])
        for rows in (STATES * offset, STATES * offset + 1):
            for feed in (tape.feed, lambda *call: tape.split_feed(2, *call)):
                tape.load_record(pack_flow(Flow(frozenset({0}), offset, rows)))
                answer = feed(offset, 4, dice.pick([b"", b"ab", b"xaby"]))
                assert answer.refusal == (0 if rows == STATES * offset else 4)


# Flows

class Walk:
    """Moves on one list, through the plain feed or a table at a bound."""

    def __init__(self, tape, dice, sample, bound=None):
        self.tape = tape
        self.dice = dice
        self.sample = sample
        self.bound = bound

    def feed(self, at, words, piece, bound=None):
        if self.bound is None:
            return self.tape.feed(at, words, piece)
        return self.tape.split_feed(self.bound if bound is None else bound, at, words, piece)

    def piece(self):
        return a_piece(self.dice, self.sample, short_length(self.dice))

    def offset(self):
        return offset_of(self.tape.record)

    def begin(self):
        self.tape.load_list(self.sample.data)
        self.tape.load_record(self.dice.pick([bytes(FLOW_SIZE), b"\xff" * FLOW_SIZE,
                                              self.dice.bytes(FLOW_SIZE)]))
        self.tape.open()

    def go_on(self):
        """Feed a piece, and after a pause its rest."""
        piece = self.piece()
        for _ in range(3):
            answer = self.feed(self.offset(), word_count(self.dice), piece)
            piece = piece[answer.consumed:]
            if answer.refusal or not piece or self.dice.chance(30):
                break

    def wrong_start(self):
        dice, at = self.dice, self.offset()
        wrong = dice.pick([at + 1, max(0, at - 1), 0, at + 2 ** 32, at + 256, at + 65536,
                           2 ** 64 - 1, dice.below(2 ** 32), at + 2 ** 63])
        self.feed(wrong, word_count(dice), dice.pick([b"", self.piece(), self.piece()]))

    def other_list(self):
        dice = self.dice
        broken = broken_list(dice, self.sample, dice.between(1, 3))
        self.tape.load_list(broken)
        if dice.chance(30):
            self.tape.check_list()
        at = self.offset()
        self.feed(dice.pick([at, at, at + 1]), word_count(dice),
                  dice.pick([b"", self.piece(), self.piece()]))
        self.tape.load_list(self.sample.data)

    def damage(self):
        dice, good = self.dice, self.tape.record
        at = self.offset()
        shape = dice.below(6)
        if shape == 0:
            bad = dice.pick([good[:FLOW_SIZE - 1], good + b"\0", b"",
                             good[:dice.below(FLOW_SIZE)], good + bytes(16)])
        elif shape in (1, 2):
            spot = dice.between(RESERVED_AT, ROWS_AT - 1)
            bad = good[:spot] + bytes([dice.pick([1, 128, 255])]) + good[spot + 1:]
        else:
            most = STATES * at
            rows = dice.pick([most + 1, most + 1, most + STATES, 2 ** 63,
                              2 ** 64 - 1, 2 ** 40 + dice.below(1000)])
            bad = good[:ROWS_AT] + rows.to_bytes(8, "little")
        self.tape.load_record(bad)
        self.feed(dice.pick([at, at, at + 1]), word_count(dice),
                  dice.pick([b"", self.piece(), self.piece()]))
        self.tape.load_record(good)

    def full_rows(self):
        """Rows at exactly the states times the offset, or just under it."""
        good = self.tape.record
        rows = max(0, STATES * self.offset() - self.dice.pick([0, 0, 1]))
        self.tape.load_record(good[:ROWS_AT] + rows.to_bytes(8, "little"))
        self.go_on()

    def other_frontier(self):
        self.tape.load_record(any_flow(self.dice, any_frontier(self.dice, self.sample)))
        self.go_on()

    def limit(self):
        """Offsets next to the last one."""
        dice = self.dice
        left = dice.pick([0, 0, 1, 2, 3, dice.below(12)])
        longer = PIECE if dice.chance(2) else dice.pick([left + 2, 0, left + 40])
        at = MOST_OFFSET - left
        flow = unpack_flow(self.tape.record)
        self.tape.load_record(pack_flow(Flow(flow.frontier, at, min(flow.rows, STATES * at))))
        for length in dice.shuffled([left + 1, left, longer]):
            at = self.offset()
            words = dice.pick([0, 1, 3, 20, 40, 64])
            self.feed(dice.pick([at, at, at, at, at + 1]), words,
                      a_piece(dice, self.sample, length))
        if dice.chance(50):
            self.tape.open()

    def every_byte(self):
        self.feed(self.offset(), self.dice.pick([0, 40, 600, MOST_WORDS]),
                  bytes(self.dice.shuffled(range(BYTE_VALUES))))

    def bad_bound(self):
        dice = self.dice
        at = self.offset()
        bound = dice.pick(BAD_BOUNDS)
        if self.bound is None:
            self.feed(at, word_count(dice), b"")
        else:
            self.feed(dice.pick([at, at, at, at, at + 1]), word_count(dice),
                      dice.pick([b"", self.piece(), self.piece()]), bound)

    def other_bound(self):
        """The next bound up or down, on the same table."""
        if self.bound is not None:
            self.feed(self.offset(), word_count(self.dice), self.piece(),
                      self.dice.between(1, MOST_BOUND))

    def other_feed(self):
        """The plain feed in a flow of the split feed."""
        self.tape.feed(self.offset(), word_count(self.dice), self.piece())

    def again(self):
        self.tape.open()

    def move(self):
        dice = self.dice
        dice.pick([self.go_on] * 24 + [self.wrong_start] * 3 + [self.other_list] * 3
                  + [self.damage] * 4 + [self.full_rows] * 2 + [self.other_frontier] * 2
                  + [self.limit] * 1 + [self.bad_bound] * 2 + [self.other_bound] * 2
                  + [self.other_feed] + [self.again] * 4)()
        if dice.chance(1):
            self.every_byte()


def plain_flows(tape, dice):
    for _ in range(280):
        walk = Walk(tape, dice, any_list(dice))
        walk.begin()
        for _ in range(dice.between(12, 26)):
            walk.move()


def near(words):
    return range(words - 2, words + 3)


def crowded_flows(tape, dice):
    """All signatures on one state: a feed with less room pauses."""
    for turn in range(14):
        sample = crowded_list(dice, dice.pick([SIGNATURES, SIGNATURES, SIGNATURES - 1, 100]))
        walk = Walk(tape, dice, sample)
        walk.begin()
        for _ in range(12):
            piece = a_piece(dice, sample, dice.between(1, 8))
            words = dice.pick([0, 1, *near(ENOUGH_WORDS), 2 * ENOUGH_WORDS - 2,
                               2 * ENOUGH_WORDS - 1, 2 * ENOUGH_WORDS, 2 * ENOUGH_WORDS + 1,
                               MOST_WORDS - 1, MOST_WORDS, dice.below(MOST_WORDS + 1)])
            tape.feed(walk.offset(), words, piece)
            if dice.chance(20):
                walk.begin()


def long_pieces(tape, dice):
    """Long pieces."""
    for turn in range(14):
        bound = dice.between(1, MOST_BOUND)
        sample, plan = good_table(dice, bound)
        tape.load_table(plan.table())
        for engine in (None, bound):
            walk = Walk(tape, dice, sample, engine)
            walk.begin()
            length = dice.pick([PIECE, PIECE, PIECE - 1, PIECE + 1, 1500, 2048])
            piece = a_piece(dice, sample, length)
            answer = walk.feed(0, MOST_WORDS, piece)
            rest = piece[answer.consumed:][:300]
            while rest and not answer.refusal and dice.chance(70):
                answer = walk.feed(walk.offset(), dice.pick([100, 600, MOST_WORDS]), rest)
                rest = rest[answer.consumed:]


def zero_records(tape, dice):
    """Records of kind 0 and of kinds past the last one, sound as another kind."""
    tape.load_table(examples.TABLE)
    for turn in range(40):
        state, letter = dice.pick([0, 0, 1, 200]), dice.pick([0, 0, 97])
        good = [start(state), edge(letter, letter, state, state),
                accept(state, dice.below(SIGNATURES))]
        record = [bytes(RECORD_SIZE),
                  b"\0" + edge(letter, 255, state, dice.below(STATES))[1:],
                  bytes([dice.pick([4, 5, 128, 255])]) + accept(state, dice.below(SIGNATURES))[1:],
                  bytes([dice.pick([0, 4, 255])]) + start(dice.below(STATES))[1:]][turn % 4]
        records = dice.shuffled(good)
        records.insert([0, len(records), 1][turn % 3], record)
        tape.load_list(b"".join(records))
        tape.check_list()
        tape.load_record(bytes(FLOW_SIZE))
        tape.open()
        tape.feed(0, 4, bytes([letter]))
        tape.check_table(2)
        tape.split_feed(2, 0, 4, bytes([letter]))


def old_content(tape, dice):
    """Openings over content that a feed refuses for one thing alone, or not at all."""
    for turn in range(60):
        sample = any_list(dice)
        tape.load_list(sample.data)
        offset = dice.pick([0, 1, 5, dice.below(2 ** 32), MOST_OFFSET])
        reserved, rows = [(0, 0), (0, STATES * offset), (0, STATES * offset + 1), (1, 0),
                          (2 ** 24, 0), (0, 2 ** 64 - 1)][turn % 6]
        frontier = any_frontier(dice, sample)
        tape.load_record(pack_set(frontier) + offset.to_bytes(4, "little")
                         + reserved.to_bytes(4, "little") + rows.to_bytes(8, "little"))
        tape.feed(offset, 8, b"")
        tape.open()
        tape.feed(0, 8, a_piece(dice, sample, 3))
        tape.open()


def long_pauses(tape, dice):
    """Pauses after which 256 bytes are left, or 512 or one more or less, in both feeds."""
    tape.load_list(examples.LIST)
    tape.load_table(examples.TABLE)
    for left in (255, 256, 256, 256, 257, 511, 512, 512, 513):
        for pairs, before in ((0, 0), (1, 0), (2, 9), (3, 254), (1, 255), (2, 256), (0, 300)):
            # The byte at which the feed pauses is the first of those that are left.
            piece = b"ab" * pairs + b"c" * before + b"a" + b"b" * left
            words = 2 * pairs + dice.below(2)
            for feed in (tape.feed, lambda *call: tape.split_feed(2, *call)):
                tape.load_record(b"\1" + bytes(FLOW_SIZE - 1))
                answer = feed(0, words, piece)
                assert (answer.refusal, len(piece) - answer.consumed) == (0, left)
    for length in (255, 256, 257, 512, 1024):
        tape.load_record(b"\1" + bytes(FLOW_SIZE - 1))
        tape.feed(0, 8, b"c" * length)
        tape.split_feed(2, length, 9, b"c" * length)


# Either case

# What stands around the letters, the letters at the ends, and bytes that have no case although a
# letter is 32 away or another alphabet has one.
EDGES_OF_LETTERS = [0x40, 0x41, 0x42, 0x59, 0x5A, 0x5B, 0x60, 0x61, 0x62, 0x79, 0x7A, 0x7B,
                    0x20, 0x21, 0x3A, 0x80, 0xC1, 0xDA, 0xE1, 0xFA, 0x00, 0xFF]
WORKED_RANGES = [(0x61, 0x61), (0x5A, 0x61), (0x40, 0x5B), (0xE1, 0xE1), (0x41, 0x5A), (0x61, 0x7A)]


def letter_list(dice, low, high, either):
    """A list on which one edge tells the bytes that it takes."""
    root, seen = dice.some(drawn.SOME_STATES, 2)
    return Sample(dice.shuffled([start(root), edge(0, 255, root, root),
                                 edge(low, high, root, seen, either),
                                 accept(seen, dice.below(SIGNATURES))]),
                  [low, high], [root, seen])


def ask_letters(tape, dice, low, high, either):
    """Every byte, through the plain feed and through a table that the check accepts."""
    sample = letter_list(dice, low, high, either)
    tape.load_list(sample.data)
    assert tape.check_list() == 0
    tape.load_record(bytes(FLOW_SIZE))
    tape.open()
    fresh = tape.record
    every = bytes(range(BYTE_VALUES))
    tape.feed(0, ENOUGH_WORDS + 2 * BYTE_VALUES, every)
    plan = None
    while plan is None:
        plan = table_drawn.build_plan(dice, sample, 2)
    tape.load_table(plan.table())
    assert tape.check_table(2) == 0
    tape.load_record(fresh)
    tape.split_feed(2, 0, ENOUGH_WORDS + 2 * BYTE_VALUES, every)


def other_case(records, at):
    """The records, of which one edge has the other value of byte 3."""
    changed = bytearray(records[at])
    changed[3] = 1 - changed[3]
    return records[:at] + [bytes(changed)] + records[at + 1:]


def tables_of_the_other_case(tape, dice):
    """A table for one value of an edge's byte 3 beside the list with the other one: 10."""
    made = {0: 0, 1: 0}
    while min(made.values()) < MANY:
        bound = dice.between(1, MOST_BOUND)
        sample, plan = good_table(dice, bound, 9, 7)
        at = dice.below(len(sample.records))
        either = sample.records[at][3]
        if sample.records[at][0] != 1 or made[either] == MANY:
            continue
        other = Sample(other_case(sample.records, at), sample.letters, sample.states)
        if tables.table_refusal(other.data, plan.table(), bound) != 10:
            continue  # No part has the edge's state, or none of its bytes is a letter.
        made[either] += 1
        tape.load_list(other.data)
        tape.load_table(plan.table())
        tape.check_table(bound)
        walk = Walk(tape, dice, other, bound)
        walk.begin()
        walk.go_on()
        tape.load_list(sample.data)
        tape.check_table(bound)


def capitals(tape, dice):
    """Byte 3 of an edge: 1 takes letters in either case, over 1 is refused."""
    for low, high in WORKED_RANGES:
        for either in (0, 1):
            ask_letters(tape, dice, low, high, either)
    for letter in EDGES_OF_LETTERS:
        ask_letters(tape, dice, letter, letter, 1)
        ask_letters(tape, dice, *sorted([letter, dice.pick(EDGES_OF_LETTERS)]), 1)
    for turn in range(MANY):
        low, high = sorted([dice.below(BYTE_VALUES), dice.between(0x38, 0x88)])
        ask_letters(tape, dice, low, high, int(turn % 5 > 0))

    # Every value of byte 3, and low over high beside 0 and 1.
    tape.load_table(examples.TABLE)
    for value in range(BYTE_VALUES):
        low, high = sorted([dice.pick(EDGES_OF_LETTERS), dice.pick(EDGES_OF_LETTERS)])
        tape.load_list(with_record(dice, [start(3), edge(0, 255, 3, 3), accept(2, 4)],
                                   edge(low, high, 3, 2, value)))
        assert tape.check_list() == (2 if value > 1 else 0)
        ask_list(tape, dice, 10)
    for turn in range(2 * MANY):
        low, high = sorted(dice.some(EDGES_OF_LETTERS, 2))
        tape.load_list(with_record(dice, [start(3)], edge(high, low, 3, 2, turn % 2)))
        assert tape.check_list() == 2
    # The records of the two other kinds keep byte 3 at zero.
    for turn in range(2 * MANY):
        record = bytearray(start(2) if turn % 2 else accept(2, 4))
        record[3] = dice.pick([1, 1, 2, 255])
        tape.load_list(with_record(dice, [start(3), edge(97, 97, 3, 2, 1)], bytes(record)))
        assert tape.check_list() == 2

    # A list of such edges without a start.
    for _ in range(FEW):
        low, high = sorted([dice.pick(EDGES_OF_LETTERS), dice.pick(EDGES_OF_LETTERS)])
        tape.load_list(edge(low, high, 3, 2, 1) + accept(2, 4))
        assert tape.check_list() == 3
        assert tape.check_table(dice.pick(BOUNDS)) == 3

    tables_of_the_other_case(tape, dice)


def first_pairs(tape, dice):
    """Openings at start states that accept: with room for all pairs of offset 0, for one less, for one more and for none, on
    records of any length and on lists that are refused; and feeds from there."""
    def ask(data, words, record=None):
        tape.load_list(data)
        tape.load_record(dice.pick([b"\xff" * FLOW_SIZE, dice.bytes(FLOW_SIZE)])
                         if record is None else record)
        return tape.open(max(0, words))

    for words in (5, 4, 3, 2, 1, 0, 6):
        assert ask(examples.AT_ONCE, words) == (0 if words > 3 else 15)
    assert ask(examples.AT_ONCE, 0, bytes(FLOW_SIZE - 1)) == 4
    assert ask(examples.LIST, 0) == 0

    # All signatures, and fewer, given in any order and some of them more than once.
    for count in (1, 2, 9, SIGNATURES - 1, SIGNATURES):
        for turn in range(6):
            told = dice.some(range(SIGNATURES), count)
            records = [accept(dice.pick([7, 9]), signature) for signature in told + told[:turn]]
            data = b"".join(dice.shuffled(records + [start(7), start(9), edge(0, 255, 7, 7)]))
            for words in (2 * count - 2, 2 * count - 1, 2 * count, 2 * count + 1, ENOUGH_WORDS):
                assert ask(data, words) == (15 if words < 2 * count else 0)

    # Any list with accept records for some of its start states, and for other states.
    for turn in range(90):
        sample = any_list(dice)
        starts = sorted(sample.nfa.starts)
        more = [accept(dice.pick(starts), dice.below(SIGNATURES))
                for _ in range(dice.between(1, 5))]
        more += [accept(dice.pick(sample.states), dice.below(SIGNATURES)) for _ in range(2)]
        data = b"".join(dice.shuffled(sample.records + more))
        tape.load_list(data)
        needed = tape.first_words()
        for words in dice.shuffled([needed - 2, needed - 1, needed, needed + 1, 0]):
            ask(data, words)
        ask(data, needed - dice.between(1, 2), dice.bytes(dice.pick([0, FLOW_SIZE - 1, FLOW_SIZE + 1])))
        ask(broken_list(dice, sample, 1 + turn % 3), dice.below(3))
        ask(data, needed)
        tape.feed(0, word_count(dice), a_piece(dice, sample, dice.below(5)))
        if dice.chance(50):
            tape.open(needed)


def foreign(tape, dice):
    """Records whose frontier has states that no record of the list names, and such with named states alone, through both feeds: at the
    flow's offset and beside it, with a piece and without."""
    tape.load_table(examples.TABLE)

    def ask(data, members, refused):
        flow = Flow(frozenset(members), dice.pick([0, 1, dice.below(300)]), 0)
        record = pack_flow(flow)
        tape.load_list(data)
        for feed in (tape.feed, lambda *call: tape.split_feed(2, *call)):
            start = flow.offset + dice.pick([0, 0, 0, 1])
            tape.load_record(record)
            answer = feed(start, word_count(dice), dice.pick([b"", b"ab", b"b"]))
            assert (answer.refusal == 4) == refused
            assert refused or start == flow.offset or answer.refusal == 5
        tape.load_record(record)
        tape.open()

    for members, refused in (({3}, True), ({0, 1, 2}, False), (set(), False), ({0, 3}, True)):
        for _ in range(6):
            ask(examples.LIST, members, refused)
    for members, refused in (({4, 6}, False), ({200}, True), ({5}, True), ({4, 6, 200}, True), ({6}, False)):
        for _ in range(6):
            ask(examples.LONE, members, refused)

    # Of each kind of record one that names a state alone, and one that has it as another number: low, high, a signature.
    for turn in range(60):
        state = dice.between(3, 199)
        others = dice.some([s for s in range(3, 200) if s != state], 2)
        named = [edge(state + 1, state + 2, state, 0), edge(state + 1, state + 2, 0, state), start(state), accept(state, 1)]
        unnamed = [edge(state, state + 1, others[0], others[1]), accept(others[0], state)]
        for record in named:
            ask(b"".join(dice.shuffled([start(0), record])), {state}, False)
        for record in unnamed:
            ask(b"".join(dice.shuffled([start(0), record])), {state}, True)

    # Any list: all its states, some of them, and one that it does not name beside them.
    for turn in range(120):
        sample = any_list(dice)
        named = sample.nfa.named
        ask(sample.data, named, False)
        ask(sample.data, dice.subset(named, 50), False)
        strange = dice.pick(sorted(set(range(STATES)) - named) + [STATES - 1])
        ask(sample.data, dice.subset(named, 50) | {strange}, strange not in named)
