"""The cases of the bit matrix and its feed, in groups."""

from second import sizes
from second.list import drawn, examples
from second.list.cases import offset_of
from second.list.drawn import (
    Sample, a_piece, accept, any_list, broken_list, edge, start, word_count,
)
from second.list.model import Flow, pack_flow, pack_set
from second.matrix.model import matrix_of, matrix_states
from second.sizes import (
    BYTE_VALUES, ENOUGH_WORDS, FLOW_SIZE, MOST_OFFSET, RESERVED_AT, SET_SIZE, SIGNATURES, STATES,
)


def few_states(dice, most):
    """A good list whose states are below `most`, and that names the last of them or not."""
    states = list(range(most))
    letters = dice.some(drawn.LETTERS, 3)
    records = [start(dice.pick(states)) for _ in range(dice.pick([1, 1, 2]))]
    if dice.chance(70):
        at = dice.pick(states)
        records.append(edge(0, 255, at, at))
    for _ in range(dice.between(1, 5)):
        low, high = sorted([dice.pick(letters), dice.pick(letters)])
        if dice.chance(60):
            high = low
        records.append(edge(low, high, dice.pick(states), dice.pick(states), int(dice.chance(30))))
    records += [accept(dice.pick(states), dice.below(SIGNATURES)) for _ in range(dice.below(4))]
    return Sample(dice.shuffled(records), letters, states)


def changed(dice, matrix, count):
    """The matrix with so many bytes at random, some of them in the last set of a row or of all."""
    data = bytearray(matrix)
    for _ in range(count):
        at = dice.pick([dice.below(len(data)), len(data) - 1 - dice.below(SET_SIZE),
                        SET_SIZE * BYTE_VALUES - 1 - dice.below(SET_SIZE)])
        data[at] = dice.below(BYTE_VALUES)
    return bytes(data)


def matrix_lengths(tape, dice, sample):
    """The filler and the feed where the matrix is a byte too long or too short, or has a state too many or too few: 8, and the bytes stay."""
    need = matrix_states(sample.data) * sizes.ROW_SIZE
    for length in (need - 1, need + 1, need + sizes.ROW_SIZE, need - sizes.ROW_SIZE, need - SET_SIZE, 0):
        if length < 0 or length > 8 * sizes.ROW_SIZE + 256:
            continue
        tape.load_matrix(bytes(length - min(length, 3)) + b"\xff" * min(length, 3))
        assert tape.fill_matrix() == (0 if length == need else 8)
        tape.open()
        for piece in (b"", bytes(dice.pick(sample.letters) for _ in range(2))):
            assert tape.matrix_feed(0, word_count(dice), piece).refusal == (4 if len(tape.record) != FLOW_SIZE else 8)


def walk_matrix(tape, dice, sample, pieces):
    """A flow from opening by the current matrix, beside it the plain feed where the matrix is the list's."""
    tape.load_record(b"\xff" * FLOW_SIZE)
    tape.open()
    alike = tape.matrix == matrix_of(sample.data)
    for _ in range(pieces):
        piece = a_piece(dice, sample, dice.below(7))
        words = word_count(dice)
        before, at = tape.record, offset_of(tape.record)
        answer = tape.matrix_feed(at, words, piece)
        if alike:
            after = tape.record
            tape.load_record(before)
            assert tape.feed(at, words, piece) == answer
            tape.load_record(after)
        if answer.refusal:
            return


def matrices(tape, dice):
    """The filler and the matrix feed: lists of few states, their own matrix, another list's, one with changed bytes and one of no sense, each length
    beside the right one, and every refusal."""
    tape.load_list(examples.LIST)
    tape.load_matrix(b"\xa5" * (3 * sizes.ROW_SIZE))
    assert tape.fill_matrix() == 0
    tape.load_record(b"\xff" * FLOW_SIZE)
    tape.open()
    fresh = tape.record
    for words in (0, 1, 2, 3, 4, 5, ENOUGH_WORDS):
        for piece in (b"abab", b"aba", b""):
            tape.load_record(fresh)
            tape.matrix_feed(0, words, piece)

    # Lists of one to eight states, few of the largest; each filled over what the one before left, where its length is the same.
    for turn in range(90):
        sample = few_states(dice, dice.pick([1, 2, 2, 3, 3, 4]) if turn % 15 else 8)
        need = matrix_states(sample.data) * sizes.ROW_SIZE
        tape.load_list(sample.data)
        if len(tape.matrix) != need:
            tape.load_matrix(bytes(need))
        assert tape.fill_matrix() == 0
        walk_matrix(tape, dice, sample, 4)
        if turn % 3 == 0:
            tape.load_matrix(changed(dice, tape.matrix, dice.pick([1, 2, 5])))
            walk_matrix(tape, dice, sample, 4)
        if turn % 9 == 0:
            matrix_lengths(tape, dice, sample)

    # The matrix of another list of as many states: it runs as stored.
    for turn in range(25):
        sample, other = few_states(dice, 2), few_states(dice, 2)
        if matrix_states(sample.data) != matrix_states(other.data):
            continue
        tape.load_list(other.data)
        tape.load_matrix(bytes(matrix_states(other.data) * sizes.ROW_SIZE))
        tape.fill_matrix()
        tape.load_list(sample.data)
        walk_matrix(tape, dice, sample, 4)

    # Sets with states past the highest: they count as rows, add nothing, and the next call gives 4.
    for turn in range(20):
        sample = few_states(dice, 1)
        tape.load_list(sample.data)
        tape.load_matrix(b"".join(pack_set(frozenset(dice.some(drawn.SOME_STATES, dice.below(3))) | {0})
                                  for _ in range(BYTE_VALUES)))
        walk_matrix(tape, dice, sample, 3)

    # Each refusal before 8, with a matrix of the right length and of a wrong one; lists of many states have none of these lengths.
    for turn in range(66):
        sample = few_states(dice, 2)
        good = bytes(matrix_states(sample.data) * sizes.ROW_SIZE)
        for refusal in (1, 2, 3):
            tape.load_list(broken_list(dice, sample, refusal))
            tape.load_matrix(dice.pick([good, b"\xff", b""]))
            assert tape.fill_matrix() == refusal
            tape.load_record(dice.pick([bytes(FLOW_SIZE), bytes(FLOW_SIZE - 1)]))
            assert tape.matrix_feed(dice.below(2), 4, b"a").refusal == refusal
        tape.load_list(sample.data)
        tape.load_matrix(dice.pick([good, b"\xff", b""]))
        strange = pack_flow(Flow(frozenset([STATES - 1]), 5, 0))
        tape.load_record(dice.pick([bytes(FLOW_SIZE + 1), strange, bytes(RESERVED_AT) + b"\x01" + bytes(FLOW_SIZE - RESERVED_AT - 1)]))
        assert tape.matrix_feed(5, 4, b"a").refusal == 4
        tape.load_record(pack_flow(Flow(sample.nfa.starts, 5, 0)))
        assert tape.matrix_feed(dice.pick([4, 6]), 4, b"").refusal == 5
        tape.load_record(pack_flow(Flow(sample.nfa.starts, MOST_OFFSET, 0)))
        assert tape.matrix_feed(MOST_OFFSET, 4, b"a").refusal == 6
        tape.load_matrix(b"\xff")
        assert tape.fill_matrix() == 8
        assert tape.matrix_feed(MOST_OFFSET, 4, b"").refusal == 8
        many = any_list(dice)
        if matrix_states(many.data) > 8:
            tape.load_list(many.data)
            tape.load_matrix(good)
            assert tape.fill_matrix() == 8


def past_highest(tape, dice):
    """Frontiers with states past the highest and without the highest, whose sets lead elsewhere: they add nothing."""
    for _ in range(20):
        sample = few_states(dice, 3)
        highest = matrix_states(sample.data) - 1
        past = dice.pick([highest + 1, highest + 64, STATES - 1])
        own = [pack_set(frozenset([past, 0 if state < highest else highest])) for state in range(highest + 1) for _ in range(BYTE_VALUES)]
        tape.load_list(sample.data)
        tape.load_matrix(b"".join(own))
        tape.load_record(pack_flow(Flow(frozenset([0]), 0, 0)))
        tape.matrix_feed(0, ENOUGH_WORDS, a_piece(dice, sample, 3))


GROUPS = [matrices, past_highest]
