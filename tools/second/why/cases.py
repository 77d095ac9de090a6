"""The cases of the questions why, in groups. Each group has dice of its own."""

from second.list import drawn, model
from second.list.drawn import accept, edge, start
from second.list.model import Flow, pack_flow
from second.sizes import MOST_OFFSET, SET_SIZE, SIGNATURES, STATES
from second.why import model as reasons

# The barn's list: signature 7 after any "ab".
BARN = edge(0, 255, 0, 0) + edge(97, 97, 0, 1) + edge(98, 98, 1, 2) + start(0) + accept(2, 7)


def opened(data):
    return pack_flow(Flow(model.automaton(data).starts, 0, 0))


def enough(count):
    """States and bytes that just suffice for so many bytes of flow."""
    return count + 1, SET_SIZE * (count + 1)


def worked(tape, dice):
    """The barn's list and "abab": each offset, each length on both sides, either kind of question."""
    tape.load_all(BARN, opened(BARN), b"abab")
    for offset in range(6):
        for signature in (7, 8, 255, 256, 4294967295):
            tape.ask(0, False, signature, offset, *enough(offset))
        for state in (0, 1, 2, 3, 1023, 1024, 65536, 4294967295):
            tape.ask(0, True, state, offset, *enough(offset))
    for short in (0, 1):
        for shorter in (0, 1):
            for offset in range(5):
                states, size = enough(offset)
                tape.ask(0, False, 7, offset, states - short, size - shorter)
                tape.ask(0, True, 0, offset, states - short, size - shorter)
    for offset in (5, 2 ** 16, 2 ** 32 - 1, 2 ** 32, 2 ** 32 + 2, 2 ** 63, 2 ** 64 - 1):
        tape.ask(0, False, 7, offset, 512, 65536)
    for source in range(4):
        for target in range(4):
            for byte in (96, 97, 98, 255, 256, 353, 354):
                tape.edge(source, byte, target)


def some_record(dice, sample):
    """A record of the list, opened or later, and its offset."""
    if dice.chance(40):
        return opened(sample.data), 0
    frontier = dice.subset(sample.nfa.named, 60)
    offset = dice.pick([1, 2, 5, 255, 256, 65535, dice.below(10 ** 6), MOST_OFFSET - dice.below(12)])
    return pack_flow(Flow(frontier, offset, dice.below(len(frontier) * offset + 1))), offset


def some_piece(dice, sample, most):
    return bytes(dice.pick(sample.letters) if dice.chance(85) else dice.below(256) for _ in range(dice.below(most + 1)))


def questions(tape, dice):
    """Every signature and some states at every offset of a piece, on random lists: what is due and what is not."""
    for _ in range(90):
        sample = drawn.any_list(dice)
        record, offset = some_record(dice, sample)
        piece = some_piece(dice, sample, 7)
        if offset + len(piece) > MOST_OFFSET:
            piece = piece[:MOST_OFFSET - offset]
        tape.load_all(sample.data, record, piece)
        given = sorted({a.signature for a in sample.nfa.accepts})
        for count in range(len(piece) + 1):
            for signature in dice.some(given, 4) + [dice.below(SIGNATURES + 2)]:
                states, size = enough(count)
                tape.ask(offset, False, signature, offset + count, states + dice.below(3), size + dice.below(3))
            for state in dice.some(sorted(sample.nfa.named), 2) + [dice.below(STATES + 2)]:
                tape.ask(offset, True, state, offset + count, *enough(count))


def against_all(tape, dice):
    """Small lists: what is told is the lowest of all runs, worked out one by one."""
    for _ in range(60):
        sample = drawn.web_list(dice)
        piece = some_piece(dice, sample, 4)
        tape.load_all(sample.data, opened(sample.data), piece)
        for count in range(len(piece) + 1):
            runs = reasons.all_runs(sample.data, sample.nfa.starts, piece[:count])
            for signature in sorted({a.signature for a in sample.nfa.accepts}):
                good = [run for run in runs if model.Accept(run[-1], signature) in sample.nfa.accepts]
                refusal = tape.ask(0, False, signature, count, *enough(count))
                assert (refusal == 0) == bool(good)
                if good:
                    line = [int(word) for word in tape.lines[-1].split()[3:]]
                    assert tuple(line) == min(good, key=lambda run: run[::-1]), (sample.data, piece, count, signature)


def lengths(tape, dice):
    """Buffers just long enough, one too short, and empty; offsets at both ends of the piece and past them."""
    for _ in range(40):
        sample = drawn.any_list(dice)
        record, offset = some_record(dice, sample)
        piece = some_piece(dice, sample, 30)[:MOST_OFFSET - offset]
        tape.load_all(sample.data, record, piece)
        asked = dice.pick(sorted(sample.nfa.named))
        for count in {0, len(piece), dice.below(len(piece) + 1)}:
            states, size = enough(count)
            for less, fewer in ((0, 0), (1, 0), (0, 1), (states, 0), (0, size), (0, 64 * (count + 1))):
                tape.ask(offset, True, asked, offset + count, states - less, size - fewer)
        for place in (offset - 1, offset, offset + len(piece), offset + len(piece) + 1):
            if place >= 0:
                tape.ask(offset, True, asked, place, len(piece) + 2, SET_SIZE * (len(piece) + 2))


def refusals(tape, dice):
    """1 to 6, before and beside 25 and 26."""
    for _ in range(70):
        sample = drawn.any_list(dice)
        record, offset = some_record(dice, sample)
        piece = some_piece(dice, sample, 5)[:MOST_OFFSET - offset]
        late = dice.pick([0, 1, 9])
        room = dice.pick([(0, 0), (7, 7 * SET_SIZE), (6, 700)])
        for number in (1, 2, 3):
            tape.load_all(drawn.broken_list(dice, sample, number), record, piece)
            tape.ask(offset, dice.chance(50), dice.below(300), offset + late, *room)
            tape.edge(dice.below(4), dice.below(300), dice.below(4))
        for bad in (record[:-1], record + b"\0", record[:132] + b"\1" + record[133:], record[:136] + b"\xff" * 8):
            tape.load_all(sample.data, bad, piece)
            tape.ask(offset, dice.chance(50), dice.below(300), offset + late, *room)
        tape.load_all(sample.data, record, piece)
        tape.ask(offset + dice.pick([1, 2, 256]), False, dice.below(300), offset + late, *room)
        tape.load_all(sample.data, pack_flow(Flow(frozenset(), MOST_OFFSET - 1, 0)), b"abc"[:dice.pick([2, 3])])
        tape.ask(MOST_OFFSET - 1, False, 7, MOST_OFFSET - 1 + late, *room)


def edges(tape, dice):
    """The first record of an edge, among repeats, ranges and either case, and where there is none."""
    for _ in range(60):
        sample = drawn.any_list(dice)
        tape.load_all(sample.data, b"", b"")
        for one in dice.some(sorted(sample.nfa.edges), 4):
            for byte in (one.low, one.high, max(one.low - 1, 0), one.high + 1, model.exchanged(one.low), dice.below(256), one.low + 256):
                tape.edge(one.source, byte, one.target)
        tape.edge(dice.below(STATES + 9), dice.below(260), dice.below(STATES + 9))


def longer(tape, dice):
    """Pieces of up to 200 bytes."""
    for _ in range(12):
        sample = drawn.search_list(dice)
        piece = some_piece(dice, sample, 200)
        tape.load_all(sample.data, opened(sample.data), piece)
        for signature in sorted({a.signature for a in sample.nfa.accepts})[:3]:
            for count in (len(piece), len(piece) // 2):
                tape.ask(0, False, signature, count, *enough(count))


def small_numbers(tape, dice):
    """Signatures that have the numbers of states, among letters whose edges are for either case or not."""
    for _ in range(60):
        states = list(range(dice.between(3, 9)))
        records = [start(dice.pick(states)) for _ in range(2)]
        for _ in range(dice.between(6, 16)):
            letter = dice.pick(b"abAB")
            records.append(edge(letter, letter, dice.pick(states), dice.pick(states), int(dice.chance(60))))
        records += [accept(dice.pick(states), dice.pick(states)) for _ in range(4)]
        data = b"".join(dice.shuffled(records))
        piece = bytes(dice.pick(b"abAB") for _ in range(6))
        tape.load_all(data, opened(data), piece)
        for count in range(len(piece) + 1):
            for number in dice.some(states, 3):
                tape.ask(0, dice.chance(30), number, count, *enough(count))


def other_kinds(tape, dice):
    """Signatures that are due but for a higher byte, and edges at byte 0 where the numbers are those of a start or an accept record."""
    for _ in range(30):
        sample = drawn.any_list(dice)
        piece = some_piece(dice, sample, 4)
        tape.load_all(sample.data, opened(sample.data), piece)
        for count in range(len(piece) + 1):
            for signature in dice.some(sorted({a.signature for a in sample.nfa.accepts}), 2):
                tape.ask(0, False, signature, count, *enough(count))
                tape.ask(0, False, signature + 256 * dice.pick([1, 3, 2 ** 24 - 1]), count, *enough(count))
        for one in dice.some(sorted(sample.nfa.accepts), 3):
            tape.edge(one.state, 0, one.signature)
        for state in dice.some(sorted(sample.nfa.starts), 2):
            tape.edge(0, 0, state)


GROUPS = [worked, questions, against_all, lengths, refusals, edges, longer, small_numbers, other_kinds]
