"""The cases of splits and an index straight from a list, with the lengths of the two lent lists."""

from second.index.model import LENT, place_of
from second.list import examples, model
from second.list.drawn import accept, any_list, broken_list, edge, start
from second.sizes import MOST_SPLITS, SPLIT_SIZE
from second.table.building import chain, fan, few_over, late

# Enough cases of each refusal, and of splits with their index.
NEEDED = {0: 100, 1: 60, 2: 60, 3: 60, 16: 60, 17: 80}


def fork(places, before):
    """Chains side by side, each for a byte of its own, behind a row of so many states: a set for
    each of these, and the sets of the chains."""
    row = range(1, before + 1)
    records = [start(1), *(edge(0, 255, at, at + 1) for at in row[:-1])]
    base = 100
    for byte, many in enumerate(places):
        records += [edge(byte, byte, before, base), edge(0, 255, base, base),
                    edge(97, 97, base, base + 1), accept(base + many, byte)]
        records += [edge(0, 255, base + at, base + at + 1) for at in range(1, many)]
        base += many + 1
    records.append(edge(len(places), 255, before, 100))
    return b"".join(records)


def worked(tape):
    """The worked cases, each with what it has to be."""
    refusal, made = tape.ask(examples.LIST)
    assert refusal == 0 and [len(front) for front in made] == [3 * SPLIT_SIZE, place_of(3)]
    assert made[0] == b"".join(model.pack_set(frozenset(members)) + b"\xff" * 8
                               for members in ({0}, {0, 1}, {0, 2}))
    refusal, made = tape.ask(b"".join([start(0), edge(97, 97, 0, 8), edge(98, 98, 8, 0)]))
    assert refusal == 0 and len(made[0]) == 3 * SPLIT_SIZE
    # 4,096 sets and one more, in several ways; more classes than a table may have.
    for places, refusal in ((11, 0), (12, 0), (13, 16)):
        assert tape.ask(chain(places))[0] == refusal
    assert tape.ask(late(12, 1))[0] == 16 and tape.ask(late(11, 1000))[0] == 0
    for before, refusal in ((1, 0), (2, 0), (3, 16)):
        refusal_now, made = tape.ask(fork(range(1, 12), before))
        assert refusal_now == refusal
        assert refusal or len(made[0]) == SPLIT_SIZE * (MOST_SPLITS - 2 + before)
    for letters in (62, 63, 64, 200, 256):
        assert tape.ask(fan(letters))[0] == 0
    # 17 before 16, and 3 before 17; one byte less, half, none; longer lists than are needed.
    for data, refusal in ((chain(13), 17), (examples.LIST, 17), (examples.NO_START, 3)):
        for at in range(2):
            for less in (1, LENT[at] // 2, LENT[at]):
                lent = [length - less * (at == i) for i, length in enumerate(LENT)]
                assert tape.ask(data, *lent)[0] == refusal
    for data, refusal in ((chain(13), 16), (fan(64), 0), (examples.LIST, 0),
                          (examples.NO_START, 3)):
        assert tape.ask(data, *[length + 1 + 300 * at for at, length in enumerate(LENT)])[0] == refusal


def wide_chain(dice):
    """More sets than there may be splits, with other records that no frontier meets."""
    return few_over(dice, dice.between(1, 2), dice.between(13, 16))


def drawn(tape, dice):
    """Lists at random, small ones mostly, with lists that are lent longer, short, or as long as is
    needed."""
    while tape.lacks(NEEDED):
        shape = dice.below(14)
        lent = [length + dice.pick([0, 0, 0, 1, 7, 4096]) for length in LENT]
        if shape < 4:
            data = any_list(dice).data
        elif shape < 8:
            data = broken_list(dice, any_list(dice), dice.between(1, 3))
        elif shape < 9:
            data = fan(dice.between(60, 72), dice.below(150))
        elif shape < 10:
            data = few_over(dice, dice.between(1, 9), dice.between(2, 6))
        elif shape < 12:
            data = wide_chain(dice)
        else:
            data = any_list(dice).data
            at = dice.below(2)
            lent[at] = dice.pick([0, 1, LENT[at] - 1, LENT[at] - 128, dice.below(LENT[at])])
        tape.ask(data, *lent)


def make(tape, dice):
    tape.group("worked")
    worked(tape)
    tape.group("drawn")
    drawn(tape, dice)
