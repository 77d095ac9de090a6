"""The cases of the builder: lists, and the lengths of the four lists that are lent."""

from second.list import examples, model
from second.list.drawn import accept, any_list, broken_list, edge, start
from second.sizes import BYTE_VALUES, MOST_CLASS, MOST_PARTS, STATES
from second.table import model as tables
from second.table.model import LENT

# Enough cases of each refusal, and of a table.
NEEDED = {0: 100, 1: 12, 2: 12, 3: 12, 16: 60, 17: 80}


def chain(places, letters=(97,)):
    """State 0 stays for ever and leads on at these letters; the frontier remembers at which of the last bytes: 2 ** places sets."""
    return b"".join([start(0), edge(0, 255, 0, 0), *(edge(c, c, 0, 1) for c in letters),
                     *(edge(0, 255, at, at + 1) for at in range(1, places)), accept(places, 7)])


def late(places, before, letters=(97,)):
    """The same behind a row of so many states, each with a frontier of its own: that many sets more."""
    ahead = [*range(STATES - before, STATES), 0]
    edges = b"".join(edge(0, 255, at, to) for at, to in zip(ahead, ahead[1:]))
    return start(ahead[0]) + edges + chain(places, letters)[len(start(0)):]


def fan(letters, first=0):
    """State 0 leads to another state at each of these letters: a class for each, and one for the others."""
    return b"".join([start(0), *(edge(first + i, first + i, 0, 1 + i) for i in range(letters)), accept(1, 1)])


def few_over(dice, records, places):
    """A list with 2 ** places sets and other records that no frontier meets."""
    rest = [edge(low, low + dice.below(4), dice.between(40, STATES - 1), dice.below(STATES))
            for low in (4 * dice.below(BYTE_VALUES // 4) for _ in range(records))]
    return chain(places, (96, 97, 98, 99)) + b"".join(rest)


def worked(tape):
    """The worked cases, each with what it has to be."""
    refusal, table = tape.ask(examples.LIST)
    assert refusal == 0 and table.classes == examples.TABLE.classes
    assert [len(front) for front in table] == [256, 384, 1152, 408]
    assert table.parts == b"".join(model.pack_set(frozenset(part)) for part in ({0}, {0, 1}, {0, 2}))
    refusal, table = tape.ask(b"".join([start(0), edge(97, 97, 0, 8), edge(98, 98, 8, 0)]))
    assert refusal == 0 and tables.decoded(table).parts == [frozenset(), frozenset({8}), frozenset({0})]
    assert [split.slots[0] for split in tables.decoded(table).splits] == [0, 1, 2]
    for places, refusal in ((9, 0), (10, 0), (11, 16), (12, 16)):
        assert tape.ask(chain(places))[0] == refusal
    for places, before, refusal in ((10, 1, 16), (9, 511, 0), (9, 512, 0), (9, 513, 16), (8, 768, 0), (8, 769, 16)):
        assert tape.ask(late(places, before))[0] == refusal
    for letters, refusal in ((MOST_CLASS - 1, 0), (MOST_CLASS, 0), (MOST_CLASS + 1, 16), (BYTE_VALUES, 16)):
        assert tape.ask(fan(letters))[0] == refusal
    for either, count in ((0, 2), (1, 2)):
        refusal, table = tape.ask(start(0) + edge(97, 97, 0, 1, either))
        assert refusal == 0 and max(table.classes) + 1 == count and table.classes[65] == either
    # 17 before 16, and 3 before 17; a longer list than is needed.
    for data, refusal in ((chain(11), 17), (examples.LIST, 17), (examples.NO_START, 3)):
        for at in range(4):
            for less in (1, LENT[at] // 2, LENT[at]):
                lent = [length - less * (at == i) for i, length in enumerate(LENT)]
                assert tape.ask(data, *lent)[0] == refusal
    for data, refusal in ((chain(11), 16), (fan(64), 16), (examples.LIST, 0), (examples.NO_START, 3)):
        assert tape.ask(data, *[length + 1 + 300 * at for at, length in enumerate(LENT)])[0] == refusal


def drawn(tape, dice):
    """Lists at random, small ones mostly, with lists that are lent longer, short, or as long as is needed."""
    while tape.lacks(NEEDED):
        shape = dice.below(13)
        lent = [length + dice.pick([0, 0, 0, 1, 7, 4096]) for length in LENT]
        if shape < 3:
            data = any_list(dice).data
        elif shape < 6:
            data = broken_list(dice, any_list(dice), dice.between(1, 3))
        elif shape < 8:
            data = fan(dice.between(MOST_CLASS - 2, MOST_CLASS + 9), dice.below(150))
        elif shape < 9:
            data = few_over(dice, dice.between(1, 60), dice.between(2, 12))
        elif shape < 10:
            places = dice.between(4, 9)
            data = late(places, MOST_PARTS - 2 ** places + dice.between(0, 1))
        else:
            data = any_list(dice).data
            at = dice.below(4)
            lent[at] = dice.pick([0, 1, LENT[at] - 1, LENT[at] - 128, dice.below(LENT[at])])
        tape.ask(data, *lent)


def make(tape, dice):
    tape.group("worked")
    worked(tape)
    tape.group("drawn")
    drawn(tape, dice)
