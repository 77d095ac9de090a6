"""The cases for joining and folding, in groups."""

from second import sizes
from second.join import model as joins
from second.list import drawn
from second.list.drawn import accept, edge, start

# The longest list of states that a small list may name.
FEW = 24


# Lists

def small_list(dice):
    """Some records over few states: with a loop that every byte takes, with a start that no edge leads to, with both or with neither."""
    states = dice.between(1, FEW)
    records = [start(dice.below(states)) for _ in range(dice.between(1, 3))]
    if dice.chance(50):
        one = dice.below(states)
        records += [edge(0, 255, one, one)] + ([start(one)] if dice.chance(80) else [])
    for _ in range(dice.between(0, 30)):
        low, high = sorted([dice.pick([0, 97, 98, 255]), dice.pick([0, 97, 98, 255])])
        records.append(edge(low, high, dice.below(states), dice.below(states), dice.below(2)))
    records += [accept(dice.below(states), dice.pick([0, 7, 255])) for _ in range(dice.below(4))]
    return b"".join(dice.shuffled(records))


def alike_list(dice):
    """Words that begin alike, each with states of its own, behind one start: most of their states fold."""
    records, at = [start(0)] + ([edge(0, 255, 0, 0)] if dice.chance(70) else []), 1
    for word in range(dice.between(1, 6)):
        state = 0
        for letter in range(dice.between(1, 5)):
            byte = dice.pick([97, 97, 98])
            records.append(edge(byte, byte, state, at, dice.pick([0, 0, 0, 1])))
            if dice.chance(15):
                records.append(edge(0, 255, at, at))
            state, at = at, at + 1
        records.append(accept(state, word))
    return b"".join(records if dice.chance(70) else dice.shuffled(records))


def some_list(dice):
    kind = dice.below(4)
    if kind == 0:
        return drawn.any_list(dice).data
    return small_list(dice) if kind < 3 else alike_list(dice)


def long_list(dice, records, states, loop):
    """So many records, with so many states that all are named."""
    made = [start(0)] + ([edge(0, 255, 0, 0)] if loop else [])
    made += [edge(97, 98, dice.below(states), state) for state in range(1, states)]
    made += [edge(byte, byte, dice.below(states), 1 + dice.below(states - 1)) for byte in dice.bytes(records - len(made))]
    assert len(made) == records
    return b"".join(made)


# Joining

def behind(dice):
    return dice.bytes(dice.pick([0, 0, 3, 8, 40]))


def joined_lists(tape, dice):
    """Two lists with room, and others joined to what they make."""
    for _ in range(260):
        front, other = some_list(dice), some_list(dice)
        tape.lend(front + dice.bytes(len(other) + dice.below(30)))
        tape.load_other(other)
        made = tape.join(len(front))
        if made.refusal == 0 and dice.chance(30):
            tape.load_other(some_list(dice)[:made.length])
            tape.join(made.length)


def join_rooms(tape, dice):
    """Room for the joined list, and a byte less; a front that is longer than the lent list."""
    for _ in range(110):
        front, other = small_list(dice), small_list(dice)
        size = len(joins.pack(joins.joined(joins.unpack(front), joins.unpack(other))))
        tape.load_other(other)
        for length in (size, size - 1, size + dice.below(9)):
            tape.lend((front + dice.bytes(size))[:max(length, len(front))])
            tape.join(len(front))
        tape.lend(front)
        tape.join(dice.pick([len(front) + 1, len(front) + 8, 2 ** 32, 2 ** 64 - 1]))


def bad_fronts(tape, dice):
    """1 to 3 of the front, before what is wrong with the other list."""
    for _ in range(70):
        for number in (1, 2, 3):
            front = drawn.broken_list(dice, drawn.any_list(dice), number)
            tape.lend(front + behind(dice))
            tape.load_other(dice.pick([b"", some_list(dice), small_list(dice)[:-1]]))
            tape.join(len(front))


def bad_others(tape, dice):
    """27, before what is wrong with the room."""
    for _ in range(40):
        for number in (1, 2, 3):
            front = some_list(dice)
            tape.lend(front + behind(dice))
            tape.load_other(drawn.broken_list(dice, drawn.any_list(dice), number))
            tape.join(dice.pick([len(front), len(front), len(front) + 1000]))


def join_limits(tape, dice):
    """The most states and one more, the most records and one more, each with a shared state and without."""
    for loop in (True, False):
        for over in (0, 1):
            first, second = long_list(dice, 600, 512, loop), long_list(dice, 600, 512 + loop + over, True)
            tape.lend(first + bytes(len(second)))
            tape.load_other(second)
            tape.join(len(first))
            first, second = long_list(dice, 4096, 300, loop), long_list(dice, 4096 + 2 * loop + over, 300, True)
            tape.lend(first + bytes(sizes.MOST_LIST + 8 - len(first)))
            tape.load_other(second)
            tape.join(len(first))


def join_nothing(tape, dice):
    """Lists that add no record: joined where they fit, and 28 with more bytes in use than are lent."""
    for _ in range(20):
        stays = dice.chance(50)
        front = start(0) + (edge(0, 255, 0, 0) if stays else edge(97, 98, 0, 1)) + accept(1, dice.below(256))
        tape.load_other(start(0) + (edge(0, 255, 0, 0) if stays else b""))
        tape.lend(front + behind(dice))
        tape.join(len(front))
        tape.lend(front)
        tape.join(len(front) + dice.pick([1, 8, 2 ** 32, 2 ** 64 - 1 - len(front)]))


# Folding

def folded_lists(tape, dice):
    """Lists of all shapes, with room for the whole list and behind it; what is made is folded again."""
    for _ in range(260):
        data = alike_list(dice) if dice.chance(50) else some_list(dice)
        tape.load_other(data)
        tape.lend(dice.bytes(len(data) + dice.below(20)))
        made = tape.fold()
        if dice.chance(30):
            tape.load_other(made.left[:made.length])
            tape.fold()


def fold_rooms(tape, dice):
    """Room for the folded list, and a byte less."""
    for _ in range(90):
        data = alike_list(dice)
        size = len(joins.pack(joins.folded(joins.unpack(data))))
        tape.load_other(data)
        for length in (size, size - 1, 0):
            tape.lend(dice.bytes(length))
            tape.fold()


def bad_folds(tape, dice):
    """1 to 3, before what is wrong with the room."""
    for _ in range(70):
        for number in (1, 2, 3):
            tape.load_other(drawn.broken_list(dice, drawn.any_list(dice), number))
            tape.lend(behind(dice))
            tape.fold()


def fold_limits(tape, dice):
    """The most records and the last state; one record more."""
    data = long_list(dice, sizes.MOST_RECORDS, sizes.STATES, True)
    for one in (data, data + start(0)):
        tape.load_other(one)
        tape.lend(bytes(len(one)))
        tape.fold()


GROUPS = [joined_lists, join_rooms, bad_fronts, bad_others, join_limits, join_nothing, folded_lists, fold_rooms, bad_folds, fold_limits]
