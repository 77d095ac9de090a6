"""Lists and automata that have a certificate: of reached sets, with a counter where the list counts by states, with bits where it remembers by states."""

from second import sizes
from second.certificate.explore import determinised, explore, moves_by, packed, program, reached
from second.list import drawn, model
from second.list.drawn import accept, edge, start
from second.machine import model as machines
from second.sizes import NOTE_SIZE
from second.tape import put


class Base:
    """A list, an automaton, and the records of the smallest certificate, each a configuration and a set."""

    def __init__(self, records, moves, programs):
        self.records = records
        self.data = b"".join(records)
        self.moves, self.programs = moves, programs
        self.states = len(moves) // machines.X_MOVES_SIZE
        self.notes = explore(self.data, moves, programs)
        self.nfa = model.automaton(self.data)
        used = [one for state in range(self.states) for one in machines.instructions(programs, state)]
        self.free_bits = sorted(set(range(machines.X_BITS)) - {one.which for one in used if one.kind in machines.ON_BITS})
        self.free_counters = sorted(set(range(machines.X_COUNTERS)) - {one.which for one in used if one.kind in machines.ON_COUNTERS})
        self.unnamed = sorted(set(range(sizes.STATES)) - self.nfa.named)
        self.certificate = packed(self.notes)

    def places(self):
        """The first record, a middle one and the last."""
        return sorted({0, len(self.notes) // 2, len(self.notes) - 1})

    def shadow(self, on=(), counters=None):
        """The records with bits set and counters on that no program touches: nothing reaches them, and they close among themselves."""
        return [(config._replace(bits=config.bits | set(on), counters={**config.counters, **(counters or {})}), members)
                for config, members in self.notes]


def by_sets(dice, most=10, copies=None):
    """The reached sets of any list, with one state a set or several."""
    while True:
        sample = drawn.any_list(dice)
        sets = reached(sample.data, most)
        if sets is not None:
            times = copies or dice.pick([1, 1, 1, 2, 3])
            return Base(sample.records, *determinised(sample.data, sets, times))


def numbered(dice, count):
    """So many list states, from any on."""
    first = dice.pick([0, 1, 7, 60, 250, 700, sizes.STATES - count])
    return range(first, first + count)


def counted(dice, wait, again=True):
    """A signature so many bytes after the first 'a', which a line feed begins anew, or nothing: the list has a state a byte, the automaton a counter."""
    names, signature, counter = numbered(dice, wait + 3), dice.below(256), dice.below(16)
    records = [start(names[0]), accept(names[wait + 1], signature), edge(0, 96, names[0], names[0]), edge(98, 255, names[0], names[0]),
               edge(97, 97, names[0], names[1])]
    for at in range(1, wait + 2):
        after = names[min(at + 1, wait + 2)]
        records += [edge(0, 9, names[at], after), edge(11, 255, names[at], after)]
        records.append(edge(10, 10, names[at], names[0] if again else after))
    last = names[wait + 2]
    records += [edge(0, 9, last, last), edge(11, 255, last, last), edge(10, 10, last, names[0] if again else last)]
    programs = (program((4, counter, 0)) + program((3, counter, wait), *([(8, counter, signature)] if wait == 0 else []))
                + program((5, counter, 0), (8, counter, signature)))

    def lead(state, byte):
        if state == 0:
            return 1 if byte == 97 else 0
        return 0 if byte == 10 and again else 2

    return Base(dice.shuffled(records), moves_by(3, lead), programs)


def remembered(dice, count):
    """For each of so many letters a signature when its capital comes after it: the list has two states a letter, the automaton a bit."""
    names, signatures = numbered(dice, 3 * count), dice.some(range(256), count)
    which = dice.some(range(64), count)
    records, programs = [], [program()]
    for i in range(count):
        waiting, seen, told = names[3 * i:3 * i + 3]
        letter = 97 + i
        records += [start(waiting), edge(0, 255, waiting, waiting), edge(letter, letter, waiting, seen), edge(0, 255, seen, seen),
                    edge(letter - 32, letter - 32, seen, told), accept(told, signatures[i])]
        programs += [program((1, which[i], 0)), program((7, which[i], signatures[i]))]

    def lead(state, byte):
        if 97 <= byte < 97 + count:
            return 2 * (byte - 97) + 1
        return 2 * (byte - 65) + 2 if 65 <= byte < 65 + count else 0

    return Base(dice.shuffled(records), moves_by(2 * count + 1, lead), b"".join(programs))


def told_at_once(dice):
    """A start state that accepts, and is never entered again: the alerts at opening are of no step."""
    names, signatures = numbered(dice, 3), dice.some(range(256), dice.between(1, 4))
    records = ([start(names[0])] + [accept(names[0], one) for one in signatures] + [edge(0, 255, names[0], names[1]), edge(0, 255, names[1], names[1]),
               edge(120, 120, names[1], names[2]), accept(names[2], 9)])
    programs = program(*[(6, 0, one) for one in dice.shuffled(signatures)]) + program() + program((6, 0, 9))

    def lead(state, byte):
        return 2 if byte == 120 and state != 0 else 1

    return Base(dice.shuffled(records), moves_by(3, lead), programs)


def quiet(dice, count):
    """A chain of states that one letter goes along, and the same chain as a list: no signature but at its end."""
    names = numbered(dice, count)
    records = [start(names[0]), accept(names[count - 1], 255)]
    for at in range(count):
        records += [edge(0, 96, names[at], names[0]), edge(98, 255, names[at], names[0]), edge(97, 97, names[at], names[min(at + 1, count - 1)])]
    moves = moves_by(count, lambda state, byte: min(state + 1, count - 1) if byte == 97 else 0)
    return Base(records, moves, bytes(32 * (count - 1)) + program((6, 0, 255)))


def any_base(dice):
    shape = dice.below(10)
    if shape < 5:
        return by_sets(dice)
    if shape < 7:
        return counted(dice, dice.between(0, 6), dice.chance(50))
    if shape < 8:
        return remembered(dice, dice.between(1, 2))
    if shape < 9:
        return told_at_once(dice)
    return quiet(dice, dice.between(2, 5))


def with_note(data, place, note):
    """A certificate with another record at a place."""
    return put(data, NOTE_SIZE * place, note)


def without_note(data, place):
    return data[:NOTE_SIZE * place] + data[NOTE_SIZE * (place + 1):]


def inserted(data, place, note):
    """A certificate with one record more, which comes to stand at a place."""
    return data[:NOTE_SIZE * place] + note + data[NOTE_SIZE * place:]

