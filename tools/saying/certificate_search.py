"""Looks for the certificate that an automaton with bits and counters is a list's, and says why there
is none. Not proved.

Automaton and list go side by side from the opening, breadth first over pairs of a configuration and
a set; so the first input on which they tell other pairs is a shortest one. What is met is what every
certificate has to record. Bytes on which every edge and every state's moves go alike are stepped
once. The search goes on past what a certificate has room for, since an input that shows a difference
says more than a number.
"""

from collections import namedtuple

from second import sizes
from second.certificate.model import START, key
from second.list import model
from second.machine import model as machines
from second.sizes import MOST_NOTES

MOST_PAIRS = 65536  # that the search meets before it gives up

# The records, a configuration and a set each, in the order in which they are met.
Found = namedtuple("Found", "notes")
# A shortest input on which the two tell other pairs.
Other = namedtuple("Other", "text")
# A configuration, two sets that it is met with, and after which inputs.
Two = namedtuple("Two", "config sets texts")
# How many are met, and in inputs of how many bytes; whether these are all.
Many = namedtuple("Many", "configs sets length whole")


# The bytes in the order in which one is taken for its class: those that can be seen first.
SEEN_FIRST = [*b"abcdefghijklmnopqrstuvwxyz0123456789", *range(65, 91), *range(33, 48), *range(58, 65), *range(91, 97), *range(123, 127),
              *range(33), *range(127, 256)]


def classes(data, moves):
    """A byte for each class of bytes on which all states of the list and all moves go alike."""
    shapes = {}
    for record in model.cut(data, sizes.RECORD_SIZE):
        if record[0] == 1:
            shapes.setdefault(record[1:4], set()).add(record[4:8])
    edges = [(model.Edge(low, high, 0, 0, either == 1), leads) for (low, high, either), leads in shapes.items()]
    joined, found = {}, {}
    for byte in SEEN_FIRST:
        taken = tuple(edge.takes(byte) for edge, _ in edges)
        if taken not in joined:
            joined[taken] = frozenset().union(*(leads for (_, leads), one in zip(edges, taken) if one))
        found.setdefault((joined[taken], moves[2 * byte::machines.X_MOVES_SIZE], moves[2 * byte + 1::machines.X_MOVES_SIZE]), byte)
    return list(found.values())


class Sets:
    """The list's automaton over sets as numbers: state s is worth 2 ** s."""

    def __init__(self, data, letters):
        self.start, self.signatures, self.after, self.told = 0, {}, {}, {}
        self.leads = {byte: {} for byte in letters}
        for record in model.cut(data, sizes.RECORD_SIZE):
            middle, last = model.number(record[4:6]), model.number(record[6:8])
            if record[0] == 1:
                edge = model.Edge(record[1], record[2], middle, last, record[3] == 1)
                for byte in letters:
                    if edge.takes(byte):
                        self.leads[byte][middle] = self.leads[byte].get(middle, 0) | 1 << last
            elif record[0] == 2:
                self.start |= 1 << last
            else:
                self.signatures.setdefault(middle, set()).add(last)

    def states(self, number):
        return [state for state in range(number.bit_length()) if number >> state & 1]

    def step(self, number, byte):
        if (number, byte) not in self.after:
            lead = self.leads[byte]
            after = 0
            for state in self.states(number):
                after |= lead.get(state, 0)
            self.after[number, byte] = after
        return self.after[number, byte]

    def accepted(self, number):
        if number not in self.told:
            accepted = (self.signatures.get(state, ()) for state in self.states(number))
            self.told[number] = set().union(*accepted)
        return self.told[number]


class Search:
    """The pairs met so far, each with its number: the pair before it and the byte between."""

    def __init__(self, data, moves, programs):
        self.letters = classes(data, moves)
        self.sets, self.moves = Sets(data, self.letters), moves
        self.programs = [[one for one in machines.instructions(programs, state) if one.kind != machines.NOTHING]
                         for state in range(len(moves) // machines.X_MOVES_SIZE)]
        self.met, self.pairs, self.before, self.by_config, self.two = {}, [], [], {}, None

    def text(self, at):
        out = []
        while self.before[at] is not None:
            at, byte = self.before[at]
            out.append(byte)
        return bytes(reversed(out))

    def meet(self, config, alerted, number, before):
        """Puts a pair to the others, or answers how to come to it where its alerts are not what the set
        accepts."""
        if alerted != self.sets.accepted(number):
            return Other(self.text(before[0]) + bytes([before[1]]) if before else b"")
        name = key(config)
        if (name, number) not in self.met:
            at = self.met[name, number] = len(self.pairs)
            self.pairs.append((config, number))
            self.before.append(before)
            first = self.by_config.setdefault(name, at)
            if first != at and self.two is None:
                self.two = first, at
        return None

    def ways(self, config, number):
        """The steps of a pair that differ: state and set after it, with a byte of each."""
        out = {}
        for byte in self.letters:
            out.setdefault((machines.target(self.moves, config.state, byte), self.sets.step(number, byte)), byte)
        return out

    def run(self):
        """What is found: `Found`, `Other`, `Two` or `Many`."""
        config, alerted = machines.run(self.programs[0], START)
        other = self.meet(config, alerted, self.sets.start, None)
        at = 0
        while other is None and at < len(self.pairs) <= MOST_PAIRS:
            config, number = self.pairs[at]
            for (state, after), byte in self.ways(config, number).items():
                new, alerted = machines.run(self.programs[state], machines.Config(state, config.bits, config.counters))
                other = other or self.meet(new, alerted, after, (at, byte))
            at += 1
        return other or self.verdict(at == len(self.pairs))

    def verdict(self, whole):
        """What is to be said where no input was met on which the two differ, all met or not."""
        configs, sets = len(self.by_config), len({number for _, number in self.pairs})
        if not whole or configs > MOST_NOTES or sets > MOST_NOTES:
            return Many(configs, sets, len(self.text(len(self.pairs) - 1)), whole)
        if self.two is not None:
            config = self.pairs[self.two[0]][0]
            return Two(config, [self.sets.states(self.pairs[at][1]) for at in self.two],
                       [self.text(at) for at in self.two])
        return Found([(config, frozenset(self.sets.states(number)))
                      for config, number in self.pairs])


def search(data, moves, programs):
    """Of a list that passes rules 1 to 3 and an automaton that passes rule 24."""
    return Search(data, moves, programs).run()
