"""A maker of certificates: it explores pairs of a configuration and a set, breadth first from the opening. And makers of automata that are a list's."""

from collections import deque

from second.certificate.model import START, key, pack
from second.list import model
from second.machine import model as machines
from second.sizes import MOST_NOTES


class NoCertificate(Exception):
    """There is none, and why; with the text that shows it."""


def explore(data, moves, programs):
    """The records of the smallest certificate, each a configuration and a set, in the order in which they are found."""
    nfa = model.automaton(data)
    config, alerted = machines.run(machines.instructions(programs, 0), START)
    found, order, todo = {}, [], deque()

    def meet(config, alerted, members, text):
        if alerted != set(nfa.signatures(members)):
            raise NoCertificate("the alerts are not what the set accepts", text)
        if key(config) in found:
            if found[key(config)] != members:
                raise NoCertificate("a configuration is met with two sets", text)
            return
        if len(found) == MOST_NOTES:
            raise NoCertificate("too many configurations", text)
        found[key(config)] = members
        order.append((config, members))
        todo.append((config, members, text))

    meet(config, alerted, nfa.starts, b"")
    while todo:
        config, members, text = todo.popleft()
        ways = {}
        for byte in range(256):
            ways.setdefault((machines.target(moves, config.state, byte), nfa.step(members, byte)), byte)
        for (_, new), byte in ways.items():
            meet(*machines.step(moves, programs, config, byte), new, text + bytes([byte]))
    return order


def packed(notes):
    return b"".join(pack(config, members) for config, members in notes)


def certificate(data, moves, programs):
    return packed(explore(data, moves, programs))


# Automata that are a list's

def program(*records):
    data = b"".join(bytes([kind, which]) + number.to_bytes(2, "little") for kind, which, number in records)
    return data + bytes(machines.X_PROGRAM_SIZE - len(data))


def moves_by(states, lead):
    """The moves of so many states, where lead(state, byte) is the target."""
    return b"".join(lead(state, byte).to_bytes(2, "little") for state in range(states) for byte in range(256))


def reached(data, most):
    """The sets that can be reached, the start set first; None where there are more than these, or one accepts more than a program can alert."""
    nfa = model.automaton(data)
    sets, todo = {nfa.starts: 0}, deque([nfa.starts])
    while todo:
        members = todo.popleft()
        if len(nfa.signatures(members)) > machines.RECORDS:
            return None
        for byte in range(256):
            after = nfa.step(members, byte)
            if after not in sets:
                if len(sets) == most:
                    return None
                sets[after] = len(sets)
                todo.append(after)
    return list(sets)


def determinised(data, sets, copies=1):
    """An automaton with a state for each of these sets, or so many states a set, which bytes take in turn."""
    nfa = model.automaton(data)
    places = {members: place for place, members in enumerate(sets)}

    def lead(state, byte):
        copy, place = divmod(state, len(sets))
        return places[nfa.step(sets[place], byte)] + len(sets) * ((copy + byte) % copies)

    alerts = [program(*((machines.ALERT, 0, one) for one in nfa.signatures(members))) for members in sets]
    return moves_by(copies * len(sets), lead), b"".join(alerts) * copies
