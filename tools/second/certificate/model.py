"""The rules of a certificate: that an automaton with bits and counters is a list's. Over dicts keyed by the configuration.

A certificate is read into a dict: a configuration, a set of list states. Every function takes any bytes and gives the answer that the rules fix.
"""

from second.list import model
from second.machine import model as machines
from second.sizes import MOST_NOTES, NOTE_SIZE

CONFIG_SIZE = 76

START = machines.Config(0, frozenset(), {})


def key(config):
    """A configuration as something that a dict can be keyed by."""
    return config.state, config.bits, frozenset(config.counters.items())


def flow_record(note):
    """The flow record that the front of a record is, at offset 0."""
    return note[:4] + bytes(4) + note[4:CONFIG_SIZE]


def pack(config, members):
    record = machines.pack(config, 0)
    return record[:4] + record[8:] + model.pack_set(members)


def read(moves, certificate):
    """The dict of a certificate with good length and fields, in which no configuration is twice; else None."""
    if len(certificate) % NOTE_SIZE != 0 or len(certificate) // NOTE_SIZE > MOST_NOTES:
        return None
    book = {}
    for note in model.cut(certificate, NOTE_SIZE):
        if machines.bad_record(moves, flow_record(note)):
            return None
        config, _ = machines.unpack(flow_record(note))
        if key(config) in book:
            return None
        book[key(config)] = model.unpack_set(note[CONFIG_SIZE:])
    return book


def stands(book, nfa, config, alerted, members):
    """Whether a configuration is recorded with this set, and what was alerted is what the set accepts."""
    return book.get(key(config)) == members and alerted == set(nfa.signatures(members))


def accepted(nfa, moves, programs, certificate):
    book = read(moves, certificate)
    if book is None:
        return False
    config, alerted = machines.run(machines.instructions(programs, 0), START)
    if not stands(book, nfa, config, alerted, nfa.starts):
        return False
    for (state, on, counters), members in book.items():
        for target, after in {(machines.target(moves, state, byte), nfa.step(members, byte)) for byte in range(256)}:
            config, alerted = machines.run(machines.instructions(programs, target), machines.Config(target, on, dict(counters)))
            if not stands(book, nfa, config, alerted, after):
                return False
    return True


def refusal(data, moves, programs, certificate):
    """1 to 3, then 24, then 22, or 0."""
    refused = model.list_refusal(data)
    if refused == 0:
        refused = machines.refused(moves, programs)
    if refused == 0 and not accepted(model.automaton(data), moves, programs, certificate):
        refused = 22
    return refused
