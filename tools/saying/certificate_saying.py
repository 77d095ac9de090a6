"""What tools/show says of a certificate."""

from saying import machine_saying
from second.certificate import model as certificates
from second.list import model
from second.machine import model as machines


def said(numbers):
    return "{%s}" % ", ".join(str(number) for number in sorted(numbers)) if numbers else "no state"


def told(numbers):
    return ", ".join(str(number) for number in sorted(numbers)) if numbers else "nothing"


def configuration(config):
    words = ["state %d" % config.state]
    words += ["bit %d" % bit for bit in sorted(config.bits)]
    words += ["counter %d at %d" % item for item in sorted(config.counters.items())]
    return ", ".join(words)


def bad_fields(moves, data):
    """The first record that a flow record's rule refuses, in words."""
    for place, note in enumerate(model.cut(data, certificates.NOTE_SIZE)):
        if machines.bad_record(moves, certificates.flow_record(note)):
            if machines.number(note[0:2]) >= len(moves) // machines.X_MOVES_SIZE:
                return "record %d: the automaton has no state %d" % (place, machines.number(note[0:2]))
            if note[2:4] != bytes(2):
                return "record %d: a reserved byte, 2 or 3, is not zero" % place
            at = next(at for at in range(12, certificates.CONFIG_SIZE, 4) if machines.number(note[at:at + 4]) > machines.X_OFF)
            return "record %d: counter %d is %d, over %d" % (place, (at - 12) // 4, machines.number(note[at:at + 4]), machines.X_OFF)
    return None


def against(book, nfa, config, alerted, members, how):
    """Why what a program leaves is not that of a set."""
    if certificates.key(config) not in book:
        return "%s to %s, which no record has" % (how, configuration(config))
    place, recorded = book[certificates.key(config)]
    if recorded != members:
        return "%s to record %d, which has %s, and the list has %s there" % (how, place, said(recorded), said(members))
    if alerted != set(nfa.signatures(members)):
        return "%s to record %d and alerts %s, and the list accepts %s there" % (how, place, told(alerted), told(nfa.signatures(members)))
    return None


def first_fault(nfa, moves, programs, data):
    """The first place that rule 22 refuses, in words; None where it passes."""
    count, rest = divmod(len(data), certificates.NOTE_SIZE)
    if rest != 0 or count > certificates.MOST_NOTES:
        return "%d bytes, which is not %d for each of at most %d records" % (len(data), certificates.NOTE_SIZE, certificates.MOST_NOTES)
    fault = bad_fields(moves, data)
    if fault is not None:
        return fault
    book, configs = {}, []
    for place, note in enumerate(model.cut(data, certificates.NOTE_SIZE)):
        config, _ = machines.unpack(certificates.flow_record(note))
        if certificates.key(config) in book:
            return "records %d and %d have the same configuration" % (book[certificates.key(config)][0], place)
        book[certificates.key(config)] = place, model.unpack_set(note[certificates.CONFIG_SIZE:])
        configs.append(config)
    config, alerted = machines.run(machines.instructions(programs, 0), certificates.START)
    fault = against(book, nfa, config, alerted, nfa.starts, "the opening leads")
    for config in configs if fault is None else ():
        place, members = book[certificates.key(config)]
        for byte in range(256):
            how = "record %d on %s leads" % (place, machine_saying.byte(byte))
            fault = against(book, nfa, *machines.step(moves, programs, config, byte), nfa.step(members, byte), how)
            if fault is not None:
                return fault
    return fault


def tell(data, moves, programs, noted):
    """Refusal and lines of a certificate for a list and an automaton."""
    refusal = certificates.refusal(data, moves, programs, noted)
    if refusal in (1, 2, 3):
        return refusal, ["the certificate is refused, %d, for the list is" % refusal]
    if refusal == 24:
        return refusal, ["the certificate is refused, 24, for the automaton is"]
    if refusal == 22:
        return refusal, ["the certificate is refused, 22: " + first_fault(model.automaton(data), moves, programs, noted)]
    count = machine_saying.count(len(noted) // certificates.NOTE_SIZE, "record", "records")
    return 0, ["a certificate of %s: it passes, and the automaton tells the pairs of the list" % count]
