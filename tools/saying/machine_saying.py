"""What tools/show says of an automaton with bits and counters and of a flow record of one. Its words
of an automaton are those that tools/counters reads."""

from saying import machine_words
from second.machine import model as machines

MOST_STATES = 64  # that are shown unless all are asked for


def count(number, one, many):
    return "%d %s" % (number, one if number == 1 else many)


def byte(value):
    return "'%s'" % chr(value) if 32 < value < 127 and value != 39 else "%02X" % value


def why_bad(one):
    if one.kind > 8:
        return "kind %d is none" % one.kind
    if one.kind in machines.ON_BITS and one.which >= machines.X_BITS:
        return "bit %d is none" % one.which
    if one.kind in machines.ON_COUNTERS and one.which >= machines.X_COUNTERS:
        return "counter %d is none" % one.which
    if one.kind in machines.ALERTS and one.number >= machines.SIGNATURES:
        return "signature %d is none" % one.number
    if one.kind not in machines.ON_BITS | machines.ON_COUNTERS and one.which != 0:
        return "byte 1 is not used and is %d" % one.which
    return "the number is not used and is %d" % one.number


def first_fault(moves, programs):
    """The first place that rule 24 refuses, in words."""
    states, rest = divmod(len(moves), machines.X_MOVES_SIZE)
    if rest != 0 or not 1 <= states <= machines.X_STATES:
        return "the moves have %d bytes, which is not %d for each of 1 to %d states" % (len(moves), machines.X_MOVES_SIZE, machines.X_STATES)
    if len(programs) != states * machines.X_PROGRAM_SIZE:
        return "the programs have %d bytes, not the %d of %s" % (
            len(programs), states * machines.X_PROGRAM_SIZE, count(states, "state", "states"))
    for state in range(states):
        for value in range(256):
            target = machines.target(moves, state, value)
            if target >= states:
                return "state %d on %s leads to %d, which is no state" % (state, byte(value), target)
    for state in range(states):
        for place, one in enumerate(machines.instructions(programs, state)):
            if not machines.good_instruction(one):
                return "record %d of state %d: %s" % (place, state, why_bad(one))


def reached(moves):
    """The states that bytes lead to from state 0, and that one."""
    found, new = {0}, [0]
    while new:
        state = new.pop()
        for target in {machines.target(moves, state, value) for value in range(256)} - found:
            found.add(target)
            new.append(target)
    return found


def tell_machine(moves, programs, whole):
    """Refusal and lines: a file of words, but for the last line where states are left out."""
    refusal = machines.refused(moves, programs)
    if refusal:
        return refusal, ["refused, 24: " + first_fault(moves, programs)]
    states = len(moves) // machines.X_MOVES_SIZE
    lines = ["# an automaton with bits and counters, of %s: it passes" % count(states, "state", "states")]
    found = reached(moves)
    shown = states if whole else min(states, MOST_STATES)
    for state in range(shown):
        lines.append("state %d%s" % (state, "" if state in found else "  # no byte leads here from state 0"))
        lines += machine_words.state_lines(moves, programs, state)
    if shown < states:
        lines.append("and %s more, which --all shows" % count(states - shown, "state", "states"))
    return 0, lines


def tell_flow(record):
    """Refusal and lines of a flow record, under as many states as there can be."""
    if machines.bad_record(bytes(machines.X_STATES * machines.X_MOVES_SIZE), record):
        if len(record) != machines.X_FLOW_SIZE:
            return 4, ["refused, 4: %d bytes, and a flow record has %d" % (len(record), machines.X_FLOW_SIZE)]
        if machines.number(record[0:2]) >= machines.X_STATES:
            return 4, ["refused, 4: no automaton has a state %d" % machines.number(record[0:2])]
        if record[2:4] != bytes(2):
            return 4, ["refused, 4: a reserved byte, 2 or 3, is not zero"]
        at = next(at for at in range(16, machines.X_FLOW_SIZE, 4) if machines.number(record[at:at + 4]) > machines.X_OFF)
        return 4, ["refused, 4: counter %d is %d, over %d" % ((at - 16) // 4, machines.number(record[at:at + 4]), machines.X_OFF)]
    config, offset = machines.unpack(record)
    lines = ["a flow of an automaton with bits and counters: state %d, offset %d" % (config.state, offset)]
    lines.append("bits set: " + (", ".join(str(bit) for bit in sorted(config.bits)) or "none"))
    lines.append("counters: " + (", ".join("%d is %d" % item for item in sorted(config.counters.items())) or "all off"))
    return 0, lines
