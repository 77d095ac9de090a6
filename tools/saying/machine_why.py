"""Why an automaton with bits and counters tells a pair: its one sequence of states, and the steps of the program that alerted. Not proved."""

from saying import machine_saying
from second.machine import model as machines


def changes(before, after):
    """What a program, or several, changed of bits and counters, in words."""
    out = ["bit %d is %s" % (at, "set" if at in after.bits else "clear") for at in sorted(before.bits ^ after.bits)]
    for at in range(machines.X_COUNTERS):
        if before.counters.get(at) != after.counters.get(at):
            out.append("counter %d is %s" % (at, after.counters.get(at, "off")))
    return out


def stretches(moves, programs, config, flow):
    """The steps: first byte, last byte, configuration before and after. Those that stay in a state are one stretch."""
    out = []
    for at, byte in enumerate(flow, 1):
        before, (config, alerted) = config, machines.step(moves, programs, config, byte)
        stays = before.state == config.state
        if stays and out and out[-1][3].state == out[-1][2].state == config.state:
            out[-1] = (out[-1][0], at, out[-1][2], config)
        else:
            out.append((at, at, before, config))
    return out


def step_words(first, last, before, after):
    head = "byte %d" % first if first == last else "bytes %d to %d" % (first, last)
    move = "state %d stays" % after.state if before.state == after.state else "state %d to %d" % (before.state, after.state)
    return "; ".join(["%s: %s" % (head, move)] + changes(before, after))


def why(moves, programs, flow, signature, offset):
    """Whether the pair is due, and lines that say why. The automaton is a good one."""
    not_due = "The pair %d %d is not due: " % (signature, offset)
    if offset > len(flow):
        return False, [not_due + "the flow ends at byte %d." % len(flow)]
    config, alerted = machines.run(machines.instructions(programs, 0), machines.Config(0, frozenset(), {}))
    steps = stretches(moves, programs, config, flow[:offset])
    if steps:
        before = steps[-1][2] if steps[-1][0] == offset else stretches(moves, programs, config, flow[:offset - 1])[-1][3]
        config, alerted = machines.step(moves, programs, before, flow[offset - 1])
    if signature not in alerted:
        return False, [not_due + "the program of state %d does not alert it there." % config.state]
    lines = ["The pair %d %d is due. The states, bits and counters that lead to it:" % (signature, offset), "start: state 0"]
    lines += [step_words(*step) for step in steps]
    lines += ["the program of state %d, record %d: %s" % (config.state, place, machine_saying.SAID[one.kind] % one._asdict())
              for place, one in enumerate(machines.instructions(programs, config.state))
              if one.kind in machines.ALERTS and one.number == signature]
    return True, lines
