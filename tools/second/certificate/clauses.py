"""Each clause of the rule by itself, over lists of records that are searched from their front: which clauses a certificate breaks."""

from second.certificate import model as certificates
from second.list import model
from second.machine import model as machines

CLAUSES = ["length", "fields", "twice", "opening", "alerts at opening", "step", "alerts of a step"]


def broken(nfa, moves, programs, data):
    """The clauses that a certificate breaks. Of one whose length or fields are bad the others are asked as far as its records can be read."""
    out = set()
    states = len(moves) // machines.X_MOVES_SIZE
    count = len(data) // certificates.NOTE_SIZE
    if len(data) != certificates.NOTE_SIZE * count or count > certificates.MOST_NOTES:
        out.add("length")
    notes = []
    for note in model.cut(data[:certificates.NOTE_SIZE * count], certificates.NOTE_SIZE):
        flow = certificates.flow_record(note)
        if machines.bad_record(moves, flow):
            out.add("fields")
        config, _ = machines.unpack(flow)
        notes.append((config, model.unpack_set(note[certificates.CONFIG_SIZE:])))
    if any(one[0] == other[0] for i, one in enumerate(notes) for other in notes[:i]):
        out.add("twice")
    config, alerted = machines.run(machines.instructions(programs, 0), machines.Config(0, frozenset(), {}))
    if (config, nfa.starts) not in notes:
        out.add("opening")
    if sorted(alerted) != nfa.signatures(nfa.starts):
        out.add("alerts at opening")
    for config, members in notes:
        steps = {} if config.state >= states else {(machines.target(moves, config.state, byte), nfa.step(members, byte)): byte for byte in range(256)}
        for (_, new), byte in steps.items():
            after, alerted = machines.step(moves, programs, config, byte)
            if (after, new) not in notes:
                out.add("step")
            if sorted(alerted) != nfa.signatures(new):
                out.add("alerts of a step")
    return out
