"""One run of an automaton that leads to a pair. Not proved."""

from saying import phrase
from second import sizes
from second.list import model
from second.list.model import cut
from second.sizes import RECORD_SIZE

LONG_WAY = 24  # moves in a row that are shown one by one
ENDS = 8  # moves that are shown at either end of a longer way


class Records:
    """The first record of a list for each start, edge and accept."""

    def __init__(self, data):
        self.starts, self.edges, self.accepts = {}, {}, {}
        for at, record in enumerate(cut(data, RECORD_SIZE)):
            kind, _, _, middle, last = phrase.fields(record)
            if kind == 1:
                self.edges.setdefault((middle, last), []).append((phrase.an_edge(record), at))
            elif kind == 2:
                self.starts.setdefault(last, at)
            else:
                self.accepts.setdefault((middle, last), at)

    def edge(self, source, target, byte):
        """The record by which this byte leads from source to target, or None."""
        return next((at for edge, at in self.edges.get((source, target), [])
                     if edge.takes(byte)), None)


def frontiers(nfa, flow):
    """The frontier after 0, 1, 2 ... bytes of the flow."""
    out = [nfa.starts]
    for byte in flow:
        out.append(nfa.step(out[-1], byte))
    return out


def run(records, fronts, flow, last):
    """States, one for each offset, of the lowest run that ends in state last: before each
    stands the lowest state of the frontier there from which the byte leads to it."""
    out = [last]
    for at in range(len(fronts) - 1, 0, -1):
        out.append(min(source for source in fronts[at - 1]
                       if records.edge(source, out[-1], flow[at - 1]) is not None))
    return out[::-1]


def steps(records, states, flow):
    """The run as stretches: first byte, last byte, whether they loop, records."""
    out = []
    for at in range(1, len(states)):
        loops = states[at - 1] == states[at]
        record = records.edge(states[at - 1], states[at], flow[at - 1])
        if loops and out and out[-1][2] and out[-1][1] == at - 1:
            out[-1] = (out[-1][0], at, True, out[-1][3] | {record})
        else:
            out.append((at, at, loops, {record}))
    return out


def step_words(step, states, flow):
    first, last, loops, taken = step
    read = flow[first - 1:last]
    head = "byte %d '%s'" % (first, phrase.sign(read[0]).replace('\\"', '"')) if first == last \
        else "bytes %d to %d %s" % (first, last, phrase.text(read))
    if loops:
        move = "state %d loops" % states[last]
    else:
        move = "state %d to %d" % (states[first - 1], states[last])
    return "%s: %s, by %s" % (head, move, phrase.counted("record", taken))


def run_lines(records, states, flow, whole=False):
    """The run in words. Of long ways of moves the middle is folded, unless all is asked for."""
    out = ["start: state %d, by record %d" % (states[0], records.starts[states[0]])]
    way = []

    def close():
        shown = [step_words(step, states, flow) for step in way]
        if len(way) > LONG_WAY and not whole:
            middle = way[ENDS:-ENDS]
            first, last = middle[0][0], middle[-1][1]
            shown = shown[:ENDS] + ["bytes %d to %d %s: %s through %s" % (
                first, last, phrase.text(flow[first - 1:last]),
                phrase.many(len(middle), "move"),
                phrase.counted("state", states[first:last + 1]))] + shown[-ENDS:]
        out.extend(shown)
        way.clear()

    for step in steps(records, states, flow):
        if step[2] and step[0] != step[1]:
            close()
            out.append(step_words(step, states, flow))
        else:
            way.append(step)
    close()
    return out


def model_run(data, flow, signature, offset):
    """The run that the search here finds of a pair that is due."""
    nfa = model.automaton(data)
    fronts = frontiers(nfa, flow[:offset])
    return run(Records(data), fronts, flow, min(accepting(nfa, signature) & fronts[offset]))


def place_words(flow, offset):
    """Where a byte stands, for a person with the flow in an editor."""
    line = flow.count(b"\n", 0, offset - 1) + 1
    return "Byte %d is column %d of line %d." % (offset, offset - 1 - flow.rfind(b"\n", 0, offset - 1), line)


def why(data, flow, signature, offset, whole=False, told=None, runs=None):
    """Whether the pair is due, and lines that say why. The list is a good one. The run is the one told, where there is
    one, else the one found here; it is put into runs."""
    nfa, records = model.automaton(data), Records(data)
    due = accepting(nfa, signature)
    not_due = "The pair %d %d is not due: " % (signature, offset)
    if signature >= sizes.SIGNATURES or not due:
        return False, [not_due + "no record accepts signature %d." % signature]
    if offset > len(flow):
        return False, [not_due + "the flow ends at byte %d." % len(flow)]
    fronts = frontiers(nfa, flow[:offset])
    ends = sorted(due & fronts[offset])
    if not ends:
        return False, [
            not_due + "no state of the frontier there accepts signature %d." % signature,
            "%s the frontier is %s; signature %d is accepted by %s." % (
                phrase.moment(offset).capitalize(), phrase.members(fronts[offset]), signature,
                phrase.counted("state", due)),
            told_at(nfa, flow, signature, due)]
    states = told if told is not None else run(records, fronts, flow, ends[0])
    if runs is not None:
        runs.append(states)
    lines = ["The pair %d %d is due. A run of the automaton that leads to it:"
             % (signature, offset)]
    lines += run_lines(records, states, flow, whole)
    lines.append("state %d accepts signature %d %s, by record %d" % (
        ends[0], signature, phrase.moment(offset), records.accepts[ends[0], signature]))
    return True, lines + ([place_words(flow, offset)] if offset else [])


def accepting(nfa, signature):
    return {accept.state for accept in nfa.accepts if accept.signature == signature}


def told_at(nfa, flow, signature, due):
    """The offsets of this flow at which the signature is due, in words."""
    offsets = [at for at, front in enumerate(frontiers(nfa, flow)) if due & front]
    if not offsets:
        return "Signature %d is due nowhere in this flow." % signature
    return "In this flow it is due at %s." % phrase.counted("offset", offsets)
