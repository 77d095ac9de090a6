"""Why a pair is due, or a state in the frontier: the rules alone, forwards.

A run is a tuple of states. For each state of a frontier the lowest run that leads there is kept,
byte by byte: of two runs the one is lower that has the lower state at the last place where they
differ. The proved code goes backwards through the frontiers instead.
"""

from collections import namedtuple

from second.list import model
from second.list.model import cut, number
from second.sizes import RECORD_SIZE, SET_SIZE

Told = namedtuple("Told", "refusal run work")
Found = namedtuple("Found", "refusal place")


def edges_on(data, byte):
    """The pairs of states that some edge joins on this byte."""
    return {(edge.source, edge.target) for edge in model.automaton(data).edges if edge.takes(byte)}


def lowest(runs):
    """The run that has the lowest state at its end, then before it, and so on."""
    return min(runs, key=lambda run: run[::-1])


def ways(data, frontier, piece):
    """After 0, 1, 2 .. bytes: for each state of the frontier the lowest run from the first frontier to it."""
    out = [{state: (state,) for state in frontier}]
    for byte in piece:
        joined = edges_on(data, byte)
        out.append({target: lowest(out[-1][s] for s, t in joined if t == target and s in out[-1]) + (target,)
                    for target in {t for s, t in joined if s in out[-1]}})
    return out


def why(data, record, start, piece, of_state, asked, offset, run, work):
    """The answer to a question, and both lent buffers after it: run is a list of numbers, work bytes."""
    refusal = model.feed_refusal(data, record, start, piece)
    if refusal:
        return Told(refusal, run, work)
    count = offset - start
    if offset < start or offset > start + len(piece) or len(run) < count + 1 or len(work) < SET_SIZE * (count + 1):
        return Told(25, run, work)
    fronts = ways(data, model.unpack_flow(record).frontier, piece[:count])
    if of_state:
        ends = [asked] if asked in fronts[count] else []
    else:
        ends = [a.state for a in model.automaton(data).accepts if a.signature == asked and a.state in fronts[count]]
    if not ends:
        return Told(26, run, work)
    told = lowest(fronts[count][state] for state in ends)
    kept = b"".join(model.pack_set(frozenset(front)) for front in fronts)
    return Told(0, list(told) + run[count + 1:], kept + work[len(kept):])


def edge(data, source, byte, target):
    """The place of the first edge record that leads from source to target on this byte."""
    refusal = model.list_refusal(data)
    if refusal:
        return Found(refusal, 0)
    for place, record in enumerate(cut(data, RECORD_SIZE)):
        if record[0] == 1 and (number(record[4:6]), number(record[6:8])) == (source, target) and byte < 256:
            if model.Edge(record[1], record[2], source, target, record[3] == 1).takes(byte):
                return Found(0, place)
    return Found(26, 0)


def all_runs(data, frontier, piece):
    """Every run over the piece, for small lists: what `ways` is compared with."""
    out = [(state,) for state in frontier]
    for byte in piece:
        out = [run + (t,) for run in out for s, t in edges_on(data, byte) if s == run[-1]]
    return out
