"""The records of a list in lines of words, where runs of alike ones share a line: those of a shape of
tools/second/saying.py, edges in a row on the same bytes, whatever states they join, and states in a
row that accept one signature. Not proved."""
from saying import phrase, telling
from second.list import model

FEWEST = 4  # alike records that share a line
MOST_WAYS = 8  # groups of their states that are named


def runs_by(pairs, step):
    """The runs, of three or more, of pairs whose second number is the first and a step; and the pairs that are left."""
    runs, left = [], set(pairs)
    for first, last in phrase.runs([source for source, target in pairs if target == source + step]):
        if last - first >= 2:
            runs.append(range(first, last + 1))
            left -= {(source, source + step) for source in runs[-1]}
    return runs, left


def grouped(pairs):
    """Pairs of states in words, by the state that they leave, or else by the one that they lead to."""
    targets, sources = {}, {}
    for source, target in sorted(pairs):
        targets.setdefault(source, set()).add(target)
    for source, found in targets.items():
        sources.setdefault(frozenset(found), set()).add(source)
    return ["%s to %s" % (phrase.counted("state", those), phrase.counted("state", found)) for found, those in sources.items()]


def ways(pairs):
    """Which states some edges join."""
    itself, left = runs_by(set(pairs), 0)
    ahead, left = runs_by(left, 1)
    said = ["each of %s to itself" % phrase.counted("state", run) for run in itself]
    said += ["each of %s to the next" % phrase.counted("state", run) for run in ahead]
    said += grouped(left)
    if len(said) > MOST_WAYS:
        said[MOST_WAYS:] = ["... and %s" % phrase.many(len(said) - MOST_WAYS, "more group")]
    return "; ".join(said)


def kind_of(record):
    """What alike records share: edges their bytes, accepts their signature. None for others."""
    if not model.sound(record) or record[0] == 2:
        return None
    return record[:4] if record[0] == 1 else record[:4] + record[6:]


def run_line(first, records):
    """A line for alike records in a row."""
    pairs = [phrase.fields(record)[3:] for record in records]
    if records[0][0] == 1:
        said = "edges on %s from %s" % (phrase.on_bytes(records[0]), ways(pairs))
    else:
        said = "%s accept signature %d" % (phrase.counted("state", [state for state, _ in pairs]), pairs[0][1])
    return "records %d to %d: %s" % (first, first + len(records) - 1, said)


def lines(records):
    """A line for each record or run of alike ones."""
    out, held = [], []

    def close():
        if len(held) >= FEWEST:
            out.append(run_line(held[0], [records[at] for at in held]))
        else:
            out.extend(telling.record_line(at, records[at]) for at in held)
        held.clear()

    for first, end, shape in phrase.folded(records, model.sound):
        kind = kind_of(records[first]) if shape is None else None
        if kind is None or held and kind_of(records[held[-1]]) != kind:
            close()
        if kind is not None:
            held.append(first)
        elif shape is None:
            out.append(telling.record_line(first, records[first]))
        else:
            out.append("records %d to %d: %s" % (first, end - 1, phrase.folded_words(shape, records[first:end])))
    close()
    return out
