"""Wrong versions of the rules of the questions why."""

from second.why.streams import STREAMS

RULES = ["second.why.model"]
BEHIND = []

ROOM = "offset < start or offset > start + len(piece) or len(run) < count + 1 or len(work) < SET_SIZE * (count + 1)"
NUMBERS = "(number(record[4:6]), number(record[6:8])) == (source, target) and byte < 256"

WRONG = [
    ("the run that is lowest from its front on", "key=lambda run: run[::-1]", "key=lambda run: run"),
    ("the highest run", "return min(runs, key", "return max(runs, key"),
    ("1 to 6 are not looked for in an empty piece", "    if refusal:\n        return Told(", "    if refusal and piece:\n        return Told("),
    ("25 before 1 to 6", "    if refusal:\n        return Told(refusal, run, work)\n", "    if refusal and offset <= start + len(piece):\n        return Told(refusal, run, work)\n"),
    ("an offset before the piece counts from its front", ROOM, ROOM.replace("offset < start or ", "count > 2 ** 40 or ")),
    ("the offset behind the last byte is refused", ROOM, ROOM.replace("offset > start + len(piece)", "offset >= start + len(piece)")),
    ("an offset past the piece", ROOM, ROOM.replace("offset > start + len(piece)", "offset > start + len(piece) + 1")),
    ("a state for each byte suffices", ROOM, ROOM.replace("len(run) < count + 1", "len(run) < count")),
    ("one state more is needed", ROOM, ROOM.replace("len(run) < count + 1", "len(run) <= count + 1")),
    ("a set for each byte suffices", ROOM, ROOM.replace("SET_SIZE * (count + 1)", "SET_SIZE * count")),
    ("one byte more is needed", ROOM, ROOM.replace("len(work) < ", "len(work) <= ")),
    ("as much as the whole piece needs", ROOM, ROOM.replace("len(run) < count + 1", "len(run) < len(piece) + 1")),
    ("the whole piece is read", "piece[:count])", "piece)"),
    ("a state by its low byte", "ends = [asked] if asked in fronts[count] else []", "ends = [asked % 65536] if asked % 65536 in fronts[count] else []"),
    ("a state is asked for as a signature", "    if of_state:\n", "    if of_state and asked > 255:\n"),
    ("a signature is asked for as a state", "    if of_state:\n", "    if of_state or asked in fronts[count]:\n"),
    ("a signature by its low byte", "a.signature == asked and a.state", "a.signature == asked % 256 and a.state"),
    ("accepts of states that are not there", " and a.state in fronts[count]]", " and a.state in fronts[count] or a.state in fronts[0] and a.signature == asked and a.state in fronts[count]][:1]"),
    ("26 writes the sets", "        return Told(26, run, work)\n", "        return Told(26, run, b\"\".join(model.pack_set(frozenset(front)) for front in fronts) + work[SET_SIZE * (count + 1):])\n"),
    ("the run backwards", "list(told) + run[count + 1:]", "list(told)[::-1] + run[count + 1:]"),
    ("the states behind the run are cleared", "list(told) + run[count + 1:]", "list(told) + [0] * len(run[count + 1:])"),
    ("the last set is not kept", "for front in fronts)\n    return Told(0", "for front in fronts[:-1])\n    return Told(0"),
    ("the sets of the run alone", "model.pack_set(frozenset(front)) for front in fronts)\n    return Told(0", "model.pack_set(frozenset([state])) for state in told)\n    return Told(0"),
    ("the bytes behind the sets are cleared", "kept + work[len(kept):]", "kept + bytes(len(work) - len(kept))"),
    ("an edge may be an accept record", "record[0] == 1 and (number", "record[0] in (1, 3) and (number"),
    ("an edge's capitals are not looked at", "target, record[3] == 1).takes(byte)", "target, False).takes(byte)"),
    ("every edge is for either case", "target, record[3] == 1).takes(byte)", "target, True).takes(byte)"),
    ("a byte by its low byte", NUMBERS, NUMBERS.replace(" and byte < 256", "") + " and [byte := byte % 256]"),
    ("source and target exchanged", NUMBERS, NUMBERS.replace("(source, target)", "(target, source)")),
    ("the last record that is taken", "enumerate(cut(data, RECORD_SIZE)):", "reversed(list(enumerate(cut(data, RECORD_SIZE)))):"),
    ("the place in bytes", "return Found(0, place)", "return Found(0, RECORD_SIZE * place)"),
    ("no edge is the place behind the last record", "return Found(26, 0)", "return Found(26, len(data) // RECORD_SIZE)"),
    ("an edge of a refused list", "    if refusal:\n        return Found(", "    if refusal == 1:\n        return Found("),
]

VERSIONS = [(STREAMS, "", WRONG)]
