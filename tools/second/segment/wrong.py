"""Wrong versions of the rules of segments and renewals."""

from second.segment.streams import STREAMS

RULES = ["second.segment.model"]
BEHIND = []

WRONG = [
    ("half the circle ahead is ahead", "(number - after + HALF) % CIRCLE - HALF", "(number - after + HALF - 1) % CIRCLE - HALF + 1"),
    ("no wrap", "(number - after + HALF) % CIRCLE - HALF", "number - after"),
    ("a place is never free", "return held.length == 0 or place(held.start, after) + held.length <= 0", "return held.length == 0"),
    ("a place is free when its first byte came before", "place(held.start, after) + held.length <= 0", "place(held.start, after) < 0"),
    ("not cut at the held part", "            end = min(end, first)\n", "            pass\n"),
    ("cut one byte early", "end = min(end, first)", "end = min(end, first - 1)"),
    ("the segment first", "    if first <= 0 < first + held.length:\n        return 1", "    mine = place(start, after)\n    if first <= 0 < first + held.length and not mine <= 0 < mine + len(segment):\n        return 1"),
    ("the new segment takes the held place", "if not free(after, held) or len(segment) > HELD_SIZE:", "if len(segment) > HELD_SIZE:"),
    ("4,096 bytes are not held", "len(segment) > HELD_SIZE:\n            return 18", "len(segment) >= HELD_SIZE:\n            return 18"),
    ("65,535 bytes are refused", "len(segment) > MOST_SEGMENT", "len(segment) >= MOST_SEGMENT"),
    ("4,096 held bytes are refused", "held.length > HELD_SIZE", "held.length >= HELD_SIZE"),
    ("a larger buffer passes", "len(held.buffer) != HELD_SIZE", "len(held.buffer) < HELD_SIZE"),
    ("an empty segment ahead is held", "if segment and place(start, after) > 0:", "if place(start, after) > 0:"),
    ("the door looks at no rule", "    if door.refusal:\n", "    if door.refusal and part(due((first + offset) % CIRCLE, held, start, segment), held, segment):\n"),
    ("one look", "        if not all_of_it:\n", "        if True:\n"),
    ("18 of the first look stays", "        refusal, held = take(after, held, start, segment)\n", "        refusal, held = take(after, held, start, segment)\n        early = early if down else refusal\n        refusal = max(refusal, early)\n"),
    ("a renewal clears the frontier", "record[:OFFSET_AT] + bytes(FLOW_SIZE - OFFSET_AT)", "bytes(FLOW_SIZE)"),
    ("a renewal keeps the rows", "record[:OFFSET_AT] + bytes(FLOW_SIZE - OFFSET_AT)", "record[:OFFSET_AT] + bytes(8) + record[ROWS_AT:]"),
    ("a renewal keeps the offset", "record[:OFFSET_AT] + bytes(FLOW_SIZE - OFFSET_AT)", "record[:RESERVED_AT] + bytes(FLOW_SIZE - RESERVED_AT)"),
    ("the most rows are not renewed", "model.number(record[ROWS_AT:]) > STATES", "model.number(record[ROWS_AT:]) >= STATES"),
    ("reserved bytes are not looked at", "len(record) != FLOW_SIZE or record[RESERVED_AT:ROWS_AT] != bytes(4)", "len(record) != FLOW_SIZE"),
    ("the first number stays", "(first + offset(record)) % CIRCLE, record", "first, record"),
    ("the offset of a list's record alone", "{FLOW_SIZE: OFFSET_AT, X_FLOW_SIZE: 4}", "{FLOW_SIZE: OFFSET_AT}"),
    ("the offset of no record is 0", "2 ** 64 - 1 if at is None", "0 if at is None"),
    ("a machine's offset where a list's record has it", "words, offset_at=OFFSET_AT):\n", "words, offset_at=OFFSET_AT):\n    offset_at = OFFSET_AT\n"),
]

VERSIONS = [(STREAMS, "", WRONG)]
