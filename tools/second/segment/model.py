"""Resends: segments by 32-bit sequence number, and renewals, from the rules alone.

Every number is looked at from the next byte due, as a place: 0 is the next
byte, above it lies what is to come, below it what came before.
"""

from collections import namedtuple

from second.list import model
from second.sizes import (
    FLOW_SIZE, HELD_SIZE, MOST_SEGMENT, OFFSET_AT, RESERVED_AT, ROWS_AT, STATES, X_FLOW_SIZE,
)

CIRCLE = 2 ** 32
HALF = 2 ** 31

# What is held: the number of its first byte, how many bytes, and the buffer.
Held = namedtuple("Held", "start length buffer")

# What feeding a segment answers, and what it leaves.
Heard = namedtuple("Heard", "refusal down pairs all held words record")


def place(number, after):
    """Where a number lies from the next byte, `after`; half the circle ahead counts as before."""
    return (number - after + HALF) % CIRCLE - HALF


def wrong_sizes(held, segment):
    return len(segment) > MOST_SEGMENT or len(held.buffer) != HELD_SIZE or held.length > HELD_SIZE


def free(after, held):
    """All its bytes came before."""
    return held.length == 0 or place(held.start, after) + held.length <= 0


def take(after, held, start, segment):
    """The refusal, and what is held then."""
    if wrong_sizes(held, segment):
        return 18, held
    if segment and place(start, after) > 0:
        if not free(after, held) or len(segment) > HELD_SIZE:
            return 18, held
        return 0, Held(start, len(segment), segment + held.buffer[len(segment):])
    return 0, Held(held.start, 0, held.buffer) if free(after, held) else held


def due(after, held, start, segment):
    """Where the bytes due are (0 nowhere, 1 held, 2 in the segment), from where on, and how many."""
    if wrong_sizes(held, segment):
        return 0, 0, 0
    first = place(held.start, after)
    if first <= 0 < first + held.length:
        return 1, -first, first + held.length
    mine = place(start, after)
    if mine <= 0 < mine + len(segment):
        end = mine + len(segment)
        if held.length and first > 0:
            end = min(end, first)
        return 2, -mine, end
    return 0, 0, 0


def part(found, held, segment):
    source, at, length = found
    return (held.buffer if source == 1 else segment)[at:at + length]


def hear(feed, record, first, held, start, segment, words, offset_at=OFFSET_AT):
    """Feeds a segment: feed(record, start, words, piece) is any feed of records with the offset there."""
    if wrong_sizes(held, segment):
        return Heard(18, b"", 0, False, held, words, record)
    offset = model.number(record[offset_at:offset_at + 4])
    door = feed(record, offset, words, b"")
    if door.refusal:
        return Heard(door.refusal, b"", 0, False, held, words, record)
    written, down = [], b""
    while True:
        offset = model.number(record[offset_at:offset_at + 4])
        after = (first + offset) % CIRCLE
        refusal, held = take(after, held, start, segment)
        piece = part(due(after, held, start, segment), held, segment)
        if not piece:
            break
        answer = feed(record, offset, words[len(written):], piece)
        refusal, all_of_it = answer.refusal, answer.all
        written += answer.words[:2 * answer.pairs]
        down += piece[:answer.consumed]
        record = answer.record
        if not all_of_it:
            return Heard(refusal, down, len(written) // 2, False, held,
                         written + words[len(written):], record)
    return Heard(refusal, down, len(written) // 2, refusal == 0, held,
                 written + words[len(written):], record)


def offset(record):
    """The offset of a record of either size; of other bytes the largest number."""
    at = {FLOW_SIZE: OFFSET_AT, X_FLOW_SIZE: 4}.get(len(record))
    return 2 ** 64 - 1 if at is None else model.number(record[at:at + 4])


def renew(first, record):
    """The refusal, the number of the byte at offset 0 then, and the record then: the frontier stays, all else is 0."""
    if len(record) != FLOW_SIZE or record[RESERVED_AT:ROWS_AT] != bytes(4):
        return 4, first, record
    if model.number(record[ROWS_AT:]) > STATES * offset(record):
        return 4, first, record
    return 0, (first + offset(record)) % CIRCLE, record[:OFFSET_AT] + bytes(FLOW_SIZE - OFFSET_AT)
