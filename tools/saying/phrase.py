"""Words for bytes, texts, sets of numbers, records of a list and runs of records.

Records, states, parts and splits count from 0, bytes of a flow from 1. Not proved.
"""

from second.list.model import Edge, exchanged, number
from second.sizes import BYTE_VALUES

ESCAPES = {9: "\\t", 10: "\\n", 13: "\\r", 34: '\\"', 92: "\\\\"}
LONG_TEXT = 60  # bytes of a text that is shown whole
MOST_RUNS = 24  # runs of numbers that are named one by one


# Bytes and texts

def sign(value):
    """One byte as it stands in a text."""
    if value in ESCAPES:
        return ESCAPES[value]
    return chr(value) if 32 <= value < 127 else "\\x%02X" % value


def byte(value):
    if value == 34:
        return "'\"' (22)"
    if value in ESCAPES or 32 <= value < 127:
        return "'%s' (%02X)" % (sign(value), value)
    return "hex %02X" % value


def spread(low, high):
    """The bytes from low to high."""
    if (low, high) == (0, 255):
        return "any byte"
    return byte(low) if low == high else "%s to %s" % (byte(low), byte(high))


def text(data):
    if len(data) <= LONG_TEXT:
        return '"%s"' % "".join(sign(value) for value in data)
    half = LONG_TEXT // 2 - 5
    return "%s ... %s" % (text(data[:half]), text(data[-half:]))


def moment(offset):
    """When a flow has come to an offset."""
    return "after byte %d" % offset if offset else "when the flow is opened"


def after(data):
    """When a flow of these bytes has been fed."""
    return "after " + text(data) if data else moment(0)


# Numbers and sets of them

def runs(values):
    """Sorted numbers as pairs of the first and the last of each run without a gap."""
    out = []
    for value in sorted(set(values)):
        if out and out[-1][1] == value - 1:
            out[-1] = (out[-1][0], value)
        else:
            out.append((value, value))
    return out


def numbers(values):
    said = []
    for first, last in runs(values):
        if last - first < 2:
            said += [str(value) for value in range(first, last + 1)]
        else:
            said.append("%d to %d" % (first, last))
    if len(said) > MOST_RUNS:
        said[MOST_RUNS:] = ["... up to %d (%d in all)" % (max(values), len(set(values)))]
    return ", ".join(said)


def plural(noun):
    return noun + ("es" if noun.endswith("s") else "s")


def counted(noun, values):
    """A noun and its numbers: state 3; states 1, 4 to 9."""
    return "%s %s" % (noun if len(set(values)) == 1 else plural(noun), numbers(values))


def many(count, noun):
    """A number and a noun: no state; 1 state; 4,096 states."""
    if count == 0:
        return "no " + noun
    return "{:,} {}".format(count, noun if count == 1 else plural(noun))


def members(states):
    return "{%s}" % numbers(states)


def difference(found, right):
    """What a set has too few and too many, beside the right one."""
    few, over = right - found, found - right
    return " and ".join(["%s missing" % counted("state", few)] * bool(few)
                        + ["%s too many" % counted("state", over)] * bool(over))


# Records of a list

def fields(record):
    """Kind, low, high, and the two numbers of a record."""
    return record[0], record[1], record[2], number(record[4:6]), number(record[6:8])


def an_edge(record):
    """The edge of a record that is one."""
    _, low, high, middle, last = fields(record)
    return Edge(low, high, middle, last, record[3] == 1)


def taken(edge):
    """The bytes that an edge takes."""
    return {value for value in range(BYTE_VALUES) if edge.takes(value)}


def on_bytes(record):
    """The bytes of an edge's record, in words."""
    return spread(record[1], record[2]) + (" in either case" if record[3] else "")


def either_case(record):
    """Whether an edge on one byte takes it in either case; None where the byte has no case."""
    return None if exchanged(record[1]) == record[1] else record[3] == 1


def record_words(record):
    """A record that is sound, in words."""
    kind, low, high, middle, last = fields(record)
    if kind == 1:
        return "edge on %s from state %d to state %d" % (on_bytes(record), middle, last)
    if kind == 2:
        return "start in state %d" % last
    return "state %d accepts signature %d" % (middle, last)


def follows(shape, before, record):
    """Whether a record continues a run of this shape after the one before."""
    kind, low, high, middle, last = fields(record)
    was, was_low, was_high, was_middle, was_last = fields(before)
    if shape == "same":
        return record == before
    if kind != was:
        return False
    if shape == "text":
        return (kind == 1 and low == high and was_low == was_high
                and middle == was_last and middle != was_middle and last != middle)
    if shape == "between":
        return kind == 1 and (middle, last) == (was_middle, was_last)
    if shape == "starts":
        return kind == 2
    return kind == 3 and middle == was_middle


# Each shape with the fewest records that are folded. The first one that is long enough is taken.
SHAPES = [("same", 2), ("text", 4), ("between", 3), ("starts", 3), ("accepts", 3)]


def folded_words(shape, records):
    """A run of records of one shape, in words."""
    first, last = fields(records[0]), fields(records[-1])
    if shape == "same":
        return "%s, %d times" % (record_words(records[0]), len(records))
    if shape == "text":
        between = [fields(record)[3] for record in records[1:]]
        return "edges that read %s%s from state %d to state %d, through %s" % (
            text(bytes(record[1] for record in records)),
            " in either case" if any(either_case(record) for record in records) else "",
            first[3], last[4], counted("state", between))
    if shape == "between":
        said = [on_bytes(record) for record in records]
        if len(said) > MOST_RUNS:
            said[MOST_RUNS:] = ["..."]
        return "edges on %s from state %d to state %d" % (", ".join(said), first[3], first[4])
    if shape == "starts":
        return "starts in %s" % counted("state", [fields(record)[4] for record in records])
    return "state %d accepts %s" % (
        first[3], counted("signature", [fields(record)[4] for record in records]))


def run_end(shape, records, at, sound):
    """The place behind the last record of the run of this shape that begins at a place. The
    letters of a text are all for one case, or all for either."""
    end, cases = at + 1, set()
    while (sound(records[at]) and end < len(records) and sound(records[end])
           and follows(shape, records[end - 1], records[end])):
        if shape == "text":
            cases |= {either_case(records[end - 1]), either_case(records[end])}
            if {True, False} <= cases:
                break
        end += 1
    return end


def folded(records, sound):
    """Runs of records as triples: the first, the one behind the last, the shape or None.
    Records for which sound does not hold stand alone."""
    at = 0
    while at < len(records):
        chosen, end = None, at + 1
        for shape, fewest in SHAPES:
            reach = run_end(shape, records, at, sound)
            if reach - at >= fewest:
                chosen, end = shape, reach
                break
        yield at, end, chosen
        at = end
