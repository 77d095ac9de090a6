"""Lists, flow records and split tables in lines of words. Not proved.

Each function gives the refusal, 0 for none, and the lines.
"""

from saying import blame, phrase, reach
from second.list import model
from second.list.model import cut
from second.sizes import BYTE_VALUES, FLOW_SIZE, RECORD_SIZE, SET_SIZE, SPLIT_SIZE
from second.table import model as tables
from second.table.model import used_slots

MOST_LINES = 200  # lines of one list that are shown
SOME_BAD = 12  # bad records that are named after the first
LONG_SOONEST = 64  # signatures whose shortest text is shown


def shortened(lines, whole):
    if whole or len(lines) <= MOST_LINES:
        return lines
    left = phrase.many(len(lines) - MOST_LINES, "further line")
    return lines[:MOST_LINES] + ["... and %s: --all shows all" % left]


# The list

def record_line(at, record):
    wrong = blame.record_faults(record)
    if wrong:
        return "record %d: BAD, %s: %s" % (at, record.hex(" "), "; and ".join(wrong))
    return "record %d: %s" % (at, phrase.record_words(record))


def record_lines(records, whole):
    if whole:
        return [record_line(at, record) for at, record in enumerate(records)]
    out = []
    for first, end, shape in phrase.folded(records, model.sound):
        if shape is None:
            out.append(record_line(first, records[first]))
        else:
            out.append("records %d to %d: %s" % (
                first, end - 1, phrase.folded_words(shape, records[first:end])))
    return out


def kinds(records):
    return ", ".join(phrase.many(sum(record[0] == kind for record in records), noun)
                     for kind, noun in ((1, "edge"), (2, "start"), (3, "accept")))


def state_lines(nfa):
    """What can be reached and told in a good list."""
    reached = reach.Reach(nfa)
    out = ["%s: %s" % (phrase.many(len(reached.named), "state"), phrase.numbers(reached.named))]
    lost = reached.named - reached.reached
    if lost:
        out.append("cannot be reached from the start states: %s" % phrase.counted("state", lost))
    else:
        out.append("every state can be reached from the start states")
    idle = reached.reached - reached.useful
    if idle:
        out.append("do nothing, for no signature is told from there on: %s"
                   % phrase.counted("state", idle))
    soonest = reached.soonest()
    never = {accept.signature for accept in nfa.accepts} - set(soonest)
    if not nfa.accepts:
        out.append("no signature is accepted: no pair is ever told")
    if never:
        out.append("can never be told: %s" % phrase.counted("signature", never))
    for signature in sorted(soonest)[:LONG_SOONEST]:
        text = soonest[signature]
        out.append("signature %d is told at the soonest at offset %d, %s"
                   % (signature, len(text), phrase.after(text)))
    if len(soonest) > LONG_SOONEST:
        out.append("... and %s can be told" % phrase.many(
            len(soonest) - LONG_SOONEST, "further signature"))
    return out


def tell_list(data, whole=False):
    records = cut(data[:len(data) // RECORD_SIZE * RECORD_SIZE], RECORD_SIZE)
    out = ["a list of %s: %s" % (phrase.many(len(records), "record"), kinds(records))]
    out += shortened(record_lines(records, whole), whole)
    refusal, why = blame.fault(data)
    if refusal:
        out.append("refused, %d: %s" % (refusal, why))
        bad = [at for at, record in enumerate(records) if not model.sound(record)]
        if refusal == 2 and len(bad) > 1:
            out.append("bad, too: %s%s" % (
                phrase.counted("record", bad[1:SOME_BAD + 1]),
                " and %d more" % (len(bad) - SOME_BAD - 1) if len(bad) > SOME_BAD + 1 else ""))
        return refusal, out
    out.append("the list passes, rules 1 to 3")
    return 0, out + state_lines(model.automaton(data))


# The flow record

def tell_flow(record):
    out = ["a flow record of %s" % phrase.many(len(record), "byte")]
    if len(record) == FLOW_SIZE:
        flow = model.unpack_flow(record)
        out.append("frontier: %s, %s" % (phrase.members(flow.frontier),
                                         phrase.many(len(flow.frontier), "state")))
        out.append("offset: %d, where the next piece starts" % flow.offset)
        out.append("rows read: %d" % flow.rows)
    wrong = blame.flow_faults(record)
    if wrong:
        return 4, out + ["refused when fed, 4: %s" % "; and ".join(wrong)]
    if not flow.frontier:
        out.append("no state is left: no pair is due in this flow any more")
    return 0, out + ["the record passes, rule 4, on each list that names these states"]


# The split table

def class_lines(classes):
    groups = {}
    for value, group in enumerate(classes):
        groups.setdefault(group, []).append(value)
    out = []
    for group in range(max(groups) + 1):
        held = groups.get(group, [])
        said = ", ".join(phrase.spread(*ends) for ends in phrase.runs(held)) if held else "no byte"
        out.append("class %d: %s" % (group, said))
    return out


def part_lines(table):
    out = []
    for part, held in enumerate(table.parts):
        steps = ["%s on %s" % (phrase.members(row), phrase.counted("class", groups))
                 for row, groups in same_rows(table, part)]
        out.append("part %d: %s, with rows %s" % (part, phrase.members(held), "; ".join(steps)))
    return out


def same_rows(table, part):
    """The different rows of a part, each with its classes."""
    groups = {}
    for group in range(table.width):
        groups.setdefault(table.row[part, group], []).append(group)
    return groups.items()


def split_line(at, split):
    used = used_slots(split)
    slots = "no part" if not used else ", ".join("part %d" % slot for slot in used)
    return "split %d: %s by %s" % (at, phrase.members(split.members), slots)


def tell_table(data, table, bound, whole=False):
    refusal, why = blame.table_fault(data, table, bound)
    out = ["a split table of %s, %s, %s and %s, at bound %d, for a list of %s" % (
        phrase.many(len(set(table.classes)), "class"),
        phrase.many(len(table.parts) // SET_SIZE, "part"),
        phrase.many(len(table.rows) // SET_SIZE, "row"),
        phrase.many(len(table.splits) // SPLIT_SIZE, "split"), bound,
        phrase.many(len(data) // RECORD_SIZE, "record"))]
    if len(table.classes) == BYTE_VALUES and not blame.length_faults(table):
        lists = tables.decoded(table)
        out += class_lines(lists.classes)
        out += shortened(part_lines(lists), whole)
        out += shortened([split_line(at, split) for at, split in enumerate(lists.splits)], whole)
    if refusal:
        return refusal, out + ["refused, %d: %s" % (refusal, why)]
    out.append("the table passes, rules 1 to 3 and 7 to 13")
    idle = reach.idle_splits(lists, model.automaton(data))
    if idle:
        out.append("no flow comes to %s" % phrase.counted("split", idle))
    idle = reach.idle_parts(lists)
    if idle:
        out.append("no split uses %s" % phrase.counted("part", idle))
    return 0, out
