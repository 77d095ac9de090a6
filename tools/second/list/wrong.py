"""Wrong versions of the rules of the signature list, of opening and of what the feeds share."""

from second.list.streams import FEEDS

RULES = ["second.list.model"]
BEHIND = ["second.table.model", "second.matrix.model", "second.index.model"]

CASE = "bytes([byte]).swapcase()[0]"
NO_KIND = "    return False\n\n\n@lru_cache(maxsize=64)\n"
KEPT = "written + words[len(written):]"
FOREIGN = "    if flow.frontier - automaton(data).named:\n        return 4\n"
AFTER_5 = "    if start != flow.offset:\n        return 5\n"
AFTER_6 = "    if flow.offset + len(piece) > MOST_OFFSET:\n        return 6\n"
OPENED = "pack_flow(Flow(nfa.starts, 0, 0))"
AT_ONCE = "[value for signature in nfa.signatures(nfa.starts) for value in (signature, 0)]"
NO_ROOM = "    if len(first) // 2 > len(words) // 2:\n"


def exchange(byte):
    """Another exchange of case."""
    return [("return " + CASE, "return " + byte)]


WRONG = [
    # The list
    ("list: the state that an edge leaves by its low byte", [
        ("and middle < STATES and last < STATES", "and last < STATES"),
        ("r[2], number(r[4:6])", "r[2], r[4]")]),
    ("list: the target of an edge by its low byte", [
        ("and middle < STATES and last < STATES", "and middle < STATES"),
        ("r[2], number(r[4:6]), number(r[6:8])", "r[2], number(r[4:6]), r[6]")]),
    ("list: the state of a start by its low byte", [
        ("== {0} and last < STATES", "== {0}"), ("frozenset(number(r[6:8])", "frozenset(r[6]")]),
    ("list: the state of an accept by its low byte", [
        ("and middle < STATES and last < SIGNATURES", "and last < SIGNATURES"),
        ("Accept(number(r[4:6])", "Accept(r[4]")]),
    ("list: the signature by its low byte", [
        ("and middle < STATES and last < SIGNATURES", "and middle < STATES"),
        ("Accept(number(r[4:6]), number(r[6:8]))", "Accept(number(r[4:6]), r[6])")]),
    ("list: kinds 3 to 255 are accepts", [("if kind == 3", "if kind >= 3"),
                                          ("if r[0] == 3", "if r[0] >= 3")]),
    ("list: kinds 4 to 255 are passed over", [(NO_KIND, NO_KIND.replace("False", "kind > 3"))]),
    ("list: kinds 0 and 1 are edges", [("if kind == 1", "if kind <= 1"),
                                       ("if r[0] == 1", "if r[0] <= 1")]),
    ("list: a record of zeros passes", [(NO_KIND, NO_KIND.replace("False", "not any(record)"))]),

    # The sizes with 256 states
    ("sizes: states below 256 alone", [
        ("middle < STATES and last < STATES", "middle < 256 and last < 256"),
        ("== {0} and last < STATES", "== {0} and last < 256"),
        ("middle < STATES and last < SIGNATURES", "middle < 256 and last < SIGNATURES")]),
    ("sizes: signatures below the states", [("last < SIGNATURES", "last < STATES")]),
    ("sizes: 4,096 records", [("len(data) > MOST_LIST", "len(data) > 32768")]),
    ("sizes: one record more", [("len(data) > MOST_LIST", "len(data) > MOST_LIST + 8")]),
    ("sizes: a record of 48 bytes is opened", [
        ("refusal and len(record) != FLOW_SIZE:\n", "refusal and len(record) not in (48, FLOW_SIZE):\n")]),
    ("sizes: a record is opened where it is not too short", [
        ("refusal and len(record) != FLOW_SIZE:\n", "refusal and len(record) < FLOW_SIZE:\n"),
        (OPENED, OPENED + " + record[FLOW_SIZE:]")]),
    ("sizes: rows up to 256 for each byte", [
        ("flow.rows > STATES * flow.offset", "flow.rows > 256 * flow.offset")]),
    ("sizes: one row more than all states", [
        ("flow.rows > STATES * flow.offset", "flow.rows > STATES * flow.offset + 1")]),
    ("sizes: states read by ten bits", [
        ("r[2], number(r[4:6]), number(r[6:8])",
         "r[2], number(r[4:6]) % STATES, number(r[6:8]) % STATES"),
        ("middle < STATES and last < STATES", "True")]),

    # Either case
    ("case: byte 3 is not looked at by the check", [(" and record[3] <= 1", "")]),
    ("case: byte 3 of 2 passes", [("record[3] <= 1", "record[3] <= 2")]),
    ("case: byte 3 of 1 is refused", [("record[3] <= 1", "record[3] == 0")]),
    ("case: any byte 3 but 0 is either case", [(" and record[3] <= 1", ""),
                                               ("r[3] == 1", "r[3] != 0")]),
    ("case: low over high passes with 1", [
        ("record[1] <= record[2] and", "record[3] == 1 or record[1] <= record[2] and")]),
    ("case: byte 3 of a start may be 1", [
        ("set(record[1:6]) == {0}", "set(record[1:3] + record[4:6]) == {0} and record[3] <= 1")]),
    ("case: byte 3 of an accept may be 1", [
        ("set(record[1:4]) == {0}", "set(record[1:3]) == {0} and record[3] <= 1")]),
    ("case: no edge is for either", [("r[3] == 1", "False")]),
    ("case: every edge is for either", [("r[3] == 1", "True")]),
    ("case: exchanged by bit 5 in every byte", exchange("byte ^ 32")),
    ("case: capitals from small letters alone", exchange("bytes([byte]).upper()[0]")),
    ("case: small letters from capitals alone", exchange("bytes([byte]).lower()[0]")),
    ("case: the letters past ASCII too", exchange(
        "bytes([byte]).swapcase()[0] if byte < 192 else byte ^ 32")),
    ("case: 0 for what is no letter", exchange("0 if %s == byte else %s" % (CASE, CASE))),
    ("case: without the first letter", exchange("byte if byte in b\"Aa\" else " + CASE)),
    ("case: without the last letter", exchange("byte if byte in b\"Zz\" else " + CASE)),
    ("case: one byte before the letters too", exchange(
        "byte ^ 32 if byte in b\"@`\" else " + CASE)),
    ("case: one byte behind the letters too", exchange(
        "byte ^ 32 if byte in b\"[{\" else " + CASE)),
    ("case: low and high exchanged instead of the byte", [
        ("self.low <= exchanged(byte) <= self.high",
         "exchanged(self.low) <= byte <= exchanged(self.high)")]),
    ("case: the range as a whole, where both its ends are letters", [
        ("and self.low <= exchanged(byte) <= self.high",
         "and exchanged(self.low) != self.low and exchanged(self.high) != self.high"
         " and self.low <= exchanged(byte) <= self.high")]),
    ("case: the exchanged byte alone", [
        ("return (self.low <= byte <= self.high\n",
         "return (self.low <= byte <= self.high and not self.either\n")]),
    ("case: the exchanged byte must lie in the range too", [
        ("return (self.low <= byte <= self.high\n                or self.either and",
         "return (self.low <= byte <= self.high\n                and (not self.either or"),
        ("exchanged(byte) <= self.high)", "exchanged(byte) <= self.high))")]),

    # Foreign records
    ("foreign: no state is", [(FOREIGN, "")]),
    ("foreign: only states that edges name are known", [
        ("            self.starts, (e.source", "            (e.source"),
        (",\n            (a.state for a in self.accepts))", ")")]),
    ("foreign: start states are not named", [("            self.starts, (e.source", "            (e.source")]),
    ("foreign: accept states are not named", [(",\n            (a.state for a in self.accepts))", ")")]),
    ("foreign: targets are not named", [("(e.target for e in self.edges),", "")]),
    ("foreign: sources are not named", [("(e.source for e in self.edges), ", "")]),
    ("foreign: a signature names a state", [
        ("(a.state for a in self.accepts))", "(n for a in self.accepts for n in a))")]),
    ("foreign: only where every state is", [
        ("if flow.frontier - automaton(data).named:",
         "if flow.frontier and not flow.frontier & automaton(data).named:")]),
    ("foreign: given after 5", [(FOREIGN, ""), (AFTER_5, AFTER_5 + FOREIGN)]),
    ("foreign: given after 6", [(FOREIGN, ""), (AFTER_6, AFTER_6 + FOREIGN)]),
    ("foreign: not for an empty piece", [
        ("if flow.frontier - automaton", "if piece and flow.frontier - automaton")]),
    ("foreign: at opening too", [
        ("    if refusal:\n        return Opened(refusal, 0, words, record)",
         "    if not refusal and unpack_set(record[:SET_SIZE]) - automaton(data).named:\n        refusal = 4\n"
         "    if refusal:\n        return Opened(refusal, 0, words, record)")]),

    # Opening
    ("opening: writes nothing", [(OPENED, "record")]),
    ("opening: keeps the old rows", [(OPENED, OPENED + "[:ROWS_AT] + record[ROWS_AT:]")]),
    ("opening: keeps the old reserved bytes", [
        (OPENED, OPENED + "[:RESERVED_AT] + record[RESERVED_AT:ROWS_AT] + bytes(8)")]),
    ("opening: refuses old content that a feed refuses", [
        (NO_ROOM, "    if feed_refusal(data, record, unpack_flow(record).offset, b\"\"):\n"
         "        return Opened(4, 0, words, record)\n" + NO_ROOM)]),
    ("opening: refuses old content that is not zeros", [
        (NO_ROOM, "    if any(record):\n        return Opened(4, 0, words, record)\n" + NO_ROOM)]),
    ("opening: tells no pairs", [(AT_ONCE, "[]")]),
    ("opening: tells in the order of records", [
        (AT_ONCE, "[value for g in dict.fromkeys(number(r[6:8]) for r in cut(data, RECORD_SIZE)\n"
         "             if r[0] == 3 and number(r[4:6]) in nfa.starts) for value in (g, 0)]")]),
    ("opening: tells a signature as often as it is accepted", [
        (AT_ONCE, "[value for g in sorted(number(r[6:8]) for r in cut(data, RECORD_SIZE)\n"
         "             if r[0] == 3 and number(r[4:6]) in nfa.starts) for value in (g, 0)]")]),
    ("opening: tells offset 1", [("for value in (signature, 0)", "for value in (signature, 1)")]),
    ("opening: tells the offset first", [
        ("for value in (signature, 0)", "for value in (0, signature)")]),
    ("opening: tells of all states", [
        ("nfa.signatures(nfa.starts)", "nfa.signatures(range(STATES))")]),
    ("opening: 15 for a room that is just enough", [
        ("len(first) // 2 > len(words) // 2", "len(first) // 2 >= len(words) // 2")]),
    ("opening: an odd last word is room", [
        ("len(first) // 2 > len(words) // 2", "len(first) // 2 > (len(words) + 1) // 2")]),
    ("opening: 15 without a word", [
        ("len(first) // 2 > len(words) // 2", "len(first) // 2 > len(words) // 2 or not words")]),
    ("opening: 15 before 4", [
        ("if not refusal and len(record) != FLOW_SIZE:",
         "if not refusal and len(record) != FLOW_SIZE and "
         "2 * len(automaton(data).signatures(automaton(data).starts)) <= len(words):")]),
    ("opening: the record is written though 15", [
        ("Opened(15, 0, words, record)", "Opened(15, 0, words, %s)" % OPENED)]),
    ("opening: the pairs that fit are told though 15", [
        ("Opened(15, 0, words, record)",
         "Opened(15, 0, first[:len(words) // 2 * 2] + words[len(words) // 2 * 2:], record)")]),
    ("opening: the words behind the pairs are cleared", [
        ("first + words[len(first):]", "first + [0] * (len(words) - len(first))")]),
    ("opening: words are counted for pairs", [("Opened(0, len(first) // 2,", "Opened(0, len(first),")]),

    # Both feeds
    ("feeds: the words behind the pairs are cleared", [
        (KEPT, "written + [0] * (len(words) - len(written))")]),
    ("feeds: the odd last word is cleared", [
        (KEPT, "(%s)[:2 * room] + [0] * (len(words) %% 2)" % KEPT)]),
    ("feeds: an odd buffer has room for one pair less", [
        ("room = len(words) // 2", "room = max(0, len(words) // 2 - len(words) % 2)")]),
    ("feeds: all where the bytes are the low byte of the length", [
        ("consumed == len(piece)", "consumed == len(piece) % 256")]),
    ("feeds: all where the low bytes of both are equal", [
        ("consumed == len(piece)", "consumed % 256 == len(piece) % 256")]),

    # The plain feed
    ("plain feed: rows of states below 128 only", [
        ("byte), len(frontier)", "byte), len([s for s in frontier if s < 128])")]),
    ("plain feed: rows of states from 128 on only", [
        ("byte), len(frontier)", "byte), len([s for s in frontier if s > 127])")]),
    ("plain feed: rows by the low byte of their number", [
        ("byte), len(frontier)", "byte), len(frontier) % 256")]),
]

VERSIONS = [([FEEDS], "", WRONG)]
