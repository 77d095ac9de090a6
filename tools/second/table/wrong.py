"""Wrong versions of the rules of the split table, its feed and its builder."""

from second.list.streams import FEEDS
from second.table.streams import BUILDS

RULES = ["second.list.model", "second.table.model"]
BEHIND = ["second.index.model"]

FEED_9 = "unordered(decoded(table))"
SLOT = "low + 256 * high"
TAKEN = "split.slots[:split.slots.index(UNUSED)]"
LOOKS_UP = "taken = taken_slots(lists.first[frontier])"
SEARCHES = "while waiting and len(found) + len(waiting) <= MOST_PARTS:"
SORTS = "parts = sorted(found, key=pack_set)"


def order(passes):
    """Another order of the splits: whether split b may come behind split a."""
    return [("not before < split.name", "not passes_9(before, split)"),
            ("before = split.name", "before = split"),
            ("def breaks_9", "def passes_9(a, b):\n    return %s\n\n\ndef breaks_9" % passes)]


def by_key(key):
    """The order of splits by a key of split s."""
    return order("%s < %s" % (key.replace("s.", "a."), key.replace("s.", "b.")))


def by_words(size, first, last):
    """The order by words of so many bytes, the low or the high byte first ("little", "big"),
    compared from the first or from the last word on ("1", "-1")."""
    return by_key('[int.from_bytes(w, "%s") for w in cut(s.name, %d)][::%s]' % (first, size, last))


def slot(reads):
    """Another reading of a slot's two bytes, low and high."""
    return [("[number(slot) for slot in cut(record[SET_SIZE:], 2)]",
             "[%s for low, high in cut(record[SET_SIZE:], 2)]" % reads)]


def width(classes):
    """Another number of classes."""
    return [("width = max(table.classes) + 1",
             "width = %s" % classes.replace("classes", "table.classes")),
            ("width = max(self.classes) + 1",
             "width = %s" % classes.replace("classes", "self.classes")),
            ("for data in cut(table.rows, SET_SIZE)]",
             "for data in cut(table.rows, SET_SIZE)] + [frozenset()] * MOST_CLASS"),
            ("for group in range(self.width)", "for group in range(MOST_CLASS + 1)")]


def not_14(where):
    """Where 14 is not looked for, no row is read: the new frontier is empty."""
    return [("        if moved is None:\n",
             "        if moved is None and %s:\n            moved = frozenset(), 0\n"
             "        if moved is None:\n" % where)]


def feed_8(table):
    """The split feed looks at another table for 8; of the splits it reads the whole ones."""
    return [("if not refusal and wrong_lists(table)", "if not refusal and wrong_lists(%s)" % table),
            ("cut(table.splits, SPLIT_SIZE)",
             "cut(table.splits[:len(table.splits) // SPLIT_SIZE * SPLIT_SIZE], SPLIT_SIZE)")]


def feed_9(test):
    """Another test of the splits' order in the split feed."""
    return [(FEED_9, test.replace("lists", "decoded(table)"))]


WRONG = [
    # The table's lists and classes
    ("table: K is at least 2", width("max(2, max(classes) + 1)")),
    ("table: K is the number of distinct classes", width("len(set(classes))")),
    ("table: the sets of splits are read by their first byte", [
        ("name, unpack_set(name)", "name, unpack_set(name[:1] + bytes(SET_SIZE - 1))")]),
    ("table: the sets of parts and rows are read by their first byte", [
        ("[unpack_set(data) for data in cut(table.parts, SET_SIZE)]",
         "[unpack_set(data[:1] + bytes(SET_SIZE - 1)) for data in cut(table.parts, SET_SIZE)]"),
        ("[unpack_set(data) for data in cut(table.rows, SET_SIZE)]",
         "[unpack_set(data[:1] + bytes(SET_SIZE - 1)) for data in cut(table.rows, SET_SIZE)]")]),
    ("table: a split is found by its first byte", [
        ("setdefault(split.members, split)", "setdefault(split.name[:1], split)"),
        ("nfa.starts not in table.first", "pack_set(nfa.starts)[:1] not in table.first"),
        ("nfa.step(split.members, byte) not in table.first",
         "pack_set(nfa.step(split.members, byte))[:1] not in table.first"),
        ("if frontier not in lists.first", "if pack_set(frontier)[:1] not in lists.first"),
        ("lists.first[frontier]", "lists.first[pack_set(frontier)[:1]]")]),

    # Slots
    ("slots: the low byte only", slot("UNUSED if low + 256 * high == UNUSED else low")),
    ("slots: the low byte only, 255 for unused", slot("UNUSED if low == 255 else low")),
    ("slots: the high byte first", slot("high + 256 * low")),
    ("slots: from 1,024 on unused", slot("%s if %s < 1024 else UNUSED" % (SLOT, SLOT))),
    ("slots: with high byte 255 unused", slot("%s if high < 255 else UNUSED" % SLOT)),
    ("slots: with low byte 255 unused", slot("%s if low < 255 else UNUSED" % SLOT)),
    ("slots: unused where there is no such part",
     slot("%s if %s < len(self.parts) else UNUSED" % (SLOT, SLOT))),
    ("slots: used ones stop at the first unused", [
        ("return [slot for slot in split.slots if slot != UNUSED]", "return taken_slots(split)"),
        ("if split.slots != padded(used)", "if split.slots[:len(used)] != used")]),

    # The check
    ("check: refuses all tables", [("    return deep_refusal(data, table)\n",
                                    "    return deep_refusal(data, table) or 13\n")]),
    ("check: passes what has no refusal 1 to 9", [("    return deep_refusal(data, table)\n",
                                                   "    return 0\n")]),

    # The order of splits
    ("order: not looked at", order("True")),
    ("order: equal sets pass", order("a.name <= b.name")),
    ("order: equal sets pass with the same slots",
     order("a.name < b.name or a.name == b.name and a.slots == b.slots")),
    ("order: equal sets pass with a greater first slot",
     order("a.name < b.name or a.name == b.name and a.slots[0] < b.slots[0]")),
    ("order: equal sets pass with a smaller first slot",
     order("a.name < b.name or a.name == b.name and a.slots[0] > b.slots[0]")),
    ("order: equal sets pass with other slots",
     order("a.name < b.name or a.name == b.name and a.slots != b.slots")),
    ("order: equal sets pass with more slots",
     order("a.name < b.name or a.name == b.name and len(used_slots(a)) < len(used_slots(b))")),
    ("order: equal sets by their slots as numbers", by_key("(s.name, s.slots)")),
    ("order: equal sets by their slots, falling", order("(a.name, b.slots) < (b.name, a.slots)")),
    ("order: all bytes of a split",
     by_key('s.name + b"".join(n.to_bytes(2, "little") for n in s.slots)')),
    ("order: all bytes of a split as a number",
     by_key('number(s.name + b"".join(n.to_bytes(2, "little") for n in s.slots))')),
    ("order: the slots, then the set", by_key("(s.slots, s.name)")),
    ("order: the set as a number", by_key("number(s.name)")),
    ("order: words of 8 bytes, low byte first", by_words(8, "little", "1")),
    ("order: words of 4 bytes, low byte first", by_words(4, "little", "1")),
    ("order: words of 2 bytes, low byte first", by_words(2, "little", "1")),
    ("order: words of 8 bytes, high byte first, from the last word on", by_words(8, "big", "-1")),
    ("order: bytes from 128 on as negative numbers",
     by_key("[(byte + 128) % 256 for byte in s.name]")),
    ("order: the states, lowest first", by_key("sorted(s.members)")),
    ("order: bits, state 0 first", by_key("[state in s.members for state in range(8 * SET_SIZE)]")),
    ("order: how many states, then the set", by_key("(len(s.members), s.name)")),
    ("order: the first byte alone, equal ones pass", order("a.name[0] <= b.name[0]")),
    ("order: the first byte alone, equal ones fail", by_key("s.name[0]")),
    ("order: the first word alone, equal ones pass", order("a.name[:8] <= b.name[:8]")),
    ("order: without the first byte", by_key("s.name[1:]")),
    ("order: without the last byte", by_key("s.name[:-1]")),
    ("order: without the last byte, equal ones pass", order("a.name[:-1] <= b.name[:-1]")),
    ("order: without the middle words, equal ones pass",
     order("a.name[:8] + a.name[-8:] <= b.name[:8] + b.name[-8:]")),
    ("order: every byte greater or equal",
     order("a.name != b.name and all(x <= y for x, y in zip(a.name, b.name))")),
    ("order: the set is a larger one", order("a.members < b.members")),
    ("order: the first two are not compared", [
        ("before = None", "before = seen = None"),
        ("if before is not None and not before", "if seen is not None and not before"),
        ("before = split.name", "seen, before = before, split.name")]),
    ("order: the last two are not compared", [
        ("if before is not None and not before",
         "if before is not None and split is not table.splits[-1] and not before")]),

    # The split feed
    ("split feed: 8 without looking at the splits", feed_8(
        "table._replace(splits=bytes(SPLIT_SIZE))")),
    ("split feed: 8 without looking for the most splits", feed_8(
        "table._replace(splits=table.splits[-SPLIT_SIZE * MOST_SPLITS:])")),
    ("split feed: taken slots are all used ones", [(TAKEN, "used_slots(split)")]),
    ("split feed: all used slots are joined, those up to the unused one counted", [
        (LOOKS_UP, LOOKS_UP + "\n        every = used_slots(lists.first[frontier])"),
        ("in taken if slot >= len(lists.parts)", "in every if slot >= len(lists.parts)"),
        ("group] for slot in taken)", "group] for slot in every)")]),
    ("split feed: all used slots are counted, those up to the unused one joined", [
        ("for slot in taken), len(taken)",
         "for slot in taken), len(used_slots(lists.first[frontier]))")]),
    ("split feed: 9 is not looked for", feed_9("False")),
    ("split feed: 9 is not looked for where the piece is empty", feed_9("piece and unordered(lists)")),
    ("split feed: 9 comes after 14", [
        (FEED_9, "False"),
        ("return run(automaton(data), record, words, piece, move)",
         "answer = run(automaton(data), record, words, piece, move)\n"
         "    if answer.refusal == 0 and unordered(lists):\n"
         "        return refused(9, words, record)\n"
         "    return answer")]),
    ("split feed: 9 comes before 8", [
        ("if not refusal and wrong_lists(table)", "if not refusal and len(table.splits) % SPLIT_SIZE == 0 "
         "and table.classes and table.parts and unordered(Names(table)):\n        refusal = 9\n"
         "    if not refusal and wrong_lists(table)"),
        ("def unordered(table)", "class Names:\n    def __init__(self, table):\n"
         "        self.splits = [Split(s[:SET_SIZE], None, None) for s in cut(table.splits, SPLIT_SIZE)]\n\n\n"
         "def unordered(table)")]),
    ("split feed: 9 comes before 4", [
        ("    refusal = feed_refusal(data, record, start, piece)\n    if not refusal and not 1 <= bound",
         "    refusal = list_refusal(data)\n    if not refusal and not wrong_lists(table) and unordered(decoded(table)):\n"
         "        refusal = 9\n    refusal = refusal or feed_refusal(data, record, start, piece)\n"
         "    if not refusal and not 1 <= bound")]),
    ("split feed: 9 for slots too", feed_9("breaks_9(lists, bound)")),
    ("split feed: 9 says that an empty piece is all consumed", [
        ("        refusal = 9\n    if refusal:\n        return refused(refusal, words, record)",
         "        refusal = 9\n    if refusal:\n"
         "        return refused(refusal, words, record)._replace(all=refusal == 9 and not piece)")]),
    ("split feed: equal sets pass", feed_9("[s.name for s in lists.splits] != sorted(s.name for s in lists.splits)")),
    ("split feed: the order of words of 8 bytes, low byte first", feed_9(
        "(lambda keys: any(not a < b for a, b in zip(keys, keys[1:])))"
        "([[number(w) for w in cut(s.name, 8)] for s in lists.splits])")),
    ("split feed: the order of the sets as numbers", feed_9(
        "(lambda keys: any(not a < b for a, b in zip(keys, keys[1:])))([number(s.name) for s in lists.splits])")),
    ("split feed: the order of the first two is not looked at", feed_9(
        "(lambda keys: any(not a < b for a, b in zip(keys[1:], keys[2:])))([s.name for s in lists.splits])")),
    ("split feed: the order of the last two is not looked at", feed_9(
        "(lambda keys: any(not a < b for a, b in zip(keys, keys[1:-1])))([s.name for s in lists.splits])")),
    ("split feed: the place after the one found", [
        (LOOKS_UP, "taken = taken_slots((lists.splits + lists.splits[-1:])[lists.splits.index(lists.first[frontier]) + 1])")]),
    ("split feed: 14 is not looked for at the first byte of a piece", not_14("consumed == 0")),
    ("split feed: 14 is not looked for at offset 0", not_14("flow.offset == 0")),
    ("split feed: 14 is not looked for at the last byte of a piece",
     not_14("consumed == len(piece) - 1")),
    ("split feed: 14 is not looked for at a byte of value 0", not_14("byte == 0")),
    ("split feed: a pause for 14 at the first byte of a piece", [
        ("            refusal = 14\n", "            refusal = 14 if consumed else 0\n")]),
]

BUILDERS = [
    ("builder: one set fewer", [(SEARCHES, SEARCHES.replace("<=", "<"))]),
    ("builder: one set more", [(SEARCHES, SEARCHES.replace("<=", "<= 1 +"))]),
    ("builder: what one byte reaches is all", [(SEARCHES, "for _ in range(2):\n        if not waiting:\n            break"),
                                      ("return None if waiting else found", "return found")]),
    ("builder: one class fewer", [("max(classes) <= MOST_CLASS", "max(classes) < MOST_CLASS")]),
    ("builder: one class more", [("max(classes) <= MOST_CLASS", "max(classes) <= MOST_CLASS + 1")]),
    ("builder: classes by the targets alone", [("moves[byte].add((edge.source, edge.target))", "moves[byte].add(edge.target)")]),
    ("builder: classes by the sources alone", [("moves[byte].add((edge.source, edge.target))", "moves[byte].add(edge.source)")]),
    ("builder: classes by records, not by where they lead", [("moves[byte].add((edge.source, edge.target))", "moves[byte].add(edge)")]),
    ("builder: classes without the exchanged case", [
        ("            if edge.takes(byte):\n", "            if edge.low <= byte <= edge.high:\n")]),
    ("builder: classes by the states that are reached from the start alone", [
        ("    for edge in nfa.edges:\n", "    known = set(nfa.starts)\n    for _ in range(8 * SET_SIZE):\n        known |= {e.target for e in nfa.edges if e.source in known}\n"
                                         "    for edge in (e for e in nfa.edges if e.source in known):\n")]),
    ("builder: classes numbered from the highest byte", [
        ("numbers.setdefault(frozenset(moves[byte]), len(numbers)) for byte in range(BYTE_VALUES)]",
         "numbers.setdefault(frozenset(moves[byte]), len(numbers)) for byte in reversed(range(BYTE_VALUES))][::-1]")]),
    ("builder: parts in the order found", [(SORTS, "parts = list(found)")]),
    ("builder: parts by their numbers", [(SORTS, "parts = sorted(found, key=lambda part: number(pack_set(part)))")]),
    ("builder: rows in the order found", [("for part in parts for to in found[part]", "for part in found for to in found[part]")]),
    ("builder: rows class by class", [("for part in parts for to in found[part]", "for group in range(max(classes) + 1) for part in parts for to in [found[part][group]]")]),
    ("builder: the empty set has no slot", [("padded([at])", "padded([at] if part else [])")]),
    ("builder: unused slots are zero", [("slot.to_bytes(2, \"little\") for slot in padded([at])", "slot.to_bytes(2, \"little\") for slot in [at, 0, 0, 0]")]),
    ("builder: slots with the high byte first", [("slot.to_bytes(2, \"little\") for slot in padded([at])", "slot.to_bytes(2, \"big\") for slot in padded([at])")]),
    ("builder: 16 before 17", [("        return 17, None\n", "        return (17 if build(data, LENT)[0] == 0 else 16), None\n")]),
    ("builder: 17 before 1 to 3", [
        ("    refusal = list_refusal(data)\n    if refusal:\n        return refusal, None\n    if any(length < least",
         "    refusal = list_refusal(data)\n    if refusal and not any(length < least for length, least in zip(lent, LENT)):\n        return refusal, None\n    if any(length < least")]),
    ("builder: 17 for a list that is longer", [("length < least for length, least in zip(lent, LENT)", "length != least for length, least in zip(lent, LENT)")]),
    *(("builder: the length of list %d is not looked at" % at, [("in zip(lent, LENT)", "in list(zip(lent, LENT))[:%d] + list(zip(lent, LENT))[%d:]" % (at, at + 1))])
      for at in range(4)),
]

VERSIONS = [([FEEDS], "ksip", WRONG), ([BUILDS], "b", BUILDERS)]
