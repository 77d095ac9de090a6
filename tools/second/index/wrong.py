"""Wrong versions of the rules of the index: its filler, the prepared feed, and splits with an index
straight from a list."""

from second.index.streams import PREPARES
from second.list.streams import FEEDS as STREAM

RULES = ["second.index.model"]
BEHIND = []

PUT = "place_of(hint if begun else sought(names, model.pack_set(flow.frontier)))"
HELD = "splits[SPLIT_SIZE * hint:][:SET_SIZE] == model.pack_set(frontier)"
WORDS = "words = [places[to] + (TELLING if tells[to] else 0) for to in led]"
TOLD = "entries.told(to) if tells and entries.whole(to) else []"
SPLIT = "max([0] + [at for at in range(self.count) if place_of(at) <= place])"
NAMED = "return index[place_of(hint) + NAMED_AT] != 0"
KNOWN = "return len(index) < SET_SIZE or frontier <= model.unpack_set(index[:SET_SIZE])"
WHOLE = "place in range(len(self.index) - ENTRY_SIZE + 1)"
HALTS = "        if not entries.whole(place):\n            refusal = 14\n            break\n"
PAUSES = "        if len(told) + len(due) > len(words) // 2:\n            break\n"
GOOD = "rest == 0 and 1 <= count <= MOST_SPLITS and len(index) == place_of(count)"

FEEDS = [
    ("hint: believed without looking", [(HELD, "True")]),
    ("hint: never believed", [(HELD, "False")]),
    ("hint: by its low 16 bits", [("def holds(splits, index, hint, frontier):\n",
                                   "def holds(splits, index, hint, frontier):\n    hint %= 65536\n"),
                                  (PUT, PUT.replace("hint if", "hint % 65536 if")),
                                  ("place_of(hint) + NAMED_AT", "place_of(hint % 65536) + NAMED_AT")]),
    ("hint: looked at though the lists are bad", [
        ("if not good_lists(splits, index) or hint", "if hint"),
        (NAMED, "return index[place_of(hint) + NAMED_AT:][:1] != b\"\\0\"")]),
    ("hint: the split after it", [("place_of(hint if begun", "place_of(min(hint + 1, len(names) - 1) if begun")]),
    ("named: by the first set alone", [("    if holds(splits, index, hint, frontier):\n        " + NAMED + "\n", "")]),
    ("named: a flag of 2 is none", [(NAMED, NAMED.replace("!= 0", "== 1"))]),
    ("named: by the cost", [(NAMED, NAMED.replace("NAMED_AT", "COST_AT"))]),
    ("named: flag and first set", [(NAMED, NAMED + " and frontier <= model.unpack_set(index[:SET_SIZE])")]),
    ("named: not looked at where the hint holds", [(NAMED, "return True")]),
    ("named: an index too short names none", [(KNOWN, KNOWN.replace("len(index) < SET_SIZE or ", ""))]),
    ("named: some state of the frontier", [
        (KNOWN, KNOWN.replace("frontier <= ", "bool(frontier & ").replace("[:SET_SIZE])", "[:SET_SIZE]))"))]),
    ("word: tells from the next number on", [("tells, to = entries.word(place, byte)\n",
                                              "tells, to = entries.word(place, byte)\n        tells = tells and to > 0\n")]),
    ("word: high byte first", [("number(self.index[at:at + WORD])", "number(self.index[at:at + WORD][::-1])")]),
    ("word: by three bytes", [("number(self.index[at:at + WORD])", "number(self.index[at:at + WORD - 1])")]),
    ("word: what tells leads nowhere", [("        place = to\n", "        place = to + TELLING * tells\n")]),
    ("word: told of the entry that is left", [(TOLD, TOLD.replace("entries.told(to)", "entries.told(place)"))]),
    ("word: told though it does not say so", [(TOLD, "entries.told(to) if entries.whole(to) else []")]),
    ("word: never told", [(TOLD, "[]")]),
    ("word: told of a cut entry too", [(TOLD, "entries.told(to) if tells else []")]),
    ("cost: of the entry that is reached", [("rows += entries.cost(place)",
                                             "rows += entries.cost(to) if entries.whole(to) else 0")]),
    ("cost: one row", [("rows += entries.cost(place)", "rows += 1")]),
    ("whole: one byte short is whole", [(WHOLE, WHOLE.replace("+ 1)", "+ 2)")),
                                        ("return self.index[place + COST_AT]", "return (self.index[place + COST_AT:] + b\"\\0\")[0]")]),
    ("whole: the last entry is cut", [(WHOLE, WHOLE.replace(" + 1)", ")"))]),
    ("whole: entries begin behind the first set alone", [
        (WHOLE, WHOLE.replace("range(", "range(SET_SIZE, "))]),
    ("whole: entries begin where a split's does alone", [
        ("return " + WHOLE, "return %s and (place - SET_SIZE) %% ENTRY_SIZE == 0" % WHOLE)]),
    ("halt: a byte early", [("        place = to\n", "        if not entries.whole(to):\n            refusal = 14\n            break\n        place = to\n")]),
    ("halt: without a refusal", [(HALTS, HALTS.replace("            refusal = 14\n", ""))]),
    ("halt: room is looked at first", [("        if not entries.whole(place):\n", "        if not entries.whole(place) and len(words) > 1:\n"),
                                       ("        tells, to = entries.word(place, byte)\n",
                                        "        if not entries.whole(place):\n            break\n        tells, to = entries.word(place, byte)\n")]),
    ("room: one pair less", [(PAUSES, PAUSES.replace("> len", ">= len").replace("if ", "if due and "))]),
    ("room: an odd word counts", [(PAUSES, PAUSES.replace("len(words) // 2", "(len(words) + 1) // 2"))]),
    ("split: rounded up", [(SPLIT, "min([at for at in range(self.count) if place_of(at) >= place] or [self.count - 1])")]),
    ("split: none before the first entry", [(SPLIT, SPLIT.replace("[0] +", "[self.count] * (place < SET_SIZE) + [0] +"))]),
    ("split: the hint with 14", [("    at = entries.split(place)\n", "    at = hint if refusal else entries.split(place)\n")]),
    ("split: the number of splits with every refusal", [
        ("return Stood(model.refused(refusal, words, record), hint)",
         "return Stood(model.refused(refusal, words, record), len(splits) // SPLIT_SIZE)")]),
    ("split: where the call began", [("    return Stood(answer, at)", "    return Stood(answer, hint if begun else at)")]),
    ("frontier: read of the splits though no byte is fed", [("    if consumed:\n", "    if True:\n")]),
    ("frontier: kept at a place without an entry", [
        ("model.unpack_set(names[at]) if at < len(names) else frozenset()",
         "model.unpack_set(names[at]) if at < len(names) else flow.frontier")]),
    ("rules: 8 before 4", [("def feed_refusal(splits, index, hint, record, start, piece):\n",
                            "def feed_refusal(splits, index, hint, record, start, piece):\n    if not good_lists(splits, index):\n        return 8\n")]),
    ("rules: 6 before 5", [("    if start != flow.offset:\n        return 5\n", ""),
                           ("        return 6\n", "        return 6\n    if start != flow.offset:\n        return 5\n")]),
    ("rules: the last offset is refused", [("> MOST_OFFSET", ">= MOST_OFFSET")]),
    ("rules: an index that is longer passes", [(GOOD, GOOD.replace("== place_of", ">= place_of"))]),
    ("rules: a broken last split passes", [(GOOD, GOOD.replace("rest == 0 and ", "")),
                                           ("cut(splits, SPLIT_SIZE)]", "cut(splits, SPLIT_SIZE)][:len(splits) // SPLIT_SIZE]")]),
    ("rules: no split passes", [(GOOD, GOOD.replace("1 <= count", "0 <= count"))]),
    ("sought: from the front", [("def sought(names, name):\n",
                                 "def sought(names, name):\n    return names.index(name) if name in names else len(names)\n")]),
    ("sought: the highest of the lower half first", [("middle = (low + high) // 2", "middle = (low + high - 1) // 2")]),
    ("sought: not the last", [("low, high = 0, len(names)\n", "low, high = 0, len(names) - 1\n")]),
]

FILLERS = [
    ("filler: words by the class of the byte before", [
        ("lists.row[slot, lists.classes[byte]]", "lists.row[slot, lists.classes[max(byte, 1) - 1]]"),
        ("places[to] + ", "places.get(to, 0) + "), ("TELLING if tells[to]", "TELLING if tells.get(to)")]),
    ("filler: no word tells", [(WORDS, WORDS.replace("TELLING if tells[to] else 0", "0"))]),
    ("filler: words of the entry that tells", [(WORDS, WORDS.replace("tells[to]", "tells[members]"))]),
    ("filler: numbers in place of places", [("members: place_of(at) for", "members: at for")]),
    ("filler: every state counts as named", [("int(members <= nfa.named)", "1")]),
    ("filler: no split is named", [("int(members <= nfa.named)", "0")]),
    ("filler: one row a byte", [("[len(taken[members]) for members in sets]", "[1] * len(sets)")]),
    ("filler: what is behind stays", [("return (refusal, index) if refusal else (0, filled(data, table))",
                                       "return (refusal, index) if refusal else (0, b\"\".join(filled(data, table)[at:at + 1] if (at - SET_SIZE) % ENTRY_SIZE <= NAMED_AT or at < SET_SIZE else index[at:at + 1] for at in range(len(index))))")]),
    ("filler: signatures by the states", [("sum(2 ** signature for signature in tells[members])", "sum(2 ** (signature ^ 1) for signature in tells[members])")]),
    ("filler: the first set is that of the splits", [("out = [model.pack_set(nfa.named)]", "out = [model.pack_set(model.union(sets))]")]),
    ("filler: a longer index is filled", [("len(index) != index_size(table.splits)", "len(index) < index_size(table.splits)")]),
    ("filler: 8 by the index behind 9 to 13", [
        (" or len(index) != index_size(table.splits)", ""),
        ("    return tables.table_refusal(data, table, bound)\n",
         "    return tables.table_refusal(data, table, bound) or 8 * (len(index) != index_size(table.splits))\n")]),
    ("filler: 7 behind 8", [
        ("    if not 1 <= bound <= MOST_BOUND:\n        return 7\n", ""),
        ("index_size(table.splits):\n        return 8\n",
         "index_size(table.splits):\n        return 8\n    if not 1 <= bound <= MOST_BOUND:\n        return 7\n")]),
]

MAKERS = [
    ("prepare: one set fewer may be reached", [("sets = reached(nfa, MOST_SPLITS)", "sets = reached(nfa, MOST_SPLITS - 1)")]),
    ("prepare: one set more may be reached", [("sets = reached(nfa, MOST_SPLITS)", "sets = reached(nfa, MOST_SPLITS + 1)")]),
    ("prepare: as many sets as a table has parts", [("sets = reached(nfa, MOST_SPLITS)", "sets = reached(nfa, sizes.MOST_PARTS)")]),
    ("prepare: as many classes as a table has", [("    sets = reached(nfa, MOST_SPLITS)\n",
                                                  "    sets = reached(nfa, MOST_SPLITS)\n    if max(tables.byte_classes(nfa)) > sizes.MOST_CLASS:\n        return 16, None\n")]),
    ("prepare: 16 before 17", [("    if any(length < least", "    if reached(model.automaton(data), MOST_SPLITS) is None:\n        return 16, None\n    if any(length < least")]),
    ("prepare: a list one byte short is enough", [("length < least for", "length < least - 1 for")]),
    ("prepare: the splits' length alone", [("zip(lent, LENT)):", "zip(lent[:1], LENT)):")]),
    ("prepare: longer lists are refused", [("length < least for", "length != least for")]),
    ("prepare: the sets as they are found", [("sorted(found, key=model.pack_set)", "sorted(found, key=len)")]),
    ("prepare: slots of a table", [("for slot in tables.padded([]))", "for slot in tables.padded([0]))"),
                                   ("    assert slots == UNUSED.to_bytes(2, \"little\") * sizes.SLOTS\n", "")]),
    ("prepare: no rows", [("ONE_ROW = 1", "ONE_ROW = 0")]),
    ("prepare: one byte's steps alone", [("found, edge = {nfa.starts}, [nfa.starts]", "lowest, found, edge = lowest[-1:], {nfa.starts}, [nfa.starts]"),
                                         ("places[to] + ", "places.get(to, 0) + "), ("TELLING if tells[to]", "TELLING if tells.get(to)")]),
]

VERSIONS = [([STREAM], "p", FEEDS), ([STREAM], "i", FILLERS), ([PREPARES], "q", MAKERS)]
