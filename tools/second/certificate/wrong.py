"""Wrong versions of the rules of certificates."""

from second.certificate.streams import STREAMS

RULES = ["second.certificate.model"]
BEHIND = []

LENGTH = "len(certificate) % NOTE_SIZE != 0 or len(certificate) // NOTE_SIZE > MOST_NOTES"
TWICE = "        if key(config) in book:\n            return None\n"
FIELDS = "machines.bad_record(moves, flow_record(note))"
LOOK = "book.get(key(config)) == members"
ALERTS = "alerted == set(nfa.signatures(members))"
OPENING = "    if not stands(book, nfa, config, alerted, nfa.starts):\n        return False\n"
STEPS = "in book.items():\n        for target"
REFUSES = """    refused = model.list_refusal(data)
    if refused == 0:
        refused = machines.refused(moves, programs)
    if refused == 0 and not accepted(model.automaton(data), moves, programs, certificate):
        refused = 22
"""
# What the start configuration leads to, of a book.
REACHED = '''def reached(book, nfa, moves, programs):
    """The records that the opening leads to."""
    config, _ = machines.run(machines.instructions(programs, 0), START)
    found, todo = {}, [config]
    while todo:
        config = todo.pop()
        if key(config) in found or key(config) not in book:
            continue
        found[key(config)] = book[key(config)]
        for target in {machines.target(moves, config.state, byte) for byte in range(256)}:
            todo.append(machines.run(machines.instructions(programs, target), config._replace(state=target))[0])
    return found


'''

WRONG = [
    ("bytes behind the last whole record are passed over", "len(certificate) % NOTE_SIZE != 0 or ", ""),
    ("4,097 records pass", "> MOST_NOTES:", "> MOST_NOTES + 1:"),
    ("4,095 records at most", "> MOST_NOTES:", ">= MOST_NOTES:"),
    ("an empty certificate passes", "    if book is None:\n", "    if book == {}:\n        return True\n    if book is None:\n"),
    ("of the fields the state alone is looked at", FIELDS, "(" + FIELDS + " and machines.number(note[:2]) >= len(moves) // 512)"),
    ("the reserved bytes are not looked at", FIELDS, "machines.bad_record(moves, note[:2] + bytes(6) + note[4:76])"),
    ("byte 3 is not looked at", FIELDS, "machines.bad_record(moves, note[:3] + bytes(5) + note[4:76])"),
    ("a counter of 65,537 passes", FIELDS, "machines.bad_record(moves, flow_record(note).replace(bytes([1, 0, 1, 0]), bytes(4)))"),
    ("the last counter is not looked at", FIELDS, "machines.bad_record(moves, flow_record(note)[:76] + bytes(4))"),
    ("the fields of the first record alone", FIELDS, "(not book and " + FIELDS + ")"),
    ("a configuration may be there twice with one set", TWICE, TWICE.replace("in book:", "in book and book[key(config)] != model.unpack_set(note[76:]):")),
    ("of a configuration that is there twice the first counts", TWICE, "        if key(config) in book:\n            continue\n"),
    ("of a configuration that is there twice the last counts", TWICE, ""),
    ("records have to rise", "    return book\n", "    return book if [*book] == sorted(book, key=lambda one: (one[0], sorted(one[1]), sorted(one[2]))) else None\n"),
    ("bits are no part of a configuration", "return config.state, config.bits,", "return config.state, frozenset(),"),
    ("bits over 31 are no part of a configuration", "return config.state, config.bits,", "return config.state, frozenset(b for b in config.bits if b < 32),"),
    ("counters are no part of a configuration", "frozenset(config.counters.items())", "frozenset()"),
    ("counter 15 is no part of a configuration", "frozenset(config.counters.items())", "frozenset((i, n) for i, n in config.counters.items() if i < 15)"),
    ("which counters are on is all of a configuration", "frozenset(config.counters.items())", "frozenset(config.counters)"),
    ("a counter counts by its low byte", "frozenset(config.counters.items())", "frozenset((i, n % 256) for i, n in config.counters.items())"),
    ("off counts as 0", "frozenset(config.counters.items())", "frozenset((i, n) for i, n in config.counters.items() if n)"),
    ("the state is no part of a configuration", "return config.state, config.bits,", "return 0, config.bits,"),
    ("a state counts by its low byte", "return config.state, config.bits,", "return config.state % 256, config.bits,"),
    ("the opening is not looked at", OPENING, ""),
    ("the start configuration before its program", "    config, alerted = machines.run(machines.instructions(programs, 0), START)\n",
     "    config, alerted = START, machines.run(machines.instructions(programs, 0), START)[1]\n"),
    ("the start configuration with any set", OPENING, "    if key(config) not in book or alerted != set(nfa.signatures(nfa.starts)):\n        return False\n"),
    ("the alerts at opening are not looked at", OPENING, "    if book.get(key(config)) != nfa.starts:\n        return False\n"),
    ("at opening fewer alerts pass", OPENING, OPENING.replace("not stands(book, nfa, config, alerted, nfa.starts)",
     "book.get(key(config)) != nfa.starts or not alerted <= set(nfa.signatures(nfa.starts))")),
    ("at opening more alerts pass", OPENING, OPENING.replace("not stands(book, nfa, config, alerted, nfa.starts)",
     "book.get(key(config)) != nfa.starts or not alerted >= set(nfa.signatures(nfa.starts))")),
    ("the steps are not looked at", "for byte in range(256)}:", "for byte in range(0)}:"),
    ("byte 0 is not looked at", "for byte in range(256)}:", "for byte in range(1, 256)}:"),
    ("byte 255 is not looked at", "for byte in range(256)}:", "for byte in range(255)}:"),
    ("one byte is stepped for each target of a state",
     "for target, after in {(machines.target(moves, state, byte), nfa.step(members, byte)) for byte in range(256)}:",
     "for target, after in {machines.target(moves, state, byte): nfa.step(members, byte) for byte in range(256)}.items():"),
    ("letters alone", "for byte in range(256)}:", "for byte in range(65, 123)}:"),
    ("the first record's steps are not looked at", STEPS, STEPS.replace("book.items()", "[*book.items()][1:]")),
    ("the last record's steps are not looked at", STEPS, STEPS.replace("book.items()", "[*book.items()][:-1]")),
    ("the first record's steps alone", STEPS, STEPS.replace("book.items()", "[*book.items()][:1]")),
    ("a recorded configuration with any set", LOOK, "key(config) in book"),
    ("a recorded set may hold more", LOOK, "book.get(key(config), frozenset()) >= members"),
    ("a recorded set may hold less", LOOK, "book.get(key(config), members | {-1}) <= members"),
    ("the sets that hold states", LOOK, "(not members or " + LOOK + ")"),
    ("a set counts by the states that the list names", LOOK, "(book.get(key(config)) is not None and book[key(config)] & nfa.named == members)"),
    ("a configuration that is missing counts as one with no state", LOOK, "book.get(key(config), frozenset()) == members"),
    ("the step is that of the new state's set", "nfa.step(members, byte))", "nfa.step(book.get((machines.target(moves, state, byte), on, counters), members), byte))"),
    ("the alerts of a step are not looked at", "if not stands(book, nfa, config, alerted, after):", "if book.get(key(config)) != after:"),
    ("fewer alerts pass", ALERTS, "alerted <= set(nfa.signatures(members))"),
    ("more alerts pass", ALERTS, "alerted >= set(nfa.signatures(members))"),
    ("as many alerts pass", ALERTS, "len(alerted) == len(nfa.signatures(members))"),
    ("alerts where the set accepts none are passed over", ALERTS, "(not nfa.signatures(members) or " + ALERTS + ")"),
    ("the alerts are those of the set before", "if not stands(book, nfa, config, alerted, after):\n", "if book.get(key(config)) != after or alerted != set(nfa.signatures(members)):\n"),
    ("the program of the state before the move", "machines.run(machines.instructions(programs, target)", "machines.run(machines.instructions(programs, state)"),
    ("the bits are not handed on", "machines.Config(target, on, dict(counters))", "machines.Config(target, frozenset(), dict(counters))"),
    ("the counters are not handed on", "machines.Config(target, on, dict(counters))", "machines.Config(target, on, {})"),
    ("records that nothing reaches are passed over", STEPS, "in reached(book, nfa, moves, programs).items():\n        for target",
     "def accepted(", REACHED + "def accepted("),
    ("24 before 1 to 3", REFUSES, REFUSES.replace("model.list_refusal(data)", "machines.refused(moves, programs)", 1).replace("refused = machines.refused(moves, programs)\n    if refused == 0 and",
     "refused = model.list_refusal(data)\n    if refused == 0 and", 1)),
    ("22 before 24", REFUSES, REFUSES.replace("    if refused == 0:\n", "    if refused == 0 and read(moves, certificate) is None:\n        return 22\n    if refused == 0:\n", 1)),
    ("22 before 1 to 3", REFUSES, "    if read(moves, certificate) is None:\n        return 22\n" + REFUSES),
    ("the list is not checked", REFUSES, REFUSES.replace("model.list_refusal(data)", "0 if machines.refused(moves, programs) else model.list_refusal(data)", 1)),
    ("every certificate passes", "        refused = 22\n", "        refused = 0\n"),
    ("none passes", "not accepted(model.automaton(data), moves, programs, certificate)", "True"),
]

VERSIONS = [(STREAMS, "", WRONG)]
