"""Wrong versions of the rules of the automaton with bits and counters."""

from second.machine.streams import STREAMS

RULES = ["second.machine.model"]
BEHIND = []

WRONG = [
    ("lower stops at 0", "                del counters[one.which]\n", "                pass\n"),
    ("lower turns 1 off", "if counters[one.which] == 0:\n                del", "if counters[one.which] <= 1:\n                del"),
    ("off counts as 0", "counters.get(one.which) == 0", "counters.get(one.which, 0) == 0"),
    ("off is lowered as 0 would be", "elif one.kind == LOWER and one.which in counters:\n            if counters[one.which] == 0:",
     "elif one.kind == LOWER:\n            counters.setdefault(one.which, 65536)\n            if counters[one.which] == 0:"),
    ("kind 4 sets to 0", "counters.pop(one.which, None)", "counters[one.which] = 0"),
    ("kind 7 where the bit is clear", "one.kind == ALERT_BIT and one.which in bits", "one.kind == ALERT_BIT and one.which not in bits"),
    ("set and clear exchanged", "SET, CLEAR, COUNT", "CLEAR, SET, COUNT"),
    ("alerts see the bits before the program", "one.kind == ALERT_BIT and one.which in bits", "one.kind == ALERT_BIT and one.which in config.bits"),
    ("alerts see the counters before the program", "counters.get(one.which) == 0", "config.counters.get(one.which) == 0"),
    ("the last record of a program is not run", "    for one in program:\n", "    for one in program[:-1]:\n"),
    ("a program ends at the first record of nothing", "    for one in program:\n", "    for one in program:\n        if one.kind == 0:\n            break\n"),
    ("the program before the move", "return run(instructions(programs, state), Config(state", "return run(instructions(programs, config.state), Config(state"),
    ("alerts in program order", "for signature in sorted(alerted)", "for signature in list(alerted)[::-1]"),
    ("the start state's program is not run", "config, alerted = run(instructions(programs, 0), Config(0, frozenset(), {}))",
     "config, alerted = Config(0, frozenset(), {}), set()"),
    ("counters start at 0", "Config(0, frozenset(), {})", "Config(0, frozenset(), {i: 0 for i in range(16)})"),
    ("opening tells at offset 1", "pairs = told(alerted, 0)", "pairs = told(alerted, 1)"),
    ("the paused byte's program is saved", "        if len(alerted) > room:\n            break\n", "        if len(alerted) > room:\n            config = after\n            break\n"),
    ("pairs tell the offset before the byte", "told(alerted, offset + consumed)", "told(alerted, offset + consumed - 1)"),
    ("24 after 4", "    if refused(moves, programs) != 0:\n        return 24\n    if bad_record(moves, record):\n        return 4\n",
     "    if bad_record(moves, record):\n        return 4\n    if refused(moves, programs) != 0:\n        return 24\n"),
    ("opening gives 15 before 4", "if refusal == 0 and len(record) != X_FLOW_SIZE:", "if refusal == 0 and len(record) != X_FLOW_SIZE and len(words) > 9:"),
    ("opening looks at old content", "if refusal == 0 and len(record) != X_FLOW_SIZE:", "if refusal == 0 and (len(record) != X_FLOW_SIZE or any(record[2:4])):"),
    ("bit 64 passes", "if one.which >= X_BITS:", "if one.which > X_BITS:"),
    ("counter 16 passes", "if one.which >= X_COUNTERS:", "if one.which > X_COUNTERS:"),
    ("signature 256 passes", "return one.number < SIGNATURES", "return one.number <= SIGNATURES"),
    ("byte 1 of kinds 0 and 6 is not looked at", "    elif one.which != 0:\n        return False\n", ""),
    ("an unused number passes", "return one.kind == COUNT or one.number == 0", "return True"),
    ("kind 9 passes", "if one.kind not in range(9):", "if one.kind not in range(10):"),
    ("a target one past the last passes", "one >= states for one in targets", "one > states for one in targets"),
    ("targets of state 0 alone", "one >= states for one in targets", "one >= states for one in targets[:256]"),
    ("programs that byte 'a' does not reach are not tested", "if not all(good_instruction(one) for one in instructions(programs, state)):",
     "if state < 2 and not all(good_instruction(one) for one in instructions(programs, state)):"),
    ("targets high byte first", "return number(moves[at:at + 2])", "return int.from_bytes(moves[at:at + 2], 'big') % (len(moves) // 512)"),
    ("1,025 states pass", "not 1 <= states <= X_STATES", "not 1 <= states <= X_STATES + 1"),
    ("1,023 states at most", "not 1 <= states <= X_STATES", "not 1 <= states <= X_STATES - 1"),
    ("no state passes", "not 1 <= states <= X_STATES", "not 0 <= states <= X_STATES"),
    ("more programs than states pass", "len(programs) != states * X_PROGRAM_SIZE", "len(programs) < states * X_PROGRAM_SIZE"),
    ("a state that is none passes", "number(record[0:2]) >= len(moves) // X_MOVES_SIZE", "number(record[0:2]) > len(moves) // X_MOVES_SIZE"),
    ("byte 3 of the record is not looked at", "record[2:4] != bytes(2)", "record[2] != 0"),
    ("a counter of 65,537 passes", "number(record[at:at + 4]) > X_OFF", "number(record[at:at + 4]) > X_OFF + 1"),
    ("the last counter is not looked at", "range(16, X_FLOW_SIZE, 4))", "range(16, X_FLOW_SIZE - 4, 4))"),
    ("5 not of an empty piece", "    if start != offset:\n", "    if start != offset and piece:\n"),
    ("6 at the last offset", "offset + len(piece) > MOST_OFFSET", "offset + len(piece) >= MOST_OFFSET"),
]

VERSIONS = [(STREAMS, "", WRONG)]
