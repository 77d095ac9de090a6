"""Wrong versions of the rules of joining and folding."""

from second.join.streams import STREAMS

RULES = ["second.join.model"]
BEHIND = []

ROOM = "used > len(lent) or size > len(lent) or len(records) > sizes.MOST_RECORDS or max(named(records)) >= sizes.STATES"
PAST = "leader if one.first == own else chief.get(one.first, one.first)"
SPARE = "(one.kind == START or one.kind == EDGE and one.first == pair[1])"

WRONG = [
    # Joining
    ("the other list's states keep their numbers", "            return base + state\n", "            return state\n"),
    ("the other list's states begin at the highest state", "max(named(front)) + 1, shared", "max(named(front)), shared"),
    ("the other list's states begin behind as many as are named", "max(named(front)) + 1, shared", "len(named(front)), shared"),
    ("behind the shared state a number is left out", "base + state - (state > pair[1])", "base + state"),
    ("the states before the shared one move down as well", "(state > pair[1])", "(state != pair[1])"),
    ("the shared state under the other list's number", "return pair[0] if state", "return pair[1] if state"),
    ("no state is shared", "        if None not in pair:\n", "        if False:\n"),
    ("only states that stay are shared", "for kind in (ever, once):", "for kind in (ever,):"),
    ("only states that nothing leads to are shared", "for kind in (ever, once):", "for kind in (once,):"),
    ("states that nothing leads to come first", "for kind in (ever, once):", "for kind in (once, ever):"),
    ("one that stays with one that nothing leads to", "pair = kind(front), kind(other)", "pair = kind(front), ever(other) if ever(other) is not None else once(other)"),
    ("the highest state that stays", "return min(loops, default=None)", "return max(loops, default=None)"),
    ("the highest state that nothing leads to", "return min(starts, default=None)", "return max(starts, default=None)"),
    ("a loop on bytes below 255 stays", "(one.low, one.high) == (0, 255)", "(one.low, one.high) >= (0, 254)"),
    ("a state that stays need not start", " and one.first in starts]", "]"),
    ("an edge from itself leads to no state", "led = {one.second for one in records if one.kind == EDGE}", "led = {one.second for one in records if one.kind == EDGE and one.first != one.second}"),
    ("the second start of the shared state stays", SPARE, "(one.kind == EDGE and one.first == pair[1])"),
    ("loops of the shared state stay", SPARE, "one.kind == START"),
    ("edges to the shared state are left out", SPARE, "one.kind in (START, EDGE)"),
    ("accepts are renumbered by their signature", "if one.kind in (EDGE, START) else one.second)", "if one.kind in (EDGE, START, ACCEPT) else one.second)"),
    ("accepts keep their state", "first=number(one.first) if one.kind in (EDGE, ACCEPT)", "first=number(one.first) if one.kind == EDGE"),
    ("the other list first", "return front + [renumber(one, number) for one in other if not spare(one)]", "return [renumber(one, number) for one in other if not spare(one)] + front"),
    ("27 before 1 to 3", "    if refusal == 0 and model.list_refusal(other) != 0:\n", "    if model.list_refusal(other) != 0:\n"),
    ("the other list's own refusal", "        refusal = 27\n", "        refusal = model.list_refusal(other)\n"),
    ("a list that just fits does not", ROOM, ROOM.replace("size > len(lent)", "size >= len(lent)")),
    ("more bytes in use than are lent", ROOM, ROOM.replace("used > len(lent) or ", "")),
    ("one record more may be", ROOM, ROOM.replace("> sizes.MOST_RECORDS", "> sizes.MOST_RECORDS + 1")),
    ("one record fewer may be", ROOM, ROOM.replace("> sizes.MOST_RECORDS", ">= sizes.MOST_RECORDS")),
    ("one state more may be", ROOM, ROOM.replace(">= sizes.STATES", "> sizes.STATES")),
    ("one state fewer may be", ROOM, ROOM.replace(">= sizes.STATES", ">= sizes.STATES - 1")),
    ("what is behind is cleared", "pack(records) + lent[size:]", "pack(records) + bytes(len(lent) - size)"),
    ("a refused join clears what is not in use", "    if refusal != 0:\n        return Made(refusal, 0, lent)\n    return Made(0, size",
     "    if refusal != 0:\n        return Made(refusal, 0, lent[:used] + bytes(len(lent[used:])))\n    return Made(0, size"),
    # Folding
    ("states that start fold with others", "(state in starts) == (leader in starts)", "True"),
    ("a loop is not one of its own state", PAST, "chief.get(one.first, one.first)"),
    ("pasts as sets", "past(state, state, leader) == past(leader, state, leader)", "set(past(state, state, leader)) == set(past(leader, state, leader))"),
    ("pasts without the flag", "(one.low, one.high, one.flag, leader", "(one.low, one.high, leader"),
    ("pasts without the high byte", "(one.low, one.high, one.flag, leader", "(one.low, one.flag, leader"),
    ("pasts by the states before they fold", PAST, "leader if one.first == own else one.first"),
    ("a state without a past folds with none", "past(state, state, leader) == past(leader, state, leader))", "past(state, state, leader) == past(leader, state, leader) != [])"),
    ("nothing folds", "for leader in range(state):", "for leader in range(0):"),
    ("accepts of folded states are left out", "one.kind == ACCEPT or chief[one.second] == one.second", "chief[one.first if one.kind == ACCEPT else one.second] == (one.first if one.kind == ACCEPT else one.second)"),
    ("edges into folded states stay", "one.kind == ACCEPT or chief[one.second] == one.second", "one.kind != START or chief[one.second] == one.second"),
    ("the states keep their numbers", "numbers[chief[state]]", "chief[state]"),
    ("a folded list that just fits does not", "if len(made) > len(lent):", "if len(made) >= len(lent):"),
    ("28 before 1 to 3", "    refusal = model.list_refusal(data)\n    if refusal != 0:\n        return Made(refusal, 0, lent)\n    made",
     "    refusal = model.list_refusal(data)\n    if refusal != 0:\n        return Made(28 if len(data) > len(lent) else refusal, 0, lent)\n    made"),
    ("what is behind the folded list is cleared", "made + lent[len(made):]", "made + bytes(len(lent) - len(made))"),
]

VERSIONS = [(STREAMS, "", WRONG)]
