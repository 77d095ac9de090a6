"""The cases of the split table and its feed, in groups."""

from second.list import drawn, examples, model
from second.list.cases import Walk, near, offset_of
from second.list.drawn import (
    FEW, MANY, Sample, a_piece, accept, any_flow, any_list, broken_list, crowded_list, edge, naming,
    short_length, start, word_count,
)
from second.list.model import Flow, pack_flow, pack_set, unpack_flow, unpack_set
from second.sizes import (
    BYTE_VALUES, ENOUGH_WORDS, FLOW_SIZE, MOST_BOUND, MOST_OFFSET, MOST_PARTS, MOST_SPLITS,
    RECORD_SIZE, RESERVED_AT, ROWS_AT, SET_SIZE, SIGNATURES, SLOTS, SPLIT_SIZE, STATES, UNUSED,
)
from second.table import faults, orders
from second.table import drawn as table_drawn
from second.table import model as tables
from second.table.drawn import BOUNDS, good_table
from second.table.faults import BAD_BOUNDS
from second.table.model import EMPTY, Table, padded
from second.tape import MOST_WORDS


def agree(dice, sample, table, bound):
    """An accepted table tells what the plain feed tells, within its rows."""
    record = model.open_flow(sample.data, bytes(FLOW_SIZE), [0] * ENOUGH_WORDS).record
    piece = a_piece(dice, sample, 40)
    plain = model.plain_feed(sample.data, record, 0, [0] * 900, piece)
    split = tables.split_feed(sample.data, table, bound, record, 0, [0] * 900, piece)
    assert split[:5] == plain[:5] and split.record[:ROWS_AT] == plain.record[:ROWS_AT]
    assert unpack_flow(split.record).rows <= bound * split.consumed


def ask_bounds(tape, dice, bound):
    for other in dice.shuffled(BOUNDS):
        if other == bound or dice.chance(60):
            tape.check_table(other)
    if dice.chance(35):
        tape.check_table(dice.pick(BAD_BOUNDS))


def good_tables(tape, dice):
    """Accepted tables, and flows through them."""
    for turn in range(280):
        bound = 1 + turn % MOST_BOUND
        wide = turn % 16 == 3
        sample, plan = good_table(dice, bound, 30 if turn % 5 == 0 else 14,
                                  3 if wide else 12 if turn % 5 == 0 else 9, wide)
        table = plan.table()
        assert tables.table_refusal(sample.data, table, bound) == 0
        agree(dice, sample, table, bound)
        tape.load_list(sample.data)
        tape.load_table(table)
        ask_bounds(tape, dice, bound)
        walk = Walk(tape, dice, sample, bound)
        walk.begin()
        for _ in range(dice.between(8, 18)):
            walk.move()
        if dice.chance(30):
            # A list that is refused, or another list, beside this table.
            tape.load_list(broken_list(dice, sample, dice.between(1, 3)))
            tape.check_table(dice.pick([bound, 0, MOST_BOUND + 1]))
            tape.load_list(any_list(dice).data)
            tape.check_table(bound)
            walk.go_on()
        if dice.chance(15):
            # No table at all, and then this one again.
            tape.load_table(EMPTY)
            tape.check_table(dice.pick([bound, bound, 0]))
            tape.load_list(sample.data)
            walk.go_on()
            tape.load_table(table)
            walk.go_on()


def crowded_tables(tape, dice):
    """Split feeds that pause."""
    for turn in range(6):
        sample = crowded_list(dice, dice.pick([SIGNATURES, SIGNATURES - 6]))
        bound = dice.between(1, 3)
        plan = table_drawn.build_plan(dice, sample, bound)
        tape.load_table(plan.table())
        walk = Walk(tape, dice, sample, bound)
        walk.begin()
        tape.check_table(bound)
        for _ in range(14):
            piece = a_piece(dice, sample, dice.between(1, 8))
            words = dice.pick([0, 1, *near(ENOUGH_WORDS), 2 * ENOUGH_WORDS - 1, 2 * ENOUGH_WORDS,
                               2 * ENOUGH_WORDS + 1, MOST_WORDS])
            walk.feed(walk.offset(), words, piece)
            if dice.chance(20):
                walk.begin()


def start_from_split(tape, dice, plan):
    """A record whose frontier is a split's set, at any offset."""
    members, _ = dice.pick(plan.splits)
    tape.load_record(any_flow(dice, members))


def ask_faulty(tape, dice, sample, plan, table, bound, number):
    """The check gives the number, and the split feed runs the table as it stands."""
    tape.load_list(sample.data)
    tape.load_table(table)
    assert tape.check_table(bound) == number
    if dice.chance(60):
        tape.check_table(dice.between(1, MOST_BOUND))
    if dice.chance(12):
        tape.check_table(dice.pick(BAD_BOUNDS))
    if dice.chance(8):
        tape.load_list(broken_list(dice, sample, dice.between(1, 3)))
        tape.check_table(dice.pick([bound, 9]))
        tape.load_list(sample.data)
    walk = Walk(tape, dice, sample, bound)
    walk.begin()
    for _ in range(dice.pick([1, 1, 2])):
        walk.go_on()
    if dice.chance(50):
        start_from_split(tape, dice, plan)
        walk.go_on()
    if dice.chance(25):
        walk.wrong_start()
    if dice.chance(20):
        walk.damage()
    if dice.chance(20):
        walk.bad_bound()
    if dice.chance(20):
        walk.feed(walk.offset(), word_count(dice), b"")


def one_byte_tables(tape, dice):
    """Faults that a single one of all bytes shows: 10 and 13."""
    for number in (10, 13):
        made = 0
        while made < 36:
            letter = dice.pick([0, 255, 0, 255, 63, 64, dice.below(BYTE_VALUES)])
            root, after = dice.some(drawn.SOME_STATES, 2)
            sample = Sample([edge(0, 255, root, root), start(root),
                             edge(letter, letter, root, after),
                             accept(after, dice.below(SIGNATURES))],
                            [letter, dice.below(BYTE_VALUES)], [root, after])
            bound = dice.between(1, 3)
            plan = table_drawn.build_plan(dice, sample, bound)
            if plan is None:
                continue
            if number == 10:
                plan.classes[letter] = plan.classes[(letter + dice.pick([1, 255, 7]))
                                                    % BYTE_VALUES]
                plan.width = max(plan.classes) + 1
            else:
                plan.splits = [split for split in plan.splits if split[0] != {root, after}]
            if tables.table_refusal(sample.data, plan.table(), bound) == number:
                ask_faulty(tape, dice, sample, plan, plan.table(), bound, number)
                made += 1


def faulty_tables(tape, dice):
    """Single faults, and two at once."""

    for number, fault, times in faults.SINGLE:
        made = 0
        while made < times:
            bound = dice.between(1, MOST_BOUND)
            sample, plan = good_table(dice, bound, 9, 7)
            changed = fault(dice, plan.copy(), bound, sample)
            if changed is None:
                continue
            table = changed if isinstance(changed, Table) else changed.table()
            if tables.table_refusal(sample.data, table, bound) != number:
                continue  # Such a change may well leave a good table, or break a lower rule.
            ask_faulty(tape, dice, sample, plan, table, bound, number)
            made += 1

    for low, high, first, second in faults.DOUBLE:
        made = 0
        while made < 9:
            bound = dice.between(1, MOST_BOUND)
            sample, plan = good_table(dice, bound, 9, 7)
            alone = second(dice, plan.copy(), bound, sample)
            if alone is None or tables.table_refusal(sample.data, alone.table(), bound) != high:
                continue
            both = first(dice, alone.copy(), bound, sample)
            if both is None or tables.table_refusal(sample.data, both.table(), bound) != low:
                continue
            ask_faulty(tape, dice, sample, plan, both.table(), bound, low)
            made += 1

    made = 0
    while made < 25:
        bound = dice.between(1, MOST_BOUND)
        sample, plan = good_table(dice, bound, 9, 7)
        both = faults.last_9_first_11(dice, plan.copy(), bound, sample)
        if both is not None:
            ask_faulty(tape, dice, sample, plan, both.table(), bound, 9)
            made += 1

    # Each wrong length and class, at each bound.
    for bound in BOUNDS:
        sample, plan = good_table(dice, bound, 9, 7)
        for table in faults.wrong_lists(dice, plan):
            ask_faulty(tape, dice, sample, plan, table, bound, 8)

    # 8 beside 9 to 13, and one more start record beside a good table: 12.
    for _ in range(20):
        bound = dice.between(1, MOST_BOUND)
        sample, plan = good_table(dice, bound, 9, 7)
        changed = faults.order_9(dice, plan.copy(), bound, sample)
        table = faults.lists_8(dice, changed or plan, bound, sample)
        ask_faulty(tape, dice, sample, plan, table, bound, 8)
    made = 0
    while made < 20:
        bound = dice.between(1, MOST_BOUND)
        sample, plan = good_table(dice, bound, 9, 7)
        more = Sample(dice.shuffled(sample.records + [start(dice.pick(sample.states))]),
                      sample.letters, sample.states)
        if tables.table_refusal(more.data, plan.table(), bound) == 12:
            ask_faulty(tape, dice, more, plan, plan.table(), bound, 12)
            made += 1


def harmless_tables(tape, dice):
    """Changes that no rule sees: the check still gives 0."""
    made = 0
    while made < 40:
        bound = dice.between(1, MOST_BOUND)
        sample, plan = good_table(dice, bound, 9, 5, made % 10 == 0)
        free = [(p, k) for p in range(len(plan.parts)) for k in range(plan.width)
                if k not in plan.classes]
        if not free:
            continue
        tape.load_list(sample.data)
        place = dice.pick(free)
        plan.rows[place] = faults.toggled(plan.rows[place], dice.below(STATES))
        tape.load_table(plan.table())
        assert tape.check_table(bound) == 0
        ask_bounds(tape, dice, bound)
        walk = Walk(tape, dice, sample, bound)
        walk.begin()
        walk.go_on()
        made += 1

    # The empty set without slots, with an empty part, and alone; {8} before {0}.
    dead = Sample([start(8), start(0), accept(0, 1)], [0, 255], [0, 8])
    for order, number in (([(), (8,), (0,), (0, 8)], 0), ([(), (0,), (8,), (0, 8)], 9),
                          ([(8,), (0,), (0, 8), ()], 9), ([(8,), (0,), (0, 8)], 13),
                          ([(), (8,), (0,)], 12), ([()], 12), ([(), (0, 8)], 0)):
        for nothing in ([], [2]):
            slots = {(): nothing, (8,): [0], (0,): [1], (0, 8): [0, 1]}
            parts = [frozenset({8}), frozenset({0}), frozenset()]
            plan = table_drawn.Plan([0] * BYTE_VALUES, 1, parts,
                                 {(p, 0): frozenset() for p in range(3)},
                                 [(frozenset(members), padded(slots[members]))
                                  for members in order])
            tape.load_list(dead.data)
            tape.load_table(plan.table())
            assert tape.check_table(2) == number
            tape.check_table(1)
            walk = Walk(tape, dice, dead, 2)
            walk.begin()
            walk.go_on()
            walk.go_on()


def wild_tables(tape, dice):
    """Tables of no sense, run as they stand: slots after an unused one, slots that name no part,
    more taken than the bound, and in one of eight unsorted and equal splits."""
    for turn in range(190):
        sample = any_list(dice)
        if dice.chance(90):
            sample = Sample(naming(sample.records, sample.states), sample.letters, sample.states)
        sets = [dice.subset(sample.states, 50) for _ in range(dice.between(2, 5))]
        sets.append(sample.nfa.starts)
        count = dice.between(1, 5)
        width = dice.between(1, 3)
        parts = [dice.subset(sample.states, 50) for _ in range(count)]
        single = turn % 3 == 0
        # One slot taken at most, or rows that hold one set for each class: the join
        # of rows stays among the sets more often, so that flows go on for longer.
        common = {k: dice.pick(sets) for k in range(width)}
        rows = {(p, k): common[k] if dice.chance(55) else dice.pick(sets)
                for p in range(count) for k in range(width)}
        splits = []
        for members in dice.shuffled(sets + sets[:dice.below(4)]):
            slots = [dice.below(count) for _ in range(SLOTS)]
            if single:
                slots[1] = UNUSED
            for at in range(SLOTS):
                if dice.chance(35):
                    slots[at] = UNUSED
                elif dice.chance(5):
                    slots[at] = dice.pick([count, UNUSED - 1, 256, count + 1])
            splits.append((members, slots))
        classes = [dice.below(width) for _ in range(BYTE_VALUES)]
        classes[dice.below(BYTE_VALUES)] = width - 1
        width = max(classes) + 1
        plan = table_drawn.Plan(classes, width, parts, rows, splits)
        if turn % 8:
            plan.once()
        tape.load_list(sample.data)
        tape.load_table(plan.table())
        bound = dice.between(1, MOST_BOUND)
        tape.check_table(bound)
        walk = Walk(tape, dice, sample, bound)
        walk.begin()
        for _ in range(dice.between(7, 13)):
            shape = dice.below(10)
            if shape < 4:
                walk.go_on()
            elif shape < 8:
                start_from_split(tape, dice, plan)
                walk.go_on()
            elif shape < 9:
                walk.other_bound()
            else:
                walk.move()


def set_sizes(tape, dice):
    """Tables that are good but for the size of their sets: 32 bytes, which was the size with 256
    states, and a few others."""
    def sized(sets, size):
        return b"".join((one + bytes(size))[:size] for one in model.cut(sets, SET_SIZE))

    sizes = [32, SET_SIZE - 8, SET_SIZE - 1, SET_SIZE, SET_SIZE + 1, SET_SIZE + 8, 2 * SET_SIZE]
    for turn in range(60):
        sample, plan = (Sample(model.cut(examples.LIST, RECORD_SIZE), [97, 98], [0, 1, 2]), None)
        table = examples.TABLE
        if turn % 3:
            sample, plan = good_table(dice, 2, 9, 5)
            table = plan.table()
        size = sizes[turn % len(sizes)] if turn % 2 else 32
        cut = Table(table.classes, sized(table.parts, size), sized(table.rows, size),
                    b"".join(sized(split[:SET_SIZE], size) + split[SET_SIZE:]
                             for split in model.cut(table.splits, SPLIT_SIZE)))
        for lists in (cut, table._replace(parts=cut.parts), table._replace(rows=cut.rows),
                      table._replace(splits=cut.splits)):
            tape.load_list(sample.data)
            tape.load_table(lists)
            for bound in (2, MOST_BOUND):
                tape.check_table(bound)
            tape.load_record(bytes(FLOW_SIZE))
            tape.open()
            tape.split_feed(2, 0, 12, a_piece(dice, sample, 4))
        tape.load_table(table)
        assert tape.check_table(2) == 0


def largest_tables(tape, dice):
    """The most parts, the most splits, and one more of each."""
    tape.load_record(bytes(FLOW_SIZE))

    # No edges: every step leads to the empty set.
    states = sorted(dice.some(range(STATES), 20))
    dead = Sample([start(states[0]), accept(states[1], 9), accept(states[0], 3)],
                  [0, 97], states)
    names = [[]] + [[p] for p in range(20)]
    names += [[p, q] for p in range(20) for q in range(p)]
    names += [[p, q, r] for p in range(20) for q in range(p) for r in range(q)]
    more = [[p, q, r, s] for p in range(20) for q in range(p) for r in range(q) for s in range(r)]
    names += dice.some(more, MOST_SPLITS - len(names))
    splits = [(frozenset(states[p] for p in slots), padded(sorted(slots))) for slots in names]
    plan = table_drawn.Plan([0] * BYTE_VALUES, 1, [frozenset({state}) for state in states],
                         {(p, 0): frozenset() for p in range(20)}, splits)
    plan.sort()
    table = plan.table()
    tape.load_list(b"".join(naming(dead.records, states)))
    tape.load_table(table)
    assert tape.check_table(MOST_BOUND) == 0
    assert tape.check_table(MOST_BOUND - 1) == 9
    tape.open()
    tape.split_feed(MOST_BOUND, 0, 8, b"ab")
    for _ in range(8):
        members, _ = dice.pick(plan.splits)
        tape.load_record(any_flow(dice, members))
        tape.split_feed(dice.between(1, MOST_BOUND), offset_of(tape.record), 8, b"a")
    tape.load_table(table._replace(splits=table.splits + b"\xff" * SPLIT_SIZE))
    tape.load_record(bytes(FLOW_SIZE))
    tape.open()
    for bound in BOUNDS:
        assert tape.check_table(bound) == 8
        tape.split_feed(bound, 0, 8, b"ab")

    # As many parts as there may be, in one class and in four, and one more.
    for classes, over in ((1, 0), (1, 1), (4, 0)):
        last = STATES - 1
        sample = Sample([start(200), edge(0, 255, 200, 200), edge(97, 97, 200, 3),
                         edge(98, 98, 3, last), accept(last, SIGNATURES - 1), accept(3, 0)]
                        if classes == 4 else
                        [start(200), edge(0, 255, 200, 200), edge(0, 255, 200, 3), accept(3, 77)],
                        [97, 98], [3, 200, last])
        groups = [3 if classes == 4 and c == 97 else 1 if classes == 4 and c == 98 else 0
                  for c in range(BYTE_VALUES)]
        parts = [dice.subset(range(STATES), 3) - {3, 200, last} for _ in range(MOST_PARTS + over)]
        parts[300], parts[MOST_PARTS - 1], parts[256] = (frozenset({200}), frozenset({3}),
                                                         frozenset({last}))
        byte_of = {0: 0, 1: 98, 2: 97, 3: 97}
        rows = {(p, k): sample.nfa.step(part, byte_of[k])
                for p, part in enumerate(parts) for k in range(classes)}
        splits = [(frozenset({200}), padded([300])),
                  (frozenset({200, 3}), padded([300, MOST_PARTS - 1])),
                  (frozenset({200, last}), padded([256, 300]))]
        plan = table_drawn.Plan(groups, classes, parts, rows, splits)
        plan.sort()
        tape.load_list(sample.data)
        tape.load_table(plan.table())
        assert tape.check_table(2) == (8 if over else 0)
        tape.check_table(1)
        tape.check_table(MOST_BOUND)
        walk = Walk(tape, dice, sample, 2)
        walk.begin()
        for _ in range(6):
            walk.go_on()


# The order of splits

LOWEST = pack_set(frozenset({STATES - 8}))  # of the sets that are not empty, as byte strings
HIGHEST = b"\xff" * SET_SIZE


def ask_order(tape, dice, pair, parts, refused):
    """Two neighbouring splits, each the bytes of a set and slots, in a table that rule 9 refuses
    for them alone: at its front, or behind the empty set and the start set, and there perhaps
    before the set of all states."""
    sets = [data for data, _ in pair]
    assert LOWEST < min(sets) and max(sets) < HIGHEST
    place = dice.pick(["first", "middle", "middle", "last", "last", "last"])
    splits, parts = list(pair), list(parts)
    if place != "first":
        splits = [(bytes(SET_SIZE), []), (LOWEST, [len(parts)])] + splits
        parts.append(LOWEST)
    if place == "middle":
        splits.append((HIGHEST, [len(parts)]))
        parts.append(HIGHEST)
    plan = table_drawn.Plan([0] * BYTE_VALUES, 1, [unpack_set(part) for part in parts],
                         {(p, 0): frozenset() for p in range(len(parts))},
                         [(unpack_set(data), padded(slots)) for data, slots in splits])
    frontier = unpack_set(dice.pick(sets)) if dice.chance(15) else frozenset({STATES - 8})
    tape.load_list(b"".join(naming([start(STATES - 8)], frontier)))
    tape.load_table(plan.table())
    bound = dice.between(max(len(slots) for _, slots in splits), MOST_BOUND)
    assert (tape.check_table(bound) == 9) == refused
    if dice.chance(20):
        tape.check_table(dice.between(1, MOST_BOUND))
    offset = dice.pick([0, 1, 256, dice.below(2 ** 31)])
    tape.load_record(pack_flow(Flow(frontier, offset, 0)))
    answer = tape.split_feed(bound, offset, dice.below(5), dice.bytes(dice.below(4)))
    assert (answer.refusal == 9) == refused


def two_sets(choose):
    """Two sets of a kind that go between the lowest and the highest."""
    while True:
        below, above = choose()
        if LOWEST < below and above < HIGHEST:
            return below, above


def ask_either_way(tape, dice, choose):
    """Two sets of a kind, each a part of its own, the lower one first: no 9. And last: 9."""
    for refused in (False, True):
        sets = two_sets(choose)
        pair = [(data, [slot]) for data, slot in zip(sets, dice.shuffled([0, 1]))]
        parts = sets if pair[0][1] == [0] else sets[::-1]
        ask_order(tape, dice, pair[::-1] if refused else pair, parts, refused)


def split_order(tape, dice):
    """The order of neighbours: equal sets beside any slots, sets that differ at one byte, and sets
    that another order takes the other way round."""
    # Equal sets, whose slots are the same, rise and fall; and such slots beside other sets.
    for shape, choices in orders.SLOTS_BESIDE.items():
        for turn in range(MANY if shape in ("same", "first rising", "first falling") else FEW):
            before, behind = choices[turn % len(choices)]
            data, _ = two_sets(lambda: [orders.any_set(dice)] * 2)
            ask_order(tape, dice, [(data, before), (data, behind)], [data] * SLOTS, True)
            below, above = two_sets(lambda: orders.one_in_another(dice))
            parts = [below if slot in before else above for slot in range(SLOTS)]
            ask_order(tape, dice, [(below, before), (above, behind)], parts, False)
            if turn % 2 == 0:
                parts = [above if slot in before else below for slot in range(SLOTS)]
                ask_order(tape, dice, [(above, before), (below, behind)], parts, True)

    # The first byte, the last one and each between them.
    for places in ([0], [SET_SIZE - 1], range(1, SET_SIZE - 1)):
        for turn in range(max(MANY, len(places))):
            place = places[turn % len(places)]
            ask_either_way(tape, dice, lambda: orders.differ_at(dice, place))

    # Other orders answer the other way.
    for name, key in orders.OTHERS.items():
        for _ in range(MANY if "number" in name or "8 bytes" in name else FEW):
            ask_either_way(tape, dice, lambda: orders.against(dice, key))


# Numbers of two bytes, and what a reader may take for one

def low_and_high(tape, dice):
    """Slots whose numbers need both bytes, have a low byte of 255, or look like an unused one."""
    root, seen = 3, 130
    sample = Sample([start(root), edge(0, 255, root, root), edge(0, 255, root, seen),
                     accept(seen, 5)], [97], [root, seen])
    alone, both = frozenset({root}), frozenset({root, seen})
    for count, most in ((258, 11), (514, 2)):
        one, two = count - 3, count - 1 - dice.below(2)  # the low bytes are 255, and 0 or 1
        parts = [frozenset({131 + p % 120}) for p in range(count)]
        parts[one], parts[two] = alone, frozenset({seen})
        rows = {(p, 0): frozenset() for p in range(count)}
        rows[one, 0] = both
        for slots in ([one, two], [one, 65280], [two, one], [one, UNUSED, two], [UNUSED, one, two],
                      [one, count], [one, 1023], [one, 1024], [one, 1279], [one, UNUSED - 1],
                      [one, UNUSED, 65280])[:most]:
            plan = table_drawn.Plan([0] * BYTE_VALUES, 1, parts, rows,
                                 [(alone, padded([one])), (both, padded(slots))])
            plan.sort()
            tape.load_list(sample.data)
            tape.load_table(plan.table())
            for bound in BOUNDS:
                tape.check_table(bound)
            for members, bound in ((alone, 1), (alone, 2), (both, 1), (both, 2), (both, 3)):
                tape.load_record(pack_flow(Flow(members, 0, 0)))
                tape.split_feed(bound, 0, 6, dice.bytes(dice.between(1, 3)))


def no_split(tape, dice):
    """14 at the first byte of a piece or of a flow, at the last one, and at a byte of value 0."""
    for _ in range(40):
        sample, plan = good_table(dice, 2, 9, 5)
        bad = dice.pick(plan.splits)[0]
        plan.splits = [split for split in plan.splits if split[0] != bad]
        if not plan.splits:
            continue
        tape.load_list(sample.data)
        tape.load_table(plan.table())
        zero = bytes([0])
        for piece in (zero, bytes([dice.pick(sample.letters)]), zero + a_piece(dice, sample, 2),
                      a_piece(dice, sample, 2) + zero, b""):
            offset = dice.pick([0, 0, 1, 256])
            tape.load_record(pack_flow(Flow(bad, offset, 0)))
            tape.split_feed(2, offset, dice.below(6), piece)
        # The frontier of the start is a split, and a step from it is none.
        tape.load_record(bytes(FLOW_SIZE))
        tape.open()
        tape.split_feed(2, 0, 12, a_piece(dice, sample, 4) + zero)


def lengths_of_splits(tape, dice):
    """Split feeds where the list of splits alone has the wrong length."""
    for _ in range(8):
        sample, plan = good_table(dice, 3, 9, 5)
        table = plan.table()
        tape.load_list(sample.data)
        for splits in (b"", table.splits[:-1], table.splits[:-SPLIT_SIZE + 1], table.splits + b"\0",
                       table.splits + table.splits[:SET_SIZE], table.splits[:SET_SIZE]):
            tape.load_table(table._replace(splits=splits))
            tape.load_record(bytes(FLOW_SIZE))
            tape.open()
            tape.split_feed(3, 0, 6, dice.pick([b"", a_piece(dice, sample, 3)]))


def slots_taken(tape, dice):
    """Of a split's slots those before the first unused one are taken, whatever stands behind it."""
    sample = Sample([start(9), edge(0, 255, 9, 9), edge(98, 98, 9, 140), accept(140, 8),
                     accept(9, 200)], [97, 98], [9, 140])
    one, two, none = frozenset({9}), frozenset({9, 140}), frozenset()
    rows = {(0, 0): one, (1, 0): two, (2, 0): none, (3, 0): one}
    parts = [one, two, none, one]
    for turn in range(60):
        slots = [[dice.below(4) for _ in range(SLOTS)] for _ in range(2)]
        for at, place in ((0, 1), (1, 2)):
            if dice.chance(70):
                slots[at][place if turn % 2 else dice.below(SLOTS)] = UNUSED
        plan = table_drawn.Plan([0] * BYTE_VALUES, 1, parts, rows,
                             [(one, slots[0]), (two, slots[1]), (none, padded([]))][:3 - turn % 2])
        plan.sort()
        tape.load_list(sample.data)
        tape.load_table(plan.table())
        tape.check_table(MOST_BOUND)
        for bound in (MOST_BOUND, dice.between(1, 3)):
            tape.load_record(pack_flow(Flow(one, 7, 0)))
            tape.split_feed(bound, 7, 12, b"ab")


def fed_order(tape, dice):
    """Split feeds on splits that rise and on those that do not: 9 of any piece, the empty one too,
    with any slots; and 1 to 8, each of which comes before it."""
    def exchanged(splits):
        at = dice.below(len(splits) - 1)
        return splits[:at] + [splits[at + 1], splits[at]] + splits[at + 2:]

    def doubled(splits):
        at = dice.below(len(splits))
        return splits[:at + 1] + splits[at:]

    front, second, third = model.cut(examples.TABLE.splits, SPLIT_SIZE)
    tape.load_list(examples.LIST)
    for splits, number in ((front + third + second, 9), (front + front + second + third, 9),
                           (second + front + third, 9), (front + second + third + third, 9),
                           (front + second + third, 0)):
        tape.load_table(examples.TABLE._replace(splits=splits))
        for piece in (b"", b"a", b"abab"):
            tape.load_record(bytes(FLOW_SIZE))
            tape.open()
            assert tape.split_feed(2, 0, 4, piece).refusal == number

    for turn in range(2 * MANY):
        bound = dice.between(1, MOST_BOUND)
        sample, plan = good_table(dice, bound, 9, 7)
        good = plan.table()
        splits = model.cut(good.splits, SPLIT_SIZE)
        if len(splits) < 2:
            continue
        tape.load_list(sample.data)
        bad = good._replace(splits=b"".join(dice.pick([exchanged, doubled])(splits)))
        for table, number in ((bad, 9), (good, 0)):
            tape.load_table(table)
            tape.load_record(bytes(FLOW_SIZE))
            tape.open()
            fresh = tape.record
            for piece in (b"", a_piece(dice, sample, dice.between(1, 4))):
                tape.load_record(fresh)
                answer = tape.split_feed(bound, 0, word_count(dice), piece)
                assert answer.refusal == number
        # Slots of any kind beside sets that rise.
        wild = [split[:SET_SIZE] + b"".join(
            dice.pick([7, 3, 900, 1, UNUSED, MOST_PARTS]).to_bytes(2, "little")
            for _ in range(SLOTS)) for split in splits]
        tape.load_table(good._replace(splits=b"".join(wild)))
        for piece in (b"", a_piece(dice, sample, 2)):
            tape.load_record(fresh)
            assert tape.split_feed(bound, 0, word_count(dice), piece).refusal in (0, 14)
        # A lower number beside 9.
        tape.load_table(bad)
        tape.load_record(fresh)
        piece = dice.pick([b"", a_piece(dice, sample, 2)])
        lower = 1 + turn % 8
        if lower < 4:
            tape.load_list(broken_list(dice, sample, lower))
        elif lower == 4:
            tape.load_record(fresh[:RESERVED_AT] + b"\1" + fresh[RESERVED_AT + 1:])
        elif lower == 6:
            tape.load_record(pack_flow(Flow(sample.nfa.starts, MOST_OFFSET, 0)))
            piece = b"a"
        elif lower == 8:
            tape.load_table(bad._replace(rows=bad.rows + bytes(SET_SIZE)))
        answer = tape.split_feed(MOST_BOUND + 1 if lower == 7 else bound,
                                 offset_of(tape.record) + (lower == 5), word_count(dice), piece)
        assert answer.refusal == lower
        tape.load_list(sample.data)


def swaps(tape, dice):
    """Flows that change at any piece between the plain feed and tables that the check accepts, each at its own bound, with refused
    calls between: pairs and frontier are those of one plain feed of all bytes consumed."""
    def flow_of(data, engines, pieces, refused):
        tape.load_list(data)
        tape.load_record(dice.bytes(FLOW_SIZE))
        assert tape.open() == 0
        opened, told, consumed = tape.record, [], b""
        for piece, words in pieces:
            table, bound = dice.pick(engines)
            at, rows = offset_of(tape.record), unpack_flow(tape.record).rows
            if table is None:
                answer = tape.feed(at, words, piece)
            else:
                tape.load_table(table)
                answer = tape.split_feed(bound, at, words, piece)
            assert answer.refusal == 0
            assert unpack_flow(tape.record).rows - rows <= bound * answer.consumed
            told += answer.words[:2 * answer.pairs]
            consumed += piece[:answer.consumed]
            if dice.chance(30):
                refused(dice.pick(engines))
        plain = model.plain_feed(data, opened, 0, [0] * (2 * SIGNATURES * len(consumed) + 2), consumed)
        assert told == plain.words[:2 * plain.pairs]
        assert tape.record[:ROWS_AT] == plain.record[:ROWS_AT]

    for _ in range(8):
        engines = [(None, STATES), (examples.TABLE, 2), (examples.TABLE, 4), (examples.ONE, 1), (examples.ONE, 3)]
        flow_of(examples.LIST, engines, [(piece, dice.below(6)) for piece in (b"a", b"b", b"ab", b"", b"xab", b"aab")],
                lambda engine: None)
    for turn in range(90):
        bound = 1 + turn % MOST_BOUND
        sample, plan = good_table(dice, bound, 14, 9)
        engines = [(None, STATES), (plan.table(), bound)]
        for other in dice.some(list(BOUNDS), 3):
            plan = table_drawn.build_plan(dice, sample, other, 14, 9)
            if plan is not None:
                engines.append((plan.table(), other))
        for table, other in engines[1:]:
            tape.load_list(sample.data)
            tape.load_table(table)
            assert tape.check_table(other) == 0

        def refused(engine):
            """A call that is refused, through any of them: from another start, on a list that is refused, or at no bound."""
            table, other = engine
            if table is not None:
                tape.load_table(table)
            at = offset_of(tape.record)
            data = broken_list(dice, sample, dice.between(1, 3)) if dice.chance(30) else sample.data
            tape.load_list(data)
            if dice.chance(50):
                answer = tape.feed(at + 1, 4, b"ab")
            else:
                tape.load_table(dice.pick(engines[1:])[0])
                answer = tape.split_feed(dice.pick([0, other]), at + 1, 4, b"ab")
            assert answer.refusal
            tape.load_list(sample.data)

        pieces = [(a_piece(dice, sample, short_length(dice)), word_count(dice)) for _ in range(dice.between(6, 14))]
        flow_of(sample.data, engines, pieces, refused)
