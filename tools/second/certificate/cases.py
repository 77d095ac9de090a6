"""The cases for certificates, in groups."""

from second import sizes
from second.certificate import clauses
from second.certificate.bases import (
    any_base, by_sets, counted, inserted, packed, quiet, remembered, told_at_once, with_note,
    without_note,
)
from second.certificate.examples import GOOD, MOVES, NOTES, PROGRAMS, REFUSED
from second.certificate.explore import moves_by, program
from second.certificate.model import pack
from second.list import drawn, model
from second.list.drawn import accept, edge, start
from second.list.examples import LIST
from second.machine import model as machines
from second.sizes import MOST_NOTES, NOTE_SIZE
from second.tape import put



def ask(tape, data, moves, programs, certificate, expected=None, alone=True):
    """One line. Where list and automaton are good the clauses are asked one by one too, and have to agree."""
    tape.load_lists(data, moves, programs)
    tape.load_certificate(certificate)
    refusal = tape.check()
    assert expected is None or refusal == expected, (refusal, expected)
    if alone and refusal in (0, 22):
        broken = clauses.broken(model.automaton(data), moves, programs, certificate)
        assert (refusal == 22) == bool(broken), (refusal, broken)
        name = broken.pop() if len(broken) == 1 else "several" if broken else "none"
        tape.broken[name] = tape.broken.get(name, 0) + 1
    return refusal


def ask_base(tape, base, certificate, expected=None, **others):
    return ask(tape, others.get("data", base.data), others.get("moves", base.moves), others.get("programs", base.programs), certificate, expected)


# Groups

def worked(tape, dice):
    ask(tape, LIST, MOVES, PROGRAMS, GOOD, 0)
    for programs, certificate in REFUSED.values():
        ask(tape, LIST, MOVES, programs, certificate, 22)
    for order in ((0, 2, 1), (1, 0, 2), (1, 2, 0), (2, 0, 1), (2, 1, 0)):
        ask(tape, LIST, MOVES, PROGRAMS, b"".join(NOTES[i] for i in order), 0)
    ask(tape, LIST, MOVES, PROGRAMS[1:], b"", 24)
    ask(tape, LIST[1:], MOVES, PROGRAMS[1:], b"", 1)


def orders(tape, dice):
    """True certificates in any order: as found, backwards, shuffled."""
    for _ in range(40):
        base = any_base(dice)
        for notes in (base.notes, base.notes[::-1], dice.shuffled(base.notes)):
            ask_base(tape, base, packed(notes), 0)


def larger(tape, dice):
    """True certificates of dozens of records, and the same with a record less: long counts, many bits, many states."""
    for base in (counted(dice, 60), remembered(dice, 3), quiet(dice, 40), by_sets(dice, 24, 2)):
        ask_base(tape, base, packed(dice.shuffled(base.notes)), 0)
        for place in base.places():
            ask_base(tape, base, without_note(base.certificate, place), 22)


def lengths(tape, dice):
    for _ in range(12):
        base = any_base(dice)
        whole = base.certificate
        for certificate in (whole + whole[:76], whole + bytes(203), whole + b"\0", whole + b"\xff", whole + whole[:128], whole, whole[:-1], whole[:-128],
                            whole[:NOTE_SIZE - 1], whole[:128], whole[:80], whole[:76], whole[:1], b""):
            ask_base(tape, base, certificate, 0 if certificate == whole else 22)
        ask_base(tape, base, whole[1:], 22)


def most(tape, dice):
    """4,096 records and one more: those of a counter that is lowered at each byte, and records with bits that nothing reaches."""
    data, moves, members = b"".join([start(0), edge(0, 255, 0, 0)]), moves_by(2, lambda state, byte: 1), frozenset([0])

    def asked(lists, certificate, expected):
        ask(tape, data, *lists, certificate, expected, alone=False)

    def lowered(count):
        return moves, program((3, 0, count)) + program((5, 0, 0))

    last = MOST_NOTES - 2  # the highest count that leaves room for the start and for off
    configs = [machines.Config(1, frozenset(), {0: count}) for count in range(last + 1)]
    configs += [machines.Config(1, frozenset(), {}), machines.Config(0, frozenset(), {0: last + 1})]
    over = packed([(config, members) for config in configs])
    asked(lowered(last + 1), over, 22)
    asked(lowered(last + 1), over[:-NOTE_SIZE], 22)
    whole = put(over[:-NOTE_SIZE], NOTE_SIZE * last, b"\0")
    asked(lowered(last), whole, 0)
    for place in (0, MOST_NOTES // 2, MOST_NOTES - 1):
        asked(lowered(last), put(whole, NOTE_SIZE * place + NOTE_SIZE - 1, b"\x80"), 22)
    still = moves_by(1, lambda state, byte: 0), bytes(32)
    zeros = dict.fromkeys(range(16), 0)
    many = [machines.Config(0, frozenset(), {})]
    many += [machines.Config(0, frozenset(bit for bit in range(12) if i >> bit & 1), zeros) for i in range(MOST_NOTES)]
    over = packed([(config, members) for config in many])
    asked(still, over, 22)
    asked(still, over[:-NOTE_SIZE], 0)
    asked(still, put(over[:-NOTE_SIZE], 4, b"\1"), 22)
    asked(still, over[:-NOTE_SIZE - 1], 22)


def bad_fields(dice, base):
    """Changes of a record's fields, each a place and bytes that rule 4 refuses of a flow record."""
    counter = dice.below(16)
    yield 0, base.states.to_bytes(2, "little")
    yield 0, dice.pick([base.states + 255, 1024, 32768, 65535]).to_bytes(2, "little")
    yield 2, bytes([dice.pick([1, 128, 255])])
    yield 3, bytes([dice.pick([1, 128, 255])])
    yield 12 + 4 * counter, (machines.X_OFF + 1).to_bytes(4, "little")
    yield 12 + 4 * counter, dice.pick([65792, 131072, 16777216, 4294967295]).to_bytes(4, "little")


def fields(tape, dice):
    """A bad field in a record that is needed, and in one that nothing reaches and that closes but for it."""
    for _ in range(12):
        base = any_base(dice)
        for place in base.places():
            for at, new in bad_fields(dice, base):
                ask_base(tape, base, put(base.certificate, NOTE_SIZE * place + at, new), 22)
    for _ in range(14):
        base = any_base(dice)
        bit = dice.pick(base.free_bits)
        shadow = packed(base.shadow(on=[bit]))
        for at in (2, 3):
            noted = b"".join(put(note, at, b"\1") for note in model.cut(shadow, NOTE_SIZE))
            for certificate in (base.certificate + noted, noted + base.certificate):
                ask_base(tape, base, certificate, 22)
        counter = dice.pick(base.free_counters)
        for count, expected in ((machines.X_OFF - 1, 0), (machines.X_OFF + 1, 22), (2 * machines.X_OFF, 22), (4294967295, 22)):
            noted = packed(base.shadow(counters={counter: count}))
            for certificate in (base.certificate + noted, noted + base.certificate):
                ask_base(tape, base, certificate, expected)
        ask_base(tape, base, base.certificate + packed(base.shadow(on=[bit], counters={counter: machines.X_OFF})), 0)
    base = by_sets(dice, 3, 1)
    for counter in range(16):
        for count, expected in ((machines.X_OFF - 1, 0), (machines.X_OFF + 1, 22), (4294967295, 22)):
            ask_base(tape, base, base.certificate + packed(base.shadow(counters={counter: count})), expected)


def twice(tape, dice):
    """A configuration twice, with the same set, with one that closes as well, with any other; the second of it anywhere."""
    for _ in range(14):
        base = any_base(dice)
        for place in base.places():
            config, members = base.notes[place]
            for other in (members, members | {dice.pick(base.unnamed)}, frozenset(), members ^ {dice.pick(sorted(base.nfa.named))}):
                at = dice.pick([0, place, place + 1, len(base.notes)])
                ask_base(tape, base, inserted(base.certificate, at, pack(config, other)), 22)
    for _ in range(10):
        base = any_base(dice)
        shadow = base.shadow(on=[dice.pick(base.free_bits)])
        twin = dice.pick(shadow)
        ask_base(tape, base, packed(base.notes + shadow), 0)
        ask_base(tape, base, packed(base.notes + shadow + [twin]), 22)
        ask_base(tape, base, packed([twin] + base.notes + shadow), 22)
        ask_base(tape, base, packed(dice.shuffled(base.notes + shadow + [twin])), 22)


def openings(tape, dice):
    """The start configuration missing, with another set, before its program, with other alerts; the records that nothing reaches alone."""
    for _ in range(24):
        base = told_at_once(dice) if dice.chance(50) else counted(dice, dice.between(0, 3))
        config, members = base.notes[0]
        rest = base.certificate[NOTE_SIZE:]
        ask_base(tape, base, rest, 22)
        for other in (members | {dice.pick(base.unnamed)}, frozenset(), members | {dice.pick(sorted(base.nfa.named - members))}):
            ask_base(tape, base, pack(config, other) + rest, 22)
        ask_base(tape, base, pack(config._replace(bits=config.bits | {dice.pick(base.free_bits)}), members) + rest, 22)
        ask_base(tape, base, pack(config._replace(counters={**config.counters, dice.pick(base.free_counters): dice.below(65536)}), members) + rest, 22)
        ask_base(tape, base, packed(base.shadow(on=[dice.pick(base.free_bits)])), 22)
    for _ in range(20):
        base = told_at_once(dice)
        told = sorted({one.number for one in machines.instructions(base.programs, 0) if one.kind == machines.ALERT})
        other = dice.pick(sorted(set(range(256)) - set(told)))
        for alerts in (told[1:], told[:-1], told + [other], told[1:] + [other], [], told + told[:1], told[::-1]):
            programs = program(*[(6, 0, one) for one in alerts]) + base.programs[32:]
            ask_base(tape, base, base.certificate, 0 if set(alerts) == set(told) else 22, programs=programs)
    # A start program that counts and sets: what is recorded is the configuration after it.
    for _ in range(12):
        bit, counter, count = dice.below(64), dice.below(16), dice.below(65536)
        data = b"".join([start(3), edge(0, 255, 3, 3)])
        moves, programs = moves_by(2, lambda state, byte: 1), program((1, bit, 0), (3, counter, count)) + program((2, bit, 0), (4, counter, 0))
        after, later = machines.Config(0, frozenset([bit]), {counter: count}), machines.Config(1, frozenset(), {})
        members = frozenset([3])
        ask(tape, data, moves, programs, packed([(after, members), (later, members)]), 0)
        for wrong in (machines.Config(0, frozenset(), {}), after._replace(bits=frozenset()), after._replace(counters={}),
                      after._replace(counters={counter: (count + 1) % 65536}), after._replace(state=1)):
            ask(tape, data, moves, programs, packed([(wrong, members), (later, members)]), 22)


def missing(tape, dice):
    """A record less, at each place."""
    for _ in range(25):
        base = any_base(dice)
        for place in range(len(base.notes))[:10]:
            ask_base(tape, base, without_note(base.certificate, place), 22)
        ask_base(tape, base, base.certificate, 0)


def changed_sets(tape, dice):
    """A record with another set: a state more that the list names, or does not, one less, none, all."""
    for _ in range(22):
        base = any_base(dice)
        for place in base.places():
            config, members = base.notes[place]
            others = [members | {dice.pick(base.unnamed)}, members ^ {dice.pick(sorted(base.nfa.named))}, frozenset(range(sizes.STATES)) - members,
                      frozenset() if members else frozenset([dice.below(sizes.STATES)])]
            for other in others:
                ask_base(tape, base, with_note(base.certificate, place, pack(config, other)), 22)


BYTES = [0, 1, 9, 10, 64, 97, 127, 128, 200, 254, 255]


def one_byte(tape, dice):
    """A step that is wrong at one byte only: the list has an edge more on it, or the automaton another target."""
    for _ in range(16):
        base = any_base(dice)
        for place in base.places():
            config, members = base.notes[place]
            byte = dice.pick([0, 255, dice.pick(BYTES), dice.below(256)])
            new = dice.pick(base.unnamed)
            if members:
                record = edge(byte, byte, dice.pick(sorted(members)), new)
                ask_base(tape, base, base.certificate, 22, data=base.data + record)
            at = machines.X_MOVES_SIZE * config.state + 2 * byte
            for target in {dice.below(base.states), (machines.target(base.moves, config.state, byte) + 1) % base.states}:
                ask_base(tape, base, base.certificate, moves=put(base.moves, at, target.to_bytes(2, "little")))
    # One record, one byte: a state of the list that leads on at it alone, and every other byte of every record is right.
    for count in (1, 2, 3):
        names = range(5, 5 + count)
        lists = moves_by(count, lambda state, byte: (state + 1) % count), bytes(32 * count)
        notes = packed([(machines.Config(i, frozenset(), {}), frozenset([names[i]])) for i in range(count)])
        right = b"".join([start(names[0])] + [edge(0, 255, names[i], names[(i + 1) % count]) for i in range(count)])
        ask(tape, right, *lists, notes, 0)
        for byte in BYTES + [dice.below(256) for _ in range(10)]:
            for wrong in names:
                ask(tape, right + edge(byte, byte, wrong, 900), *lists, notes, 22)


def either_case(tape, dice):
    """Edges for either case: the automaton that sees both, and those that see one."""
    for _ in range(20):
        letter = dice.pick([65, 77, 90, 97, 109, 122, 64, 91, 123])
        records = [start(1), edge(0, 255, 1, 1), edge(letter, letter, 1, 2, 1), accept(2, 6)]
        other = model.exchanged(letter)
        notes = [(machines.Config(0, frozenset(), {}), frozenset([1])), (machines.Config(1, frozenset(), {}), frozenset([1, 2]))]
        for taken in ({letter, other}, {letter}, {other}):
            moves = moves_by(2, lambda state, byte: int(byte in taken))
            ask(tape, b"".join(records), moves, program() + program((6, 0, 6)), packed(notes), 0 if taken == {letter, other} else 22)


def alerts(tape, dice):
    """The alerts of a step: a subset of what the set accepts, a superset, others; a list that accepts more or less."""
    for _ in range(45):
        base = by_sets(dice, 6, 1)
        place = dice.pick([place for place in base.places()])
        config, members = base.notes[place]
        told = base.nfa.signatures(members)
        other = dice.pick(sorted(set(range(256)) - set(told)))
        lists = [told + [other], told[1:], told[:-1], told[1:] + [other], told[::-1], told + told[:1]]
        for numbers in lists:
            if len(numbers) <= 8:
                programs = put(base.programs, 32 * config.state, program(*[(6, 0, one) for one in numbers]))
                ask_base(tape, base, base.certificate, 0 if set(numbers) == set(told) else 22, programs=programs)
        if members:
            more = accept(dice.pick(sorted(members)), other)
            ask_base(tape, base, base.certificate, 22, data=base.data + more)
        ask_base(tape, base, base.certificate, 0, data=base.data + accept(dice.pick(base.unnamed), other))
    for _ in range(16):
        wait = dice.between(1, 4)
        base = counted(dice, wait)
        for programs in (base.programs.replace(bytes([8]), bytes([6]), 1), put(base.programs, 32, put(base.programs[32:64], 2, (wait + 1).to_bytes(2, "little"))),
                         put(base.programs, 32, put(base.programs[32:64], 2, (wait - 1).to_bytes(2, "little")))):
            if machines.refused(base.moves, programs) == 0:
                ask_base(tape, base, base.certificate, 22, programs=programs)


def unreached(tape, dice):
    """Records that nothing reaches: those that close, and those that do not for one thing alone."""
    for _ in range(18):
        base = any_base(dice)
        bit, counter = dice.pick(base.free_bits), dice.pick(base.free_counters)
        on, count = base.shadow(on=[bit]), dice.pick([0, 1, 255, 256, 65534, 65535])
        counting = base.shadow(counters={counter: count})
        for notes in (base.notes + on, on + base.notes, dice.shuffled(base.notes + on + counting), counting + base.notes):
            ask_base(tape, base, packed(notes), 0)
        for shadow in (on, counting):
            place = dice.pick(sorted({0, len(shadow) // 2, len(shadow) - 1}))
            config, members = shadow[place]
            ask_base(tape, base, packed(base.notes + [shadow[place]]))
            ask_base(tape, base, packed([shadow[place]] + base.notes))
            ask_base(tape, base, packed(base.notes + shadow[:place] + shadow[place + 1:]))
            wrong = [(config, members | {dice.pick(base.unnamed)})]
            ask_base(tape, base, packed(base.notes + shadow[:place] + wrong + shadow[place + 1:]))
            ask_base(tape, base, packed(base.notes + shadow[:place] + [(config, frozenset())] + shadow[place + 1:]))
    # A state that nothing leads to, which leads to the others; its set is any whose step is theirs.
    for _ in range(16):
        base = by_sets(dice, 5, 1)
        row = base.moves[:512]
        moves, programs = base.moves + row, base.programs + program((6, 0, dice.below(256)))
        config = machines.Config(base.states, frozenset(dice.some(base.free_bits, 0)), {})
        members = base.notes[0][1]
        for other, expected in ((members, 0), (members | set(dice.some(base.unnamed, 3)), 0), (frozenset(), None)):
            for certificate in (base.certificate + pack(config, other), pack(config, other) + base.certificate):
                ask_base(tape, base, certificate, expected, moves=moves, programs=programs)


def variables(tape, dice):
    """Configurations that differ in one bit, one counter, or one state alone; each of them twice."""
    data, still, none, members = b"".join([start(0), edge(0, 255, 0, 0)]), moves_by(1, lambda state, byte: 0), bytes(32), frozenset([0])
    first = (machines.Config(0, frozenset(), {}), members)
    for bit in range(64):
        on = (machines.Config(0, frozenset([bit]), {}), members)
        ask(tape, data, still, none, packed([first, on]), 0)
        ask(tape, data, still, none, packed([on, first, on]), 22)
    for counter in range(16):
        for count in (0, 1, 255, 256, 65535):
            on = (machines.Config(0, frozenset(), {counter: count}), members)
            ask(tape, data, still, none, packed([on, first]), 0)
        near = [(machines.Config(0, frozenset(), {counter: count}), members) for count in (0, 1, 2, 255, 256, 257, 511, 512, 32768, 65280, 65534, 65535)]
        ask(tape, data, still, none, packed(dice.shuffled(near + [first])), 0)
        ask(tape, data, still, none, packed(dice.shuffled(near + [first, dice.pick(near)])), 22)
    for states in (2, 3, 257, 300):
        # Every state leads to state 0, and none leads to the others.
        moves, programs = moves_by(states, lambda state, byte: 0), bytes(32 * states)
        notes = [(machines.Config(state, frozenset(), {}), members) for state in range(states)]
        ask(tape, data, moves, programs, packed(dice.shuffled(notes)), 0)
        ask(tape, data, moves, programs, packed(dice.shuffled(notes + notes[-1:])), 22)
    # All at once: any bits and counters, with as many of them twice as not.
    for _ in range(40):
        configs = [machines.Config(0, frozenset(dice.some(range(64), dice.below(3))), {i: dice.pick([0, 1, 256, 65535]) for i in dice.some(range(16), dice.below(3))})
                   for _ in range(dice.between(1, 12))]
        ask(tape, data, still, none, packed([first] + [(config, members) for config in configs]))


def foreign(tape, dice):
    """The certificate of another automaton or another list; bytes of no sense."""
    last = any_base(dice)
    for _ in range(30):
        base = any_base(dice)
        ask_base(tape, base, last.certificate)
        ask_base(tape, base, base.certificate, data=last.data)
        certificate = dice.bytes(NOTE_SIZE * dice.between(1, 3))
        ask_base(tape, base, certificate, 22)
        ask_base(tape, base, base.certificate + bytes(NOTE_SIZE))
        last = base


def rules(tape, dice):
    """1, 2, 3 before 24, and that before 22: each with each, and with a certificate that is good."""
    for _ in range(16):
        base = any_base(dice)
        sample = drawn.Sample(base.records, [97], [0])
        at = dice.below(len(base.programs) // 4)
        automata = [(base.moves, base.programs), (base.moves, base.programs[:-1]), (base.moves, put(base.programs, 4 * at, bytes([9, 0, 0, 0]))),
                    (put(base.moves, 2 * dice.below(256 * base.states), base.states.to_bytes(2, "little")), base.programs), (b"", b"")]
        certificates = [base.certificate, base.certificate[:-1], b"", base.certificate + base.certificate[:NOTE_SIZE]]
        lists = [base.data] + [drawn.broken_list(dice, sample, number) for number in (1, 2, 3)]
        for moves, programs in automata:
            good = machines.refused(moves, programs) == 0
            for certificate in dice.some(certificates, 2):
                for number, data in enumerate(lists):
                    expected = number or (24 if not good else 0 if certificate == base.certificate else 22)
                    ask(tape, data, moves, programs, certificate, expected)


GROUPS = [worked, orders, lengths, fields, twice, openings, missing, changed_sets, one_byte, either_case, alerts, unreached, variables, foreign, rules,
          larger]
