"""What tools/counters says where there is no certificate. Not proved."""

from saying.certificate_search import Many, Other
from saying.machine_saying import count
from saying import certificate_saying, phrase
from second.certificate.model import START
from second.list import model
from second.machine import model as machines
from second.sizes import MOST_NOTES

WIDTH = 16  # bytes of an input in a line
MOST_TOLD = 12  # pairs of one side that are shown, the last ones


def shown(text):
    """An input in hex and as text, so many bytes a line, each line with the bytes before it. Lines that
    are the same as the one before are folded."""
    if not text:
        return ["    no byte at all: the opening"]
    out, folded = [], False
    for at in range(0, len(text), WIDTH):
        line = text[at:at + WIDTH]
        same = line == text[max(0, at - WIDTH):at]
        if folded and not same:
            out.append("       ..  the same again, up to byte %d" % at)
        if not same:
            out.append("    %5d  %-*s  %s" % (at, 3 * WIDTH - 1, line.hex(" ").upper(), "".join(map(phrase.sign, line))))
        folded = same
    return out + (["       ..  the same again, up to byte %d" % len(text)] if folded else [])


def listed_pairs(data, text):
    """What the list tells on an input, offset 0 too."""
    nfa = model.automaton(data)
    members, out = nfa.starts, []
    for offset in range(len(text) + 1):
        members = nfa.step(members, text[offset - 1]) if offset else members
        out += [(signature, offset) for signature in sorted(nfa.signatures(members))]
    return out


def machine_pairs(moves, programs, text):
    """What the automaton tells on an input, offset 0 too."""
    config, alerted = machines.run(machines.instructions(programs, 0), START)
    out = [(signature, 0) for signature in sorted(alerted)]
    for offset, byte in enumerate(text, 1):
        config, alerted = machines.step(moves, programs, config, byte)
        out += [(signature, offset) for signature in sorted(alerted)]
    return out


def told(pairs):
    """Pairs as signature and offset; of many the last ones."""
    if not pairs:
        return "nothing"
    before = len(pairs) - MOST_TOLD
    return ("%s, then " % count(before, "pair", "pairs") if before > 0 else "") + ", ".join("%d at %d" % pair for pair in pairs[-MOST_TOLD:])


def why_none(found, data, moves, programs):
    """The lines for what the search found."""
    if isinstance(found, Other):
        return ["no certificate: the two tell other pairs. A shortest input that shows it, of %s:" % count(len(found.text), "byte", "bytes"),
                *shown(found.text),
                "the list tells %s" % told(listed_pairs(data, found.text)),
                "the automaton tells %s" % told(machine_pairs(moves, programs, found.text))]
    if isinstance(found, Many):
        return ["no certificate: %s%s and %s are met, and a certificate has at most %s records"
                % ("" if found.whole else "more than ", count(found.configs, "configuration", "configurations"), count(found.sets, "set", "sets"),
                   format(MOST_NOTES, ",")),
                ("on every input the two tell the same pairs" if found.whole else
                 "no input of fewer than %s shows a difference" % count(found.length, "byte", "bytes"))]
    first, second = found.texts
    return ["no certificate: a configuration is met with two sets, and a certificate has one set for each",
            "%s, with %s of the list after" % (certificate_saying.configuration(found.config), certificate_saying.said(found.sets[0])),
            *shown(first), "and with %s after" % certificate_saying.said(found.sets[1]), *shown(second),
            "on every input the two tell the same pairs all the same", *hint(found.config.state, machines.instructions(programs, found.config.state))]


def hint(state, program):
    """What most often helps: a counter that is off both at the byte that tells and behind it."""
    for place, one in enumerate(program):
        if one.kind == machines.ALERT_ZERO and any(later.kind == machines.LOWER and later.which == one.which for later in program[place:]):
            return ["state %d alerts and lowers counter %d then: lowered first, from a number that is one more, it is 0 at the byte that tells, and off behind it"
                    % (state, one.which)]
    return []
