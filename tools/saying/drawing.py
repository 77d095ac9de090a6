"""A picture of an automaton as SVG text, drawn without another program. Not proved.

States stand in columns by the fewest bytes that lead to them. Columns go from
left to right, in bands one below the other. States that cannot be reached stand
in a last band, in grey. All edges between two states are one arrow.
"""

import math

from saying import phrase, reach
from second import sizes
from second.list import model

RADIUS = 19
ACROSS = 98  # between columns
DOWN = 78  # between rows of a band
MARGIN = 46
ABOVE = 66  # room above a band, for loops and for arrows from other bands
MOST_COLUMNS = 8
MOST_LABELS = 3  # ranges of bytes that an arrow names


# Labels

def label_byte(value):
    if value == 32:
        return "space"
    if value in (9, 10, 13):
        return phrase.ESCAPES[value]
    return chr(value) if 32 < value < 127 else "hex %02X" % value


def label(edges):
    """The bytes of the edges between two states."""
    held = set().union(*(phrase.taken(edge) for edge in edges))
    if len(held) == sizes.BYTE_VALUES:
        return "any"
    said = []
    for low, high in phrase.runs(held):
        ends = [low] if low == high else [low, high]
        said.append((" to " if high > low + 1 else " ").join(label_byte(end) for end in ends))
    if len(said) > MOST_LABELS:
        said[MOST_LABELS:] = ["..."]
    return " ".join(said)


def escaped(text):
    return text.replace("&", "&amp;").replace("<", "&lt;").replace(">", "&gt;")


# Places

def columns(reached):
    """Bands of columns of states."""
    depths = reached.depths()
    layers = [[] for _ in range(max(depths.values()) + 1)]
    for state in sorted(depths):
        layers[depths[state]].append(state)
    bands = math.ceil(len(layers) / MOST_COLUMNS)
    width = math.ceil(len(layers) / bands)
    out = [layers[at:at + width] for at in range(0, len(layers), width)]
    lost = sorted(reached.named - reached.reached)
    for at in range(0, len(lost), width):
        out.append([[state] for state in lost[at:at + width]])
    return out


def band_rows(band, before):
    """For each state of a band its row: where the states before it stand, if that is free."""
    rows = {}
    for layer in band:
        def wish(state):
            from_rows = [rows[edge.source] for edge in before.get(state, [])
                         if edge.source in rows]
            return sum(from_rows) / len(from_rows) if from_rows else 0
        wishes = sorted((wish(state), state) for state in layer)
        free = 0
        for wished, state in wishes:
            rows[state] = max(free, round(wished))
            free = rows[state] + 1
    return rows


def places(reached):
    """For each state its band, x and y, and the picture's width and height."""
    out = {}
    top = 0
    most = 1
    for at, band in enumerate(columns(reached)):
        rows = band_rows(band, reached.before)
        top += ABOVE
        for column, layer in enumerate(band):
            for state in layer:
                out[state] = (at, MARGIN + RADIUS + column * ACROSS, top + rows[state] * DOWN)
        top += max(rows.values()) * DOWN + RADIUS + 20
        most = max(most, len(band))
    return out, 2 * MARGIN + 2 * RADIUS + (most - 1) * ACROSS, top + 6


# Arrows

def toward(x, y, to_x, to_y, distance):
    """The point at this distance from one point in the direction of another."""
    length = math.hypot(to_x - x, to_y - y) or 1
    return x + (to_x - x) * distance / length, y + (to_y - y) * distance / length


def loop(x, y):
    """Path and label's place of an arrow from a state to itself."""
    side, up = 8, math.sqrt(RADIUS ** 2 - 64)
    return ("M%.1f %.1f C%.1f %.1f %.1f %.1f %.1f %.1f" % (
        x - side, y - up, x - 22, y - up - 28, x + 22, y - up - 28, x + side, y - up - 2),
        (x, y - up - 26))


def bent(x, y, to_x, to_y, bend):
    """Path and label's place of an arrow that bends to its left by this much."""
    length = math.hypot(to_x - x, to_y - y)
    over_x, over_y = (to_y - y) / length, -(to_x - x) / length
    mid_x, mid_y = (x + to_x) / 2 + over_x * bend * 2, (y + to_y) / 2 + over_y * bend * 2
    from_x, from_y = toward(x, y, mid_x, mid_y, RADIUS)
    end_x, end_y = toward(to_x, to_y, mid_x, mid_y, RADIUS + 2)
    peak_x, peak_y = (from_x + 2 * mid_x + end_x) / 4, (from_y + 2 * mid_y + end_y) / 4
    return ("M%.1f %.1f Q%.1f %.1f %.1f %.1f" % (from_x, from_y, mid_x, mid_y, end_x, end_y),
            (peak_x + over_x * 10, peak_y + over_y * 9 + 4))


def between_bands(x, y, to_x, to_y):
    """Path and label's place of an arrow to a state of another band."""
    way = 1 if to_y > y else -1
    start, end = y + way * RADIUS, to_y - way * (RADIUS + 2)
    middle = end - way * 34
    return ("M%.1f %.1f C%.1f %.1f %.1f %.1f %.1f %.1f" % (
        x, start, x, middle, to_x, middle, to_x, end), (to_x + 12, end - way * 10))


def arrow(place, source, target, both):
    """Path and label's place of the arrow between two states."""
    band, x, y = place[source]
    to_band, to_x, to_y = place[target]
    if source == target:
        return loop(x, y)
    if band != to_band:
        return between_bands(x, y, to_x, to_y)
    if to_x == x + ACROSS and not both:
        return bent(x, y, to_x, to_y, 0)
    if abs(to_x - x) <= ACROSS:
        return bent(x, y, to_x, to_y, 14)
    return bent(x, y, to_x, to_y, 12 + 0.16 * abs(to_x - x))


# The picture

def state_shapes(state, x, y, reached, signatures):
    colour = "#111" if state in reached.reached else "#999"
    out = ['<circle cx="%d" cy="%d" r="%d" fill="#fff" stroke="%s"/>' % (x, y, RADIUS, colour)]
    if signatures:
        out.append('<circle cx="%d" cy="%d" r="%d" fill="none" stroke="%s"/>'
                   % (x, y, RADIUS - 4, colour))
        out.append('<text x="%d" y="%d" fill="%s">tells %s</text>' % (
            x, y + RADIUS + 15, colour, escaped(phrase.numbers(signatures))))
    out.append('<text x="%d" y="%d" fill="%s">%d</text>' % (x, y + 4, colour, state))
    return out


def arrow_shapes(place, between, taken=frozenset()):
    """Arrows, and their labels with a white border, which stand over all else."""
    arrows, labels = [], []
    for source, target in sorted(between):
        path, (x, y) = arrow(place, source, target, (target, source) in between)
        width = ' stroke-width="3"' if (source, target) in taken else ""
        arrows.append('<path d="%s" fill="none" stroke="#357"%s marker-end="url(#tip)"/>' % (path, width))
        labels.append('<text x="%.1f" y="%.1f">%s</text>'
                      % (x, y, escaped(label(between[source, target]))))
    return arrows, (['<g fill="#357" stroke="#fff" stroke-width="3" paint-order="stroke">']
                    + labels + ["</g>"])


def picture(data, taken=frozenset()):
    """The automaton of a good list; the edges between these states are drawn broad."""
    nfa = model.automaton(data)
    reached = reach.Reach(nfa)
    place, width, height = places(reached)
    between = {}
    for edge in sorted(nfa.edges):
        between.setdefault((edge.source, edge.target), []).append(edge)
    out = ['<svg xmlns="http://www.w3.org/2000/svg" viewBox="0 0 %d %d" width="%d" height="%d"'
           ' font-family="sans-serif" font-size="13" text-anchor="middle">'
           % (width, height, width, height),
           "<title>The automaton of a signature list: states, and the bytes that lead from one"
           " to another</title>",
           '<defs><marker id="tip" viewBox="0 0 8 8" refX="7" refY="4" markerWidth="7"'
           ' markerHeight="7" orient="auto"><path d="M0 0 L8 4 L0 8 z" fill="#357"/></marker>'
           "</defs>",
           '<rect width="%d" height="%d" fill="#fff"/>' % (width, height)]
    arrows, labels = arrow_shapes(place, between, taken)
    out += arrows
    for state in sorted(place):
        _, x, y = place[state]
        if state in nfa.starts:
            out.append('<path d="M%d %d h%d" stroke="#357" marker-end="url(#tip)"/>'
                       % (x - RADIUS - 26, y, 24))
        out += state_shapes(state, x, y, reached, nfa.signatures({state}))
    return "\n".join(out + labels + ["</svg>", ""])
