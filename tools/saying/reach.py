"""Which states, signatures, splits and parts of a good list or table ever matter. Not proved."""

from collections import deque

from saying import blame
from second.table.model import used_slots


class Reach:
    """What can be reached in an automaton.

    named: states that a record speaks of. reached: those that a run from a start
    state comes to. useful: reached ones from which a state that accepts is reached.
    """

    def __init__(self, nfa):
        self.nfa = nfa
        self.named = (nfa.starts | {edge.source for edge in nfa.edges}
                      | {edge.target for edge in nfa.edges} | {a.state for a in nfa.accepts})
        self.after, self.before = {}, {}
        for edge in sorted(nfa.edges):
            self.after.setdefault(edge.source, []).append(edge)
            self.before.setdefault(edge.target, []).append(edge)
        self.reached = self.closure(nfa.starts, self.after, lambda edge: edge.target)
        telling = {a.state for a in nfa.accepts} & self.reached
        self.useful = self.reached & self.closure(telling, self.before, lambda edge: edge.source)

    @staticmethod
    def closure(states, edges, end):
        found, todo = set(states), list(states)
        while todo:
            for edge in edges.get(todo.pop(), []):
                if end(edge) not in found:
                    found.add(end(edge))
                    todo.append(end(edge))
        return found

    def depths(self):
        """For each reached state the fewest bytes that lead to it."""
        out = {state: 0 for state in sorted(self.nfa.starts)}
        todo = deque(out)
        while todo:
            state = todo.popleft()
            for edge in self.after.get(state, []):
                if edge.target not in out:
                    out[edge.target] = out[state] + 1
                    todo.append(edge.target)
        return out

    def soonest(self):
        """For each signature that can be told a shortest text whose end tells it."""
        texts = {state: b"" for state in sorted(self.nfa.starts)}
        todo = deque(texts.items())
        while todo:
            state, text = todo.popleft()
            for edge in self.after.get(state, []):
                if edge.target not in texts:
                    texts[edge.target] = text + bytes([plain_byte(edge.low, edge.high)])
                    todo.append((edge.target, texts[edge.target]))
        out = {}
        for accept in sorted(self.nfa.accepts):
            text = texts.get(accept.state)
            if text is not None and len(text) < len(out.get(accept.signature, text + b"x")):
                out[accept.signature] = text
        return out


def plain_byte(low, high):
    """A byte from low to high, one that can be read where there is one."""
    for first, last in ((97, 122), (48, 57), (65, 90), (32, 126)):
        if max(low, first) <= min(high, last):
            return max(low, first)
    return low


def idle_splits(table, nfa):
    """Splits that no flow comes to, of a table that the check accepts."""
    tried = sorted(set(blame.alike(nfa)))
    found, todo = {nfa.starts}, [nfa.starts]
    while todo:
        members = todo.pop()
        for value in tried:
            after = nfa.step(members, value)
            if after not in found:
                found.add(after)
                todo.append(after)
    return [at for at, split in enumerate(table.splits) if split.members not in found]


def idle_parts(table):
    """Parts that no split uses."""
    taken = {slot for split in table.splits for slot in used_slots(split)}
    return [part for part in range(len(table.parts)) if part not in taken]
