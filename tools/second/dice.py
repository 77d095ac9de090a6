"""Numbers that look random and are the same in every run."""


class Dice:
    def __init__(self, seed):
        self.state = seed

    def below(self, count):
        """A number from 0 to count - 1, for a count of at most 2 ** 32."""
        self.state = (self.state * 6364136223846793005 + 1442695040888963407) % 2 ** 64
        return (self.state // 2 ** 32) * count // 2 ** 32

    def between(self, low, high):
        return low + self.below(high - low + 1)

    def chance(self, percent):
        return self.below(100) < percent

    def pick(self, items):
        return items[self.below(len(items))]

    def shuffled(self, items):
        left = list(items)
        out = []
        while left:
            out.append(left.pop(self.below(len(left))))
        return out

    def some(self, items, count):
        return self.shuffled(items)[:count]

    def bytes(self, count):
        return bytes(self.below(256) for _ in range(count))

    def subset(self, items, percent):
        return frozenset(item for item in items if self.chance(percent))


def make_groups(tape, seed, groups):
    """The cases of each group. Its dice go by the seed and its name alone, and its tape begins with
    nothing current, so that no line of a group hangs on another group."""
    for group in groups:
        state = seed
        for byte in group.__name__.encode("ascii"):
            state = (state * 257 + byte + 1) % 2 ** 64
        tape.group(group.__name__)
        group(tape, Dice(state))
