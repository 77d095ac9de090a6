"""The streams of the table: that of the feeds, and the builder's."""

from second.dice import Dice
from second.list.streams import FEEDS
from second.stream import Stream
from second.table import building
from second.table.tape import Builds

SEED = 20261116


def make(tape):
    building.make(tape, Dice(SEED))


BUILDS = Stream("table", "tools/second/table/builds", "tools/second/table/built", Builds, None, make,
                {"b": ("builder", [0, 1, 2, 3, 16, 17])}, least=12)
STREAMS = [FEEDS, BUILDS]
