"""The streams of the index: that of the feeds, and that of splits with an index straight from a list."""

from second.dice import Dice
from second.index import preparing
from second.index.tape import Prepares
from second.list.streams import FEEDS
from second.stream import Stream

SEED = 20261117


def make(tape):
    preparing.make(tape, Dice(SEED))


PREPARES = Stream("index", "tools/second/index/prepares", "tools/second/index/prepared", Prepares, None, make,
                  {"q": ("preparing", [0, 1, 2, 3, 16, 17])})
STREAMS = [FEEDS, PREPARES]
