"""The stream of the matrix is that of the feeds."""

from second.list.streams import FEEDS

STREAMS = [FEEDS]
