"""The commands of the signature list, of opening and of the plain feed, and their lines."""

from second.list import model
from second.sizes import ENOUGH_WORDS, FLOW_SIZE, MOST_LIST
from second.tape import BEYOND, MOST_PIECE, MOST_WORDS, Ask, Load, Tape, digest, digest_words, lent


class Lists(Tape):
    LOADS = {"L": Load("list", b"", MOST_LIST + BEYOND), "R": Load("record", b"", FLOW_SIZE + BEYOND)}
    ASKS = {"c": Ask("check_list", ""), "o": Ask("open", "4"), "f": Ask("feed", "84b")}

    def load_list(self, data):
        self.load("L", data)

    def load_record(self, record):
        self.load("R", record)

    def check_list(self):
        return self.answer("c", [], [model.list_refusal(self.list)])

    def first_words(self):
        """The words that the pairs of offset 0 need on the current list."""
        return 2 * model.open_flow(self.list, bytes(FLOW_SIZE), [0] * ENOUGH_WORDS).pairs

    def open(self, words=None):
        """With so many words; where that is not said, as many as are needed, or one or two more."""
        if words is None:
            words = self.first_words() + self.groups[-1][1] % 3
        assert words <= MOST_WORDS
        opened = model.open_flow(self.list, self.record, lent(words))
        self.record = opened.record
        return self.answer("o", [words], [
            opened.refusal, opened.pairs, digest_words(opened.words), digest(opened.record)])

    def fed(self, letter, asked, feed):
        """The line of a feed: a function from the record, the start, lent words and the piece to its
        answer and what else it tells. What is asked ends with the start, the words and the piece."""
        start, words, piece = asked[-3:]
        assert words <= MOST_WORDS and len(piece) <= MOST_PIECE
        told = feed(self.record, start, lent(words), piece)
        answer, *more = told
        self.record = answer.record
        self.answer(letter, asked, [
            answer.refusal, answer.consumed, answer.pairs, answer.all, *more,
            digest_words(answer.words), digest(answer.record)])
        return told

    def feed(self, start, words, piece):
        return self.fed("f", [start, words, piece],
                        lambda *flow: [model.plain_feed(self.list, *flow)])[0]
