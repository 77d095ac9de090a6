"""The commands for the automaton with bits and counters, and their lines."""

from second.machine import model as machines
from second.sizes import X_FLOW_SIZE, X_MOVES_SIZE, X_PROGRAM_SIZE, X_STATES
from second.tape import BEYOND, MOST_PIECE, MOST_WORDS, Ask, Load, digest, digest_words, lent
from second.tape import Tape as Base


class Tape(Base):
    LOADS = {"M": Load("moves", b"", X_STATES * X_MOVES_SIZE + 4 * BEYOND),
             "P": Load("programs", b"", X_STATES * X_PROGRAM_SIZE + 4 * BEYOND),
             "R": Load("record", b"", X_FLOW_SIZE + BEYOND)}
    ASKS = {"c": Ask("check", ""), "o": Ask("open", "4"), "f": Ask("feed", "84b")}

    def load_machine(self, moves, programs):
        self.load("M", moves)
        self.load("P", programs)

    def load_record(self, record):
        self.load("R", record)

    def check(self):
        self.answer("c", [], [machines.refused(self.moves, self.programs)])

    def open(self, words):
        assert words <= MOST_WORDS
        opened = machines.open_flow(self.moves, self.programs, self.record, lent(words))
        self.record = opened.record
        self.answer("o", [words], [
            opened.refusal, opened.pairs, digest_words(opened.words), digest(opened.record)])
        return opened

    def feed(self, start, words, piece):
        assert words <= MOST_WORDS and len(piece) <= MOST_PIECE
        answer = machines.feed(self.moves, self.programs, self.record, start, lent(words), piece)
        self.record = answer.record
        self.answer("f", [start, words, piece], [
            answer.refusal, answer.consumed, answer.pairs, answer.all,
            digest_words(answer.words), digest(answer.record)])
        return answer
