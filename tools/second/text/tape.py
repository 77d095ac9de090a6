"""The commands for signature texts, and their lines. The pairs of a text come from its language, not
from its list."""

from second.list import model
from second.sizes import FLOW_SIZE
from second.tape import Ask, Load, digest, digest_words, lent, lent_bytes
from second.tape import Tape as Base
from second.text import model as texts

# The longest text, lent list and piece, and the most words.
MOST_TEXT, MOST_LENT, MOST_PIECE, MOST_WORDS = 16384, 66560, 4096, 1200


class Tape(Base):
    LOADS = {"T": Load("text", b"", MOST_TEXT)}
    ASKS = {"k": Ask("compile", "14"), "m": Ask("match", "4b")}

    def __init__(self):
        super().__init__()
        self.signature = None  # that of the list in use, where there is one
        self.compiled_text = None  # the text that was compiled last
        self.list = b""

    def group(self, name):
        """Begins a group, with the empty text and nothing compiled."""
        super().group(name)
        self.compiled_text = None

    def load_text(self, text):
        self.load("T", text)

    def compile(self, signature, length):
        assert length <= MOST_LENT
        answer = texts.compile_text(self.text, signature, lent_bytes(length))
        self.compiled_text = self.text
        self.signature = signature if answer.refusal == 0 else None
        self.list = answer.list[:answer.length]
        return self.answer("k", [signature, length], [
            answer.refusal, answer.place, answer.length, digest(answer.list)])

    def match(self, words, piece):
        """Opens a flow on the list and feeds it the piece, with the words behind the pairs of the
        opening."""
        assert words <= MOST_WORDS and len(piece) <= MOST_PIECE and self.compiled_text is not None
        return self.answer("m", [words, piece], self.told(words, piece))

    def told(self, words, piece):
        out = lent(words)
        if self.signature is None:
            return [1, 0, 1, 0, 0, 0, digest_words(out)]  # no list: its length is 0
        due = texts.ends(self.compiled_text, piece)
        first = due[:1] == [0]
        if first and words < 2:
            # The record is not opened: it holds no state, and nothing is told.
            return [15, 0, 0, len(piece), 0, 1, digest_words(out)]
        if first:
            out[0:2] = [self.signature, 0]
        later = due[first:]
        room = (words - 2 * first) // 2
        for i, offset in enumerate(later[:room]):
            at = 2 * (first + i)
            out[at:at + 2] = [self.signature, offset]
        consumed = len(piece) if len(later) <= room else later[room] - 1
        return [0, first, 0, consumed, min(room, len(later)), consumed == len(piece), digest_words(out)]


class Checked(Tape):
    """Every list is a good one whose records rise, and told pairs are also those of the list, by the
    model of opening and feed."""

    def compile(self, signature, length):
        refusal = super().compile(signature, length)
        records = [self.list[at:at + 8] for at in range(0, len(self.list), 8)]
        assert all(one < other for one, other in zip(records, records[1:]))
        assert refusal != 0 or model.list_refusal(self.list) == 0
        return refusal

    def told(self, words, piece):
        values = super().told(words, piece)
        opened = model.open_flow(self.list, bytes(FLOW_SIZE), lent(words))
        at = 2 * opened.pairs
        fed = model.plain_feed(self.list, opened.record, 0, opened.words[at:], piece)
        assert values == [opened.refusal, opened.pairs, fed.refusal, fed.consumed, fed.pairs, fed.all,
                          digest_words(opened.words[:at] + fed.words)], (self.compiled_text, piece, words)
        return values
