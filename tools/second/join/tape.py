"""The commands for joining and folding, and their lines."""

from second.join import model as joins
from second.list import model
from second.tape import Ask, Load, digest
from second.tape import Tape as Base

MOST_LENT = 66560  # bytes of the lent list and of the other one


class Tape(Base):
    LOADS = {"L": Load("list", b"", MOST_LENT), "O": Load("other", b"", MOST_LENT)}
    ASKS = {"j": Ask("join", "8"), "f": Ask("fold", "")}

    def lend(self, data):
        self.load("L", data)

    def load_other(self, data):
        self.load("O", data)

    def made(self, letter, asked, made):
        self.list = made.left
        self.answer(letter, asked, [made.refusal, made.length, digest(made.left)])
        return made

    def join(self, used):
        return self.made("j", [used], joins.join(self.list, used, self.other))

    def fold(self):
        return self.made("f", [], joins.fold(self.other, self.list))


class Checked(Tape):
    """Every list that is made is a good one."""

    def made(self, letter, asked, made):
        assert made.refusal != 0 or model.list_refusal(made.left[:made.length]) == 0
        return super().made(letter, asked, made)
