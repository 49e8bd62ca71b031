"""What a text says but for where pure operations stand, which passes may choose."""
from plain_text import reading

from .numbering import Text


class Meaning:
    """The operations of a text that aren't pure, in their order, and the arguments of blocks. Each operand is told by the parts of
    what gives it, so that neither the names of values count nor where pure operations stand. `numbers` has a number for each such
    part, and is shared by the texts that are compared."""

    def __init__(self, text, pure, numbers):
        self.text, self.pure, self.numbers, self.keys = Text(reading.read(text)), pure, numbers, {}
        others = [op for op in self.text.ops if not self.is_plain(op)]
        self.places = {op.number: place for place, op in enumerate(others)}
        self.told = [(op.block, op.head, op.successors, self.operands(op)) for op in others], self.text.arguments

    def is_plain(self, op):
        return op.name in self.pure and not op.has_parts

    def number(self, parts):
        return self.numbers.setdefault(parts, len(self.numbers))

    def key(self, op):
        """The number of a pure operation."""
        if op.number not in self.keys:
            # (an operation in a ring of pure ones is told by its place)
            self.keys[op.number] = self.number(('ring', op.number))
            self.keys[op.number] = self.number((op.head, self.operands(op)))
        return self.keys[op.number]

    def operands(self, op):
        return tuple(self.value(it) for it in op.operands)

    def value(self, definition):
        sort, number, place = definition
        if sort == 'argument':
            return self.number(definition)
        op = self.text.ops[number]
        return self.number(('result', self.key(op), place) if self.is_plain(op) else ('other', self.places[number], place))


def is_same(one, other, pure):
    """Whether two texts say the same but for that."""
    numbers = {}
    return Meaning(one, pure, numbers).told == Meaning(other, pure, numbers).told
