"""The tree of a text: operations, regions and blocks, with the texts of their parts and where these begin."""


class Fault(Exception):
    """The first fault of a text: what it is, in one of these words, and the index of the byte where it stands."""

    def __init__(self, at, *words):
        super().__init__(at, *words)
        self.at, self.words = at, words


class Piece:
    """A part of the text, and where it begins."""

    __slots__ = ('text', 'at')

    def __init__(self, text, at):
        self.text, self.at = text, at


class Result:
    """A name of one result, or of so many."""

    __slots__ = ('name', 'count')

    def __init__(self, name, count):
        self.name, self.count = name, count


class Use:
    """The name of an operand, and what stands behind it with a `#`."""

    __slots__ = ('name', 'index')

    def __init__(self, name, index):
        self.name, self.index = name, index


class Operation:
    """An operation. `bare` says that its result type stands in no parentheses."""

    __slots__ = ('results', 'name', 'operands', 'successors', 'properties', 'regions', 'entries', 'operand_types', 'result_types', 'bare', 'location')


class Argument:
    """An argument of a block."""

    __slots__ = ('name', 'type', 'location')

    def __init__(self, name, type_, location):
        self.name, self.type, self.location = name, type_, location


class Block:
    """A block; the first of a region may have no label."""

    __slots__ = ('label', 'arguments', 'operations')

    def __init__(self, label, arguments):
        self.label, self.arguments, self.operations = label, arguments, []
