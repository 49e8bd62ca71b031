"""A text read as the rules of the generic form say, by one function for each of their lines."""
from .tokens import token_at
from .tree import Argument, Block, Fault, Operation, Piece, Result, Use

CLOSES = {'(': ')', '[': ']', '{': '}'}

# What follows the rest of a text of that sort.
REST = {'value': 'the rest of the value, `,` or `}`', 'type': 'the rest of the type, `,` or `)`', 'location': 'the rest of the location or `)`'}


class Reader:
    """Where reading stands in a text."""

    def __init__(self, text):
        self.text, self.last = text, 0
        self.next = token_at(text, 0)

    def expected(self, what):
        raise Fault(self.next.start, f'expected {what}')

    def take(self):
        """The piece that the next token is."""
        token = self.next
        self.last = token.end
        self.next = token_at(self.text, token.end)
        return Piece(self.text[token.start:token.end], token.start)

    def takes(self, sort):
        """Takes the next token, if it is of that sort."""
        if self.next.sort != sort:
            return False
        self.take()
        return True

    def piece(self, sort, what):
        if self.next.sort != sort:
            self.expected(what)
        return self.take()

    # ---- regions

    def whole(self):
        """The operations of the whole text: one at least."""
        operations = []
        while self.next.sort or not operations:
            operations.append(self.operation('an operation'))
        return operations

    def region(self):
        """A region behind its brace, and the brace that ends it."""
        blocks = []
        while self.next.sort != '}':
            if self.next.sort == '^':
                blocks.append(self.block())
                continue
            operation = self.operation('an operation, a block or `}`')
            if not blocks:
                blocks.append(Block(None, []))
            blocks[-1].operations.append(operation)
        self.take()
        return blocks

    def block(self):
        """The head of a block."""
        label, arguments = self.take(), []
        if self.next.sort not in ('(', ':'):
            self.expected('`(` or `:`')
        if self.takes('(') and not self.takes(')'):
            arguments.append(self.argument('the name of an argument or `)`'))
            while self.takes(','):
                arguments.append(self.argument('the name of a value'))
            if not self.takes(')'):
                self.expected('`,` or `)`')
        self.piece(':', '`:`')
        return Block(label, arguments)

    def argument(self, what):
        name = self.piece('%', what)
        self.piece(':', '`:`')
        type_ = self.raw('type', ends=(',', ')', 'loc'))
        location = self.location() if self.takes('loc') else None
        return Argument(name, type_, location)

    # ---- operations

    def operation(self, what):
        it = Operation()
        if self.next.sort not in ('%', 'string'):
            self.expected(what)
        it.results = self.results() if self.next.sort == '%' else []
        it.name = self.piece('string', 'the name of an operation, in quotes')
        it.operands = self.operands()
        self.middle(it)
        self.types(it)
        it.location = self.location() if self.takes('loc') else None
        return it

    def middle(self, it):
        """What may stand between the operands and the types, in this order."""
        it.successors, it.properties, it.regions, it.entries = [], None, [], []
        wanted = ['`[`', '`<`', '`(`', '`{`', '`:`']
        if self.next.sort == '[':
            it.successors, wanted = self.successors(), wanted[1:]
        if self.next.sort == 'group':
            it.properties, wanted = self.take(), wanted[-3:]
        if self.next.sort == '(':
            it.regions, wanted = self.regions(), wanted[-2:]
        if self.next.sort == '{':
            it.entries, wanted = self.entries(), wanted[-1:]
        self.piece(':', ', '.join(wanted[:-1]) + ' or `:`' if wanted[1:] else '`:`')

    def results(self):
        results = []
        while True:
            name = self.piece('%', 'the name of a value')
            count = None
            if self.takes(':'):
                count = self.piece('word', 'a number')
            results.append(Result(name, count))
            if self.takes('='):
                return results
            if not self.takes(','):
                self.expected('`,` or `=`' if count else '`:`, `,` or `=`')

    def operands(self):
        self.piece('(', '`(`')
        uses = []
        if self.takes(')'):
            return uses
        what = 'the name of a value or `)`'
        while True:
            name = self.piece('%', what)
            index = self.take() if self.next.sort == '#' else None
            uses.append(Use(name, index))
            if self.takes(')'):
                return uses
            if not self.takes(','):
                self.expected('`,` or `)`' if index else '`#` and a number, `,` or `)`')
            what = 'the name of a value'

    def successors(self):
        self.take()
        found = [self.piece('^', 'the name of a block')]
        while self.takes(','):
            found.append(self.piece('^', 'the name of a block'))
        self.piece(']', '`,` or `]`')
        return found

    def regions(self):
        self.take()
        found = []
        while True:
            self.piece('{', '`{`')
            found.append(self.region())
            if self.takes(')'):
                return found
            if not self.takes(','):
                self.expected('`,` or `)`')

    def entries(self):
        """The attributes: keys, each with a value or without."""
        self.take()
        found = []
        if self.takes('}'):
            return found
        what = 'a key or `}`'
        while True:
            if self.next.sort not in ('word', 'loc', 'string'):
                self.expected(what)
            key = self.take()
            value = None
            if self.takes('='):
                value = self.raw('value', ends=(',', '}'))
            elif self.next.sort not in (',', '}'):
                self.expected('`=`, `,` or `}`')
            found.append((key, value))
            if self.takes('}'):
                return found
            self.take()
            what = 'a key'

    def types(self, it):
        """The types of an operation's operands and results."""
        self.piece('(', '`(`')
        it.operand_types = self.type_list()
        self.piece('->', '`->`')
        it.bare = self.next.sort != '('
        if not it.bare:
            self.take()
            it.result_types = self.type_list()
            return
        if self.next.sort not in ('word', '!'):
            self.expected('a type or `(`')
        first = self.take()
        if self.next.sort == 'group':
            self.take()
        it.result_types = [Piece(self.text[first.at:self.last], first.at)]

    def type_list(self):
        found = []
        if self.takes(')'):
            return found
        what = 'a type or `)`'
        while True:
            found.append(self.raw('type', ends=(',', ')'), what=what))
            if self.takes(')'):
                return found
            self.take()
            what = 'a type'

    # ---- texts

    def location(self):
        self.piece('(', '`(`')
        found = self.raw('location', ends=(')',))
        self.take()
        return found

    def raw(self, sort, ends, what=None):
        """What stands up to one of these tokens outside all brackets, of which the next must be one. Neither `,` nor `=` stands outside them, nor `loc` in a type."""
        start, open_ones = self.next.start, []
        while open_ones or self.next.sort not in ends or self.next.start == start:
            first = self.next.start == start
            if not self.belongs(sort, open_ones):
                self.expected((what or f'a {sort}') if first else REST[sort])
            if self.next.sort in CLOSES:
                open_ones.append(self.next.sort)
            elif self.next.sort in ')]}':
                open_ones.pop()
            self.take()
        return Piece(self.text[start:self.last], start)

    def belongs(self, sort, open_ones):
        """Whether the next token goes on with the text."""
        token = self.next.sort
        if token in (')', ']', '}'):
            return bool(open_ones) and CLOSES[open_ones[-1]] == token
        if not token:
            return False
        return bool(open_ones) or not (token in (',', '=') or token == 'loc' and sort == 'type')


def read(text):
    """The operations of a text."""
    return Reader(text).whole()
