"""A tree spelled as the program has to print it."""


def results(it):
    if not it.results:
        return ''
    return ', '.join(one.name.text + (f':{one.count.text}' if one.count else '') for one in it.results) + ' = '


def pieces(some):
    return ', '.join(one.text for one in some)


def location(piece):
    return f' loc({piece.text})' if piece else ''


class Speller:
    """The lines of a text. What stands in regions is indented, and a lone result type keeps the form in which it was read."""

    def __init__(self):
        self.parts = []

    def write(self, depth, text):
        self.parts.append('  ' * depth + text)

    def operations(self, depth, some):
        for it in some:
            self.operation(depth, it)

    def operation(self, depth, it):
        uses = ', '.join(one.name.text + (one.index.text if one.index else '') for one in it.operands)
        self.write(depth, f'{results(it)}{it.name.text}({uses})')
        if it.successors:
            self.parts.append(f'[{pieces(it.successors)}]')
        if it.properties:
            self.parts.append(f' {it.properties.text}')
        for place, blocks in enumerate(it.regions):
            self.parts.append(', {\n' if place else ' ({\n')
            self.region(depth, blocks)
        if it.regions:
            self.parts.append(')')
        if it.entries:
            entries = (key.text + (f' = {value.text}' if value else '') for key, value in it.entries)
            self.parts.append(f' {{{", ".join(entries)}}}')
        types = pieces(it.result_types)
        if not it.bare:
            types = f'({types})'
        self.parts.append(f' : ({pieces(it.operand_types)}) -> {types}{location(it.location)}\n')

    def region(self, depth, blocks):
        for block in blocks:
            if block.label:
                arguments = ', '.join(f'{one.name.text}: {one.type.text}{location(one.location)}' for one in block.arguments)
                self.write(depth, block.label.text + (f'({arguments})' if arguments else '') + ':\n')
            self.operations(depth + 1, block.operations)
        self.write(depth, '}')


def spell(operations):
    """The text of the operations."""
    speller = Speller()
    speller.operations(0, operations)
    return ''.join(speller.parts)
