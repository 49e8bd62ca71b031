"""A text with other names of values and blocks."""
from . import reading


def is_around(region, other):
    return other[:len(region)] == region


class Renaming:
    """The names in a tree, each with the region where it stands."""

    def __init__(self, operations):
        self.values, self.uses, self.blocks, self.successors, self.regions = {}, [], {}, [], 0
        self.go_over(operations, ())

    def go_over(self, operations, region):
        for it in operations:
            for result in it.results:
                self.define(result.name, region)
            self.uses += ((use.name, region) for use in it.operands)
            self.successors += ((successor, region) for successor in it.successors)
            for blocks in it.regions:
                self.regions += 1
                self.look_into(blocks, (*region, self.regions))

    def look_into(self, blocks, region):
        for block in blocks:
            if block.label:
                self.blocks[region, block.label.text] = block.label
            for it in block.arguments:
                self.define(it.name, region)
            self.go_over(block.operations, region)

    def define(self, piece, region):
        self.values.setdefault(piece.text, {})[region] = piece

    def definition(self, piece, region):
        """The definition that a use in a region names: in it, or in the nearest around it."""
        found = self.values[piece.text]
        while region not in found:
            region = region[:-1]
        return found[region]

    def changes(self):
        """The new name for each piece that is a name, by its place."""
        new = {}
        for some in self.values.values():
            for it in some.values():
                new[it.at] = f'%{"v-$._"[len(new) % 5]}{len(new)}', it.text
        for it in self.blocks.values():
            new[it.at] = f'^b.{len(new)}-', it.text
        for it, region in self.uses:
            new[it.at] = new[self.definition(it, region).at]
        for it, region in self.successors:
            new[it.at] = new[self.blocks[region, it.text].at]
        return new


def renamed(text):
    """A right text with new names for all that has one."""
    changes, parts, last = Renaming(reading.read(text)).changes(), [], 0
    for at in sorted(changes):
        name, old = changes[at]
        parts += [text[last:at], name]
        last = at + len(old)
    return ''.join([*parts, text[last:]])
