"""Which operations of a text are alike, told of its tree alone."""
import os
import re

from plain_text.tree import Piece


ROOT = os.path.dirname(os.path.dirname(os.path.dirname(os.path.realpath(__file__))))
PURE = re.compile(r'^    \(\d+, PURE_OPERATION\), // (\S+)$', re.M)


def pure_names():
    """The names that the table of operations knows as pure."""
    with open(f'{ROOT}/crates/generic_table/src/table.rt', encoding='utf-8') as file:
        return set(PURE.findall(file.read()))


class Op:
    """An operation: what of it doesn't depend on its operands, these as definitions, the operation around it, and whether a result is used."""

    def __init__(self, it, number, block, around):
        self.name, self.number, self.block, self.around = it.name.text.strip('"'), number, block, around
        self.successors = [one.text for one in it.successors]
        self.has_parts = bool(it.regions or it.successors)
        entries = sorted((key.text, value.text if value else '') for key, value in it.entries)
        types = [one.text for one in it.result_types]
        self.head = (self.name, tuple(entries), it.properties.text if it.properties else '', tuple(types))
        self.operands, self.used, self.count = [], False, len(types)


class Text:
    """The operations of a tree in their order, an operation before those inside it. Each gets its number as its location."""

    def __init__(self, operations):
        self.ops, self.regions, self.blocks, self.arguments = [], 0, 0, []
        self.uses, self.found = [], {}
        self.go_over(operations, (), 0, None)
        for op, region, name, index in self.uses:
            definition = self.definition(region, name, index)
            op.operands.append(definition)
            if definition[0] == 'op':
                self.ops[definition[1]].used = True

    def go_over(self, operations, region, block, around):
        for it in operations:
            op = Op(it, len(self.ops), block, around)
            self.ops.append(op)
            it.location = Piece(f'"{op.number}"', 0)
            self.define_results(it, op, region)
            self.uses += [(op, region, use.name.text, int(use.index.text[1:]) if use.index else 0) for use in it.operands]
            for blocks in it.regions:
                self.regions += 1
                self.look_into(blocks, (*region, self.regions), op.number)

    def define_results(self, it, op, region):
        place = 0
        for result in it.results:
            count = int(result.count.text) if result.count else 1
            self.found.setdefault(result.name.text, {})[region] = [('op', op.number, place + index) for index in range(count)]
            place += count

    def look_into(self, blocks, region, around):
        for it in blocks:
            self.blocks += 1
            block = self.blocks
            for place, argument in enumerate(it.arguments):
                self.found.setdefault(argument.name.text, {})[region] = [('argument', block, place)]
                self.arguments.append((block, argument.type.text))
            self.go_over(it.operations, region, block, around)

    def definition(self, region, name, index):
        found = self.found[name]
        while region not in found:
            region = region[:-1]
        return found[region][index]


class Alike:
    """For each operation the earlier one that it is alike to, if there is one, and the first such one of its own block. Alike operations
    give the same. They are looked for in one block or in all (`across`), among those that the table knows as pure or among all
    without regions and successors (`others`), and with their operands in one order or in any (`swapped`)."""

    def __init__(self, text, pure, across=False, others=False, swapped=False):
        self.same, self.earlier, self.beside, first = {}, {}, {}, {}
        for op in text.ops:
            if op.has_parts or not (others or op.name in pure):
                continue
            operands = [self.same.get(it, it) for it in op.operands]
            parts = op.head, tuple(sorted(operands) if swapped else operands)
            for found, key in ((self.earlier, (parts, None if across else op.block)), (self.beside, (parts, op.block))):
                earlier = first.setdefault(key, op.number)
                if earlier != op.number:
                    found[op.number] = earlier
            for place in range(op.count if op.number in self.earlier else 0):
                earlier = 'op', self.earlier[op.number], place
                self.same['op', op.number, place] = self.same.get(earlier, earlier)


class Classes:
    """Why an operation is alike to an earlier one."""

    def __init__(self, text, pure):
        self.text = text
        self.plain = Alike(text, pure)
        self.swapped = Alike(text, pure, swapped=True)
        self.across = Alike(text, pure, across=True)
        self.both = Alike(text, pure, across=True, swapped=True)
        self.others = Alike(text, pure, across=True, swapped=True, others=True)

    def of(self, number, gone):
        """The first of these words that fits an operation that is gone, with these."""
        if not self.text.ops[number].used or self.text.ops[number].around in gone:
            return 'unused'
        for word, found in (('alike', self.plain.beside), ('swapped', self.swapped.beside), ('follows', self.across.beside),
                            ('follows', self.both.beside), ('across', self.both.earlier), ('others', self.others.earlier)):
            if number in found:
                return word
        return 'others' if self.text.ops[number].has_parts else 'unknown'

    def is_instead(self, number, gone):
        """Whether it is alike to an earlier one of its block that nothing uses and that is gone."""
        earlier = self.plain.beside.get(number)
        return earlier in gone and not self.text.ops[earlier].used
