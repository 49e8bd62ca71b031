"""What the names of a tree mean: the first that is wrong."""
from .tree import Fault

ESCAPES = {'n': '\n', 't': '\t', '"': '"', '\\': '\\'}


class Definition:
    """A name of values: the region where it is defined, its place in the text, and the types of the values, as far as there are some."""

    def __init__(self, piece, region, width, types):
        self.piece, self.region, self.width, self.types = piece, region, width, types


def is_around(region, other):
    """Whether a region is another, or around it. A region is the way to it: the number of each region from the outermost on."""
    return other[:len(region)] == region


def meaning_of_key(text):
    """The bytes that a key stands for."""
    if not text.startswith('"'):
        return text
    text = text[1:-1]
    found, at = '', 0
    while at < len(text):
        if text[at] != '\\':
            found, at = found + text[at], at + 1
        elif text[at + 1] in ESCAPES:
            found, at = found + ESCAPES[text[at + 1]], at + 2
        else:
            found, at = found + chr(int(text[at + 1:at + 3], 16)), at + 3
    return found


def number(text):
    """The number that decimal digits make; none of another text."""
    return int(text) if text and all(it in '0123456789' for it in text) else None


class Names:
    """The names of a tree, and what is wrong with them."""

    def __init__(self, operations):
        self.regions = 0
        self.definitions, self.uses, self.wrong = [], [], []
        self.go_over(operations, ())

    def go_over(self, operations, region):
        for it in operations:
            self.look_at(it, region)

    def look_at(self, it, region):
        """Notes what an operation defines and names, and what is wrong with its numbers and keys."""
        before = 0
        for result in it.results:
            width = number(result.count.text) if result.count else 1
            if not width:
                self.wrong.append(Fault(result.count.at, 'expected a number of results, at least 1'))
            types = it.result_types[before:before + (width or 0)]
            self.definitions.append(Definition(result.name, region, width or 0, types))
            before += width or 0
        if before != len(it.result_types):
            self.wrong.append(Fault(it.name.at, 'not as many result types as results'))
        if len(it.operands) != len(it.operand_types):
            self.wrong.append(Fault(it.name.at, 'not as many operand types as operands'))
        for place, use in enumerate(it.operands):
            types = it.operand_types[place:place + 1]
            self.uses.append((use, region, types))
        self.look_at_keys(it)
        for blocks in it.regions:
            self.regions += 1
            self.look_into(blocks, (*region, self.regions))

    def look_at_keys(self, it):
        seen = set()
        for key, _ in it.entries:
            meaning = meaning_of_key(key.text)
            if meaning in seen:
                self.wrong.append(Fault(key.at, 'this key stands in this dictionary already'))
            seen.add(meaning)

    def look_into(self, blocks, region):
        """Looks at the blocks of a region."""
        labels = set()
        for block in blocks:
            if block.label:
                if block.label.text in labels:
                    self.wrong.append(Fault(block.label.at, 'a block of this name stands in this region already'))
                labels.add(block.label.text)
            for it in block.arguments:
                self.definitions.append(Definition(it.name, region, 1, [it.type]))
            self.go_over(block.operations, region)
        for block in blocks:
            for it in block.operations:
                self.look_for_blocks(it, labels)

    def look_for_blocks(self, it, labels):
        for successor in it.successors:
            if successor.text not in labels:
                self.wrong.append(Fault(successor.at, 'no block of this region has this name'))

    # ---- values

    def given_twice(self):
        """Each definition of a name that was defined before in its region, in one around that or in one in it."""
        found, by_name = [], {}
        for it in sorted(self.definitions, key=lambda it: it.piece.at):
            others = by_name.setdefault(it.piece.text, [])
            if any(is_around(it.region, other.region) or is_around(other.region, it.region) for other in others):
                found.append(Fault(it.piece.at, 'a value of this name is defined already'))
            others.append(it)
        return found, by_name

    def look_at_uses(self):
        """Notes what is wrong with values' names. An operand's number and type are looked at where no value is defined twice."""
        twice, by_name = self.given_twice()
        self.wrong += twice
        for use, region, types in self.uses:
            found = [it for it in by_name.get(use.name.text, []) if is_around(it.region, region)]
            which = number(use.index.text[1:]) if use.index else 0
            if not found or not twice and (which is None or which >= found[0].width):
                self.wrong.append(Fault(use.name.at, 'no value of this name is defined here'))
            elif not twice and types and found[0].types[which:which + 1]:
                if types[0].text != found[0].types[which].text:
                    self.wrong.append(Fault(use.name.at, 'this operand has another type than the value that it names'))


def check(operations):
    """Raises the first fault of the names; several may stand at its place."""
    names = Names(operations)
    for it in operations:
        names.look_for_blocks(it, set())
    names.look_at_uses()
    if names.wrong:
        at = min(it.at for it in names.wrong)
        raise Fault(at, *{it.words[0] for it in names.wrong if it.at == at})
