"""A plain forest: operations, blocks and regions with lists of what stands in them. Parents, neighbours and uses are searched for in all records."""
from dataclasses import dataclass, field
from typing import NamedTuple, Optional

# The kinds of operations that are pure.
PURE = (0, 1)


class Definition(NamedTuple):
    """A result or an argument: the name of its value, and the key of its type."""

    value: str
    key: str


class Place(NamedTuple):
    """What defines a value, and at which index."""

    definer: str
    index: int
    key: str


@dataclass
class Operation:
    """An operation. It defines its results, and its children are its regions."""

    kind: int
    definitions: list
    operands: list
    successors: list
    children: list


@dataclass
class Block:
    """A block. It defines its arguments, and its children are its operations."""

    label: Optional[str]
    definitions: list
    children: list = field(default_factory=list)


@dataclass
class Region:
    """A region. Its children are its blocks."""

    children: list = field(default_factory=list)


def named(title, items):
    """What a dump shows of a list under a title: nothing where it is empty."""
    return f' {title} {" ".join(items)}' if items else ''


class Forest:
    """All records that live, by their names: `o0`, `b0` and `r0` are the first operation, block and region of a session."""

    def __init__(self):
        self.operations = {}
        self.blocks = {}
        self.regions = {}
        # Those that a letter names, and those in which what it names may stand.
        self.records = {'o': self.operations, 'b': self.blocks, 'r': self.regions}
        self.holders = {'o': self.blocks, 'b': self.regions, 'r': self.operations}

    def is_live(self, name):
        """Whether an operation, a block or a region with this name lives."""
        return name in self.records[name[0]]

    def children(self, name):
        """The list of what stands in an entity."""
        return self.records[name[0]][name].children

    def definitions(self, name):
        """The list of an operation's results, or of a block's arguments."""
        return self.records[name[0]][name].definitions

    def parent(self, name):
        """The entity in whose list the name stands. None where there is none: it is unlinked."""
        for holder, record in self.holders[name[0]].items():
            if name in record.children:
                return holder
        return None

    def subtree(self, name):
        """An entity and all that is inside it."""
        found = [name]
        for item in found:
            found += self.children(item)
        return found

    def is_inside(self, inner, outer):
        """Whether the first is the second, or is reached from it by children."""
        return inner in self.subtree(outer)

    def place_of(self, value):
        """What defines the value. None where nothing does: it isn't live."""
        for records in (self.operations, self.blocks):
            for name, record in records.items():
                for index, (defined, key) in enumerate(record.definitions):
                    if defined == value:
                        return Place(name, index, key)
        return None

    def values(self):
        """All values that are live."""
        return [definition.value for holder in (*self.operations.values(), *self.blocks.values()) for definition in holder.definitions]

    def users(self, definition):
        """The operation of each place that names a value or a block. One that names it twice is there twice."""
        found = []
        for name, operation in self.operations.items():
            names = operation.operands if definition[0] == 'v' else operation.successors
            found += [name] * names.count(definition)
        return found

    def is_closed(self, root, others=()):
        """Whether each place that names a value or a block of the subtree belongs to an operation of the subtree, or of one of these others."""
        inside = set(self.subtree(root))
        made = {name for name in inside if name[0] == 'b'}
        for name in inside:
            if name[0] != 'r':
                made.update(definition.value for definition in self.definitions(name))
        for other in others:
            inside.update(self.subtree(other))
        for name, operation in self.operations.items():
            if name not in inside and not (made.isdisjoint(operation.operands) and made.isdisjoint(operation.successors)):
                return False
        return True

    def dead(self, block):
        """The operations of a block's list that are dead: pure, and what they define is named inside them or inside dead ones alone. Of all such sets it is the least."""
        found = []
        while True:
            more = [
                name for name in self.children(block)
                if name not in found and self.operations[name].kind in PURE and self.is_closed(name, found)
            ]
            if not more:
                return found
            found += more

    def remove(self, root):
        """Takes an entity out of its list, and it and all that is inside it away."""
        holder = self.parent(root)
        if holder:
            self.children(holder).remove(root)
        for name in self.subtree(root):
            del self.records[name[0]][name]

    def redirect(self, old, new):
        """Lets each place that names the old value or block name the new one."""
        for operation in self.operations.values():
            names = operation.operands if old[0] == 'v' else operation.successors
            names[:] = [new if name == old else name for name in names]

    def drop_uses(self, root):
        """Empties the operands and successors of each operation inside an entity."""
        for name in self.subtree(root):
            if name[0] == 'o':
                self.operations[name].operands.clear()
                self.operations[name].successors.clear()

    def parents(self):
        """What each linked entity stands in."""
        found = {}
        for records in self.records.values():
            for holder, record in records.items():
                for name in record.children:
                    found[name] = holder
        return found

    def named_places(self):
        """For each value and block that is named the places that name it, in order: operation, point, index."""
        found = {}
        for name, operation in self.operations.items():
            for names in (operation.operands, operation.successors):
                for index, definition in enumerate(names):
                    found.setdefault(definition, []).append(f'{name}.{index}')
        return found
