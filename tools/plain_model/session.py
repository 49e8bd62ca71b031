"""A plain session: five tables of names, a forest, limits, and the 39 edits, each by its condition, what it needs and what it changes."""
from typing import NamedTuple

from .forest import Block, Definition, Forest, Operation, Region, named

CONDITION = 'refused condition'
COUNTER = 'refused counter'
SLOTS = 'refused slots'

# For each edit its fields. `o`, `b`, `r`, `v` and `t` name an operation, a block, a region, a value and a type, `O` to `T` lists
# of such. The others are a kind, a count of regions, an index, a label and a type's key.
FORMS = {
    'new-type': 'key', 'new-op': 'kind T V B count', 'new-block': 'label T', 'add-region': 'o',
    'push-result': 'o t', 'insert-result': 'o at t', 'remove-result': 'o at',
    'push-argument': 'b t', 'insert-argument': 'b at t', 'remove-argument': 'b at',
    'push-operand': 'o v', 'insert-operand': 'o at v', 'remove-operand': 'o at', 'replace-operand': 'o at v',
    'push-successor': 'o b', 'insert-successor': 'o at b', 'remove-successor': 'o at', 'replace-successor': 'o at b',
    'replace-all-uses': 'v v', 'retarget-all': 'b b',
    'op-front': 'o b', 'op-back': 'o b', 'op-before': 'o o', 'op-after': 'o o', 'unlink-op': 'o',
    'block-front': 'b r', 'block-back': 'b r', 'block-before': 'b b', 'block-after': 'b b', 'unlink-block': 'b',
    'append-ops': 'b b', 'append-blocks': 'r r', 'move-region': 'r o',
    'drop-op-uses': 'o', 'drop-block-uses': 'b', 'drop-region-uses': 'r',
    'erase-op': 'o', 'erase-block': 'b', 'erase-region': 'o at',
}
FORMS = {word: form.split() for word, form in FORMS.items()}
NAMES, LISTS = frozenset('obrvt'), frozenset('OBRVT')


class Edit(NamedTuple):
    """An edit: its word, and its fields, of which lists are tuples."""

    word: str
    fields: tuple

    def line(self):
        """The edit as a line for the lab."""
        written = [self.word]
        for item in self.fields:
            if isinstance(item, tuple):
                written.append(','.join(item) or '-')
            else:
                written.append('-' if item is None else str(item))
        return ' '.join(written)


class Limits(NamedTuple):
    """How many numbers of values and of uses there are, how many slots in each arena, and the last version of a slot."""

    values: int = 2**64 - 1
    uses: int = 2**64 - 1
    slots: int = 2**32 - 2
    last_version: int = 2**32 - 1


class Slots:
    """The slots of one arena. The slot that was freed last is used first, and otherwise the next new one.

    The order in which the slots inside an erased entity are freed is open, and so are the ids after that. No answer rests on it
    where there is one slot, where each slot serves at most twice, or where none is ever retired.
    """

    def __init__(self, limits):
        self.limits = limits
        self.held = {}
        self.free = []
        self.handed_out = 0
        self.retired = 0

    def room(self):
        """The slots less those that are occupied and those that are retired."""
        return self.limits.slots - len(self.held) - self.retired

    def take(self, name):
        """Hands out a slot at its first version, or at one that is two higher than that which it had."""
        if self.free:
            self.held[name] = self.free.pop()
        else:
            self.handed_out += 1
            self.held[name] = (self.handed_out, 1)

    def give_back(self, name):
        """Frees the slot of an entity, or retires it where it has no further version."""
        slot, version = self.held.pop(name)
        if version + 2 > self.limits.last_version:
            self.retired += 1
        else:
            self.free.append((slot, version + 2))


class Needs(NamedTuple):
    """How many numbers and slots an edit needs."""

    values: int = 0
    uses: int = 0
    operations: int = 0
    blocks: int = 0
    regions: int = 0


class Session:
    """A session: its edits are answered as the lab answers them. A refused edit changes nothing, and skips no number and no slot."""

    def __init__(self, limits=Limits()):
        self.limits = limits
        self.forest = Forest()
        self.keys = []
        # The values that direct calls have saved, each once.
        self.saved = []
        self.counts = {'o': 0, 'b': 0, 'r': 0, 'v': 0}
        self.uses = 0
        self.slots = {letter: Slots(limits) for letter in 'obr'}

    # What is read

    def room(self):
        """How many numbers and slots there still are."""
        slots = [self.slots[letter].room() for letter in 'obr']
        return Needs(self.limits.values - self.counts['v'], self.limits.uses - self.uses, *slots)

    def table(self, letter):
        """All names of a table, also of what was erased."""
        count = len(self.keys) if letter == 't' else self.counts[letter]
        return [f'{letter}{number}' for number in range(count)]

    def key_of(self, ty):
        """The key of a type."""
        return self.keys[int(ty[1:])]

    def type_of(self, key):
        """The name of the first type with this key."""
        return f't{self.keys.index(key)}'

    def is_named(self, name):
        """Whether the name stands in a table, and what has it is live."""
        if name[0] == 't':
            return int(name[1:]) < len(self.keys)
        if name[0] == 'v':
            return self.forest.place_of(name) is not None
        return self.forest.is_live(name)

    def holds(self, edit):
        """Whether the condition of an edit holds."""
        for form, item in zip(FORMS[edit.word], edit.fields):
            if form in NAMES and not self.is_named(item):
                return False
            if form in LISTS and not all(map(self.is_named, item)):
                return False
        condition = CONDITIONS.get(edit.word)
        return condition is None or condition(self, *edit.fields)

    def needs(self, edit):
        """What an edit needs."""
        if edit.word == 'new-op':
            _, types, operands, successors, regions = edit.fields
            return Needs(len(types), len(operands) + len(successors), 1, 0, regions)
        if edit.word == 'new-block':
            return Needs(values=len(edit.fields[1]), blocks=1)
        if edit.word == 'add-region':
            return Needs(regions=1)
        verb, _, part = edit.word.partition('-')
        if verb in ('push', 'insert') and part in ('result', 'argument'):
            return Needs(values=1)
        if verb in ('push', 'insert', 'replace') and part in ('operand', 'successor'):
            return Needs(uses=1)
        return Needs()

    def answer(self, edit):
        """Carries an edit out, and answers it."""
        if not self.holds(edit):
            return CONDITION
        needed, room = self.needs(edit), self.room()
        if needed.values > room.values or needed.uses > room.uses:
            return COUNTER
        if needed.operations > room.operations or needed.blocks > room.blocks or needed.regions > room.regions:
            return SLOTS
        self.uses += needed.uses
        made = CHANGES[edit.word](self, *edit.fields)
        return f'made {made}' if made else 'done'

    # What is made

    def new_name(self, letter):
        """The next name of a table. What gets it takes a slot, unless it is a value."""
        name = f'{letter}{self.counts[letter]}'
        self.counts[letter] += 1
        if letter != 'v':
            self.slots[letter].take(name)
        return name

    def new_definition(self, ty):
        return Definition(self.new_name('v'), self.key_of(ty))

    def new_region(self):
        name = self.new_name('r')
        self.forest.regions[name] = Region()
        return name

    def new_type(self, key):
        self.keys.append(key)
        return f't{len(self.keys) - 1}'

    def new_op(self, kind, types, operands, successors, regions):
        name = self.new_name('o')
        results = [self.new_definition(ty) for ty in types]
        regions = [self.new_region() for _ in range(regions)]
        self.forest.operations[name] = Operation(kind, results, list(operands), list(successors), regions)
        return name

    def new_block(self, label, types):
        name = self.new_name('b')
        self.forest.blocks[name] = Block(label, [self.new_definition(ty) for ty in types])
        return name

    def add_region(self, op):
        name = self.new_region()
        self.forest.children(op).append(name)
        return name

    # Results and arguments

    def insert_definition(self, holder, at, ty):
        definition = self.new_definition(ty)
        self.forest.definitions(holder).insert(at, definition)
        return definition.value

    def push_result(self, op, ty):
        return self.insert_definition(op, len(self.forest.definitions(op)), ty)

    def push_argument(self, block, ty):
        return self.insert_definition(block, len(self.forest.definitions(block)), ty)

    insert_result = insert_argument = insert_definition

    def may_insert_result(self, holder, at, ty):
        return at <= len(self.forest.definitions(holder))

    may_insert_argument = may_insert_result

    def may_remove_result(self, holder, at):
        definitions = self.forest.definitions(holder)
        return at < len(definitions) and not self.forest.users(definitions[at].value)

    may_remove_argument = may_remove_result

    def remove_result(self, holder, at):
        del self.forest.definitions(holder)[at]

    remove_argument = remove_result

    # Operands and successors

    def push_operand(self, op, value):
        self.forest.operations[op].operands.append(value)

    def may_insert_operand(self, op, at, value):
        return at <= len(self.forest.operations[op].operands)

    def insert_operand(self, op, at, value):
        self.forest.operations[op].operands.insert(at, value)

    def may_remove_operand(self, op, at):
        return at < len(self.forest.operations[op].operands)

    def remove_operand(self, op, at):
        del self.forest.operations[op].operands[at]

    def may_replace_operand(self, op, at, value):
        return at < len(self.forest.operations[op].operands)

    def replace_operand(self, op, at, value):
        self.forest.operations[op].operands[at] = value

    def push_successor(self, op, block):
        self.forest.operations[op].successors.append(block)

    def may_insert_successor(self, op, at, block):
        return at <= len(self.forest.operations[op].successors)

    def insert_successor(self, op, at, block):
        self.forest.operations[op].successors.insert(at, block)

    def may_remove_successor(self, op, at):
        return at < len(self.forest.operations[op].successors)

    def remove_successor(self, op, at):
        del self.forest.operations[op].successors[at]

    def may_replace_successor(self, op, at, block):
        return at < len(self.forest.operations[op].successors)

    def replace_successor(self, op, at, block):
        self.forest.operations[op].successors[at] = block

    def replace_all_uses(self, old, new):
        self.forest.redirect(old, new)

    def may_retarget_all(self, old, new):
        return all(self.forest.parent(user) for user in self.forest.users(old))

    retarget_all = replace_all_uses

    # Lists: an operation goes into a block as a block goes into a region

    def may_op_front(self, node, container):
        return self.forest.parent(node) is None and not self.forest.is_inside(container, node)

    may_op_back = may_block_front = may_block_back = may_op_front

    def may_op_before(self, node, mark):
        container = self.forest.parent(mark)
        return container is not None and self.may_op_front(node, container)

    may_op_after = may_block_before = may_block_after = may_op_before

    def may_unlink_op(self, node):
        return self.forest.parent(node) is not None

    may_unlink_block = may_unlink_op

    def op_front(self, node, container):
        self.forest.children(container).insert(0, node)

    def op_back(self, node, container):
        self.forest.children(container).append(node)

    def op_before(self, node, mark):
        siblings = self.forest.children(self.forest.parent(mark))
        siblings.insert(siblings.index(mark), node)

    def op_after(self, node, mark):
        siblings = self.forest.children(self.forest.parent(mark))
        siblings.insert(siblings.index(mark) + 1, node)

    def unlink_op(self, node):
        self.forest.children(self.forest.parent(node)).remove(node)

    block_front, block_back, block_before, block_after, unlink_block = op_front, op_back, op_before, op_after, unlink_op

    def may_append_ops(self, donee, donor):
        nodes = self.forest.children(donor)
        within = any(self.forest.is_inside(it, node) for node in nodes for it in (donee, donor))
        return donee != donor and not within

    may_append_blocks = may_append_ops

    def append_ops(self, donee, donor):
        self.forest.children(donee).extend(self.forest.children(donor))
        self.forest.children(donor).clear()

    append_blocks = append_ops

    def may_move_region(self, region, op):
        return not self.forest.is_inside(op, region)

    def move_region(self, region, op):
        holder = self.forest.parent(region)
        if holder != op:
            self.forest.children(holder).remove(region)
            self.forest.children(op).append(region)

    # Dropping and erasing

    def drop_op_uses(self, root):
        self.forest.drop_uses(root)

    drop_block_uses = drop_region_uses = drop_op_uses

    def may_erase_op(self, root):
        return self.forest.is_closed(root)

    may_erase_block = may_erase_op

    def erase(self, root):
        gone = self.forest.subtree(root)
        self.forest.remove(root)
        for name in gone:
            self.slots[name[0]].give_back(name)

    erase_op = erase_block = erase

    def may_erase_region(self, op, at):
        regions = self.forest.children(op)
        return at < len(regions) and self.forest.is_closed(regions[at])

    def erase_region(self, op, at):
        self.erase(self.forest.children(op)[at])

    def sweep(self, block):
        """Erases the dead operations of a block, and answers how many there were."""
        dead = self.forest.dead(block)
        for name in dead:
            self.erase(name)
        return str(len(dead))

    # What is shown

    def dump(self):
        """The lines of a dump: one for each entry of the tables."""
        parents, places = self.forest.parents(), self.forest.named_places()
        types = {key: self.type_of(key) for key in set(self.keys)}
        lines = [f't{number}: {"i" * key.isdecimal()}{key}' for number, key in enumerate(self.keys)]
        lines += self.lines_of_operations(parents)
        lines += self.lines_of_blocks(parents, places)
        lines += self.lines_of_regions(parents)
        return lines + self.lines_of_values(types, places)

    def entries(self, letter):
        """The names of a table, and the record of each, which is None where it was erased."""
        records = self.forest.records[letter]
        return [(name, records.get(name)) for name in self.table(letter)]

    def lines_of_operations(self, parents):
        lines = []
        for name, it in self.entries('o'):
            if it is None:
                lines.append(f'{name}: gone')
                continue
            results = [definition.value for definition in it.definitions]
            held = named('results', results) + named('operands', it.operands)
            held += named('successors', it.successors) + named('regions', it.children)
            lines.append(f'{name}: {it.kind}{held}{stands_in(parents, name)}')
        return lines

    def lines_of_blocks(self, parents, places):
        lines = []
        for name, it in self.entries('b'):
            if it is None:
                lines.append(f'{name}: gone')
                continue
            label = f' {it.label}' if it.label else ''
            held = named('arguments', [definition.value for definition in it.definitions])
            held += named('operations', it.children)
            users = named('named by', places.get(name))
            lines.append(f'{name}:{label}{held}{stands_in(parents, name)}{users}')
        return lines

    def lines_of_regions(self, parents):
        lines = []
        for name, it in self.entries('r'):
            shown = ' gone' if it is None else named('blocks', it.children) + stands_in(parents, name)
            lines.append(f'{name}:{shown}')
        return lines

    def lines_of_values(self, types, places):
        shown = {}
        for letter in 'ob':
            for holder in self.forest.records[letter]:
                for index, (value, key) in enumerate(self.forest.definitions(holder)):
                    shown[value] = f' type {types[key]} of {holder}.{index}{named("used by", places.get(value))}'
        return [f'{name}:{shown.get(name, " gone")}' for name in self.table('v')]


# What each edit changes, and the conditions of those that have more of one than that all that is named is live: `op_back` and
# `may_op_back` for `op-back`.
METHODS = {word: word.replace('-', '_') for word in FORMS}
CHANGES = {word: getattr(Session, method) for word, method in METHODS.items()}
CONDITIONS = {word: getattr(Session, f'may_{method}') for word, method in METHODS.items() if hasattr(Session, f'may_{method}')}


def stands_in(parents, name):
    """What a dump shows of what an entity stands in."""
    return f' in {parents[name]}' if name in parents else ''
