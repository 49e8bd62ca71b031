"""Direct calls of a context that are no edits of a session: drawn at random, carried out on a plain session, and answered."""
from .session import CONDITION

# The calls that take the last of an operation's or a block's parts away, by the letter of what has the part.
POPS = (('o', 'result'), ('b', 'argument'), ('o', 'operand'), ('o', 'operand'), ('o', 'successor'), ('o', 'successor'))

# The words of all calls.
WORDS = [
    *(f'edit.pop_{part}' for _, part in dict.fromkeys(POPS)),
    'edit.replace_some_uses_with', 'edit.retarget_some_preds_to', 'saved.save_value',
]


def direct_call(source, session):
    """A call on what is live, as a line and its answer. None where there is nothing that it could name."""
    draw = source.pick([pop, pop, pop, replace_some, replace_some, retarget_some, retarget_some, save])
    return draw(source, session)


def pop(source, session):
    """The last part goes. A result or an argument must be unused."""
    letter, part = source.pick(POPS)
    holders = list(session.forest.records[letter])
    if not holders:
        return None
    name = source.pick(holders)
    return f'edit.pop_{part} {name}', popped(session.forest, name, part)


def popped(forest, name, part):
    if part in ('result', 'argument'):
        definitions = forest.definitions(name)
        if not definitions or forest.users(definitions[-1].value):
            return CONDITION
        definitions.pop()
        return 'done'
    names = forest.operations[name].operands if part == 'operand' else forest.operations[name].successors
    return names.pop() if names else CONDITION


def replace_some(source, session):
    """All uses of a value come to name another one where there are as many as the call says. Where there are not, those of first operands do, or none."""
    forest, values = session.forest, session.forest.values()
    used = [value for value in values if forest.users(value)]
    if not used:
        return None
    old, new = source.pick(used), source.pick(values)
    places = places_of(forest, old)
    count, word = source.below(len(places) + 1), source.pick(['counted', 'counted-or-first', 'counted-or-first'])
    chosen = places if count == len(places) else [place for place in places if place[1] == 0 and word != 'counted']
    rename(forest, new, chosen)
    return f'edit.replace_some_uses_with {old} {new} {word} {count}', 'done'


def retarget_some(source, session):
    """The successors that name a block come to name another one where they are of operations in a block that is named, or in one that is given."""
    forest, blocks = session.forest, list(session.forest.blocks)
    named = [block for block in blocks if forest.users(block)]
    if not named:
        return None
    old, word = source.pick(named), source.pick(['named', 'named', source.pick(blocks)])
    places = places_of(forest, old)
    parents = [forest.parent(op) for op, _ in places]
    new = source.pick([source.pick(blocks), source.pick(parents) or source.pick(blocks)])
    line = f'edit.retarget_some_preds_to {old} {new} {word}'
    if not all(parents):
        return line, CONDITION
    chosen = [place for place, it in zip(places, parents) if (forest.users(it) if word == 'named' else it == word)]
    rename(forest, new, chosen)
    return line, 'done'


def save(source, session):
    """A value is saved under the place of the first that was equal; texts and the two sorts of numbers are never equal."""
    value = f'{source.pick(["text", "u64", "i64"])} {source.below(3)}'
    if value not in session.saved:
        session.saved.append(value)
    return f'saved.save_value {value}', str(session.saved.index(value))


def places_of(forest, definition):
    """The operation and the index of each place that names a value or a block."""
    found = [(name, names_of(it, definition)) for name, it in forest.operations.items()]
    return [(name, index) for name, names in found for index, named in enumerate(names) if named == definition]


def names_of(operation, definition):
    return operation.operands if definition[0] == 'v' else operation.successors


def rename(forest, new, places):
    """Lets these places name another value or block."""
    for name, index in places:
        names_of(forest.operations[name], new)[index] = new
