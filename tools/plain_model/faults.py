"""What verification may find: all faults that stand at a root, as texts, with the checks of the dialect Toy."""

# The kinds of operations that end their block, and those whose blocks need no terminator.
TERMINATORS = (2, 3)
NO_TERMINATOR = (5, 7)

NOT_A_USE = 'Operand is not a use of its def'
NO_PARENT = 'Basic block "{}" has no parent operation'
MISSING_TERMINATOR = 'Basic block "{}" is missing a terminator'
TERMINATOR_NOT_LAST = 'Basic block "{}" has a terminator that is not the last operation in the block'
ENTRY_HAS_PRED = 'Basic block "{}" is an entry block and has a predecessor'
CHECK = 'verifier fault {}'

# The code of the check of a type, which refuses the integer type of width 0, and that of the check of an operation, which refuses
# the kind 1 without two operands.
TYPE_CODE, OPERATION_CODE = 1, 2

TEXTS = [
    NOT_A_USE, NO_PARENT, MISSING_TERMINATOR, TERMINATOR_NOT_LAST, ENTRY_HAS_PRED, CHECK.format(TYPE_CODE),
    CHECK.format(OPERATION_CODE),
]


def terminator(forest, block):
    """The last operation of a block, where its kind ends blocks."""
    operations = forest.children(block)
    if operations and forest.operations[operations[-1]].kind in TERMINATORS:
        return operations[-1]
    return None


def is_aside(forest, user, block):
    """Whether an operation that names a block does so beside the block graph: it is unlinked, or its block has no terminator, or one that doesn't name it."""
    holder = forest.parent(user)
    end = holder and terminator(forest, holder)
    return not end or block not in forest.operations[end].successors


def faults_of_block(forest, block, name):
    """The faults at a block itself, which has this unique name."""
    users = forest.users(block)
    region = forest.parent(block)
    if region is None:
        yield NO_PARENT.format(name)
    else:
        kind = forest.operations[forest.parent(region)].kind
        if kind not in NO_TERMINATOR and terminator(forest, block) is None:
            yield MISSING_TERMINATOR.format(name)
        if forest.children(region)[0] == block and users:
            yield ENTRY_HAS_PRED.format(name)
    if any(is_aside(forest, user, block) for user in users):
        yield NOT_A_USE
    yield from faults_of_types(forest.definitions(block))


def faults_of_operation(forest, op, names):
    """The faults at an operation itself."""
    it = forest.operations[op]
    block = forest.parent(op)
    if it.kind in TERMINATORS and block and forest.children(block)[-1] != op:
        yield TERMINATOR_NOT_LAST.format(names[block])
    if it.kind == 1 and len(it.operands) != 2:
        yield CHECK.format(OPERATION_CODE)
    yield from faults_of_types(it.definitions)


def faults_of_types(definitions):
    """The faults of the types of results or arguments."""
    for definition in definitions:
        yield from faults_of_type(definition.key)


def faults_of_type(key):
    """The faults of a type, which for integers has its width as key."""
    if key == '0':
        yield CHECK.format(TYPE_CODE)


def faults_at(forest, names):
    """For each live entity the faults at it alone. The unique names of blocks are given."""
    found = {op: set(faults_of_operation(forest, op, names)) for op in forest.operations}
    found |= {block: set(faults_of_block(forest, block, names[block])) for block in forest.blocks}
    return found


def faults_in(forest, found, root):
    """Of these faults those that stand at a root: at it or inside it."""
    return set().union(*(found.get(name, ()) for name in forest.subtree(root)))
