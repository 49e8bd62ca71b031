"""Edits that are drawn at random: by what a plain session holds, so that most are accepted; and now and then without a look at it."""
import random

from .session import FORMS, Edit

# How often each edit is drawn beside the others.
SHARES = dict.fromkeys(FORMS, 2) | {
    'new-type': 5, 'new-op': 16, 'new-block': 7, 'op-back': 8, 'block-back': 6, 'push-operand': 3,
}

# The edits of lists and of regions that move.
LIST_WORDS = [word for word in FORMS if word.partition('-')[0] in ('op', 'block', 'unlink', 'append', 'move')]

KEYS = ['0', '1', '8', '32', 'list']
LABELS = [None, None, 'entry', 'exit']

# One in so many edits is drawn without a look at what holds. The others are drawn up to so many times, until the condition holds.
BLIND, TRIES = 5, 8


class Source:
    """A source of random choices, the same for each seed on each machine."""

    def __init__(self, seed):
        self.random = random.Random(seed).random

    def below(self, count):
        return int(self.random() * count)

    def one_in(self, count):
        return self.below(count) == 0

    def pick(self, items):
        return items[self.below(len(items))]

    # Names

    def entry(self, session, letter):
        """A name of a table, live or not; now and then the one behind all of them."""
        names = session.table(letter)
        return f'{letter}{len(names)}' if not names or self.one_in(6) else self.pick(names)

    def live(self, session, letter):
        """A name of something live; of anything else where there is none."""
        if letter == 't':
            names = session.table('t')
        elif letter == 'v':
            names = session.forest.values()
        else:
            names = list(session.forest.records[letter])
        return self.pick(names) if names else self.entry(session, letter)

    def name(self, session, letter, careful):
        return self.live(session, letter) if careful or self.one_in(3) else self.entry(session, letter)

    def names(self, session, letter, most, careful):
        return tuple(self.name(session, letter, careful) for _ in range(self.below(most + 1)))

    # Edits

    def field(self, session, form, careful):
        if form in ('o', 'b', 'r', 'v', 't'):
            return self.name(session, form, careful)
        if form in ('T', 'V', 'B'):
            return self.names(session, form.lower(), {'T': 2, 'V': 3, 'B': 2}[form], careful)
        if form == 'key':
            return self.pick(KEYS)
        if form == 'label':
            return self.pick(LABELS)
        return self.below({'kind': 9, 'count': 3, 'at': 4}[form])

    def edit_of(self, session, word, careful):
        return Edit(word, tuple(self.field(session, form, careful) for form in FORMS[word]))

    def word(self, session):
        """The word of the next edit. The first ones make what hardly any edit does without, where there is room for it."""
        room = session.room()
        if not session.keys:
            return 'new-type'
        if len(session.forest.blocks) < 2 and room.blocks and session.counts['b'] < 20:
            return 'new-block'
        if len(session.forest.operations) < 3 and room.operations and session.counts['o'] < 40:
            return 'new-op'
        return self.pick(WORDS)

    def edit(self, session, words=None, tries=TRIES):
        """The next edit, one of these words, drawn anew up to so many times."""
        word = self.pick(words) if words else self.word(session)
        if self.one_in(BLIND):
            return self.edit_of(session, word, False)
        for _ in range(tries):
            edit = self.edit_of(session, word, True)
            if session.holds(edit):
                break
        return edit


WORDS = [word for word, share in SHARES.items() for _ in range(share)]


def beginning_of_lists(count):
    """So many operations with a region each, and so many blocks."""
    return [Edit('new-op', (5, (), (), (), 1)), Edit('new-block', (None, ()))] * count


# How many operations that may have regions, blocks, and operations that may end blocks a forest begins with.
HOLDERS, BLOCKS, BRANCHES = 6, 4, 4


def forest_edits(source, session):
    """Edits that make one small forest in a session that carries each of them out before the next is drawn: operations in blocks in regions of operations, some of which name blocks, and a few edits behind."""
    yield from (Edit('new-type', ('8',)), Edit('new-type', ('0',)))
    for draw, count in ((new_holder, HOLDERS), (new_block, BLOCKS), (block_into_region, BLOCKS), (op_into_block, HOLDERS)):
        for number in range(count):
            yield fitting(source, session, draw, number)
    for number in range(HOLDERS, HOLDERS + BRANCHES):
        yield fitting(source, session, new_branch, number)
        yield fitting(source, session, op_into_block, number)
    for number in range(source.below(8)):
        yield fitting(source, session, last_edit, number)


def fitting(source, session, draw, number):
    """What is drawn, anew up to three times where its condition doesn't hold."""
    for _ in range(3):
        edit = draw(source, number)
        if session.holds(edit):
            break
    return edit


def some_types(source):
    """No type or one: rarely that of width 0, which is the second."""
    return source.pick([('t1',)] + [('t0',)] * 6 + [()] * 5)


def new_holder(source, _):
    """An operation that may have regions."""
    kind = source.pick([0, 1, 1, 4, 5, 5, 5, 6, 6, 7, 7])
    operands = tuple(f'v{source.below(4)}' for _ in range(source.pick([0, 0, 1, 2, 2, 3])))
    return Edit('new-op', (kind, some_types(source), operands, (), source.below(3)))


def new_block(source, _):
    return Edit('new-block', (source.pick([None, None, 'entry']), some_types(source)))


def block_into_region(source, number):
    return Edit('block-back', (f'b{number}', f'r{source.below(HOLDERS)}'))


def op_into_block(source, number):
    return Edit('op-back', (f'o{number}', f'b{source.below(BLOCKS)}'))


def new_branch(source, _):
    """An operation that may end a block."""
    successors = tuple(f'b{source.below(BLOCKS)}' for _ in range(source.below(3)))
    return Edit('new-op', (source.pick([2, 2, 3, 3, 3, 3, 4]), (), (), successors, 0))


def last_edit(source, _):
    """One of the edits that come last in a forest."""
    op, block, region = f'o{source.below(HOLDERS + BRANCHES)}', f'b{source.below(BLOCKS)}', f'r{source.below(HOLDERS)}'
    return source.pick([
        Edit('unlink-op', (op,)), Edit('unlink-block', (block,)), Edit('erase-op', (op,)), Edit('remove-successor', (op, 0)),
        Edit('push-successor', (op, block)), Edit('move-region', (region, op)), Edit('op-front', (op, block)),
        Edit('block-front', (block, region)), Edit('erase-block', (block,)), Edit('push-operand', (op, 'v0')),
        *[Edit('op-back', (op, block))] * 6,
    ])


# How many operations there are where a block is swept, and how many operands they get: so many, and up to as many again.
SWEPT, SWEPT_OPERANDS = 12, 8


def sweep_edits(source):
    """Edits that make a block of operations with a result each, most of them pure, some of which use others, in front of them or behind; and one operation in another block."""
    yield from (Edit('new-type', ('8',)), Edit('new-block', (None, ())), Edit('new-block', (None, ())))
    for number in range(SWEPT):
        yield Edit('new-op', (source.pick([0, 1, 1, 1, 4]), ('t0',), (), (), 0))
        yield Edit(source.pick(['op-back', 'op-front']), (f'o{number}', 'b0' if number else 'b1'))
    for _ in range(SWEPT_OPERANDS + source.below(SWEPT_OPERANDS)):
        yield Edit('push-operand', (f'o{source.below(SWEPT)}', f'v{source.below(SWEPT)}'))
