"""What is tried with a seed: sessions of random edits, lists alone, one list of edits in two sessions, forests that are verified, and blocks that are swept."""
import collections
import re
from typing import NamedTuple

from .direct import WORDS, direct_call
from .drawing import LIST_WORDS, Source, beginning_of_lists, forest_edits, sweep_edits
from .faults import TEXTS, faults_at, faults_in, faults_of_type
from .program import Asked, Test
from .session import CONDITION, FORMS, Edit, Limits, Session

# The limits of sessions, each with a name.
AMPLE = Limits()
LIMITS = {
    'few-slots': Limits(slots=4),
    'spent-slots': Limits(slots=6, last_version=1),
    'slots-that-serve-twice': Limits(slots=5, last_version=3),
    'one-slot': Limits(slots=1, last_version=10),
    'few-numbers': Limits(values=9, uses=7),
}

# How many edits a session of ample limits has, one of other limits, and the lists.
EDITS, FEW_EDITS, LIST_EDITS = 200, 100, 1000

# How many direct calls that are no edits there are at the end of a session of direct calls.
DIRECT_CALLS = 40

# How many operations, blocks and regions there are where lists alone are tried, and after how many edits all is shown.
NODES, PAUSE = 7, 5

# How many runs of one list in two sessions there are with a seed, how many lists in each, and how many edits in a list.
PAIRS, LISTS, LIST = 5, 4, 10

# How many forests there are with a seed, and how many of them are tried in one go.
FORESTS, GROUP = 125, 25

# How many blocks are made and swept with a seed.
SWEEPS = 25


class Trial(NamedTuple):
    """Lines that are tried in one go, with a name."""

    name: str
    asked: list


class Tally:
    """How often each edit was answered how, and verification found what."""

    def __init__(self):
        self.answers = collections.defaultdict(collections.Counter)
        self.found = collections.Counter()
        self.calls = collections.Counter()
        self.forests = 0

    def count_answer(self, edit, answer):
        self.answers[edit.word][answer if answer.startswith('refused') else 'accepted'] += 1

    def count_call(self, line, answer):
        self.calls[line.split(' ')[0]] += answer != CONDITION

    def count_found(self, given):
        self.found[re.sub('".*"', '"{}"', given)] += 1

    def total(self, kind=None):
        """How many edits there were, or how many of them were answered so."""
        return sum(sum(it.values()) if kind is None else it[kind] for it in self.answers.values())


# Sessions


def begin(mode, limits=AMPLE):
    """The line that begins a lab."""
    return Asked(' '.join(['begin', mode, *map(str, () if limits == AMPLE else limits)]), 'done')


def step(session, edit, tally):
    """An edit, and its answer."""
    answer = session.answer(edit)
    tally.count_answer(edit, answer)
    return Asked(edit.line(), answer)


def joined(steps):
    """Several edits as one run."""
    return Asked('run ' + ' ; '.join(it.line for it in steps), ' ; '.join(it.wanted for it in steps))


def shown(session):
    """The line that asks for all that is shown, and the lines that are wanted."""
    return Asked('dump', '\n  '.join(['dump', *session.dump()]))


def room(session):
    """The line that asks for what is left, and the answer that is wanted."""
    it = session.room()
    return Asked('room', f'values {it.values} uses {it.uses} ops {it.operations} blocks {it.blocks} regions {it.regions}')


def random_session(seed, mode, limits, count, tally):
    """So many random edits, and all that is shown and left after each; in a session some in runs of several. At last questions are asked, all is verified, and in a context direct calls are made that are no edits, and each block is swept."""
    source, session = Source(seed), Session(limits)
    asked = [begin(mode, limits)]
    while count > 0:
        steps = [step(session, source.edit(session), tally)]
        if mode == 'session' and source.one_in(6):
            steps += [step(session, source.edit(session), tally) for _ in range(source.below(9))]
            asked.append(joined(steps))
        else:
            asked += steps
        asked += [shown(session), room(session)]
        count -= len(steps)
    if mode == 'context':
        asked += direct_calls(source, session, tally)
    asked += questions(source, session) + verified(session, tally)
    return asked + (swept(session) if mode == 'context' else [])


def direct_calls(source, session, tally):
    """Calls of a context that are no edits, and all that is shown and left after each."""
    asked = []
    for _ in range(DIRECT_CALLS):
        call = direct_call(source, session)
        if call:
            tally.count_call(*call)
            asked += [Asked(*call), shown(session), room(session)]
    return asked


class InAnyOrder(Test):
    """A count and so many names, of which the order is open."""

    def __init__(self, names):
        self.names = sorted(names)

    def is_right(self, given):
        word, *fields = given.split(' ')
        return word == 'len' and fields[:1] == [str(len(self.names))] and sorted(fields[1:]) == self.names

    def __str__(self):
        return ' '.join(['len', str(len(self.names)), *self.names])


def questions(source, session):
    """The lines that ask whether each entity can be erased, whether some stand inside others, and which blocks lead to each block."""
    forest, asked = session.forest, []
    for name in [name for letter in 'obr' for name in session.table(letter)]:
        is_live = forest.is_live(name)
        asked.append(Asked(f'nest.can_erase {name}', str(forest.is_closed(name)).lower() if is_live else CONDITION))
        other = source.live(session, source.pick('obr'))
        if is_live and forest.is_live(other):
            asked.append(Asked(f'nest.is_inside {name} {other}', str(forest.is_inside(name, other)).lower()))
            inside = source.pick(forest.subtree(name))
            asked.append(Asked(f'nest.is_inside {inside} {name}', 'true'))
    for block in session.table('b'):
        parents = [forest.parent(user) for user in forest.users(block)]
        is_asked = forest.is_live(block) and all(parents)
        asked.append(Asked(f'block.preds {block}', InAnyOrder(parents) if is_asked else CONDITION))
    return asked


def swept(session):
    """The lines that sweep each block, and all that is shown after each."""
    asked = []
    for block in session.table('b'):
        asked.append(Asked(f'checked.dead::sweep {block}', session.sweep(block) if session.is_named(block) else "dead::sweep: the block isn't live"))
        asked.append(shown(session))
    return asked


def random_lists(seed, mode, count, tally):
    """So many random edits of lists and of regions that move, and after each few all that is shown."""
    source, session = Source(seed), Session()
    asked = [begin(mode)] + [step(session, edit, tally) for edit in beginning_of_lists(NODES)]
    for number in range(count):
        asked.append(step(session, source.edit(session, LIST_WORDS, 2), tally))
        if number % PAUSE == 0:
            asked.append(shown(session))
    return asked + [shown(session)]


def runs_of_two(seed, tally):
    """The same random lists of edits in two sessions, in which other slots were used before, under other limits, so that what is made gets other ids: the answers are the same, and what is shown."""
    source, session = Source(seed), Session()
    made = [Edit('new-type', ('8',)), Edit('new-type', ('32',))]
    made += [Edit('new-op', (5, ('t0',), (), (), 2)), Edit('new-block', (None, ('t1',)))] * 3
    erased = [Edit(f'erase-{kind}', (f'{kind[0]}{number}',)) for number in range(3) for kind in ('op', 'block')]
    beginning = [step(session, edit, tally) for edit in made], [step(session, edit, tally) for edit in erased]
    asked = [step(session, Edit('new-block', (None, ('t0',))), tally)]
    asked += [step(session, Edit('new-op', (5, ('t1',), (), (), 2)), tally) for _ in range(2)]
    for _ in range(LISTS):
        asked += [joined([step(session, source.edit(session), tally) for _ in range(LIST)]), shown(session)]
    first, second = [
        [begin('session', limits), joined(beginning[0]), *order, asked[0], Asked('name.id b3', f'block{slot}v3'), *asked[1:]]
        for limits, order, slot in ((AMPLE, beginning[1], 3), (Limits(500, 500, 200, 3), beginning[1][::-1], 1))
    ]
    return first + second


# Verification


class Names(dict):
    """The names that blocks gave."""

    def __missing__(self, block):
        return f'(the name of {block})'


class UniqueName(Test):
    """The unique name of a block, which is kept. Which slot and which version is open, but the name is no other block's."""

    def __init__(self, names, block, label):
        self.names, self.block = names, block
        self.form = re.compile(f'{label}_block[1-9][0-9]*v[0-9]*[13579]' if label else 'block[1-9][0-9]*v[0-9]*[13579]')

    def is_right(self, given):
        is_new = given not in self.names.values()
        self.names[self.block] = given
        return is_new and self.form.fullmatch(given) is not None

    def __str__(self):
        return f'a new name of the form {self.form.pattern}'


class Found(Test):
    """What verification finds: one of the faults that stand, or `ok` where none does. Blocks are named by the names that they gave."""

    def __init__(self, faults, names, tally):
        self.faults, self.names, self.tally = faults, names, tally

    def texts(self):
        return sorted(fault.format_map(self.names) for fault in self.faults) or ['ok']

    def is_right(self, given):
        self.tally.count_found(given)
        return given in self.texts()

    def __str__(self):
        return ' or '.join(self.texts())


# The calls that verify an operation, a block, a region, a value and a type; and those by which forests are verified.
CALLS = {
    'o': ('verify.op', 'verify.verify_operation', 'verify.verify_op'), 'b': ('verify.block',), 'r': ('verify.region',),
    'v': ('verify.value',), 't': ('verify.type', 'verify.verify_type'),
}
ONE_CALL = {'o': ('verify.verify_operation',), 'b': ('verify.block',), 'r': ('verify.region',)}


def verified(session, tally, calls=CALLS):
    """The lines that verify all roots by these calls, and what may be found there. Where a root isn't live, the condition doesn't hold."""
    forest, names = session.forest, Names()
    asked = [Asked(f'name.unique_name {block}', UniqueName(names, block, it.label)) for block, it in forest.blocks.items()]
    found = faults_at(forest, {block: f'{{{block}}}' for block in forest.blocks})
    for letter in calls:
        for root in session.table(letter):
            if not session.is_named(root):
                wanted = CONDITION
            elif letter in 'obr':
                wanted = Found(faults_in(forest, found, root), names, tally)
            else:
                key = session.key_of(root) if letter == 't' else forest.place_of(root).key
                wanted = Found(set(faults_of_type(key)), names, tally)
            asked += [Asked(f'{call} {root}', wanted) for call in calls[letter]]
    return asked


def random_forests(source, tally):
    """A few random forests, each verified at each operation, block and region."""
    asked = []
    for _ in range(GROUP):
        session = Session()
        asked.append(begin('session'))
        asked.append(joined([step(session, edit, tally) for edit in forest_edits(source, session)]))
        asked += verified(session, tally, ONE_CALL)
        tally.forests += 1
    return asked


def random_sweeps(source, tally):
    """A few random blocks, each swept."""
    asked = []
    for _ in range(SWEEPS):
        session = Session()
        asked.append(begin('context'))
        asked += [step(session, edit, tally) for edit in sweep_edits(source)]
        asked += swept(session)
    return asked


# All of them


def trials(seed, tally):
    """All that is tried with a seed."""
    mode, other = ('session', 'context') if seed % 2 else ('context', 'session')
    yield Trial(f'ample-{seed}', random_session(seed, mode, AMPLE, EDITS, tally))
    for name, limits in LIMITS.items():
        mode, other = other, mode
        yield Trial(f'{name}-{seed}', random_session(seed, mode, limits, FEW_EDITS, tally))
    yield Trial(f'lists-{seed}', random_lists(seed, mode, LIST_EDITS, tally))
    for number in range(PAIRS):
        yield Trial(f'two-runs-{seed}-{number}', runs_of_two(f'{seed} {number}', tally))
    source = Source(f'forests {seed}')
    for number in range(FORESTS // GROUP):
        yield Trial(f'forests-{seed}-{number}', random_forests(source, tally))
    yield Trial(f'sweeps-{seed}', random_sweeps(Source(f'sweeps {seed}'), tally))


# How often at least, a seed, each edit is accepted, each is refused for its condition, numbers and slots are spent, and each answer of
# verification and each direct call that is no edit is met.
ACCEPTED, REFUSED, SPENT, MET = 5, 0.25, 20, 2.5


def lacking(tally, count):
    """What was met too seldom for so many seeds."""
    for word in FORMS:
        accepted, refused = tally.answers[word]['accepted'], tally.answers[word]['refused condition']
        if accepted < count * ACCEPTED:
            yield f'{word} is accepted {accepted} times'
        if refused < count * REFUSED and word != 'new-type':
            yield f'{word} is refused for its condition {refused} times'
    for kind in ('refused counter', 'refused slots'):
        if tally.total(kind) < count * SPENT:
            yield f'{kind} comes {tally.total(kind)} times'
    for fault in ['ok', *TEXTS]:
        if tally.found[fault] < count * MET:
            yield f'{fault} is found {tally.found[fault]} times'
    for word in WORDS:
        if tally.calls[word] < count * MET:
            yield f'{word} is done {tally.calls[word]} times'
