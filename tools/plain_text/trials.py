"""Texts by seeds, and what the program makes of them."""
import collections
import random

from .damage import damaged
from .drawing import Drawer
from .program import MARKER, Wanted, told

# Of each seed so many texts, of which the program is also given some alone.
TEXTS, ALONE = 100, 2


def texts_of(seed):
    """The texts of a seed: one in three as it was drawn, the others changed."""
    rng, found = random.Random(seed), []
    while len(found) < TEXTS:
        text = Drawer(rng).text()
        found.append(text)
        found += [damaged(rng, text) for _ in range(2)]
    return [it for it in found[:TEXTS] if MARKER.strip() not in it]


def parts_of(texts):
    """The texts as parts of one input, in which all but the last end with a line's end."""
    return [it if it.endswith('\n') else it + '\n' for it in texts[:-1]] + texts[-1:]


class Difference(Exception):
    """A text for which the program doesn't give what is wanted."""

    def __init__(self, name, text, wanted, given):
        super().__init__(name)
        self.name, self.text, self.wanted, self.given = name, text, wanted, given


class Trials:
    """What was tried, and how often each thing was met."""

    def __init__(self, program):
        self.program = program
        self.met = collections.Counter()

    def wanted(self, texts):
        """What is wanted of each text as a part of one input."""
        return [(text, Wanted(text)) for text in parts_of(texts)]

    def try_seed(self, seed):
        """Tries the texts of a seed together, and some alone: each difference."""
        wanted = self.wanted(texts_of(seed))
        status, given = self.program.parts([text for text, _ in wanted])
        for number, ((text, want), give) in enumerate(zip(wanted, given)):
            self.met.update(want.words if want.place else ['right'])
            if not want.is_right(give):
                yield Difference(f'{seed}-{number}', text, str(want), told(give))
        self.met['texts'] += len(wanted)
        bad = any(want.place for _, want in wanted)
        if status != bad:
            yield Difference(f'{seed}-all', '', f'status {int(bad)}', f'status {status}')
        yield from self.try_alone(seed, wanted)

    def try_alone(self, seed, wanted):
        for number in random.Random(-seed).sample(range(len(wanted)), ALONE):
            text, want = wanted[number]
            status, give = self.program.alone(text)
            if not want.is_right(give) or status != bool(want.place):
                yield Difference(f'{seed}-{number}-alone', text, f'status {int(bool(want.place))}, {want}', f'status {status}, {told(give)}')
