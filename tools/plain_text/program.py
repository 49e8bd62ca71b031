"""The program that is tried: texts go in, and what it prints for each is compared with what the plain reader says."""
import re
import subprocess

from . import names, reading, spelling
from .tree import Fault

MARKER = '// -----\n'
SECONDS = 120
TOLD = re.compile(r'^-:(\d+):(\d+): error: (.*)$')


class Wanted:
    """What a text has to give: its tree's text, or a fault, by its line and column in the text and the words for it."""

    def __init__(self, text):
        self.lines = text.count('\n')
        try:
            operations = reading.read(text)
            names.check(operations)
            self.text, self.place, self.words = spelling.spell(operations), None, ()
        except Fault as it:
            front = text[:it.at]
            self.text, self.place, self.words = '', (front.count('\n') + 1, it.at - front.rfind('\n')), it.words

    def is_right(self, given):
        """Whether that is what the program gave: a text, and of a fault its line, column and words."""
        text, place, words = given
        return text == self.text and place == self.place and (not place or words in self.words)

    def __str__(self):
        return f'{self.place[0]}:{self.place[1]}: {" or ".join(self.words)}' if self.place else repr(self.text)


def told(given):
    """What the program gave, as a text."""
    text, place, words = given
    return f'{place[0]}:{place[1]}: {words}{" and " + repr(text) if text else ""}' if place else repr(text)


def faults_in(said):
    """The faults that are told, by line: of each its column and words."""
    found = {}
    for line in said.splitlines():
        told = TOLD.match(line)
        if not told:
            raise ValueError(f'the program says {line!r}')
        found[int(told[1])] = int(told[2]), told[3]
    return found


def parts_given(texts, printed, said):
    """What was given for each of these parts of one input."""
    faults = faults_in(said)
    found = re.split(f'^{MARKER}', printed, flags=re.M)
    if len(found) != len(texts):
        raise ValueError(f'{len(found)} parts are printed, and not {len(texts)}')
    given, line = [], 1
    for text, printed in zip(texts, found):
        behind = line + text.count('\n') + 1
        told = [(at - line + 1, faults[at]) for at in range(line, behind) if at in faults]
        given.append((printed, (told[0][0], told[0][1][0]) if told else None, told[0][1][1] if told else ''))
        line = behind
    return given


class Program:
    """The program at this path."""

    def __init__(self, path):
        self.path = path

    def run(self, text, *words):
        ran = subprocess.run([self.path, *words], input=text.encode('latin-1'), capture_output=True, timeout=SECONDS)
        return ran.returncode, ran.stdout.decode('latin-1'), ran.stderr.decode('latin-1')

    def parts(self, texts, *words):
        """What is given for each of these texts, as parts of one input, and the status."""
        status, printed, said = self.run(MARKER.join(texts), '--split-input-file', *words)
        return status, parts_given(texts, printed, said)

    def alone(self, text):
        """What is given for one text, and the status."""
        status, printed, said = self.run(text)
        faults = faults_in(said)
        line, (column, words) = next(iter(faults.items())) if faults else (0, (0, ''))
        return status, (printed, (line, column) if faults else None, words)
