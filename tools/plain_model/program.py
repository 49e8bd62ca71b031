"""The program that is tried: lines go in, and what it answers is compared with what the model answers."""
import select
import subprocess

# A line that has no form: what is answered to it ends a batch.
END, ANSWER_TO_END = 'end-of-batch', 'malformed'

# How many lines go in before their answers are read, and how many seconds an answer may take.
BATCH, SECONDS = 200, 60


class Difference(Exception):
    """An answer that isn't the model's: the place of its line, and both answers."""

    def __init__(self, at, wanted, given):
        super().__init__(f'line {at}')
        self.at, self.wanted, self.given = at, wanted, given


class Asked:
    """A line, and the answer that is wanted: a text, with the lines below it, or a test of one."""

    __slots__ = ('line', 'wanted')

    def __init__(self, line, wanted):
        self.line, self.wanted = line, wanted


class Test:
    """What is wanted of an answer that may be one of several."""

    def is_right(self, given):
        raise NotImplementedError


def split_answers(text):
    """The answers in a text: each a line and those below it, which begin with two spaces."""
    answers = []
    for line in text.split('\n') if text else []:
        if line.startswith('  ') and answers:
            answers[-1].append(line)
        else:
            answers.append([line])
    return ['\n'.join(lines) for lines in answers]


def compare(asked, text, start=0):
    """Compares the answers to these lines, of which the first is the one at this place."""
    given = split_answers(text)
    for number, it in enumerate(asked):
        answer = given[number] if number < len(given) else 'nothing'
        if not (it.wanted.is_right(answer) if isinstance(it.wanted, Test) else it.wanted == answer):
            raise Difference(start + number, str(it.wanted), answer)
    if len(given) > len(asked):
        raise Difference(start + len(asked) - 1, 'no more', given[len(asked)])


class Program:
    """A program that runs, and answers batches of lines."""

    def __init__(self, path):
        self.process = subprocess.Popen([path], stdin=subprocess.PIPE, stdout=subprocess.PIPE, bufsize=0)

    def try_all(self, asked):
        """Sends the lines in batches, and compares what is answered."""
        for start in range(0, len(asked), BATCH):
            batch = asked[start:start + BATCH]
            text = self.answers_to([it.line for it in batch])
            wanted = [it.wanted for it in batch]
            if any(isinstance(it, Test) for it in wanted) or text != '\n'.join(wanted):
                compare(batch, text, start)

    def answers_to(self, lines):
        """What is answered to a batch."""
        try:
            self.process.stdin.write(''.join(f'{line}\n' for line in [*lines, END]).encode())
        except BrokenPipeError:
            return ''
        end = f'{ANSWER_TO_END}\n'.encode()
        text = b''
        while text != end and not text.endswith(b'\n' + end):
            ready, _, _ = select.select([self.process.stdout], [], [], SECONDS)
            part = self.process.stdout.read(1 << 16) if ready else b''
            if not part:
                break
            text += part
        return text.removesuffix(end).removesuffix(b'\n').decode(errors='replace')

    def close(self):
        self.process.kill()
        self.process.wait()
