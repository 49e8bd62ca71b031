"""Wrong bodies that are planted, each in a copy of the crates, to show that random texts find them."""
import os
import re
import subprocess
import tempfile

from plain_model.planted import copy_of, edit_at, plant

from .program import MARKER, Wanted, parts_given, told
from .trials import parts_of, texts_of

# The faults that random texts must meet: all but those of a text that is too long and of refused memory.
FAULTS = [
    "this character can't stand here", 'no escape: wanted a backslash, a quote, n, t or two hexadecimal digits', "the string isn't closed",
    "the group isn't closed", "this bracket doesn't close the last one that was opened", 'expected an operation', 'expected an operation, a block or `}`',
    'expected `:`, `,` or `=`', 'expected a number', 'expected `,` or `=`', 'expected the name of a value', 'expected the name of an operation, in quotes',
    'expected `(`', 'expected the name of a value or `)`', 'expected `#` and a number, `,` or `)`', 'expected `,` or `)`',
    'expected `[`, `<`, `(`, `{` or `:`', 'expected the name of a block', 'expected `,` or `]`', 'expected `<`, `(`, `{` or `:`',
    'expected `(`, `{` or `:`', 'expected `{`', 'expected `{` or `:`', 'expected a key or `}`', 'expected a key', 'expected `=`, `,` or `}`', 'expected `:`',
    'expected a type or `)`', 'expected `->`', 'expected a type or `(`', 'expected `(` or `:`', 'expected the name of an argument or `)`', 'expected a value',
    'expected a type', 'expected a location', 'expected the rest of the value, `,` or `}`', 'expected the rest of the type, `,` or `)`',
    'expected the rest of the location or `)`', 'a block of this name stands in this region already', 'no block of this region has this name',
    'this key stands in this dictionary already', 'not as many operand types as operands', 'expected a number of results, at least 1',
    'not as many result types as results', 'a value of this name is defined already', 'no value of this name is defined here',
    'this operand has another type than the value that it names',
]

# Wrong bodies that a text can show: must-fail edits, and what each of them does.
PLANTED = {
    'ir_text_tree/attribute-dropped': 'an attribute is dropped',
    'ir_text_tree/value-dropped': 'the value of an attribute is dropped',
    'ir_text_tree/operand-place-changed': "an operand's place is changed",
    'ir_text_tree/index-dropped': 'which of several values an operand is, is dropped',
    'ir_text_names/operand-taken-of-another-row': 'an operand names what stands before it, in a region that has ended too',
    'ir_text_names/type-of-the-first-result': "an operand's type is compared with that of the first result",
    'ir_text_names/region-is-not-entered': 'a block of the region around is taken',
    'ir_text_names/regions-nearby-are-one': 'a block of a region nearby is taken',
    'ir_text_names/region-that-ended-goes-on': 'a value of a region that has ended is taken',
    'ir_text_names/inner-definition-behind-taken': 'a value of a region that begins later is taken',
    'ir_text_names/quoted-keys-differ': 'a key in quotes is another than the key without',
    'ir_text_names/quoted-keys-with-escapes-differ': 'a key with escapes is another than the key without',
    'ir_text_strings/first-digit-weighs-ten': 'the first hexadecimal digit of an escape weighs ten',
    'ir_text_names/later-fault-told': 'the later of two faults of names is told',
    'ir_text_tokens/line-told-later': 'a fault is told one line later',
    'ir_text_tokens/column-goes-on': 'columns go on in the next line',
    'ir_text_tokens/string-escape-lost': 'the escapes of strings are lost',
    'ir_text_tokens/escape-of-one-digit': 'an escape takes one hexadecimal digit',
    'ir_text_tokens/group-cut-at-comparison': 'a group ends at `>=`',
    'ir_text_tokens/type-cut-at-arrow': 'a group ends at `->`',
    'ir_text_tokens/brackets-of-two-sorts-meet': 'a bracket closes one of another sort',
    'ir_text_tree/fault-told-later': 'a fault is told behind its token',
    'ir_text_tree/group-of-type-dropped': 'the group of a lone result type is dropped',
    'ir_text_tree/text-goes-past-comma': 'a type goes on past a comma',
    'ir_text_spelling/arguments-joined': "the parenthesis behind an argument's location is lost",
    'ir_text_spelling/depth-forgotten': 'lines are indented by too little',
    'ir_text_spelling/only-type-in-parentheses': 'a lone result type gets parentheses',
    'ir_text_spelling/second-key-in-braces': 'a key behind one without a value begins new braces',
    'ir_text_spelling/region-comma-lost': 'the comma between two regions is lost',
}

# The seeds that are tried, from 1 on, and after how many seconds a trial is given up.
SEEDS, SECONDS = 4, '20'


def wanted_of():
    """The texts of each seed, and what is wanted of them."""
    wanted = {}
    for seed in range(1, SEEDS + 1):
        texts = parts_of(texts_of(seed))
        wanted[str(seed)] = [(text, Wanted(text)) for text in texts]
    return wanted


def answers_of(copy, wanted, folder):
    """What the program of a copy prints and says for the texts of each seed that it ends with, and what the tool says."""
    os.makedirs(f'{folder}/cases')
    for name, some in wanted.items():
        with open(f'{folder}/cases/{name}', 'wb') as file:
            file.write(MARKER.join(text for text, _ in some).encode('latin-1'))
    command = ['rt', 'try', '--seconds', SECONDS, '--cases', f'{folder}/cases', '--', '--split-input-file']
    ran = subprocess.run(command, cwd=f'{copy}/crates/irtext', capture_output=True, check=False)
    printed = re.split(r'^== (.*)\n', ran.stdout.decode('latin-1'), flags=re.M)
    said = re.split(r'^case=(\S+) run=(\S+).*\n', ran.stderr.decode('latin-1'), flags=re.M)
    texts = dict(zip(printed[1::2], printed[2::2]))
    ends = zip(said[1::3], said[2::3], said[0::3])
    return {name: (how, texts.get(name, ''), faults) for name, how, faults in ends}, ran.stderr.decode('latin-1').splitlines()


def first_difference(some, how, printed, said):
    """The first text of a seed for which the program gives something else, if there is one."""
    if how != 'ended':
        return how
    said = '\n'.join(line for line in said.splitlines() if line.startswith('-:'))
    try:
        given = parts_given([text for text, _ in some], printed, said)
    except ValueError as it:
        return str(it)
    found = (f'text {number}: wanted {want}, given {told(give)}' for number, ((_, want), give) in enumerate(zip(some, given)) if not want.is_right(give))
    return next(found, '')


def try_one(top, name):
    """Plants one wrong body, and tells whether it is found."""
    wanted = wanted_of()
    with tempfile.TemporaryDirectory(prefix='planted-') as folder:
        copy = copy_of(top, folder)
        if name:
            plant(copy, *edit_at(top, name))
        answers, said = answers_of(copy, wanted, folder)
    if len(answers) < len(wanted):
        print(f'{name}: NOT BUILT\n' + '\n'.join(said[-20:]))
        return False
    found = {seed: first_difference(some, *answers[seed]) for seed, some in wanted.items()}
    differ = [seed for seed in found if found[seed]]
    print(f'{name or "as it stands"}: {len(differ)} of {len(found)} seeds differ: {PLANTED.get(name, "")}', flush=True)
    if differ:
        print(f'    seed {differ[0]}, {found[differ[0]][:300]}', flush=True)
    return bool(differ) == bool(name)


def try_all(top, names):
    """Shows that nothing is found in the crates as they stand, and that each wrong body is found."""
    names = ['', *(names or PLANTED)]
    failed = sum(not try_one(top, name) for name in names)
    print(f'{len(names) - failed} passed, {failed} failed')
    return 1 if failed else 0
