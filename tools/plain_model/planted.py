"""Wrong bodies that are planted, each in a copy of the crates, to show that random edits find them."""
import glob
import os
import re
import shutil
import subprocess
import tempfile

from .program import Difference, compare
from .runs import Tally, trials

# The worked wrong bodies that a session, its dump and verification can show.
PLANTED = [
    'append-leaves-container', 'block-number-given-again', 'block-predicate-asked-again', 'can-erase-own-results',
    'can-erase-says-no', 'entry-pred-local', 'entry-pred-local-own', 'erase-leaves-children', 'insert-into-itself',
    'instantiate-copies', 'move-fills-the-gap', 'ir_base_arenas/number-given-again', 'ir_core_context/number-given-again',
    'number-never-retires', 'pop-operand-forgets-what-was-handed-out', 'predicate-asked-again', 'preds-without-doubles',
    'removed-use-number-again', 'removed-value-number-again', 'replace-leaves-old-set', 'replace-renumbers', 'room-is-zero',
    'run-always-memory', 'run-stops-early', 'sweep-one-pass-from-the-back', 'sweep-one-pass-from-the-front',
    'table-number-reused', 'teardown-removes-twice', 'value-number-given-again', 'verify-constant-fault',
    'verify-constant-memory', 'verify-constant-ok', 'verify-skips-preds',
]

# The seeds that are tried, from 1 on; how many bytes of answers `rt try` takes from one trial; and after how many seconds a trial
# that has no end is given up, and counts for nothing.
SEEDS, MOST_BYTES, SECONDS = 2, 1_000_000, '10'


def edit_at(top, name):
    """The crate and the file of a must-fail edit, which has the crate's name in front where several have this name."""
    crate, _, name = name.rpartition('/')
    found = [path for ending in ('edit', 'turn') for path in glob.glob(f'{top}/crates/{crate or "*"}/must-fail-edits/{name}.{ending}')]
    if len(found) != 1:
        raise SystemExit(f'{len(found)} edits are named {name}')
    return found[0].split('/')[-3], found[0]


def plant(copy, crate, path):
    """Makes the changes of a must-fail edit in a copy."""
    source = old = None
    with open(path, encoding='utf-8') as file:
        lines = file.read().splitlines()
    for line in lines:
        word, text = re.match(r'(file: |old: |new: ?|)(.*)', line).groups()
        if word == 'file: ':
            source = f'{copy}/crates/{crate}/{text.strip()}'
        elif word == 'old: ':
            old = text
        elif word:
            with open(source, encoding='utf-8') as file:
                before = file.read()
            if before.count(old) != 1:
                raise SystemExit(f'{path}: the text {old!r} stands {before.count(old)} times')
            with open(source, 'w', encoding='utf-8') as file:
                file.write(before.replace(old, text))


def copy_of(top, folder):
    """A copy of the crates, without what was built."""
    leave = shutil.ignore_patterns('out', 'must-fail-edits', 'proofs')
    shutil.copytree(f'{top}/crates', f'{folder}/repository/crates', ignore=leave)
    shutil.copy(f'{top}/crates.txt', f'{folder}/repository')
    return f'{folder}/repository'


def cases():
    """The trials whose answers aren't too long, by their names."""
    found = {}
    for seed in range(1, SEEDS + 1):
        for trial in trials(seed, Tally()):
            if sum(len(str(it.wanted)) + 1 for it in trial.asked) < MOST_BYTES:
                found[trial.name] = trial.asked
    return found


def answers_of(copy, asked, folder):
    """What the lab of a copy answers to each case that ends, the cases that end with a fault (a bad index, say), and what is said."""
    os.makedirs(f'{folder}/cases')
    for name, lines in asked.items():
        with open(f'{folder}/cases/{name}', 'w', encoding='utf-8') as file:
            file.writelines(f'{it.line}\n' for it in lines)
    ran = subprocess.run(['rt', 'try', '--seconds', SECONDS, '--cases', f'{folder}/cases'], cwd=f'{copy}/crates/lab', capture_output=True)
    texts = re.split(r'^== (.*)\n', ran.stdout.decode(errors='replace'), flags=re.M)
    said = ran.stderr.decode(errors='replace')
    ended = re.findall(r'^case=(\S+) run=(\S+)', said, re.M)
    given = dict(zip(texts[1::2], texts[2::2]))
    answers = {name: given.get(name, '') for name, how in ended if how == 'ended'}
    return answers, [name for name, how in ended if how == 'fault'], said.splitlines()


def differences(asked, answers):
    """The cases whose answers aren't the model's, each with the first line that is answered otherwise."""
    for name, text in answers.items():
        try:
            compare(asked[name], text.removesuffix('\n'))
        except Difference as it:
            yield name, asked[name][it.at].line


def try_one(top, name):
    """Plants one wrong body, and tells whether it is found."""
    with tempfile.TemporaryDirectory(prefix='planted-') as folder:
        copy = copy_of(top, folder)
        if name:
            plant(copy, *edit_at(top, name))
        asked = cases()
        answers, faults, said = answers_of(copy, asked, folder)
    if not answers and not faults:
        print(f'{name}: NOT BUILT\n' + '\n'.join(said[-20:]))
        return False
    found = dict(differences(asked, answers)) | dict.fromkeys(faults, 'a fault of the program')
    kinds = sorted({re.sub(r'[-0-9]+$', '', case) for case in found})
    print(f'{name or "as it stands"}: {len(found)} of {len(answers) + len(faults)} trials differ: {", ".join(kinds) or "none"}')
    for case, line in list(found.items())[:1]:
        print(f'    {case}: {line}')
    return bool(found) == bool(name)


def try_all(top, names):
    """Shows that nothing is found in the crates as they stand, and that each wrong body is found."""
    names = ['', *(names or PLANTED)]
    failed = sum(not try_one(top, name) for name in names)
    print(f'{len(names) - failed} passed, {failed} failed')
    return 1 if failed else 0
