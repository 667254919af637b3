"""What .ci/edits and .ci/tried share: edits as files, tried by `rt must-fail`, and held to their facts."""
import glob
import os
import re
import shutil
import subprocess

REFUSED = 'refused, as it must be: '
NOT_REFUSED = 'NOT REFUSED: the crate is still proved'
FACT = re.compile(r'^# fact: (\S+) (\S+)$', re.M)


def root():
    return os.path.dirname(os.path.dirname(os.path.realpath(__file__)))


def read(path):
    with open(path, encoding='utf-8', errors='replace') as file:
        return file.read()


def write(path, text):
    os.makedirs(os.path.dirname(path), exist_ok=True)
    with open(path, 'w', encoding='utf-8') as file:
        file.write(text)


def edits(top, folder):
    """The edits of a folder of every crate, as (path, 'CRATE/LABEL', text)."""
    for path in sorted(glob.glob(f'{top}/crates/*/{folder}/*.edit')):
        yield path, f'{path.split("/")[-3]}/{os.path.basename(path)[:-5]}', read(path)


def crates_of(names):
    return sorted({name.split('/')[0] for name in names})


def faults_of_form(name, text):
    """What an edit of a wrong program lacks."""
    if not re.match(r'# wrong: \S', text):
        yield f'{name} does not begin with "# wrong: " and what the wrong program does'
    if not re.search(r'^file: src/', text, re.M) or re.search(r'^file: (?!src/)', text, re.M):
        yield f'{name} is no edit of code'


def pairs(text):
    """An edit's replacements in order, as (file, old, new): a `file:` holds for the pairs after it."""
    file = old = None
    for line in text.splitlines():
        if line.startswith('file: '):
            file = line[6:]
        elif line.startswith('old: '):
            old = line[5:]
        elif line.startswith('new:'):
            yield file, old, line[4:].removeprefix(' ')


def function_at(top, crate, file, line):
    """The function that has a line of src/, as `rt` names it. An edit changes text within lines, so the line is the same without it."""
    owner = function = None
    lines = read(f'{top}/crates/{crate}/src/{file}.rt').splitlines()
    # (`rt` counts a function's attributes to it, and may name the line of the first)
    while line < len(lines) and re.match(r' *#\[', lines[line - 1]):
        line += 1
    for text in lines[:line]:
        if found := re.match(r'impl(?:<[^>]*>)? (\w+)', text):
            owner, function = found.group(1), None
        elif found := re.match(r'( {4})?(?:pub )?(?:pub\(crate\) )?(?:extern "C" )?fn (\w+)', text):
            function = f'{owner}::{found.group(2)}' if found.group(1) else found.group(2)
    # (a type's functions are named by the file that declares it)
    if function and '::' in function:
        declared = [os.path.relpath(path, f'{top}/crates/{crate}/src')[:-3] for path in glob.glob(f'{top}/crates/{crate}/src/**/*.rt', recursive=True)
                    if re.search(rf'^(?:pub )?(?:pub\(crate\) )?(?:struct|enum) {owner}\b', read(path), re.M)]
        file = declared[0] if len(declared) == 1 else file
    module = '' if file in ('lib', 'main') else '::' + file.replace('/', '::')
    return f'{crate}{module}::{function}'


def place(top, crate, words):
    """Where the prover stopped first, by what `rt` said of the refusal: the function or the file of lemmas, and the goal or the lemma in it.
    `rt` gives 160 characters of its message: a goal that they cut ends in `..`."""
    if found := re.match(r'note: src/(\S+?)\.rt:(\d+):\d+: .*?\(`([^`]+)(`\))?', words):
        return function_at(top, crate, found.group(1), int(found.group(2))), found.group(3) + ('' if found.group(4) else '..')
    if found := re.match(r'(?:\./)?proofs/(\S+)/(?:Answers|Invariants|Proof)\.antt:\d+:\d+: error: `([^`]+)`', words):
        return f'{crate}::{found.group(1).replace("/", "::")}', found.group(2)
    if found := re.match(r'(?:\./)?(proofs/\S+)\.antt:\d+:\d+: error: `([^`]+)`', words):
        return found.groups()
    return None


def off_its_fact(top, name, text, words, optional=False):
    """What is wrong with where the edit was refused; nothing where it was refused at its fact. words: what `rt` said of it, if it was tried."""
    fact = FACT.search(text)
    if not fact:
        return [] if optional else [f'{name} has no fact']
    if words is None:
        return [f'{name} was not tried']
    if not words.startswith(REFUSED):
        return [f'{name} is not refused at its fact: {words}']
    stopped = place(top, name.split('/')[0], words.removeprefix(REFUSED))
    is_at = stopped and stopped[0] == fact[1] and (stopped[1] == fact[2] or stopped[1].endswith('..') and fact[2].startswith(stopped[1][:-2]))
    if not is_at:
        return [f'{name} is refused first at {" ".join(stopped) if stopped else words.removeprefix(REFUSED)}, and its fact is {" ".join(fact.groups())}']
    return []


def prove(top, crates):
    """Has `rt` prove these crates of the tree, and keep in their out/ what it proved: what is tried in a copy then begins with it. Gives
    what it said of one that is not proved; where all are, nothing. Where nothing changed since, it takes no time."""
    listed = re.findall(r'^(\w+)[^:\n]*:', read(f'{top}/crates.txt'), re.M)
    for crate in [name for name in listed if name in crates]:
        how = 'check' if os.path.isfile(f'{top}/crates/{crate}/src/main.rt') else 'lib'
        run = subprocess.run(['rt', how], cwd=f'{top}/crates/{crate}', stdout=subprocess.PIPE, stderr=subprocess.STDOUT, text=True, errors='replace')
        if run.returncode:
            return f'{crate} is not proved:\n{run.stdout}'
    return None


def copy_of(top, work):
    """The crates without their edits, and without what was proved: `rt` finds that in the tree itself, since the crates are the same."""
    away = lambda folder, names: {'must-fail', 'out'} & {*names} if os.path.dirname(folder) == f'{top}/crates' else set()
    shutil.copytree(f'{top}/crates', f'{work}/crates', symlinks=True, ignore=away)
    shutil.copy(f'{top}/crates.txt', work)


def try_all(top, crates):
    """Has `rt` try every must-fail edit of these crates: gives (name, what it said), and at last what it said beside, under None."""
    beside = []
    with subprocess.Popen(['rt', 'must-fail', *crates], cwd=top, stdout=subprocess.PIPE, stderr=subprocess.STDOUT, text=True, errors='replace') as run:
        for line in run.stdout:
            if found := re.match(r'rt: must-fail (\w+/\S+)\.edit: (.*)', line):
                yield found.group(1), found.group(2).strip()
            else:
                beside.append(line)
    yield None, ''.join(beside)


def not_here():
    """Why no edit can be tried here, if none can."""
    return None if shutil.which('rt') else 'the Rattle toolchain is not here: no edit can be tried'
