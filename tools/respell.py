#!/usr/bin/env python3
"""tools/respell.py: gives the definitions and lemmas of this repository the spelling of today's Rattle.

Run once, at the top, after the toolchain's own port.py, in a tree that was written for the older kit. A word is in snake case; a
dash stays only where it joins the name of a definition, or of one of the library's, to another name. Types and modules keep their
capitals. Functions of src/, exported names, strings, inputs and outputs stay. Prints each name that it changes, and those that it
leaves because the new one is taken; a definition whose new name a function of src/ or a lemma has gets `_lem` after it. The same words are changed in docs/, README.md, .ci/ and the edits, where they name what is here.
Exits 0 where it is done, 2 where it was done already.
"""
import glob
import os
import re
import sys

# names of the library that a dash may follow
LIBRARY = {'length', 'take', 'drop', 'map', 'get_or', 'add', 'mul', 'sub', 'min', 'ltb', 'leb', 'eqb', 'set', 'append', 'pow', 'div', 'mod'}
NAME = r"[^\s:(){}\[\],;.\"`λ→×⊎≡]+"
DECLARED = re.compile(rf'^\s*(?:abbrev |unfoldable )?(?:pub )?(?:abbrev |unfoldable )?(?:data |record )?(?:pub )?({NAME})(?: [{{(][^:\n]*:.*)? : ', re.M)
CAMEL = re.compile(r'^[a-z][a-z0-9]*(?:[A-Z]|-.*[a-z][A-Z])')


def read(path):
    with open(path, encoding='utf-8') as file:
        return file.read()


def write(path, text):
    with open(path, 'w', encoding='utf-8') as file:
        file.write(text)


def snake(word):
    return re.sub(r'(?<=[a-z0-9])([A-Z])', lambda m: '_' + m.group(1).lower(), word)


def respelled(name, kept):
    if not re.match(r'^[a-z]', name):
        return name
    name = name.replace('getD', 'get_or') if name.startswith('getD-') else name
    parts = [snake(part) for part in name.split('-')]
    out = parts[0]
    for part in parts[1:]:
        joined = out in kept or out in LIBRARY
        out += ('-' if joined else '_') + part
    return out


def letters(word):
    return re.sub("[-_]", '', word).lower()


def tokens(text):
    return set(re.findall(r"[\w'-]+", text))


def replaced(text, table):
    return re.sub(r"[\w'-]+", lambda m: table.get(m.group(0), m.group(0)), text)


def outside_comments(text, table, mark):
    lines = []
    for line in text.split('\n'):
        at = line.find(mark)
        code, comment = (line, '') if at < 0 or (mark == '//' and '"' in line[:at]) else (line[:at], line[at:])
        lines.append(replaced(code, table) + comment)
    return '\n'.join(lines)


def main(words):
    if words in (['-h'], ['--help']):
        print(__doc__.strip())
        return 0
    if words:
        print(f'tools/respell.py takes nothing, and was given {" ".join(words)!r} (--help says what it does)')
        return 2
    os.chdir(os.path.dirname(os.path.dirname(os.path.realpath(__file__))))
    if os.path.exists('docs/PORT.md'):
        print('this tree is respelled already (docs/PORT.md): nothing was changed')
        return 2
    specs = sorted(glob.glob('crates/*/specs/**/*.antt', recursive=True))
    lemmas = sorted(glob.glob('crates/*/proofs/*.antt'))
    proofs = sorted(set(glob.glob('crates/*/proofs/**/*.antt', recursive=True)) - set(lemmas))
    sources = sorted(glob.glob('crates/*/src/*.rt'))
    declared = {name for path in specs + lemmas for name in DECLARED.findall(read(path))}
    definitions = {name for path in specs for name in DECLARED.findall(read(path))}
    kept = {snake(name) for name in definitions if '-' not in name}
    taken = {name for name in declared if respelled(name, kept) == name}
    everywhere = {path: tokens(read(path)) for path in specs + lemmas + proofs + sources}
    table, left = {}, []
    for name in sorted(declared, key=lambda word: (word not in definitions, word)):
        new = respelled(name, kept)
        if new == name:
            continue

        def free(word):
            return not (word in taken or word in table.values() or any(word in words and name in words for words in everywhere.values()))

        if free(new):
            table[name] = new
        elif '-' not in name and free(new + '_lem'):
            table[name] = new + '_lem'
        else:
            left.append((name, new))
    camel = {old: new for old, new in table.items() if '-' not in old}
    for path in specs + lemmas + proofs:
        write(path, outside_comments(read(path), table, '--'))
    for path in sources:
        write(path, outside_comments(read(path), camel, '//'))
    # what the toolchain's script had renamed already, by the letters alone
    now = {table.get(name, name) for name in declared}
    bare = {}
    for name in sorted(now):
        bare.setdefault(letters(name), []).append(name)
    defined = {table.get(name, name) for name in definitions}

    def named(word):
        found = bare.get(letters(word), [])
        if word in now or not found:
            return word
        return found[0] if len(found) == 1 else next((name for name in found if ('-' in word) != (name in defined)), word)

    def camels(text):
        return re.sub(r"[\w'-]+", lambda m: table.get(m.group(0)) or named(m.group(0)) if CAMEL.match(m.group(0)) else m.group(0), text)

    for path in sorted(glob.glob('crates/*/*/*.edit')):
        write(path, camels(read(path)))
    for path in sorted(glob.glob('docs/**/*.md', recursive=True)) + ['README.md', '.ci/trace', '.ci/edits', '.ci/edit_files.py', '.ci/tried']:
        text = camels(read(path))
        text = re.sub(r"(?<=:)([a-z][\w'-]*-[\w'-]*)(?=`)", lambda m: table.get(m.group(1)) or named(m.group(1)), text)
        write(path, text)
    for old, new in sorted(table.items()):
        print(f'{old} {new}')
    for old, new in left:
        print(f'left: {old}, since {new} is taken')
    return 0


if __name__ == '__main__':
    sys.exit(main(sys.argv[1:]))
