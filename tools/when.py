#!/usr/bin/env python3
"""tools/when.py: this repository's own choice by a test is read `when b then x else y`, since `if b then x else y` is the library's word.

Run once, at the top. Only the name changes: crates/common/specs/Choice.antt defines it as it did. A file that takes the library's word
keeps it. Exits 0 where it is done, 2 where it was done already.
"""
import glob
import os
import re
import sys

WORD = re.compile(r"(?<![\w.'«-])if(?![\w'»-])")


def code(line, mark):
    at = line.find(mark)
    return (line, '') if at < 0 else (line[:at], line[at:])


def main(words):
    if words in (['-h'], ['--help']):
        print(__doc__.strip())
        return 0
    if words:
        print(f'tools/when.py takes nothing, and was given {" ".join(words)!r} (--help says what it does)')
        return 2
    os.chdir(os.path.dirname(os.path.dirname(os.path.realpath(__file__))))
    with open('crates/common/specs/Choice.antt', encoding='utf-8') as file:
        if 'if◌then◌else◌' not in file.read():
            print('crates/common/specs/Choice.antt has no if◌then◌else◌ any more: nothing was changed')
            return 2
    for path in sorted(glob.glob('crates/*/specs/**/*.antt', recursive=True) + glob.glob('crates/*/proofs/**/*.antt', recursive=True)):
        with open(path, encoding='utf-8') as file:
            text = file.read()
        if re.search(r'use Rattle\.std\.[^\n]*if◌then◌else◌', text):
            continue
        lines = [code(line, '--') for line in text.split('\n')]
        new = '\n'.join(WORD.sub('when', one.replace('if◌then◌else◌', 'when◌then◌else◌')) + comment for one, comment in lines)
        if new != text:
            with open(path, 'w', encoding='utf-8') as file:
                file.write(new)
    for path in sorted(glob.glob('crates/*/src/*.rt')):
        with open(path, encoding='utf-8') as file:
            text = file.read()
        if not re.search(r'ghost use Rattle\.common\.specs\.Choice\.\{[^}]*if◌then◌else◌', text):
            continue
        new = text.replace('if◌then◌else◌', 'when◌then◌else◌')
        new = re.sub(r'(?m)^.*\b(?:ensures|requires)\b.*$', lambda m: WORD.sub('when', m.group(0)), new)
        with open(path, 'w', encoding='utf-8') as file:
            file.write(new)
    return 0


if __name__ == '__main__':
    sys.exit(main(sys.argv[1:]))
