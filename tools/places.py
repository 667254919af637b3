#!/usr/bin/env python3
"""tools/places.py [-l] [--at COMMIT] [POINT..]: the places in crates/*/src of the eight points of docs/DESIGN-PASS.md, counted.

  1  own enums of the shape of Option or Result, a value beside a flag, numbers for kinds
  2  functions that differ only in a type, a size or a constant
  3  loops that count an index by hand
  4  conversions and comparisons written by hand
  5  facts in the contracts of three or more functions, and parameters that travel together in three or more
  6  buffers with a length beside them, and parallel arrays
  7  switches on which step to run
  8  answers in proofs/
-l lists them, a line each: its file and line, and what stands there. --at counts in the tree of a commit. A reader by patterns: what it finds may be no
place, and what has another shape it does not find. Exits 0; 2 where it could not count.
"""
import collections
import glob
import os
import re
import subprocess
import sys
import tempfile

TOP = os.path.dirname(os.path.dirname(os.path.abspath(__file__)))
NUMBER = re.compile(r'\b(?:0x[0-9A-Fa-f_]+|\d[\d_]*)(?:[ui](?:8|16|32|64|size))?\b')
TYPE = re.compile(r'\b[ui](?:8|16|32|64|128|size)\b')
WORD = re.compile(r"[A-Za-z_]\w*|[^\s\w]")


def sources():
    for path in sorted(glob.glob(os.path.join(TOP, 'crates/*/src/*.rt'))):
        with open(path, encoding='utf-8') as file:
            yield os.path.relpath(path, TOP), file.read()


def at(text, place):
    return text.count('\n', 0, place) + 1


def block(text, place):
    """The text between the brace at or after a place and the one that closes it."""
    start = text.index('{', place)
    depth = 0
    for i in range(start, len(text)):
        depth += {'{': 1, '}': -1}.get(text[i], 0)
        if depth == 0:
            return text[start + 1:i]
    return text[start + 1:]


def functions(text):
    """Each function: its place, name, parameters, clauses and body."""
    for found in re.finditer(r'^[ \t]*(?:pub(?:\(crate\))? )?(?:extern "C" )?fn (\w+)(<[^(]*>)?\(', text, re.M):
        depth, i = 1, found.end()
        while depth:
            depth += {'(': 1, ')': -1}.get(text[i], 0)
            i += 1
        lines = text[i:].split('\n')
        clauses, body = [], ''
        rest = text[i:]
        brace = re.search(r'^[ \t]*\{$|\{[ \t]*$', rest, re.M)
        if brace:
            clauses = re.findall(r'(requires|ensures)\b[^{]*\{(.*?)\}\s*(?=requires|ensures|\{|$)', rest[:brace.start()] + '\n', re.S)
            body = block(rest, brace.start())
        yield found.start(), found.group(1), text[found.end():i - 1], clauses, body


def parameters(text):
    parts, depth, part = [], 0, ''
    for c in text:
        depth += {'(': 1, '[': 1, '<': 1, ')': -1, ']': -1, '>': -1}.get(c, 0)
        if c == ',' and depth == 0:
            parts, part = parts + [part], ''
        else:
            part += c
    return [' '.join(p.split()) for p in parts + [part] if p.strip()]


def one():
    for path, text in sources():
        for found in re.finditer(r'enum (\w+)(?:<[^>]*>)? \{', text):
            inside = re.sub(r'//.*', '', block(text, found.start()))
            variants = [v for v in parameters(re.sub(r'\{', '(', re.sub(r'\}', ')', inside)))]
            bare = [v for v in variants if re.fullmatch(r'\w+', v)]
            if any('Refused(Refusal)' in v for v in variants):
                yield path, at(text, found.start()), f'enum {found.group(1)}: Result'
            elif len(variants) == 2 and len(bare) == 1:
                yield path, at(text, found.start()), f'enum {found.group(1)}: Option or Result'
        for found in re.finditer(r'^\s*pub answer: (?:Fits|Laid),|^\s*(?:pub )?has_\w+: bool,', text, re.M):
            yield path, at(text, found.start() + 1), 'a flag with a value beside it: ' + found.group().strip()
        for found in re.finditer(r'^(?:pub )?const (?!FILL)\w+: (?:u64 = 0x|u8 = \d).*;', text, re.M):
            yield path, at(text, found.start()), 'a number for a kind: ' + found.group()
        for place, name, given, _, _ in functions(text):
            for p in parameters(given):
                if re.fullmatch(r'(?:kind|upto): u\d+|coltype: u32', p) or (p == 'word: u64' and '/pool_entries/' not in path):
                    yield path, at(text, place), f'fn {name}: a number for a kind: {p}'


def shape(body):
    names, words = {}, []
    for word in WORD.findall(re.sub(r'//.*', '', body)):
        if TYPE.fullmatch(word):
            word = 'T'
        elif NUMBER.fullmatch(word):
            word = '0'
        elif re.match(r'[A-Za-z_]', word):
            word = names.setdefault(word, f'x{len(names)}')
        words.append(word)
    return ' '.join(words)


def two():
    same = collections.defaultdict(list)
    for path, text in sources():
        if 'msi/' in path or 'cases/' in path:
            continue
        for place, name, given, _, body in functions(text):
            key = shape(given + ' ' + body)
            if len(key.split()) > 24:
                same[key].append((path, at(text, place), f'fn {name}'))
    for group in same.values():
        if len(group) > 1:
            for path, line, what in group:
                yield path, line, what + ' like ' + ', '.join(w for _, _, w in group if w != what)


def three():
    for path, text in sources():
        for found in re.finditer(r'^[ \t]*(?:while (.*)|loop) \{$', text, re.M):
            inside = block(text, found.end() - 1)
            tested = re.findall(r'\b[a-z_]\w*\b', found.group(1) or inside)
            counted = [v for v in tested if re.search(rf'\b{v} [+-]= 1;', inside)]
            moved = [v for v in tested if re.search(rf'\b{v} [+-]?= ', inside)]
            how = f'counts {counted[0]} by one' if counted else f'moves {moved[0]}' if moved else 'goes on'
            yield path, at(text, found.start() + 1), f'{found.group().strip()[:-2]}: {how}'
        for found in re.finditer(r'^\s*for (\w+) in .*\.len\(\) \{$', text, re.M):
            if re.search(rf'\[{found.group(1)}\]', block(text, found.end() - 1)):
                yield path, at(text, found.start() + 1), found.group().strip() + ' indexes'


def four():
    for path, text in sources():
        for place, name, given, _, body in functions(text):
            tests = re.findall(r'if (\w+(?:\.\w+)?) == \d+ \{\s*return', body)
            if len(tests) > 1:
                yield path, at(text, place), f'fn {name}: a chain of tests on {tests[0]}'
            arms = re.findall(r'=> (?:\d+|true|false|\w+::\w+(?:\(\w+\))?),', body)
            if len(parameters(given)) == 1 and len(arms) > 2 and body.strip().startswith('match'):
                yield path, at(text, place), f'fn {name}: a conversion by a match'
            if re.search(r'as i64 [+-] .*\) as [iu]\d+', body):
                yield path, at(text, place), f'fn {name}: a conversion by arithmetic'
            if name in ('again', 'same', 'fewer', 'lesser', 'within', 'is_digit', 'digit', 'at_most_four', 'near', 'glyph'):
                yield path, at(text, place), f'fn {name}: a method of the library by hand'


def five():
    facts, groups = collections.defaultdict(list), collections.defaultdict(list)
    for path, text in sources():
        for place, name, given, clauses, _ in functions(text):
            here = (path, at(text, place), f'fn {name}')
            for kind, clause in clauses:
                if kind == 'requires':
                    for part in re.split(r'\) × \(|\n', clause):
                        part = ' '.join(part.strip(' ()×').split())
                        if part:
                            facts[part].append(here)
            names = [p.split(':')[0] for p in parameters(given)]
            types = [re.sub(r"&('\w+ )?(mut )?", '&', p) for p in parameters(given)]
            for n in (2, 3):
                for i in range(len(names) - n + 1):
                    if not any(t.startswith(('w:', 'self', '&self', 'mut self')) for t in types[i:i + n]):
                        groups[tuple(types[i:i + n])].append(here)
    for fact, places in sorted(facts.items()):
        if len(places) > 2:
            yield places[0][0], places[0][1], f'a fact in {len(places)} contracts: {fact}'
    for group, places in sorted(groups.items()):
        if len(set(places)) > 2:
            yield places[0][0], places[0][1], f'together in {len(set(places))} functions: ' + ', '.join(group)


def six():
    for path, text in sources():
        for found in re.finditer(r'^\s*pub (\w+): \[[^\]]*; \d+\],\n(?:\s*//.*\n)?\s*pub (?:count|rows): usize', text, re.M):
            yield path, at(text, found.start() + 1), f'{found.group(1)}: an array with a count beside it'
        for found in re.finditer(r'^\s*let mut \w+ = (?:\w+_room\(\)|\[[^;\]]+; \d+\]);', text, re.M):
            yield path, at(text, found.start() + 1), 'a fixed buffer: ' + found.group().strip()
        for place, name, given, _, _ in functions(text):
            p = parameters(given)
            if any(x.startswith('kinds:') for x in p) and any(re.match('(numbers|values):', x) for x in p):
                yield path, at(text, place), f'fn {name}: parallel kinds and numbers'
            if any(x.startswith('lengths:') for x in p) and any(x.startswith('counts:') for x in p):
                yield path, at(text, place), f'fn {name}: parallel lengths and counts'


def seven():
    for path, text in sources():
        for place, name, given, _, body in functions(text):
            for p in parameters(given):
                if re.fullmatch(r'(first|encodes|texts|as_value|long|is_table): bool', p):
                    flag = p.split(':')[0]
                    if re.search(rf'if {flag} \{{\s*return [\w:.]+\(', body):
                        yield path, at(text, place), f'fn {name}: {flag} says which call to make'
            for found in re.finditer(r'match word \{', body):
                yield path, at(text, place), f'fn {name}: a switch on a word as a number'
            if len(re.findall(r'\b(\w+)::(\w+) => \w+\(\1::\2,', body)) > 2:
                yield path, at(text, place), f'fn {name}: a switch on a form that is handed on'


def eight():
    for path in sorted(glob.glob(os.path.join(TOP, 'crates/*/proofs/**/Answers.antt'), recursive=True)):
        with open(path, encoding='utf-8') as file:
            n = len(re.findall(r'^pub [\w-]+ : goal\.', file.read(), re.M))
        yield os.path.relpath(path, TOP), 1, f'{n} answers'


POINTS = {'1': one, '2': two, '3': three, '4': four, '5': five, '6': six, '7': seven, '8': eight}


def at_commit(arguments):
    global TOP
    i = arguments.index('--at')
    with tempfile.TemporaryDirectory() as there:
        tree = subprocess.run(['git', '-C', TOP, 'archive', *arguments[i + 1:i + 2], 'crates'], capture_output=True)
        if i + 1 >= len(arguments) or tree.returncode:
            print('no such commit: ' + ' '.join(arguments[i + 1:i + 2]))
            return 2
        subprocess.run(['tar', '-x', '-C', there], input=tree.stdout, check=True)
        TOP = there
        return main(arguments[:i] + arguments[i + 2:])


def main(arguments):
    if arguments and arguments[0] in ('-h', '--help'):
        print(__doc__.strip())
        return 0
    if '--at' in arguments:
        return at_commit(arguments)
    listed = '-l' in arguments
    chosen = [a for a in arguments if a != '-l'] or list(POINTS)
    if any(a not in POINTS for a in chosen):
        print('no such point: ' + ', '.join(a for a in chosen if a not in POINTS))
        return 2
    for point in chosen:
        places = list(POINTS[point]())
        print(f'{point}  {len(places)} places' + (f', {sum(int(w.split()[0]) for _, _, w in places)} answers' if point == '8' else ''))
        if listed:
            for path, line, what in places:
                print(f'   {path}:{line}  {what}')
    return 0


if __name__ == '__main__':
    sys.exit(main(sys.argv[1:]))
