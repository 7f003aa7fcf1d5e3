#!/usr/bin/env python3
"""Holds the last column of docs/PROMISES.md's tables to the wrong programs. Run it at the project's root: tools/wrong_answers.py [--write]

That column says which wrong answers of a function the gate tries: for each edit under crates/NAME/must-fail what it has in the function in place of
what (`new` for `old`). Prints the rows that say something else; --write writes them.
"""
import glob
import os
import re
import sys


def functions(text):
    for m in re.finditer(r'^( *)(?:pub )?(?:extern "C" )?fn (\w+)', text, re.M):
        yield m.start(), re.compile(rf'^{m.group(1)}\}}$', re.M).search(text, m.end()).end(), m.group(2)


def told(old, new):
    """What differs, by words."""
    a, b = (re.findall(r'\w+|[^\w\s]+|\s+', x.strip()) for x in (old, new))
    i = 0
    while i < min(len(a), len(b)) and a[i] == b[i]:
        i += 1
    j = 0
    while j < min(len(a), len(b)) - i and a[-1 - j] == b[-1 - j]:
        j += 1
    while i and re.fullmatch(r'\.|::|\w+', a[i - 1]) and (a[i - 1] in ('.', '::') or (i < len(a) and a[i] in ('.', '::'))):
        i -= 1
    while i and not all(re.search(r'\w', ''.join(z[i:len(z) - j])) for z in (a, b)):
        i -= 1
    while j and not all(re.search(r'\w', ''.join(z[i:len(z) - j])) for z in (a, b)):
        j -= 1
    x, y = (''.join(z[i:len(z) - j]).strip() for z in (a, b))
    return f'`{y or "nothing"}` for `{x or "nothing"}`'.replace('|', '\\|')


def answers(crate):
    out = {}
    for path in sorted(glob.glob(f'crates/{crate}/must-fail/*.edit'), key=lambda p: ('another' in p, p)):
        file = old = None
        for line in open(path, encoding='utf-8'):
            line = line.rstrip('\n')
            if line.startswith('file: '):
                file = line[6:]
                text = open(f'crates/{crate}/{file}', encoding='utf-8').read()
            elif line.startswith('old: '):
                old = line[5:]
            elif line.startswith('new:') and file.startswith('src/'):
                at = text.index(old)
                for start, end, name in functions(text):
                    if start <= at < end:
                        out.setdefault(name, {}).setdefault(path, []).append(told(old, line[5:]))
    return {name: [' and '.join(p[:2]) + (' and so on' if len(p) > 2 else '') for p in by.values()] for name, by in out.items()}


def main():
    crate, known, lines, wrong = None, {}, [], 0
    table = False
    for line in open('docs/PROMISES.md', encoding='utf-8').read().split('\n'):
        if line.startswith('## '):
            crate = line[3:].strip()
            known = answers(crate) if os.path.isdir(f'crates/{crate}') else {}
        cells = [c.strip() for c in re.split(r'(?<!\\)\|', line.strip().strip('|'))] if line.startswith('|') else []
        if not cells:
            table = False
        elif cells[-1] == 'wrong answers tried':
            table = True
        elif table and not set(cells[0]) <= set('-'):
            names = re.findall(r'`(\w+)[^`]*`', cells[0])
            said = [f'{name + ": " if len(names) > 1 else ""}{"; ".join(known.get(name, ["none"]))}' for name in names]
            due = '. '.join(said)
            if cells[-1] != due:
                wrong += 1
                if '--write' not in sys.argv:
                    print(f'{crate}: {cells[0]}: {due}')
                line = '| ' + ' | '.join(cells[:-1] + [due]) + ' |'
        lines.append(line)
    if '--write' in sys.argv:
        open('docs/PROMISES.md', 'w', encoding='utf-8').write('\n'.join(lines))
    print(f'{wrong} rows {"written" if "--write" in sys.argv else "to look at"}')
    sys.exit(1 if wrong and '--write' not in sys.argv else 0)


main()
