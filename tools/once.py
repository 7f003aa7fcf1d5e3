#!/usr/bin/env python3
"""Shows that every public function's promise allows one outcome. Run it at the project's root.

A public function is a `pub fn` that a crate hands out, alone or as a method of a type, and in each impl a method of a trait that the crate hands out
or std has. A promise is looked at as text: for the answer and for the final content of each lent `&mut` it has one equation whose right side speaks
of what was passed alone (no answer, no final content), so that the law `once` (crates/bits/proofs/Once.antt) gives equality; or it is a record of
such equations, for which a law named after it (`done_once` for `Done`) stands in some crate's proofs and is proved by `once`. An equation for what an
answer tells (`numbers_in result`) counts as one for the answer where a law named after it says so (`numbers_in_once`). A method that states no
promise has its trait's: of `From` and `TryFrom` what the impl's ghost member (`from_gives`) says of the answer; of a trait of the crate the trait's
own, where the impl gives each ghost member that it names. Functions of an input or an output are counted apart: no clause fixes whether a reader or a
writer fails. Prints what it found, every function for which none holds, and every function that docs/PROMISES.md doesn't name.
"""
import glob
import os
import re
import sys


def public(crate):
    """Each function that a crate hands out: its name, what it lends, whether it answers, and its promise."""
    lib = open(f'crates/{crate}/src/lib.rt', encoding='utf-8').read()
    shown = set(re.findall(r'^pub use (\w+)::(\w+);', lib, re.M))
    for module, names in re.findall(r'^pub use (\w+)::\{([^}]*)\};', lib, re.M):
        shown |= {(module, name) for name in re.findall(r'\w+', names)}
    types = {name for _, name in shown} | set(re.findall(r'^pub (?:struct|enum|trait) (\w+)', lib, re.M))
    files = sorted(glob.glob(f'crates/{crate}/src/*.rt'))
    traits = {}
    for path in files:
        for m in re.finditer(r'^(?:pub )?trait (\w+).*?^\}', open(path, encoding='utf-8').read(), re.M | re.S):
            traits[m.group(1)] = m.group(0)
    for path in files:
        module = os.path.basename(path)[:-3]
        text = open(path, encoding='utf-8').read()
        for m in re.finditer(r'^pub (extern "C" )?fn (\w+)', text, re.M):
            if module == 'lib' or m.group(1) or (module, m.group(2)) in shown:
                yield m.group(2), *parts(text[m.start():])
        for m in re.finditer(r'^impl(?:<[^>]*>)? (?:(\w+)(?:<\w+>)? for )?(\w+)(?:<[^>]*>)? \{$.*?^\}', text, re.M | re.S):
            trait, kind, block = m.group(1), m.group(2), m.group(0)
            if trait in traits and trait not in types or not trait and kind not in types:
                continue
            for f in re.finditer(r'^    (?:pub )?fn (\w+)' if trait else r'^    pub fn (\w+)', block, re.M):
                lent, answers, promise = parts(block[f.start():], kind)
                yield f.group(1), lent, answers, promise or given(traits.get(trait), block, f.group(1))


def given(trait, block, name):
    """The promise of an impl's method that states none: its trait's."""
    if not trait:
        m = re.search(rf'ghost {name}_gives = \{{ λ \w+ (\w+)\. (.*) \}};', block)
        return re.sub(rf'(?<![\w.]){m.group(1)}(?!\w)', 'result', m.group(2)) if m else ''
    _, _, promise = parts(trait[trait.index(f'fn {name}'):])
    members = [n for n in re.findall(r'ghost (\w+):', trait) if re.search(rf'\b{n}\b', promise)]
    return promise if all(f'ghost {n} = ' in block for n in members) else ''


def parts(text, kind=''):
    """What a function lends, whether there is an answer, and its promise."""
    body = text.index('{') if '{' in text else len(text)
    own = ['self'] if '&mut self' in text[:body] else []
    if 'ensures' not in text[:body]:
        return own + re.findall(r'(\w+): &mut', text[:body]), '->' in text[:body], ''
    if kind == 'Output' or 'io::Result' in text[:body] or 'Output<' in text[:body] and '->' not in text[:body] and not own:
        return [], False, ''
    head, clause = text[:text.index('ensures')], text[text.index('ensures'):]
    depth, end = 0, clause.index('{')
    for end in range(clause.index('{'), len(clause)):
        depth += (clause[end] == '{') - (clause[end] == '}')
        if depth == 0:
            break
    inside = clause[clause.index('{') + 1:end].strip()
    return own + re.findall(r'(\w+): &mut (?!Output<)', head), '->' in head, ' '.join(inside.split())


def conjuncts(text):
    depth, start, found = 0, 0, []
    for i, ch in enumerate(text):
        depth += (ch == '(') - (ch == ')')
        if ch == '×' and depth == 0:
            found.append(text[start:i])
            start = i + 1
    return [strip(c) for c in found + [text[start:]]]


def strip(text):
    text = text.strip()
    while text.startswith('('):
        depth = 0
        for i, ch in enumerate(text):
            depth += (ch == '(') - (ch == ')')
            if depth == 0:
                break
        if i < len(text) - 1:
            break
        text = text[1:-1].strip()
    return text


def main():
    counts, wrong = {'of an input or an output': 0, 'one equation': 0, 'several equations': 0, 'a record with its law': 0}, []
    laws = ''.join(open(p, encoding='utf-8').read() for p in glob.glob('crates/*/proofs/*.antt'))
    page = open('docs/PROMISES.md', encoding='utf-8').read()
    crates = [line.split(':')[0] for line in open('crates.txt') if re.match(r'\w+:', line)]
    for crate in crates:
        if not os.path.exists(f'crates/{crate}/src/lib.rt'):
            continue
        for name, lent, answers, promise in public(crate):
            if not re.search(rf'^\|[^|]*`{name}[`(]', page, re.M):
                wrong.append(f'{crate}::{name}: not in docs/PROMISES.md')
            due = {f'{p}.new' for p in lent} | ({'result'} if answers else set())
            found = set()
            for c in conjuncts(promise):
                left, _, right = (x.strip() for x in c.partition('≡'))
                if right and not re.search(r'\.new\b|(?<![\w.])result(?!\w)', right):
                    tells = re.fullmatch(r'(\w+?)(?:_told)? result', left)
                    left = 'result' if left == 'result.now' else left
                    if tells and re.search(rf'^pub {tells.group(1)}_once :', laws, re.M):
                        left = 'result'
                    found.add(strip(left))
            record = re.match(r'([A-Z]\w*) ', promise)
            if not due:
                counts['of an input or an output'] += 1
            elif found == due and len(due) == 1:
                counts['one equation'] += 1
            elif found == due:
                counts['several equations'] += 1
            elif record and re.search(rf'^pub {record.group(1).lower()}_once :', laws, re.M):
                counts['a record with its law'] += 1
            else:
                wrong.append(f'{crate}::{name}: {promise[:120]}')
    for w in wrong:
        print(w)
    print(', '.join(f'{n} by {k}' for k, n in counts.items()) + f'; {len(wrong)} things to look at')
    sys.exit(1 if wrong else 0)


main()
