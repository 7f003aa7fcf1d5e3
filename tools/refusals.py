#!/usr/bin/env python3
"""Holds docs/PROMISES.md to what the prover said of the wrong programs. Run it at the project's root after `tools/edits.py`, which leaves all that
the prover said of each edit under target/must-fail/.

An edit changes many functions at once: a caller is proved against what its callees promise, not against their code, so each changed function is
refused for its own sake, whatever becomes of the others. The gate is content with one of them refused; so an edit names its functions (`refuses:`),
and each has to be refused by itself: its own proof has an error at a fact (not at a law or a callee that was not admitted, and not at a name that
the edit took away), or it has no proof file and the search closes one of its needs no longer. So does each law that an edit of definitions names (`laws:`).

A name that several functions of a crate have, as `from` or `enabled`, asks for each of them; `Type::name`, with the type or the impl as the prover
names it, for one.

Then, for every row of a table of PROMISES.md with the column `wrong answers tried`: each function of the first column is named by at least two edits of its
crate, and refused by itself in both. An edit that names neither functions nor laws is only asked to be refused at a fact.
"""
import glob
import os
import re
import sys


def rows():
    crate, table = None, False
    for line in open('docs/PROMISES.md', encoding='utf-8'):
        if line.startswith('## '):
            crate = line[3:].strip()
        if not line.startswith('|'):
            table = False
            continue
        cells = [c.strip() for c in re.split(r'(?<!\\)\|', line.strip().strip('|'))]
        if cells[-1] == 'wrong answers tried':
            table = True
        elif table and not set(cells[0]) <= set('-'):
            yield crate, cells


def refused(crate, text):
    """The functions that are refused for their own sake, those that are refused at a name, and all, each by its path."""
    facts, names = set(), set()
    for proof, error in re.findall(r'^\S+?/proofs/(\S+?)/(?:Answers|Invariants|Proof)\.antt:\d+:\d+: error: (.*)', text, re.M):
        function = proof.replace('/', '::')
        if 'was not admitted' in error or 'was rejected' in error:
            continue
        (names if re.search('that can be named from here|has no field', error) else facts).add(function)
    for path, rest in re.findall(rf'^fn {crate}::(\S+): no proof: (.*)', text, re.M):
        if 'did not prove' in rest:
            facts.add(path)
    return facts, names - facts, facts | names | set(re.findall(rf'^fn {crate}::(\S+): ', text, re.M))


def named(paths, name):
    """The functions that a name is of."""
    return {p for p in paths if f'::{p}'.endswith(f'::{name}')}


def main():
    wrong, by, every, edits = [], {}, {}, 0
    for path in sorted(glob.glob('crates/*/must-fail/*.edit')):
        crate, name = path.split('/')[1], os.path.basename(path)[:-5]
        edits += 1
        log = f'target/must-fail/{crate}/{name}/.log'
        if not os.path.exists(log):
            wrong.append(f'{crate}/{name}: no log')
            continue
        text = open(log, encoding='utf-8').read()
        facts, names, paths = refused(crate, text)
        every.setdefault(crate, set()).update(paths)
        laws = {n for n, e in re.findall(r'^\S+?/proofs/\w+\.antt:\d+:\d+: error: `([^`]+)`: (.*)', text, re.M) if 'was not admitted' not in e and 'was rejected' not in e}
        for n in sorted(names):
            wrong.append(f'{crate}/{name}: {n} is refused at a name, not at a fact')
        if not facts and not laws:
            wrong.append(f'{crate}/{name}: refused at no fact')
        said = open(path, encoding='utf-8').read()
        for law in ' '.join(re.findall(r'^laws: (.*)', said, re.M)).split():
            if law not in laws:
                wrong.append(f'{crate}/{name}: the law {law} is not refused by itself')
        for function in ' '.join(re.findall(r'^refuses: (.*)', said, re.M)).split():
            for one in sorted(named(paths, function)) or [function]:
                by.setdefault((crate, one), []).append(name)
                if one not in facts:
                    wrong.append(f'{crate}/{name}: {one} is not refused by itself')
    functions = 0
    for crate, cells in rows():
        for function in re.findall(r'`(\w+)[^`]*`', cells[0]):
            for one in sorted(named(every.get(crate, set()), function)) or [function]:
                functions += 1
                if len(by.get((crate, one), [])) < 2:
                    wrong.append(f'{crate}::{one}: tried by {len(by.get((crate, one), []))} wrong answers')
    for w in wrong:
        print(w)
    print(f'{functions} functions, {edits} edits, {sum(map(len, by.values()))} wrong answers, {len(wrong)} things to look at')
    sys.exit(1 if wrong else 0)


main()
