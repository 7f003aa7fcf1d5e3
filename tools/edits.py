#!/usr/bin/env python3
"""Tries the wrong programs of must-fail/ one by one and keeps all that the prover says of each. Run it at the project's root:

    tools/edits.py [--jobs N] [CRATE ..]

`rt ci` tries them too, and prints the first refusal of each. Here each edit is applied in a copy of the project that has this edit alone, with what
earlier checks kept, and the whole of `rt check` is left in target/must-fail/CRATE/NAME/.log, for `tools/refusals.py`.
"""
import glob
import os
import shutil
import subprocess
import sys
import tempfile
import threading


def apply(copy, crate, path):
    """Applies an edit, and gives back the files as they were."""
    before, file, old = {}, None, None
    for line in open(path, encoding='utf-8'):
        line = line.rstrip('\n')
        if line.startswith('file: '):
            file = f'{copy}/crates/{crate}/{line[6:]}'
            before.setdefault(file, open(file, encoding='utf-8').read())
        elif line.startswith('old: '):
            old = line[5:]
        elif line.startswith('new:'):
            text = open(file, encoding='utf-8').read()
            if text.count(old) != 1:
                raise SystemExit(f'{path}: stands {text.count(old)} times: {old}')
            open(file, 'w', encoding='utf-8').write(text.replace(old, line[5:]))
    return before


def work(edits, lock, wrong):
    with tempfile.TemporaryDirectory() as copy:
        shutil.copytree('crates', f'{copy}/crates', symlinks=True)
        shutil.copy('crates.txt', copy)
        while True:
            with lock:
                if not edits:
                    return
                crate, path = edits.pop(0)
            name = os.path.basename(path)[:-5]
            before = apply(copy, crate, path)
            done = subprocess.run(['rt', 'check'], cwd=f'{copy}/crates/{crate}', stdout=subprocess.PIPE, stderr=subprocess.STDOUT, text=True)
            for file, text in before.items():
                open(file, 'w', encoding='utf-8').write(text)
            folder = f'target/must-fail/{crate}/{name}'
            os.makedirs(folder, exist_ok=True)
            open(f'{folder}/.log', 'w', encoding='utf-8').write(done.stdout)
            with lock:
                print(f'{crate}/{name}: {"PROVED" if done.returncode == 0 else "refused"}', flush=True)
                if done.returncode != 1:
                    wrong.append(path)


def main():
    args = sys.argv[1:]
    jobs = int(args.pop(args.index('--jobs') + 1)) if '--jobs' in args else 1
    crates = [a for a in args if not a.startswith('--')] or sorted({p.split('/')[1] for p in glob.glob('crates/*/must-fail/*.edit')})
    edits = [(c, p) for c in crates for p in sorted(glob.glob(f'crates/{c}/must-fail/*.edit'))]
    count, lock, wrong = len(edits), threading.Lock(), []
    threads = [threading.Thread(target=work, args=(edits, lock, wrong)) for _ in range(jobs)]
    for t in threads:
        t.start()
    for t in threads:
        t.join()
    print(f'{count} edits, {len(wrong)} not refused')
    sys.exit(1 if wrong else 0)


main()
