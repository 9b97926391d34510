#!/usr/bin/env python3
"""changed.py COMMIT: the signatures, clauses, definitions and edits of this checkout that differ from those at COMMIT.

It prints tables, old and new side by side, from the JSON of the kit's port/contracts.py.
"""
import html, json, os, re, shutil, subprocess, sys, tempfile

# Beside the kit's rt.
KIT = os.path.join(os.path.dirname(os.path.realpath(shutil.which('rt'))), '..', 'port', 'contracts.py')


def cell(text):
    text = re.sub(r'\s+', ' ', text.strip())
    return f'<code>{html.escape(text, quote=False)}</code>'.replace('|', '&#124;') if text else ''


def table(first, rows):
    print(f'\n| {first} | Old | New |\n|---|---|---|')
    for name, old, new in rows:
        print(f'| {name} | {old} | {new} |')


def clauses(requires, ensures):
    out = [f'requires {cell(c)}' for _, c in requires] + [f'ensures {label + " " if label else ""}{cell(c)}' for label, c in ensures]
    return '<br>'.join(out)


def main():
    with tempfile.TemporaryDirectory() as old:
        subprocess.run(['git', 'worktree', 'add', '-q', '--detach', old, sys.argv[1]], check=True)
        try:
            said = subprocess.run([sys.executable, KIT, old, '.', '--json'], check=True, stdout=subprocess.PIPE, text=True).stdout
        finally:
            subprocess.run(['git', 'worktree', 'remove', '-f', old], check=True)
    d = json.loads(said)
    a, b = d['sizes']
    print('| | Old | New |\n|---|---|---|')
    for k in a:
        print(f'| {k} | {a[k]} | {b[k]} |')
    for k in ('functions', 'with ensures'):
        print(f'| {k} | {d[k][0]} | {d[k][1]} |')
    print('\n### Signatures')
    table('Function', [(f'`{n}`', cell(x), cell(y)) for n, x, y in d['signatures changed']])
    print('\n### Clauses')
    table('Function', [(f'`{n}`', clauses(r0, e0), clauses(r1, e1)) for n, r0, e0, r1, e1 in d['contracts changed']])
    print('\n### Definitions')
    changed = d['definitions']['changed']
    table('Definition', [(f'`{c} {n}`', '<br>'.join(map(cell, x)), '<br>'.join(map(cell, y))) for c, n, x, y in changed])
    print('\n### Not found again by name\n')
    for n in d['functions not found again']:
        print(f'- function `{n.split(" (")[0]}`')
    for c, n in d['definitions']['gone']:
        print(f'- definition `{c} {n}`')
    print('\n### Edits')
    table('Edit', [(f'`{c} {n}`', cell(x), cell(y)) for c, n, x, y in d['edits and outputs']['changed']])


main()
