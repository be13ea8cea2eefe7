#!/usr/bin/env python3
"""Turns proofs/F/Proof.antt of the older form (a `Need` for each goal, tied at the end) into Invariants.antt and Answers.antt.

usage: python3 tools/port/answers.py CRATE [F ..]      at the top of the repository; needs `rt` on the PATH

`rt check --generated DIR --old-names` lists each goal's and step's old and new name. An answer that only searches is left
out, since the check searches by itself. What does not fit the form is named and left as it is."""
import json
import os
import re
import subprocess
import sys
import tempfile


def names(crate):
    with tempfile.TemporaryDirectory() as out:
        subprocess.run(['rt', 'check', '--generated', out, '--old-names'], cwd=f'crates/{crate}', stdout=subprocess.DEVNULL, stderr=subprocess.DEVNULL)
        return json.load(open(os.path.join(out, 'names.json'), encoding='utf-8'))


def dashed(name):
    return name.replace('_', '-')


def blocks(text):
    """Declarations, each with the comment lines above it."""
    out, comment = [], []
    for chunk in re.split(r'\n\s*\n', text):
        lines = chunk.strip('\n').split('\n')
        if lines and lines != ['']:
            out.append(lines)
    return out


def arms(goal, body):
    """What an arm knows stands under the arm today; a test of `!x` says what `x` is."""
    found = re.search(r'-in-([A-Z]\w*)', goal)
    def arm(m):
        own = re.search(r'-in-([A-Z]\w*)', m.group(1)) or found
        return own.group(1) if own else None
    def call(m):
        return f'c.in-{arm(m)}.ensures' if arm(m) else m.group()
    def value(m):
        return f'c.in-{arm(m)}.is' if arm(m) else m.group()
    body = re.sub(r'\(?rw c\.([\w\-]+?)-1\.given\.1 at c\.[\w\-]+\.ensures\)?', call, body)
    body = re.sub(r'c\.([\w\-]+?)-1\.given\.1', value, body)
    return re.sub(r'not-(?:false|true) _ (c\.if-not-[\w\-]+\.(?:false|true))', r'\1', body)


def steps(goal, body, places):
    """Paths by the steps' new names, without the walk back through `before`."""
    body = re.sub(r'(?:\.before)+(?=[\s.)\],;]|$)', '', body)
    def one(m):
        return m.group(1) + '.' + places.get(dashed(m.group(2)), m.group(2))
    return arms(goal, re.sub(r'(?<![\w.\-])(c|w|p|b)\.([A-Za-z0-9_\-]+)', one, body))


def convert(crate, folder, entry):
    path = os.path.join(folder, 'Proof.antt')
    text = open(path, encoding='utf-8').read()
    if 'tie.close' not in text:
        return 'no tie'
    module = f'Rattle.{crate}.proofs.' + os.path.relpath(folder, f'crates/{crate}/proofs').replace('/', '.')
    goals = {dashed(old): new for old, new in entry['needs']}
    goals.update({dashed('overflow-' + old): new for old, new in entry['needs']})
    places = {dashed(old): new for _, _, (old, new), _, _ in entry['places'] if old}
    loops = {}
    for (old, new), params in entry['loops']:
        loops[dashed(old)] = (new, params)
    uses, answers, invariants, others = [], [], [], []
    for lines in blocks(text):
        code = [l for l in lines if not l.startswith('--')]
        note = [l for l in lines if l.startswith('--')]
        while code and code[0].startswith('use '):
            if not re.search(r'\.(Statement|Tie)(\.| as )', code[0]):
                uses.append(code[0])
            code = code[1:]
        if not code:
            others += note
            continue
        head = re.match(r'(?:abbrev )?(?:pub )?(\S+)\s*:\s*(.*)$', code[0])
        if not head:
            return 'a declaration that is not read: ' + code[0]
        name, kind = head.groups()
        if 'statement M' in code[0]:
            continue
        need = re.match(r'tie\.Need-(\S+)', kind)
        loop = re.match(r'tie\.(invariant|decreases)-(\S+)', kind)
        if need:
            old = need.group(1)
            new = goals.get(dashed(old)) or goals.get(re.sub('^overflow-', '', dashed(old)))
            unfolding = [l for l in code[1:] if l.startswith('unfolding ')]
            rest = '\n'.join(l for l in code[1:] if not l.startswith('unfolding '))
            if not new:
                print(f'no goal {old} in {folder}:\n{steps(old, rest, places)}')
                continue
            rest = re.sub(r'^' + re.escape(name) + r'(?=\s)', new, rest)
            rest = re.sub(r'^(' + re.escape(new) + r' (?:[^=\s]+ )*?)κs (?==)', r'\1', rest)
            if not unfolding and re.fullmatch(re.escape(new) + r'( \S+)* =\s*(search rules|omega arith)', rest.strip()):
                continue
            answers.append('\n'.join(note + [f'pub {new} : goal.{new}'] + unfolding + [steps(new, rest, places)]))
        elif loop:
            which, old = loop.groups()
            if dashed(old) not in loops:
                return 'no loop ' + old
            new, params = loops[dashed(old)]
            definition = '\n'.join(code[1:])
            m = re.match(re.escape(name) + r'((?: \S+)*) =(.*)$', definition, re.S)
            bound, body = m.group(1).split(), m.group(2)
            for b in bound:
                if b == '_' or b not in [p for p in params] + [p + '₀' for p in params]:
                    continue
            for b in sorted(set(bound), key=len, reverse=True):
                if b.endswith('₀') and b[:-1] in params:
                    to = 'l.initial.' + b[:-1]
                elif b in params:
                    to = 'l.' + b
                else:
                    to = 'l.?' + b if b != '_' else b
                body = re.sub(r"(?<![\w.'\-])" + re.escape(b) + r"(?![\w'\-₀])", to, body)
            full = f'{which}-{new}'
            invariants.append('\n'.join(note + [f'abbrev pub {full} : goal.{full}', f'{full} l ={body}']))
        else:
            others.append('\n'.join(note + [code[0]] + code[1:]))
    head = '\n'.join(uses)
    kept = []
    if invariants:
        open(os.path.join(folder, 'Invariants.antt'), 'w', encoding='utf-8').write(
            head + f'\nuse {module}.Given as goal\n\n' + '\n\n'.join(invariants) + '\n')
        kept.append('Invariants')
    if answers or others:
        open(os.path.join(folder, 'Answers.antt'), 'w', encoding='utf-8').write(
            head + f'\nuse {module}.Goals as goal\n\n' + '\n\n'.join(others + answers) + '\n')
        kept.append('Answers')
    os.remove(path)
    if not os.listdir(folder):
        os.rmdir(folder)
    return 'turned: ' + (', '.join(kept) or 'nothing left to write') + (' (with pieces of its own)' if others else '')


def main():
    crate, only = sys.argv[1], sys.argv[2:]
    table = names(crate)
    for key, entry in sorted(table.items()):
        if not isinstance(entry, dict) or 'needs' not in entry:
            continue
        function = re.fullmatch(rf'Rattle-{crate}-proofs\.(.*)\.Lts', key).group(1)
        folder = os.path.join('crates', crate, 'proofs', *function.split('.'))
        if only and function not in only:
            continue
        if os.path.exists(os.path.join(folder, 'Proof.antt')):
            print(f'{function}: {convert(crate, folder, entry)}')


main()
