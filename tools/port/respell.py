#!/usr/bin/env python3
"""Spells this repository's own definitions and lemmas as today's Rattle does: words in snake case, a dash only between two
names of definitions, no middle dot. Run once, at the top, after the kit's port/port.py; respelled.tsv beside it has the
table, old and new. Rust's own names, strings, inputs and outputs are not touched."""
import glob
import os
import re

HERE = os.path.dirname(os.path.abspath(__file__))
TABLE = dict(line.rstrip('\n').split('\t') for line in open(os.path.join(HERE, 'respelled.tsv'), encoding='utf-8'))
PART = r"A-Za-z0-9_'·◌\-"
TOKEN = re.compile(r"[" + PART + r"]+")
QUALIFIED = re.compile(r"(?<![" + PART + r"])([A-Za-z]+)·([A-Za-z\-]+)(?![" + PART + r"])")


def plain(old):
    return TABLE.get(old, old)


def tokens(text, after_a_dot):
    """The table over a text; what stands after a dot is left where a walk's generated names stand there."""
    def one(m):
        if not after_a_dot and '-' in m.group() and m.start() and text[m.start() - 1] == '.':
            return m.group()
        return plain(m.group())
    return TOKEN.sub(one, text)


def aliases(text, drop):
    """`y as X·y` and `X·y`: a source file needs no second name; elsewhere X and y are joined."""
    def joined(m):
        module, name = m.group(1), m.group(2)
        if m.group() in TABLE:
            return m.group()
        if drop and name[0].islower():
            return name
        if name[0].isupper():
            return module[0].upper() + module[1:] + name
        return re.sub(r'(?<=[a-z])([A-Z])', lambda u: '_' + u.group(1).lower(), module).lower() + '_' + name.replace('-', '_')
    text = QUALIFIED.sub(joined, text)
    return re.sub(r"(?<![" + PART + r"])([a-z_]+) as \1(?![" + PART + r"])", r'\1', text) if drop else text


def comments_apart(text, mark, turn):
    """A hyphen in a comment may be English: there only names with a capital or a dot are turned."""
    out = []
    for line in text.split('\n'):
        at = 0 if line.lstrip().startswith(mark) else line.find(' ' + mark + ' ')
        code, comment = (line, '') if at < 0 else (line[:at], line[at:])
        comment = TOKEN.sub(lambda m: m.group() if '-' in m.group() else plain(m.group()), comment)
        out.append((turn(code) if code else code) + comment)
    return '\n'.join(out)


def main():
    files = sorted(glob.glob('crates/*/specs/**/*.antt', recursive=True) + glob.glob('crates/*/proofs/**/*.antt', recursive=True)
                   + glob.glob('crates/*/src/**/*.rt', recursive=True))
    for path in files:
        before = open(path, encoding='utf-8').read()
        source, walk = path.endswith('.rt'), os.path.basename(path) == 'Proof.antt'
        text = aliases(before, source)
        text = comments_apart(text, '//' if source else '--', lambda code: tokens(code, not walk))
        if text != before:
            open(path, 'w', encoding='utf-8').write(text)


main()
