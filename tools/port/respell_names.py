#!/usr/bin/env python3
"""Respells the repository's own definitions, fields, constructors and lemmas: words in snake case, as today's Rattle has them.

usage: respell_names.py [--list]        in the repository's folder, once, after /opt/rattle/port/port.py

A name is one of the repository's own if a file of specs/ or a lemma file right in proofs/ defines or binds it, or names a module by it.
Types and modules keep their capitals. A name that a file takes from the kit stays in that file. Names of src/, strings, inputs and outputs
are not touched: no function, field or parameter of src/ has a capital or a dash. A lemma that would get the name of a definition gets _lem
behind it. --list prints the table, old and new, and changes nothing. A second run changes nothing.
"""
import collections
import glob
import re
import sys

TOKEN = re.compile(r'''[^\s(){}.;,@"«»\[\]\\]+''')
KIT = ('Rattle.std', 'lib.', 'native.', 'borrow.', 'mathlib.', 'Prim.', 'denote.', 'logic.')
HEAD = re.compile(r'''\s*(?:(?:unfoldable|abbrev|pub|mutual|private) )*((?:[^\s(){}.;,@"«»\[\]\\]+ )+)(?:[({].*)?:(?: |$)''')
LOCAL = re.compile(r'''(?:\blet |λ |[({])((?:[^\s(){}.;,@"«»\[\]\\:]+ )+)[:=.]''')


def odd(t):
    return re.match(r'[A-Za-z_]', t) and ('-' in t.strip('-') or (t[0].islower() and re.search('[A-Z]', t)))


def code(line):
    m = re.search(r'(^|\s)--(\s|$)', line)
    return line[:m.start()] if m else line


def snake(t):
    t = re.sub(r'(?<=[a-z0-9])(?=[A-Z])', '_', t)
    t = re.sub(r'(?<=[A-Z])(?=[A-Z][a-z])', '_', t)
    return t.replace('-', '_').lower() if t[0].islower() or t[0] == '_' else t.replace('-', '_')


def read(path):
    with open(path, encoding='utf-8', newline='') as f:
        return f.read()


def from_kit(text):
    names = set()
    for m in re.finditer(r'(?m)^\s*(?:pub )?use (\S+?)\.\{([^}]*)\}', text):
        if m.group(1).startswith(KIT):
            names |= {x.strip().split(' as ')[-1].strip() for x in m.group(2).split(',')}
    return names


def own_names(paths):
    """The names that the files define, bind or give to a module."""
    names = set()
    for p in paths:
        for line in map(code, read(p).split('\n')):
            m = re.match(r'\s*(?:pub )?use \S+ as (\S+)', line)
            if m:
                names.add(m.group(1))
            m = re.match(r'\s*(?:pub )?use (\S+?)\.\{(.*)\}', line)
            if m:
                names |= {x.split(' as ')[1].strip() for x in m.group(2).split(',') if ' as ' in x}
                continue
            m = HEAD.match(line)
            if m:
                names |= set(m.group(1).split())
            for m in LOCAL.finditer(line):
                names |= set(m.group(1).split())
    return names


def main(argv):
    lemma = [p for c in glob.glob('crates/*') for p in glob.glob(c + '/specs/**/*.antt', recursive=True) + glob.glob(c + '/proofs/*.antt')]
    names = own_names(sorted(lemma))
    taken = {snake(t) for t in names if '-' not in t}
    table = {t: snake(t) + ('_lem' if '-' in t and snake(t) in taken else '') for t in names if odd(t)}
    if argv == ['--list']:
        for t in sorted(table):
            print(t, table[t], sep='\t')
        return 0
    paths = [p for c in glob.glob('crates/*') for k in ('src/**/*.rt', 'specs/**/*.antt', 'proofs/**/*.antt', 'must-fail/*.edit') for p in glob.glob(c + '/' + k, recursive=True)]
    for p in sorted(paths):
        text = read(p)
        kept = from_kit(text)

        steps = re.match(r'crates/[^/]+/proofs/.+/', p)

        def word(m):
            t = m.group(0)
            if t not in table or t in kept:
                return t
            # below a function's own folder a name behind a dot may be a step of its code, which has no lemma's name
            return snake(t) if steps and m.string[:m.start()].endswith('.') else table[t]

        def line(l):
            if p.endswith('.antt'):
                head = code(l)
                rest = l[len(head):]
            elif p.endswith('.rt'):
                i = l.find('//')
                head, rest = (l, '') if i < 0 else (l[:i], l[i:])
                if '"' in head:
                    return l
            else:
                head, rest = (l, '') if re.match('old:|new:|file:', l) else ('', l)
            # in a comment English words have dashes, and only a name has a capital inside
            rest = TOKEN.sub(lambda m: m.group(0) if '-' in m.group(0) else word(m), rest)
            rest = re.sub(r'`([^`]*)`', lambda m: '`' + TOKEN.sub(word, m.group(1)) + '`', rest)
            return TOKEN.sub(word, head) + rest

        new = '\n'.join(map(line, text.split('\n')))
        if new != text:
            with open(p, 'w', encoding='utf-8', newline='') as f:
                f.write(new)
    return 0


if __name__ == '__main__':
    raise SystemExit(main(sys.argv[1:]))
