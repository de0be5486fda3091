#!/usr/bin/env python3
"""Counts, below crates/*/src of the folder that it is run in, the places where code may stand in an older form; with -v it lists them.

A row is a place to look, and no verdict. docs/DESIGN-PASS.md has the counts and what became of each.
"""
import collections
import glob
import re
import sys

LISTED = '-v' in sys.argv

# point, what, pattern on a line
LINES = [
    ('1', 'own enums and unit structs', r'^ *(pub(\(crate\))? )?(enum \w+|struct \w+;)'),
    ('1', 'functions that answer a refusal or nothing', r'-> Option<Refusal>'),
    ('1', 'functions that answer a small number', r'-> (u8|i32) ?\{?$'),
    ('1', 'flags in structs and parameters', r'^ +(pub(\(crate\))? )?\w+: bool,'),
    ('1', 'numbers for kinds', r'letter: u8|number: u8'),
    ('3', 'loops over a range, and open loops', r'for \w+ in [^{]*\.\.|\bloop \{|\bwhile '),
    ('4', 'functions named for equality, conversion, copying or printing',
     r'fn (same\w*|to_[iu]\w+|print\w*|show\w*|words|\w*letter\w*|number|copy\w*|put_row|write_head|write_name)\b'),
    ('6', 'counts beside arrays, and arrays of a fixed size in structs',
     r'^ +(pub(\(crate\))? )?(count|len|spanned|tied|points): usize,|^ +(pub(\(crate\))? )?\w+: \[[^;]+; *\w+\],'),
    ('6', 'parameters that are arrays of a fixed size', r': &(mut )?\[[^];]*(\[[^]]*\])?; *\w+\]'),
    ('7', 'sums of what each step answered, and switches between steps', r'fell \|= |lowered \|= |finish: bool'),
]


def sources():
    return sorted(glob.glob('crates/*/src/**/*.rt', recursive=True))


def lines(pattern):
    for name in sources():
        for number, line in enumerate(open(name, encoding='utf-8'), 1):
            if re.search(pattern, line) and not line.lstrip().startswith('//'):
                yield f'{name}:{number}: {line.strip()}'


def functions():
    """Each function's crate, name, parameters and the text of its clauses."""
    for name in sources():
        text = open(name, encoding='utf-8').read()
        head = r'^( *)(?:pub(?:\(\w+\))? )?fn (\w+)(?:<[^>]*>)?\((.*?)\)(?: -> [^\n]*)?\n(.*?)^\1\{'
        for found in re.finditer(head, text, re.M | re.S):
            given = [p.strip() for p in re.split(r',(?![^<\[(]*[>\])])', found.group(3)) if p.strip()]
            yield name.split('/')[1], found.group(2), tuple(re.sub(r'^mut ', '', p) for p in given if 'self' not in p), found.group(4)


def repeated():
    """Facts that three or more functions of a crate require, and runs of parameters that three or more have."""
    facts, runs = collections.defaultdict(set), collections.defaultdict(set)
    for crate, name, given, clauses in functions():
        for found in re.finditer(r'requires(?: \w+)? \{ (.*?) \}\n', clauses):
            facts[crate, re.sub(r'\.(old|now)\b', '', found.group(1))].add(name)
        for i in range(len(given)):
            for j in range(i + 2, len(given) + 1):
                runs[crate, given[i:j]].add(name)
    longest = {k: v for k, v in runs.items() if not any(len(o[1]) > len(k[1]) and runs[o] == v and o[0] == k[0] and set(k[1]) <= set(o[1]) for o in runs)}
    for what, table in (('facts required by three functions or more', facts), ('runs of parameters of three functions or more', longest)):
        yield what, [f'{len(v)} in {k[0]}: {k[1] if isinstance(k[1], str) else ", ".join(k[1])}' for k, v in sorted(table.items(), key=lambda e: -len(e[1])) if len(v) >= 3]


def show(point, what, rows):
    print(f'{point}  {len(rows):4}  {what}')
    if LISTED:
        for row in rows:
            print('         ' + row)


for point, what, pattern in LINES:
    show(point, what, list(lines(pattern)))
for what, rows in repeated():
    show('5', what, rows)
answers = [n for n in glob.glob('crates/*/proofs/**/Answers.antt', recursive=True)]
show('8', 'answers in proofs', [f'{n}: {m}' for n in answers for m in re.findall(r'^pub ([\w-]+) : goal', open(n, encoding='utf-8').read(), re.M)])
show('8', 'lemmas in proofs', [f'{n}: {m}' for n in glob.glob('crates/*/proofs/*.antt') for m in re.findall(r'^ *(?:pub )?([\w-]+) : ', open(n, encoding='utf-8').read(), re.M)])
