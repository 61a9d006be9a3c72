#!/usr/bin/env python3
"""Counts in crates/*/src the places that docs/DESIGN-PASS.md speaks of, point by point: `tools/design_places.py [--list] [FOLDER]`.

A place is what a pattern below finds; which of them stay, and why, the page says. Comments are not read."""
import collections
import pathlib
import re
import sys

words = [w for w in sys.argv[1:] if not w.startswith('--')]
ROOT = pathlib.Path(words[0] if words else pathlib.Path(__file__).resolve().parent.parent)
LIST = '--list' in sys.argv


def split(text, at):
    """The parts of a text between signs that stand in no bracket."""
    parts, depth, part = [], 0, ''
    for sign in text:
        depth += (sign in '({[') - (sign in ')}]')
        if sign == at and depth == 0:
            parts.append(part.strip())
            part = ''
        else:
            part += sign
    return [*parts, part.strip()]


def facts(clause):
    """The facts of a clause, one by one."""
    clause = clause.strip()
    while clause.startswith('(') and clause.endswith(')') and all(
            clause[:i].count('(') > clause[:i].count(')') for i in range(1, len(clause))):
        clause = clause[1:-1].strip()
    parts = split(clause, '×')
    return [f for part in parts for f in facts(part)] if len(parts) > 1 else [clause]


def kinds(fact):
    """A fact about any buffer, and about any number."""
    fact = re.sub(r'\b(\w+)\.(now|old|entry)\b', 'bytes', fact)
    return re.sub(r'\b(hashes|n|count|i|at)\b', 'n', fact)


sources = {f.relative_to(ROOT / 'crates'): '\n'.join(re.sub(r'//.*', '', line) for line in f.read_text().split('\n'))
           for f in sorted(ROOT.glob('crates/*/src/**/*.rt'))}
functions, found = [], collections.defaultdict(list)
for file, text in sources.items():
    for m in re.finditer(r'fn (\w+)(?:<[^>]*>)?\(([^{;]*?)\)(?: -> ([^{;]*?))?((?:\s+where\b[^{]*)?(?:\s+(?:requires|ensures\*?)(?: \w+)? \{.*\})*)\s*\{\n', text):
        functions.append((file, m[1], m[2], m[3] or '', m[4]))


def places(point, pattern, where=lambda file: True):
    for file, text in sources.items():
        for m in re.finditer(pattern, text, re.M):
            if where(file):
                found[point].append(f'{file}:{text[:m.start()].count(chr(10)) + 1}: {m[0].strip().splitlines()[0]}')


# 1
for file, text in sources.items():
    for m in re.finditer(r'enum (\w+)\s*\{(.*?)\n\}', text, re.S):
        cases = [c for c in split(m[2], ',') if c]
        if len(cases) == 2 and any(re.search(r'[({]', c) for c in cases):
            found['1 enums of the shape of Option or Result'].append(f'{file}: {m[1]}')
places('1 constants that number places, findings, statuses or refusals', r'^pub const [A-Z_]+: u(?:8|16) = \d+;$', lambda f: f.name != 'sizes.rt')
for file, name, parameters, result, clauses in functions:
    for p in re.findall(r'\b((?:kind|status|found|number|place): u(?:8|16|size))\b', parameters):
        found['1 parameters that are the number of a kind, status, finding or place'].append(f'{file}: {name}({p})')
    if re.search(r'->? ?u16|^u16', result) and file.parts[0] not in ('words', 'counts', 'bits'):
        found['1 results that are the number of a refusal or a sum'].append(f'{file}: {name}')
    for p in re.findall(r'\b((?:kept|bit|old|more|kept_bit): (?:u8|bool))\b', parameters):
        found['1 flags beside a value, and flags that choose'].append(f'{file}: {name}({p})')
places('1 fields that are such a number', r'^    (?:pub )?(?:kind|status|number|kept): u(?:8|16),$')
# 3
places('3 loops that count or cut by hand', r'^\s*while .*$')
# 4
places('4 conversions by `as`', r'\S+ as (?:usize|u8|u16|u32|u64|i32)\b')
# 5
stands = collections.defaultdict(set)
for file, name, parameters, result, clauses in functions:
    for clause in re.findall(r'requires(?: \w+)? \{ (.*) \}', clauses):
        for fact in facts(clause):
            stands[kinds(fact)].add(f'{file}: {name}')
for fact, where in sorted(stands.items(), key=lambda x: -len(x[1])):
    if len(where) > 2:
        found['5 facts in the `requires` of three functions or more'].append(f'{fact} ({len(where)}: {", ".join(sorted(where))})')
# 6
for file, name, parameters, result, clauses in functions:
    if re.search(r'\[u8\]', parameters) and re.search(r'\b(?:at|from|to|n|size|length|hashes|count|most): usize', parameters):
        found['6 functions with a buffer and an offset or length beside it'].append(f'{file}: {name}')
# 7
places('7 switches by a number or flag on which step to run', r'\bif (?:old|kind == \d)\b.*$')
places('7 tables of flags', r'^pub const [A-Z]+: Takes\b')
# 8
for file in sorted((ROOT / 'crates').glob('*/proofs/**/Answers.antt')):
    if file.relative_to(ROOT / 'crates').parts[0] != 'profile':
        found['8 answers written by hand, but for those of the profile'].append(str(file.relative_to(ROOT / 'crates').parent))

for point, each in sorted(found.items()):
    print(f'{len(each):4}  {point}')
    if LIST:
        for place in each:
            print(f'        {place}')
