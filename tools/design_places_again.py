#!/usr/bin/env python3
"""Finds the places of docs/DESIGN-PASS.md in another way than tools/design_places.sh: it reads each function's and each
struct's text, and not single lines.

usage: tools/design_places_again.py      at the top of the repository
"""
import glob
import re
from collections import defaultdict


def blocks(text, start):
    """The text from the brace at or after start to the brace that closes it."""
    i = text.index('{', start)
    depth = 0
    for j in range(i, len(text)):
        depth += {'{': 1, '}': -1}.get(text[j], 0)
        if depth == 0:
            return i, text[i + 1:j]
    return i, text[i + 1:]


def functions(text):
    """Name, parameters, clauses and body of each function with a body."""
    for m in re.finditer(r'\bfn (\w+)', text):
        end = re.compile(r'^( *)\{$|;$|\{$', re.M).search(text, m.end())
        clauses = re.findall(r'^ +(?:requires|ensures)[^{]*\{ (.*) \}$', text[m.end():end.end()], re.M) if end else []
        if not end or end.group().endswith(';'):
            continue
        head = text[m.start():end.end()]
        at = text.rindex('{', m.start(), end.end())
        _, body = blocks(text, at)
        params = head[head.index('('):] if '(' in head else ''
        depth = 0
        for j, ch in enumerate(params):
            depth += {'(': 1, ')': -1}.get(ch, 0)
            if depth == 0:
                params = params[1:j]
                break
        yield m.group(1), [p.strip() for p in re.split(r',\s*(?![^\[<(]*[\]>)])', params) if ':' in p], clauses, body


def shape(body):
    """The body with its names and numbers taken away, so that twins are alike."""
    body = re.sub(r'//.*', '', body)
    seen = {}
    return re.sub(r'[A-Za-z_]\w*|\d[\d_]*|b?\'.\'|b?"[^"]*"', lambda m: seen.setdefault(m.group(), f'x{len(seen)}'), re.sub(r'\s+', ' ', body)).strip()


found = defaultdict(list)
shapes, together, facts = defaultdict(list), defaultdict(set), defaultdict(set)
for path in sorted(glob.glob('crates/*/src/**/*.rt', recursive=True)):
    text = open(path).read()
    plain = re.sub(r'^\s*(///|//!|//|ghost use).*$', '', text, flags=re.M)
    for m in re.finditer(r'\bstruct (\w+)', plain):
        if plain[m.end():].lstrip().startswith(('{', '<')):
            _, fields = blocks(plain, m.end())
            names = re.findall(r'(\w+): ([^,\n]+)', fields)
            if any(t.strip() == 'bool' for _, t in names):
                found['1 a struct with a flag'].append(f'{path} {m.group(1)}')
            if any(n in ('len', 'count') for n, _ in names) and any('[' in t for _, t in names):
                found['6 a struct with a table and its length'].append(f'{path} {m.group(1)}')
    for name, params, clauses, body in functions(plain):
        where = f'{path} {name}'
        for m in re.finditer(r'\bfor (\(?[\w, ()&]+\)?) in ([^{]*)\{', body):
            _, inner = blocks(body, m.start())
            for var in re.findall(r'\w+', m.group(1)):
                if re.search(r'\[[^\]]*\b' + var + r'\b[^\]]*\]', inner):
                    found['3 a loop variable that is an index'].append(f'{where}: {var}')
        if re.search(r'\bwhile\b[^{]*\{', body) and '+= 1' in body:
            found['3 a while loop that counts'].append(where)
        for m in re.finditer(r'\b(Some|Ok)\((\w+)\) => (Some|Ok|Err)\(', body):
            found['1 an arm that hands on'].append(f'{where}: {m.group()}')
        if re.search(r'(None => None|Err\((\w+)\) => Err\(\2\))', body):
            found['1 an arm that hands on what is not there'].append(where)
        if len(re.findall(r'=> -?\d+,', body)) >= 2:
            found['1, 4 a match that answers numbers'].append(where)
        for m in re.finditer(r'\bas (u64|u128|i64|i128)\b', body):
            found['4 a widening cast by as, or one that is proved to fit'].append(where)
        tables = re.findall(r'let mut (\w+) = \[', body)
        if len(tables) > 1:
            found['6 tables side by side'].append(f'{where}: {", ".join(tables)}')
        if len(body.split()) > 8:
            shapes[shape(body)].append(where)
        names = sorted({re.sub(r'^(mut )?(\w+):.*', r'\2', p, flags=re.S) for p in params} - {'self'})
        for i, a in enumerate(names):
            for b in names[i + 1:]:
                together[a, b].add(where)
        for clause in clauses:
            facts[re.sub(r'\.(old|new|now|entry)\b', '', clause)].add(where)
for body, where in shapes.items():
    if len(where) > 1:
        found['2 bodies that are alike but for names and numbers'].append(', '.join(where))
for pair, where in together.items():
    if len(where) > 2:
        found['5 parameters that come together in three functions or more'].append(f'{" and ".join(pair)}: {len(where)}')
for clause, where in facts.items():
    if len(where) > 2:
        found['5 one clause in three functions or more'].append(f'{clause}: {len(where)}')
for point in sorted(found):
    print(f'== {point}: {len(found[point])}')
    for place in found[point]:
        print(f'   {place}')
