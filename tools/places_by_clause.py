#!/usr/bin/env python3
"""Counts the places that docs/DESIGN-PASS.md speaks of in another way than tools/places.py: from the functions' signatures and clauses, as the
kit's port/contracts.py reads them, and from keywords.

    tools/places_by_clause.py          the tree as it stands
    tools/places_by_clause.py -v       names each place
"""
import collections
import itertools
import os
import re
import subprocess
import sys

kit = os.path.dirname(subprocess.run(['rt', 'doc'], capture_output=True, text=True, check=True).stdout.strip())
sys.path.insert(0, os.path.join(kit, 'port'))
import contracts  # noqa: E402

crates, found, *_ = contracts.read('.')
functions = [(key, f) for key, all_of in found.items() for f in all_of if not f['test'] and not f['in tests']]
sources = {}
for crate in crates:
    for folder, _, names in os.walk(f'crates/{crate}/src'):
        for name in names:
            if name.endswith('.rt'):
                sources[crate, name] = contracts.blank(open(os.path.join(folder, name)).read())


def say(point, what, places):
    places = list(places)
    print(f'{point} {len(places):6}  {what}')
    if '-v' in sys.argv:
        for place in places:
            print(f'            {place}')


def name(key):
    return ' '.join(part for part in key if part)


def clauses(f):
    return [text for _, _, text in f['requires'] + f['ensures']]


def parameters(f):
    start = f['sign'].find('(')
    inside = f['sign'][start + 1:contracts.closing(f['sign'], start, '(', ')') - 1]
    return [part.split(':')[0].replace('mut ', '').strip() for part in re.split(r',(?![^<(\[]*[>)\]])', inside) if ':' in part]


def matches(pattern):
    return (f'{crate} {file}:{text.count(chr(10), 0, m.start()) + 1}' for (crate, file), text in sources.items() for m in re.finditer(pattern, text))


number = r'-> u(8|16|32|64|size)\s*$'
say('1', 'enums', (f'{crate} {m[1]}' for (crate, _), text in sources.items() for m in re.finditer(r'\benum (\w+)', text)))
say('1', 'functions that answer a number whose clause speaks of a row or fault', (name(k) for k, f in functions if re.search(number, f['sign']) and any(re.search('row|refus|fault', c) for c in clauses(f))))
say('1', 'functions that answer a number whose clause speaks of none', (name(k) for k, f in functions if re.search(number, f['sign']) and any(re.search(r'\bnone\b|None|NONE', c) for c in clauses(f))))
shapes = collections.defaultdict(list)
for k, f in functions:
    sign = re.sub(r'\b[a-z_]\w*\b(?=\s*:)', 'p', re.sub(r'\b\d[\d_]*\b', '0', f['sign']))
    shapes[sign, tuple(sorted(re.sub(r"[A-Za-z_'\-][\w'\-]*", 'w', c) for c in clauses(f)))].append(name(k))
say('2', 'groups of functions with one signature and one shape of clauses', (', '.join(group) for group in shapes.values() if len(group) > 1))
say('3', 'while or loop', matches(r'\b(while|loop)\b'))
say('3', 'a variable one up or down, in a line of its own', matches(r'\b\w+ [+-]= 1;'))
say('4', 'functions named for a comparison or conversion', (name(k) for k, f in functions if re.match(r'(eq|equal|same|less|cmp|compare|to|from|of|copy|clone)(_|$)', k[3])))
triples = collections.Counter(triple for _, f in functions for triple in itertools.combinations(sorted(set(parameters(f))), 3))
say('5', 'three parameters that ten functions or more have together', (f'{", ".join(t)}: {n}' for t, n in triples.most_common() if n >= 10))
facts = collections.Counter(fact for _, f in functions for fact in {part.strip().strip('()') for _, _, text in f['requires'] for part in text.split(' × ')})
say('5', 'facts in three contracts or more', (f'{fact}: {n}' for fact, n in facts.most_common() if n >= 3))
say('6', "functions one of whose clauses says a list's length", (name(k) for k, f in functions if any(re.search(r'length [\w.]+ ≡ |≡ length [\w.]+', text) for _, _, text in f['requires'])))
say('7', 'files with dyn, Box or a pointer to a function', (f'{crate} {file}' for (crate, file), text in sources.items() if re.search(r'\bdyn\b|\bBox<|: fn\(', text)))
