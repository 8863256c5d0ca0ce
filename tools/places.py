#!/usr/bin/env python3
"""Counts, point by point, the places in crates/*/src that docs/DESIGN-PASS.md speaks of.

    tools/places.py                  the tree as it stands
    tools/places.py COMMIT           a commit's tree
    tools/places.py -v [COMMIT]      names each place

It goes by text. What each count takes for a place is said where it is counted.
"""
import re
import subprocess
import sys
from collections import Counter, defaultdict

verbose = '-v' in sys.argv
commit = next((x for x in sys.argv[1:] if x != '-v'), None)


def run(*words):
    return subprocess.run(words, capture_output=True, text=True, check=True).stdout


def sources(ending):
    if commit:
        names = run('git', 'ls-tree', '-r', '--name-only', commit, 'crates').split('\n')
        for name in names:
            if re.match(r'crates/\w+/' + ending, name):
                yield name, run('git', 'show', f'{commit}:{name}')
    else:
        for name in run('git', 'ls-files', 'crates').split('\n'):
            if re.match(r'crates/\w+/' + ending, name):
                try:
                    yield name, open(name).read()
                except FileNotFoundError:
                    pass


files = [(name[len('crates/'):], text) for name, text in sources(r'src/.*\.rt$')]


class Function:
    def __init__(self, where, name, params, result, clauses, body, comment):
        self.where, self.name, self.result, self.clauses, self.body, self.comment = where, name, result, clauses, body, comment
        self.params = [p.split(':')[0].strip() for p in split(params) if ':' in p]
        self.types = [p.split(':', 1)[1].strip() for p in split(params) if ':' in p]


def split(params):
    out, depth, last = [], 0, ''
    for c in params:
        depth += c in '(<['
        depth -= c in ')>]'
        if c == ',' and depth == 0:
            out.append(last)
            last = ''
        else:
            last += c
    return out + [last]


def functions(where, text):
    for m in re.finditer(r'^( *)(?:pub )?(?:extern "C" )?fn (\w+)(?:<[^(]*>)?\(', text, re.M):
        depth, i = 1, m.end()
        while depth:
            depth += text[i] in '('
            depth -= text[i] in ')'
            i += 1
        params = text[m.end():i - 1]
        indent = m.group(1)
        opening = text.find('\n' + indent + '{\n', i)
        ends = text.find('\n' + indent + '}', opening + 1)
        if opening < 0:
            continue
        head = text[i:opening]
        result = re.match(r'\s*->\s*([^\n{]+?)\s*(?:\n|$|\s(?=requires|ensures))', head)
        comment = []
        for line in reversed(text[:m.start()].rstrip('\n').split('\n')):
            if line.strip().startswith('//'):
                comment.append(line.strip())
            elif not line.strip().startswith('#['):
                break
        yield Function(where, m.group(2), params, result.group(1).strip() if result else '', head, text[opening:ends], ' '.join(reversed(comment)))


every = [f for where, text in files for f in functions(where, text)]
rows = []


def say(point, what, places):
    places = list(places)
    rows.append((point, what, len(places)))
    if verbose:
        for p in places:
            print(f'    {point} {what}: {p}')


def at(f):
    return f'{f.where} {f.name}'


# 1. Own enums of the shape of Option, Result or Ordering: one with a case Refused, one of two cases of which one alone holds a value, one of Before, Equal, After.
def enums():
    for where, text in files:
        for m in re.finditer(r'enum (\w+)(?:<[^{]*>)? \{(.*?)\n\}', text, re.S):
            cases = re.findall(r'^\s*(\w+)(\(|\s*\{|,)', re.sub(r'//.*', '', m.group(2)), re.M)
            full = [c for c in cases if c[1] != ',']
            if any(c[0] == 'Refused' for c in cases) or (len(cases) == 2 and len(full) == 1) or {c[0] for c in cases} >= {'Before', 'After'}:
                yield f'{where} enum {m.group(1)}'


say('1', 'own enums shaped like Option, Result or Ordering', enums())
# functions that answer the number of a refusal's row, 0 where none fits
say('1', 'functions that answer a row by its number', (at(f) for f in every if re.fullmatch(r'u32|u16|u64|usize', f.result) and re.search(r'(^|_)(row|refusal)(_|$)', f.name) and f.name not in ('row',)))
# functions whose comment says which number stands for none
none = re.compile(r'(where there is none|where none (is|does|fits|of)|None where|, or None\b|where it is unseen|for any other|n where|a where none|1000 (for|where)|256 for|where it isn.t one|no such|0 where none)', re.I)
say('1', 'functions whose number may mean none', (at(f) for f in every if re.fullmatch(r'u32|u16|u64|usize', f.result) and none.search(f.comment) and not re.search(r'(^|_)(row|refusal)(_|$)', f.name)))
# numbers for kinds: comparisons of a header's, a command's or a colour's number with a literal are not counted; a struct with a bool beside a value is
def flagged():
    for where, text in files:
        for m in re.finditer(r'struct (\w+)(?:<[^{]*>)? \{(.*?)\n\}', text, re.S):
            fields = re.findall(r'^\s*(?:pub )?(\w+): ([^,]+),', m.group(2), re.M)
            if len(fields) > 1 and any(t == 'bool' for _, t in fields):
                yield f'{where} struct {m.group(1)}'


say('1', 'structs with a flag beside a value', flagged())

# 2. Twins: functions of one crate whose bodies are the same but for names of one size or kind (small/large, few/many), and bodies of six lines or more that stand twice but for numbers
say('2', 'functions by two sizes (names in small, large, few, many)', (at(f) for f in every if re.search(r'(^|_)(small|large|few|many)(_|$)', f.name) and f.name not in ('is_small',)))
shape = defaultdict(list)
for f in every:
    body = re.sub(r'\b\d+\b', '0', re.sub(r'\b[A-Za-z_]\w*\b', 'x', re.sub(r'//.*', '', f.body)))
    if body.count('\n') >= 5 and not f.where.startswith(('nidskalm/', 'nidskalm_c/')):
        shape[re.sub(r'\s+', ' ', body)].append(f)
say('2', 'functions whose body has another\'s shape', (at(f) for fs in shape.values() if len(fs) > 1 for f in fs))

# 3. Loops that count an index by hand: `while` with a name in its test that its body raises or lowers by one
def counted():
    for where, text in files:
        lines = text.split('\n')
        for i, line in enumerate(lines):
            m = re.match(r"^( *)(?:'\w+: )?while (.*?) \{", line)
            if not m:
                continue
            body = []
            for later in lines[i + 1:]:
                if later == m.group(1) + '}':
                    break
                body.append(later)
            for v in re.findall(r'\b[a-z_]\w*\b', m.group(2)):
                if re.search(r'^\s*%s (\+|-)= 1;' % v, '\n'.join(body), re.M) or re.search(r'^\s*%s = (next|%s \+ 1|%s - 1);' % (v, v, v), '\n'.join(body), re.M):
                    yield f'{where}:{i + 1} {line.strip()}'
                    break


say('3', 'loops that count an index by hand', counted())
say('3', 'while loops in all', (f'{w}:{i + 1}' for w, t in files for i, line in enumerate(t.split('\n')) if re.match(r"^ *(?:'\w+: )?while ", line)))

# 4. Written by hand: a number from a test (1 or 0), a cast as a function of its own, equality or order of a struct's fields
flat = lambda f: re.sub(r'\s+', ' ', re.sub(r'//.*', '', f.body)).strip()
say('4', 'functions that turn a test into 1 or 0', (at(f) for f in every if re.fullmatch(r'\{ if [^{}]+ \{ return [01]; \} [01]', flat(f))))
say('4', 'functions that are a cast', (at(f) for f in every if re.fullmatch(r'\{ (?:\()?\w+(?: [%/] \d+\))? as (u8|u16|u32|u64|usize)', flat(f)) or re.fullmatch(r'\{ \w+ as \w+', flat(f))))
say('4', 'functions that compare fields, answer by answer', (at(f) for f in every if len(re.findall(r'\w+\.\d (!=|<|==) \w+\.\d', f.body)) > 2))
say('4', 'functions that turn one enum into another', (at(f) for f in every if re.match(r'\{ match \w+ \{', flat(f)) and len(re.findall(r'\w+::\w+(?:\(\w+\))? =>', f.body)) > 1 and len(re.findall(r'=> \w*::?\w+', f.body)) > 1))
say('4', 'types with Clone and Copy alone', (f'{w} {n}' for w, t in files for n in re.findall(r'#\[derive\(Clone, Copy\)\]\n(?:pub )?(?:struct|enum) (\w+)', t)))

# 5. Parameters that travel together
groups = {
    'load': {'starts', 'dependencies', 'hosts'},
    'graph and direction': {'dir', 'starts', 'dependencies', 'dependents'},
    'slots': {'sources', 'targets', 'm'},
    'search': {'colour', 'cursor', 'stack', 'low'},
    'flags': {'flags', 'c', 'n'},
    'lanes': {'area', 'at', 'n'},
    'lists of a merge graph\'s load': {'starts', 'modules', 'chunks', 'effects'},
    'sizes and area': {'sizes', 'area'},
    'marks': {'marks', 'stack', 'mark'},
}
for name, group in groups.items():
    say('5', f'functions with the parameters {", ".join(sorted(group))}', (at(f) for f in every if group <= set(f.params)))
# an area of the move graph and N, the distance of its lanes
for what, kind in (('read', '&[u32]'), ('write', '&mut [u32]')):
    say('5', f'functions that {what} the parameter area, with n beside it', (at(f) for f in every if 'n' in f.params and ('area', kind) in zip(f.params, f.types)))
facts = Counter()
users = defaultdict(set)
for f in every:
    for clause in re.findall(r'requires (?:\w+ )?\{(.*?)\}', f.clauses):
        for fact in clause.split(' × '):
            fact = re.sub(r'\s+', ' ', fact.strip().strip('()'))
            if fact:
                users[fact].add(at(f))
say('5', 'facts asked by three functions or more', (f'{fact}: {len(u)}' for fact, u in sorted(users.items()) if len(u) > 2))

# 6. Arrays of a fixed length, and lists whose length comes beside them
say('6', 'local arrays of a fixed length', (f'{w}:{i + 1} {line.strip()}' for w, t in files for i, line in enumerate(t.split('\n')) if re.search(r'= \[0\w*; ', line)))
say('6', 'functions with a list and a number named n, k, m or a beside it', (at(f) for f in every if any(t.startswith('&') and '[u' in t for t in f.types) and set(f.params) & {'n', 'k', 'm', 'a'}))

# 7. Steps picked by a number or an enum: a match or a chain of tests whose arms call functions
say('7', 'functions that pick a step', (at(f) for f in every if re.search(r'match (command|kind|step|op)\b', f.body)))

# 8. Answers in proofs/
answers = [(name, len(re.findall(r'^pub [\w.«»-]+ : goal\.', text, re.M)), text.count('\n')) for name, text in sources(r'proofs/.*Answers\.antt$')]
rows.append(('8', 'answers', sum(a for _, a, _ in answers)))
rows.append(('8', 'lines of Answers.antt', sum(n for _, _, n in answers)))
rows.append(('8', 'lines of all .antt in proofs/', sum(t.count('\n') for _, t in sources(r'proofs/.*\.antt$'))))
rows.append(('', 'functions', len(every)))
rows.append(('', 'lines of src/', sum(t.count('\n') for _, t in files)))

for point, what, n in rows:
    print(f'{point:2} {n:6}  {what}')
