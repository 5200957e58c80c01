#!/usr/bin/env python3
"""Counts the older forms in crates/*/src and the proof files beside them, point by point as docs/DESIGN-PASS.md lists them.

    python3 tools/form_counts.py [--list] [TOP]

It goes by text, so a row is a place to look at: what was done with each stands in the page."""
import collections
import glob
import os
import re
import sys

listing = '--list' in sys.argv
tops = [a for a in sys.argv[1:] if not a.startswith('--')]
os.chdir(tops[0] if tops else '.')

Function = collections.namedtuple('Function', 'crate file name head params result contract body')


def without_comments(text):
    return re.sub(r'//[^\n]*', '', text)


def matching(text, at, pair):
    """The place behind the bracket that closes the one at `at`."""
    depth = 0
    for i in range(at, len(text)):
        if text[i] == pair[0]:
            depth += 1
        elif text[i] == pair[1]:
            depth -= 1
            if depth == 0:
                return i + 1
    return len(text)


def functions_of(file):
    text = without_comments(open(file, encoding='utf-8').read())
    crate = file.split('/')[1]
    for found in re.finditer(r'\bfn (\w+)', text):
        opening = text.find('(', found.end())
        if opening < 0:
            continue
        closing = matching(text, opening, '()')
        params = text[opening + 1:closing - 1]
        at = closing
        result = re.match(r'\s*->\s*([^{;]+?)\s*(?=\{|;|requires|ensures|where)', text[at:])
        if result:
            at += result.end()
        clauses = at
        while True:
            clause = re.match(r'\s*(requires|ensures|where)\b[^{;]*', text[at:])
            if not clause:
                break
            at += clause.end()
            if at < len(text) and text[at] == '{':
                at = matching(text, at, '{}')
        body = re.match(r'\s*\{', text[at:])
        if not body:
            continue
        start = at + body.end() - 1
        end = matching(text, start, '{}')
        yield Function(crate, file, found.group(1), text[found.start():opening], params,
                       result.group(1) if result else '', text[clauses:at], text[start:end])


files = sorted(glob.glob('crates/*/src/**/*.rt', recursive=True))
functions = [f for file in files for f in functions_of(file)]
rows = []


def say(point, what, places):
    rows.append((point, what, len(places)))
    print(f'{point:4} {len(places):4}  {what}')
    if listing:
        for place in places:
            print(f'             {place}')


def at(f):
    return f'{f.file}: {f.name}'


# 1: own enums, numbers of refusals, numbers of kinds
enums = {}
for file in files:
    text = without_comments(open(file, encoding='utf-8').read())
    for found in re.finditer(r'\benum (\w+)(?:<[^>]*>)?\s*\{', text):
        body = text[found.end():matching(text, found.end() - 1, '{}') - 1]
        body = re.sub(r'\s+', ' ', body)
        variants, depth, word = [], 0, ''
        for c in body + ',':
            depth += (c in '({[') - (c in ')}]')
            if c == ',' and depth == 0:
                if word.strip():
                    variants.append(word.strip())
                word = ''
            else:
                word += c
        enums[found.group(1)] = (file, variants)
shaped = []
for name, (file, variants) in sorted(enums.items()):
    carry = [('(' in v or '{' in v) for v in variants]
    if len(variants) == 2 and carry[0] or len(variants) == 3 and carry[0] and not all(carry):
        shaped.append(f'{file}: {name}')
say('1', 'own enums of the shape of Option or Result', shaped)
say('1', 'functions that answer with the number of a refusal, 0 for none',
    [at(f) for f in functions if f.result == 'u8' and ('refusal' in f.name or f.name == 'then_ask')])
say('1', 'questions asked in numbers (calls of then_ask)',
    [at(f) for f in functions for _ in re.findall(r'\bthen_ask\(', f.body)])
codes = []
for f in functions:
    kinds = [p.split(':')[1].strip() for p in f.params.split(',') if ':' in p]
    if len(kinds) == 1 and (kinds[0] in enums and f.result in ('u8', 'u16') or kinds[0] == 'u8' and f.result in enums):
        codes.append(at(f))
say('1', 'functions between an enum and a number', codes)

# 2: functions of one shape
shapes = collections.defaultdict(list)
for f in functions:
    tokens = re.findall(r'b?"[^"]*"|b\'[^\']*\'|\w+|[^\w\s]', f.body)
    words = {'if', 'else', 'match', 'let', 'mut', 'return', 'while', 'for', 'in', 'as', 'true', 'false', 'self'}
    shape = ' '.join(t if t in words or not re.match(r'\w|b?"|b\'', t) else '_' for t in tokens)
    if len(tokens) >= 24:
        shapes[shape].append(at(f))
twins = [' ~ '.join(v) for v in shapes.values() if len(v) > 1]
say('2', 'groups of functions whose bodies have one shape (24 tokens or more)', twins)

# 3: loops by hand
say('3', 'while loops', [at(f) for f in functions for _ in re.findall(r'\bwhile\b', f.body)])
say('3', 'for loops over a range of places', [at(f) for f in functions for _ in re.findall(r'\bfor \w+ in [^{]*\.\.', f.body)])

# 4: tests, least, conversions and copies by hand
tests = []
for f in functions:
    arms = re.findall(r'=>\s*([^,{}]+|\{[^{}]*\}),?', f.body)
    if f.result == 'bool' and re.match(r'\{\s*match\b', f.body) and arms and all(a.strip() in ('true', 'false') for a in arms):
        tests.append(at(f))
say('4', 'tests of an enum written as a row of true and false', tests)
copied = []
for f in functions:
    for found in re.finditer(r'\b([A-Z]\w+) \{', f.body):
        body = f.body[found.end():matching(f.body, found.end() - 1, '{}') - 1]
        same = re.findall(r'\b(\w+): (?:self|[a-z]\w*)\.\1\b', body)
        if len(same) >= 2:
            copied.append(at(f))
say('4', 'structs rebuilt field by field (two fields or more copied)', copied)
say('4', 'least, difference and choice written by hand',
    [at(f) for f in functions
     if re.search(r'if (\w+) <=? (\w+) \{\s*(\1|\2)\b[^{}]*\} else \{\s*(\1|\2|0)\s*\}', f.body)
     or re.fullmatch(r'\{\s*if (\w+) \{\s*(\w+)\s*\} else \{\s*(\w+)\s*\}\s*\}', f.body)
     or re.search(r'if (\w+) <= (\w+) \{ (\2) - (\1) \} else \{ 0 \}', f.body)])
say('4', 'numbers of several bytes put together or taken apart by hand',
    [at(f) for f in functions if re.search(r'\* 256 \+|% 256|/ 256|0x1000000', f.body)])

# 5: facts that stand in three contracts or more, parameters that travel together
facts = collections.defaultdict(set)
for f in functions:
    for found in re.finditer(r'requires\b[^{]*\{', f.contract):
        clause = f.contract[found.end():matching(f.contract, found.end() - 1, '{}') - 1]
        for part in clause.split('×'):
            part = re.sub(r'\s+', ' ', part).strip()
            while part.startswith('(') and part.endswith(')'):
                part = part[1:-1].strip()
            part = re.sub(r'\.(now|old|new)\b', '', part)
            facts[(f.crate, part)].add(f.name)
say('5', 'facts that stand in the contracts of three functions of a crate or more',
    [f'{c}: {p}: {", ".join(sorted(n))}' for (c, p), n in sorted(facts.items()) if len(n) >= 3])
groups = collections.defaultdict(set)
for f in functions:
    params = [re.sub(r'\s+', ' ', p).strip() for p in f.params.split(',')]
    params = [p for p in params if ':' in p]
    for i in range(len(params) - 2):
        groups[(f.crate, tuple(params[i:i + 3]))].add(f.name)
say('5', 'three parameters that stand side by side in three functions of a crate or more',
    [f'{c}: {", ".join(p)}: {", ".join(sorted(n))}' for (c, p), n in sorted(groups.items()) if len(n) >= 3])

# 6: a buffer with a length or a place beside it
beside = []
for file in files:
    text = without_comments(open(file, encoding='utf-8').read())
    for found in re.finditer(r'\bstruct (\w+)[^;{(]*(\([^)]*\)|\{[^}]*\})', text):
        if re.search(r'\[u8; \w+\]', found.group(2)) and re.search(r'\b(len|length|usize)\b', found.group(2)):
            beside.append(f'{file}: {found.group(1)}')
say('6', 'structs of an array and a length', beside)
say('6', 'functions that take a buffer and a place in it',
    [at(f) for f in functions if re.search(r'&mut \[u8\],\s*(at|from|before|held): (usize|u16)', f.params)])

# 7: which step to run
say('7', 'matches whose arms run one of several steps',
    [at(f) for f in functions for m in re.finditer(r'\bmatch (verb|request|flow|header|read)\b', f.body)])

# 8: proofs
proofs = sorted(glob.glob('crates/*/proofs/**/*.antt', recursive=True))
say('8', 'files of answers', [p for p in proofs if p.endswith('/Answers.antt')])
print('8', sum(1 for p in proofs for _ in open(p, encoding='utf-8')), 'lines of proofs in', len(proofs), 'files')
print('  ', sum(1 for p in files for _ in open(p, encoding='utf-8')), 'lines of code in', len(files), 'files')
