#!/usr/bin/env python3
"""Spells the repository's own definitions and lemmas as today's Rattle does: words in snake case, types and modules in camel case.

    python3 /opt/rattle/port/port.py && python3 tools/port_names.py

It was run once, at the top of the checkout, right after port.py. It reads every name that a file of specs/ or proofs/ declares (but for the goals
of a function's proof, whose names Rattle makes) and respells it wherever it stands: in antt, in ghost lines and clauses, and in the pages of docs/
between backticks. Names of Rattle source, strings and exported names stay. Where a lemma would fall together with a definition, it gets `_lem`.
"""
import glob
import re
import sys

TOKEN = re.compile(r'[^\s(){}\[\];,."`]+')
SIGNATURE = re.compile(r"^((?:(?:abbrev|unfoldable|pub)\s+)*)(?:(record|data|ruleset)\s+)?([^\s:({=]+)\s*(?:[:={(]|$)")
FIELD = re.compile(r"^\s+(?:(?:abbrev|unfoldable|pub) )*([^\s:(){}]+(?: [^\s:(){}]+)*)\s+:(?:\s|$)")
ALIAS = re.compile(r"^use \S+ as ([a-z]\S*)$")
GOAL = re.compile(r':\s*(tie\.|\{M : Type 1\} → statement)')
WORDS = {'mod', 'use', 'where', 'unfolding', '--', 'let', 'in', 'elim', 'record', 'data', 'ruleset', 'syntax'}


def snake(name):
    name = re.sub(r'([a-z0-9])([A-Z])', r'\1_\2', name)
    name = re.sub(r'([A-Z]+)([A-Z][a-z])', r'\1_\2', name)
    return name.replace('-', '_').lower()


def is_constant(name):
    return re.fullmatch(r'[A-Z0-9-]+', name) is not None


def respelled(name):
    if name == 'Handed-out':
        return 'handed_out_rules'
    if is_constant(name):
        return name.replace('-', '_')
    if '-' in name or name[:1].islower():
        return snake(name)
    return name


def antt_files():
    files = glob.glob('crates/*/specs/**/*.antt', recursive=True) + glob.glob('crates/*/proofs/**/*.antt', recursive=True)
    return sorted(files)


def declared_in(path):
    """The names that a file declares, and whether a line of it is a goal of Rattle's making."""
    names = set()
    lines = open(path, encoding='utf-8').read().split('\n')
    for number, line in enumerate(lines):
        m = SIGNATURE.match(line)
        if m and m.group(3) not in WORDS:
            is_typed = re.match(r'^(?:(?:abbrev|unfoldable|pub)\s+)*\S+\s*(:|$)', line)
            if m.group(2) or is_typed and (':' in line or lines[number + 1:number + 2] and lines[number + 1].lstrip().startswith(':')):
                if not GOAL.search(line):
                    names.add(m.group(3))
        m = ALIAS.match(line)
        if m and m.group(1) != 'tie':
            names.add(m.group(1))
        m = FIELD.match(line)
        if m and not line.lstrip().startswith(('--', 'let ', 'λ', 'elim')):
            names.update(m.group(1).split())
    return {n for n in names if re.match(r"^[A-Za-z]", n)}


def spelling():
    declared = {}
    for path in antt_files():
        for name in declared_in(path):
            declared.setdefault(name, set()).add(path)
    moved = {n: respelled(n) for n in declared if respelled(n) != n}
    stands = {}
    for path in sources():
        for word in set(TOKEN.findall(open(path, encoding='utf-8').read())):
            stands.setdefault(word, set()).add(path)
    # definitions first, in camel case, so that the lemma on them gives way; two that no file has both of may share a name
    holders = {}
    for name in sorted(declared, key=lambda n: (re.search(r'[a-z0-9][A-Z]', n) is None, '-' in n, n)):
        new = moved.get(name, name)
        here = stands.get(name, set())
        while here & holders.get(new, set()):
            new += '_lem'
        holders.setdefault(new, set()).update(here)
        if new != name:
            moved[name] = new
    return moved, declared


def sources():
    return antt_files() + sorted(glob.glob('crates/*/src/**/*.rt', recursive=True))


def foreign(text):
    """Names that a file imports from elsewhere than this repository: they stay."""
    ours = {path.split('/')[1] for path in glob.glob('crates/*')}
    names = set()
    for root, items in re.findall(r'use ([\w.·]+)\.\{([^}]*)\}', text):
        parts = re.split(r'[.·]', root)
        if not (parts[0] == 'Rattle' and len(parts) > 1 and parts[1] in ours):
            names.update(word for item in items.split(',') for word in item.split())
    return names


def respell_code(text, moved):
    return TOKEN.sub(lambda m: moved.get(m.group(0), m.group(0)), text)


def respell_steps(text, moved):
    """In a function's proof a name behind a dot may be a step that Rattle names after the source: it never gets `_lem`."""
    lemmas = '|'.join(re.escape(old) for old, new in moved.items() if new.endswith('_lem'))
    return re.sub(r'(?<=\.)(' + lemmas + r")(?![\w'-])", lambda m: snake(m.group(1)), text)


def respell_comment(text, moved):
    camel = {k: v for k, v in moved.items() if '-' not in k and re.search(r'[a-z0-9][A-Z]', k)}
    text = re.sub(r'`[^`]*`', lambda m: respell_code(m.group(0), moved), text)
    return respell_code(text, camel)


def respell_line(line, moved, mark):
    """Code and comment of a line; strings stay."""
    out, rest = '', line
    while rest:
        m = re.search(r'"(?:[^"\\]|\\.)*"|' + mark, rest)
        if not m:
            return out + respell_code(rest, moved)
        out += respell_code(rest[:m.start()], moved)
        if m.group(0).startswith('"'):
            out += m.group(0)
            rest = rest[m.end():]
        else:
            return out + respell_comment(rest[m.start():], moved)
    return out


def main():
    moved, declared = spelling()
    for path in sources():
        text = open(path, encoding='utf-8').read()
        mark = r'//' if path.endswith('.rt') else r'(?:(?<=\s)|^)--(?=\s|$)'
        away = foreign(text)
        if path.endswith('/Proof.antt'):
            text = respell_steps(text, moved)
        here = {old: new for old, new in moved.items() if old not in away}
        new = '\n'.join(respell_line(line, here, mark) for line in text.split('\n'))
        if '--report' in sys.argv:
            words = set(TOKEN.findall(text))
            for old in sorted(words & set(here)):
                if moved[old] in words and moved[old] not in declared:
                    print(path, old, moved[old])
        elif new != text:
            open(path, 'w', encoding='utf-8').write(new)
    if '--report' in sys.argv:
        for old, new in sorted(moved.items()):
            if new.endswith('_lem'):
                print('lemma', old, new)
        return
    for path in ['README.md'] + sorted(glob.glob('docs/**/*.md', recursive=True)):
        text = open(path, encoding='utf-8').read()
        new = re.sub(r'`[^`\n]*`', lambda m: respell_code(m.group(0), moved), text)
        if new != text:
            open(path, 'w', encoding='utf-8').write(new)
    with open('tools/port_names.txt', 'w', encoding='utf-8') as out:
        out.write(''.join(f'{old} {new}\n' for old, new in sorted(moved.items())))


main()
