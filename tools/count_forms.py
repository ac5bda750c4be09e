#!/usr/bin/env python3
"""Counts forms of code that the language has plainer ones for, in crates/*/src and crates/*/proofs.

    python3 tools/count_forms.py [--list] [FOLDER]

FOLDER is the top of a checkout, by default this one. Each line is a form with its number of hits; --list
prints the hits too. A hit is a line to look at, and not always a place to change.
"""
import collections
import glob
import os
import re
import sys

ITEM = r'^ *(pub(\(crate\))? )?'
FIELD = r'^ +(pub(\(crate\))? )?'
LINES = [
    ('1a enums', ITEM + r'enum '),
    ('1b fields that are flags', FIELD + r'[a-z_]+: bool,'),
    ('1c a fault or refusal as an option', r'-> Option<(Fault|Refusal)>'),
    ('1d numbers for absence', r'or the number of rows|past each place|, or 4\.|const NONE'),
    ('1e numbers for kinds', r'\b(from|table): usize|\bnumber: u8|-> u(8|16)$'),
    ('3 loops that are no `for` over items', r'\bwhile |\bloop \{|\bfor [a-z_]+ in [^{]*\.\.'),
    ('4a comparing by hand', r'\bfn (same|among|clear|at_most|is_sooner|is_cheaper)\b|\.cmp\('),
    ('4b converting by hand', r'\bfn (code|cost_of|charge_of)\b|=> Ok\(Head'),
    ('4c printing by hand', r'\bfn (refused|show_refusal|words_of)\b.*(fmt|HostRuntime|String)|\bfn words_of'),
    ('6a arrays in fields', FIELD + r'[a-z_]+: \[[A-Za-z0-9]+; [A-Za-z0-9]+\],'),
    ('6b lengths in fields', FIELD + r'(count|length|planned|used|tail): usize,'),
    ('7 switches on a kind of step', r'\bmatch (billing|table|chance\.below)'),
]


def sources(top):
    for path in sorted(glob.glob(os.path.join(top, 'crates/*/src/*.rt'))):
        with open(path) as file:
            yield os.path.relpath(path, top), file.read()


def code(line):
    return not line.strip().startswith('//')


def split_top(text):
    parts, depth, now = [], 0, ''
    for i, char in enumerate(text):
        if char in '([{<':
            depth += 1
        elif char in ')]}' or (char == '>' and text[i - 1] != '-'):
            depth -= 1
        if char == ',' and depth == 0:
            parts.append(now)
            now = ''
        else:
            now += char
    return [part for part in parts + [now] if part.strip()]


def parameters(text):
    """Each function's name and its number of parameters."""
    text = re.sub(r'//[^\n]*', '', text)
    for found in re.finditer(r'\bfn (\w+)(<[^({]*>)?\(', text):
        depth, end = 1, found.end()
        while depth and end < len(text):
            depth += {'(': 1, ')': -1}.get(text[end], 0)
            end += 1
        yield found.group(1), len(split_top(text[found.end():end - 1]))


def main():
    arguments = [a for a in sys.argv[1:] if a != '--list']
    top = arguments[0] if arguments else os.path.dirname(os.path.dirname(os.path.abspath(__file__)))
    hits = {name: [] for name, _ in LINES}
    functions, types, facts, wide = (collections.defaultdict(list) for _ in range(4))
    for path, text in sources(top):
        for number, line in enumerate(text.split('\n'), 1):
            at = f'{path}:{number}'
            for name, pattern in LINES:
                if (name.startswith('1d') or code(line)) and re.search(pattern, line):
                    hits[name].append(f'{at}: {line.strip()}')
            for kind, names in (('fn', functions), ('(?:struct|enum|const)', types)):
                for found in re.findall(rf'\b{kind} ([A-Za-z_]+)', line if code(line) else ''):
                    names[found].append(at)
            if re.match(r' +requires', line):
                for fact in re.sub(r'^[^{]*\{ (.*) \}$', r'\1', line.rstrip()).split(' × '):
                    facts[fact.strip().strip('()')].append(at)
        for name, count in parameters(text):
            if count >= 7:
                wide[f'{path}: {name} takes {count}'].append(path)
    several = lambda names, least: [f'{n}: {" ".join(at)}' for n, at in names.items() if len(at) >= least]
    hits['2a function names that stand more than once'] = several(functions, 2)
    hits['2b type and constant names that stand more than once'] = several(types, 2)
    hits['5a facts that three or more functions require'] = several(facts, 3)
    hits['5b functions of seven or more parameters'] = list(wide)
    proofs = [open(p).read() for p in glob.glob(os.path.join(top, 'crates/*/proofs/**/*.antt'), recursive=True)]
    hits['8a answers to goals'] = [l for p in proofs for l in p.split('\n') if re.match(r'pub .* : goal\.', l)]
    hits['8b lines of proofs'] = [l for p in proofs for l in p.split('\n')[:-1]]
    for name in sorted(hits):
        print(f'{len(hits[name]):6} {name}')
        if '--list' in sys.argv and not name.startswith('8'):
            for hit in hits[name]:
                print(f'         {hit}')


main()
