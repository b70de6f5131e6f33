#!/usr/bin/env python3
"""Counts the places of docs/DESIGN-PASS.md in src/, of a commit or of the tree as it lies.

    python3 tools/design/count.py [COMMIT] [-v]      -v names each place
"""
import collections
import os
import re
import subprocess
import sys

ARGS = [a for a in sys.argv[1:] if a != '-v']
WORDY = '-v' in sys.argv
COMMIT = ARGS[0] if ARGS else None

# What the variants of an enum are called that says why there is no value, or that there is none.
NO_VALUE = set('Unsound Refused Fails Failed Full Stray Nothing NotANode None Stuck Excess Unbound Longer Outside '
               'Unsuited BadPlan BadCatalogue Catalogue'.split())


def sources():
    if COMMIT:
        names = subprocess.run(['git', 'ls-tree', '-r', '--name-only', COMMIT, 'crates'], capture_output=True,
                               text=True, check=True).stdout.split('\n')
        for name in names:
            if re.fullmatch(r'crates/\w+/src/.*\.rt', name):
                yield name, subprocess.run(['git', 'show', f'{COMMIT}:{name}'], capture_output=True, text=True,
                                           check=True).stdout
    else:
        names = subprocess.run(['git', 'ls-files', '-co', '--exclude-standard', 'crates'], capture_output=True,
                               text=True, check=True).stdout.split('\n')
        for name in names:
            if re.fullmatch(r'crates/\w+/src/.*\.rt', name):
                if os.path.exists(name):
                    yield name, open(name, encoding='utf-8').read()


def functions(text):
    """Name, signature with its clauses, body."""
    lines = text.split('\n')
    for i, line in enumerate(lines):
        m = re.match(r'( *)(?:pub(?:\(crate\))? )?fn (\w+)', line)
        if not m:
            continue
        end = next(j for j in range(i, len(lines)) if lines[j] == m[1] + '}' or lines[j].endswith('{}'))
        whole = lines[i:end + 1]
        opens = next((k for k, x in enumerate(whole) if x == m[1] + '{'), None)
        if opens is None:
            opens = next(k for k, x in enumerate(whole) if x.endswith('{') or x.endswith('{}'))
        yield m[2], '\n'.join(whole[:opens]), '\n'.join(whole[opens + 1:])


def parts(fact):
    out, depth, word = [], 0, ''
    for c in fact:
        depth += (c in '({') - (c in ')}')
        if c == '×' and depth == 0:
            out.append(word)
            word = ''
        else:
            word += c
    return [p.strip() for p in out + [word]]


def required(signature):
    for m in re.finditer(r'requires(?: \w+)? \{', signature):
        depth, i = 1, m.end()
        while depth and i < len(signature):
            depth += (signature[i] == '{') - (signature[i] == '}')
            i += 1
        for p in parts(' '.join(signature[m.end():i - 1].split())):
            yield p[1:-1] if p.startswith('(') and p.endswith(')') else p


def shape(signature, body):
    """The text with every name, number and string as one sign, but for words of the language."""
    words = set('fn pub let mut if else match return while for in loop as break continue ref'.split())
    code = re.sub(r'//.*', '', signature + body)
    code = re.sub(r'b?"[^"]*"|b?\'[^\']*\'', 'S', code)
    code = re.sub(r'[A-Za-z_][A-Za-z_0-9.]*', lambda m: m[0] if m[0] in words else 'x', code)
    code = re.sub(r'\b[0-9][0-9a-fA-F_x]*\b', 'x', code)
    return re.sub(r'\s+', ' ', code)


def main():
    files = list(sources())
    all_functions = [(name, f, s, b) for name, text in files for f, s, b in functions(text)]
    found = collections.OrderedDict()

    enums = []
    for name, text in files:
        for m in re.finditer(r'^(?:pub )?enum (\w+) \{\n(.*?)^\}', text, re.M | re.S):
            variants = re.findall(r'^    ([A-Z]\w*)', m[2], re.M)
            if set(variants) & NO_VALUE and (len(variants) > 1) and re.search(r'^    [A-Z]\w*(\(| \{)', m[2], re.M):
                enums.append(f'{name}: enum {m[1]}')
            elif variants in (['AllNodes', 'NotANode'],):
                enums.append(f'{name}: enum {m[1]}')
    numbers = [f'{name}: {line.strip()}' for name, text in files for line in text.split('\n')
               if re.search(r'\b(refused|show_refusal)\(rt, (?:"[^"]*", )?\d|Told::Refused\(\d', line)]
    found['1 enums of the shape of Option or Result'] = enums
    found['1 a refusal written as a number'] = numbers

    shapes = collections.defaultdict(list)
    for name, f, s, b in all_functions:
        if len(b.split('\n')) > 2:
            shapes[shape(s, b)].append(f'{name}: {f}')
    found['2 functions of one shape'] = [x for group in shapes.values() if len(group) > 1 for x in group]

    found['3 while and loop'] = [f'{name}: {line.strip()}' for name, text in files for line in text.split('\n')
                                 if re.match(r"\s*(?:'\w+: )?(?:while|loop)\b", line)]

    hand = []
    for name, f, s, b in all_functions:
        code = b.strip().rstrip('}').strip()
        if re.search(r'-> (bool|usize|u8)', s) and (
                re.fullmatch(r'\w+ (==|<) \w+', code)
                or re.fullmatch(r'if (\w+) < (\w+) \{ \w+ \} else \{ \w+ \}', code)
                or re.fullmatch(r'match \w+(?:\.\w+)? \{\s*(?:[\w:]+(?:\(_\))? => (?:true|false|\d+),?\s*)+\}', code)):
            hand.append(f'{name}: {f}')
        if re.search(r'-> (Option<(?:Function|Axis)>|FunctionField|AxisField|Held|Number)', s) and f in (
                'function_of', 'axis_of', 'number_of'):
            hand.append(f'{name}: {f}')
    found['4 equality, order and conversion by hand'] = hand

    facts = collections.defaultdict(set)
    for name, f, s, b in all_functions:
        for p in required(s):
            facts[p].add(f'{name}: {f}')
    found['5 facts in the requires of three functions or more'] = [
        f'{len(at):3} {p}' for p, at in sorted(facts.items(), key=lambda x: -len(x[1])) if len(at) >= 3]

    found['6 a slice and how much of it counts, as two parameters'] = [
        f'{name}: {f}' for name, f, s, b in all_functions
        if re.search(r'\b(\w+): &(?:mut )?\[\w+\],\s*(?:rows|n|made|room|end): usize', s)]

    found['7 a match on which step to run'] = [
        f'{name}: {f}' for name, f, s, b in all_functions
        if re.search(r'match (?:task|gather|engine|maker|source|word) \{', b)]

    for title, places in found.items():
        print(f'{title}: {len(places)}')
        if WORDY:
            for p in places:
                print('    ' + p)


main()
