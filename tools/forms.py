#!/usr/bin/env python3
"""Counts the places where the code could stand in another form, point by point.

    tools/forms.py          the counts
    tools/forms.py POINT    the places of one point, as file:line: text

It reads crates/*/src (and crates/*/proofs for point 8) as they stand. What it finds is what to look at; whether a place
stays, and why, is said beside it in the source and in docs/DESIGN-PASS.md.
"""
import collections
import glob
import re
import sys


def lines():
    for path in sorted(glob.glob('crates/*/src/**/*.rt', recursive=True)):
        for number, text in enumerate(open(path, encoding='utf-8'), 1):
            yield path, number, text.rstrip('\n')


def matching(pattern, skip=None):
    found = re.compile(pattern)
    for path, number, text in lines():
        code = text.split('//')[0]
        if found.search(code) and not (skip and re.search(skip, code)):
            yield f'{path}:{number}: {text.strip()}'


def enums():
    """Enums of two or three variants of which one has a value: the shapes of Option and Result."""
    for path in sorted(glob.glob('crates/*/src/**/*.rt', recursive=True)):
        text = open(path, encoding='utf-8').read()
        for m in re.finditer(r'^(?:pub )?enum (\w+)[^{]*\{(.*?)^\}', text, re.M | re.S):
            variants = [v for v in m[2].split('\n') if re.match(r'    \w', v)]
            if len(variants) <= 3 and any('(' in v for v in variants):
                yield f'{path}: enum {m[1]}: ' + ' '.join(v.strip() for v in variants)


def functions():
    """Each function's file, name, parameters and whole signature."""
    for path in sorted(glob.glob('crates/*/src/**/*.rt', recursive=True)):
        text = open(path, encoding='utf-8').read()
        for m in re.finditer(r'\bfn (\w+)(?:<[^(]*>)?\(([^)]*)\)([^{;]*)', text):
            names = re.findall(r'(?:^|,)\s*(?:mut )?(&?(?:\'\w+ )?(?:mut )?self|\w+)\b(?=\s*[:,]|\s*$)', m[2])
            yield path, m[1], names


def twins():
    where = collections.defaultdict(list)
    for path, name, _ in functions():
        if 'tests' not in path:
            where['fn ' + name].append(path)
    for path, number, text in lines():
        for m in re.finditer(r'^(?:pub )?(const \w+|enum \w+|struct \w+)', text):
            where[m[1]].append(path)
    for name, paths in sorted(where.items()):
        if len(paths) > 1:
            yield f'{name}: ' + ' '.join(paths)


def clauses():
    count = collections.Counter()
    for path in sorted(glob.glob('crates/*/src/**/*.rt', recursive=True)):
        crate = path.split('/')[1]
        for text in open(path, encoding='utf-8'):
            if re.match(r'\s+(ensures|requires)\b', text):
                count[crate, text.strip()] += 1
    for (crate, text), n in sorted(count.items()):
        if n >= 3:
            yield f'{crate}: {n} times: {text}'


def travellers():
    """Sets of three or more parameters of one name that stand together in three or more functions of a crate."""
    crates = collections.defaultdict(list)
    for path, name, names in functions():
        crates[path.split('/')[1]].append((name, frozenset(names)))
    for crate, all_functions in sorted(crates.items()):
        sets = collections.Counter()
        for i, (_, one) in enumerate(all_functions):
            for _, other in all_functions[:i]:
                common = one & other
                if len(common) >= 3:
                    sets[common] += 1
        for common in sets:
            having = [name for name, names in all_functions if common <= names]
            larger = any(common < other and [n for n, s in all_functions if other <= s] == having for other in sets)
            if len(having) >= 3 and not larger:
                yield f'{crate}: {", ".join(sorted(common))}: {" ".join(having)}'


def answers():
    for path in sorted(glob.glob('crates/*/proofs/**/Answers.antt', recursive=True)):
        for number, text in enumerate(open(path, encoding='utf-8'), 1):
            if re.match(r'(abbrev )?pub [\w-]+ : goal\.', text) or re.match(r'pub [\w-]+ : goal\.', text):
                yield f'{path}:{number}: {text.strip()}'


POINTS = {
    '1a': ('an error or a none passed on by hand', lambda: matching(
        r'\bErr\(\w+\) => (return )?Err\(|\bNone => (return )?None\b|\bNone => (return )?Err\(|\bErr\(\w+\) => \{$'
        r'|\bOk\((\w+)\) => Ok\(\2\)')),
    '1b': ('own enums of two or three variants with a value', enums),
    '1c': ('numbers for kinds: constants, literals, arms', lambda: matching(
        r'const [A-Z_]+: u32 = [0-9]+;|kind: [0-9]+|^\s+[0-9]+ => ')),
    '2': ('functions, types and constants of one name in two places', twins),
    '3': ('loops that count by hand, and loops over a range', lambda: matching(
        r'\bwhile .*[<>]|\bloop \{|\bfor \w+ in [^{]*\.\.')),
    '4': ('equality, conversion and printing by hand', lambda: matching(
        r'fn fmt|impl.* From<|fn from_\w+\(|fn to_\w+\(|^    \w+ == \w+$|\.low == \w+\.low')),
    '5a': ('clauses that stand three times or more in a crate', clauses),
    '5b': ('parameters that travel together', travellers),
    '6': ('buffers with a length beside, lists searched by hand', lambda: matching(
        r'^\s+(pub )?(used|count|depth|upto|filled): usize|= \[0; \w+\];|\[&\[u8\]; \w+\]')),
    '7': ('function pointers, tables of functions, dyn', lambda: matching(r'\bdyn |: fn\(|\[fn\(|Box<')),
    '8': ('answers in proof files', answers),
}

wanted = sys.argv[1:] or None
for point, (what, places) in POINTS.items():
    if wanted and point not in wanted:
        continue
    found = list(places())
    if wanted:
        for place in found:
            print(place)
    print(f'{point}: {len(found)} {what}')
