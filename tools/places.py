#!/usr/bin/env python3
"""Lists places in src/ that an older form of the language may have left, point by point, and counts them.

usage: tools/places.py [ROOT]    ROOT: a checkout (this one, where none is given)

A line is a place to look at and no verdict; what stays has its reason beside it or in docs/DESIGN-PASS.md.
"""
import os
import re
import sys
from collections import Counter

ROOT = sys.argv[1] if len(sys.argv) > 1 else os.path.join(os.path.dirname(__file__), '..')

LINES = {
    # 1: an own Option, a flag or a sentinel in place of one, an Option in place of a Result, a number that says nothing
    '1 sentinel for none': r'None => \(?(?:0|false|count|Record|Facts)\b|\} else \{ 0 \}|unwrap_or\(0\)|: None => None',
    '1 refusal as an option': r'-> Option<(?:Refusal|Fault)>',
    '1 flag among values': r'^    (?:pub(?:\(crate\))? )?\w+: bool,$',
    '1 number of a kind': r'fn (?:number|from_number|notice|rule_of)\b.*(?:self|number|n): ?u?1?6?|fn (?:number|notice)\(self\)',
    '1 number that says nothing': r'^pub fn \w+(?:<.*>)?\(.*\) -> u8$',
    # 3: an index counted by hand
    '3 index counted': r'for \w+ in [01]\.\.',
    '3 loop that returns at the first': r'for \(\w+, \w+\) in .*enumerate\(\) \{|^    for \w+ in (?:list|xs|premises|citations|hypotheses|Verb::ALL) \{|^        for \w+ in (?:list|Verb::ALL) \{',
    # 4: equality, conversion and printing by hand
    '4 by hand': r'fn (?:same|number|from_number|notice|named|into_\w+|\w+_text|is_word)\b\(',
    '4 compared by number': r'\.number\(\) ==',
    '4 copied by hand': r'Some\((\w+)\) => \*\1,|EntryFacts \{$',
    # 6: a buffer with its length, parallel lists, a search by hand
    '6 buffer': r'^    (?:pub(?:\(crate\))? )?\w+: \[\w+; ?\d+\],$',
    '6 parallel lists': r'^    pub\(crate\) (?:records|facts): Vec',
    # 7: a switch on the step to run
    '7 switch on the step': r'^\s+(?:Command|HoldCall|Call|Rule)::\w+(?:\(.*\))? => (?:self\.|Ok\(Some\(self|is_)\w+',
}


def sources():
    crates = os.path.join(ROOT, 'crates')
    for crate in sorted(os.listdir(crates)):
        folder = os.path.join(crates, crate, 'src')
        for base, _, names in os.walk(folder):
            for name in sorted(names):
                if name.endswith('.rt'):
                    path = os.path.join(base, name)
                    with open(path) as f:
                        yield os.path.relpath(path, ROOT), f.read()


def own_options(path, text):
    """Enums of two variants, one of which holds nothing and the other something."""
    for m in re.finditer(r'enum (\w+) \{\n((?:    .*\n)+?)\}', text):
        variants = re.findall(r'^    (\w+)( \{.*\}|\(.*\))?,$', m.group(2), re.M)
        if len(variants) == 2 and sum(bool(v[1]) for v in variants) == 1:
            yield path, m.group(1)


def facts_said_often(texts):
    """Clauses, and lists of parameters, that stand on three functions of a crate or more."""
    clauses, params = Counter(), Counter()
    for path, text in texts:
        crate = path.split(os.sep)[1]
        for m in re.finditer(r'^\s+requires (?:\w+ )?\{ (.*) \}$', text, re.M):
            clauses[crate, m.group(1)] += 1
        for m in re.finditer(r'fn \w+(?:<[^>]*>)?\(([^)]*)\)', text):
            names = re.findall(r'(\w+): ', m.group(1))
            for a in range(len(names) - 1):
                params[crate, tuple(names[a:a + 2])] += 1
    for (crate, fact), n in sorted(clauses.items()):
        if n >= 3:
            yield f'{crate}: {fact} ({n} times)'
    for (crate, pair), n in sorted(params.items()):
        if n >= 3:
            yield f'{crate}: parameters {", ".join(pair)} ({n} times)'


WORDS = set('fn let mut if else match return for in while Some None Ok Err true false self Self'.split())


def shape(code):
    """The code with one letter for each name, number and text."""
    tokens = re.findall(r'"[^"]*"|\w+|[^\s\w]', re.sub(r'//.*', '', code))
    return tuple(t if t in WORDS or not re.match(r'["\w]', t) else 'x' for t in tokens)


def shapes(texts):
    """Functions of 20 tokens and impls of 60 that are of one shape, and structs of the same fields."""
    by_shape = {}
    for path, text in texts:
        for m in re.finditer(r'^( *)(?:pub(?:\(crate\))? )?(?:fn (\w+)|impl\b([^{]*)\{|struct (\w+)[^{;(]*\{)', text, re.M):
            close = re.compile('^' + m.group(1) + r'\}$', re.M).search(text, m.end())
            begin = m
            if m.group(2):
                begin = re.compile(r'\{$', re.M).search(text, m.end())
                if not begin or ';\n' in text[m.end():begin.start()]:
                    continue
            if not close or begin.end() > close.start():
                continue
            code = text[begin.end():close.start()]
            if m.group(4):
                key = tuple(sorted(re.findall(r'(\w+: [^,\n]+),', code)))
                few = not key
            else:
                key = shape(code)
                few = len(key) < (20 if m.group(2) else 60)
            if not few:
                name = m.group(2) or m.group(4) or 'impl' + m.group(3).rstrip()
                by_shape.setdefault(key, []).append(f'{path}: {name}')
    for places in by_shape.values():
        if len(places) > 1:
            yield ' ~ '.join(places)


def main():
    texts = list(sources())
    found = {}
    for label, pattern in LINES.items():
        found[label] = [f'{path}:{i}: {line.strip()}' for path, text in texts
                        for i, line in enumerate(text.split('\n'), 1) if re.search(pattern, line)]
    found['1 own option'] = [f'{p}: enum {n}' for path, text in texts for p, n in own_options(path, text)]
    found['2 bodies of one shape'] = list(shapes(texts))
    found['5 said often'] = list(facts_said_often(texts))
    for label in sorted(found):
        print(f'{label}: {len(found[label])}')
        for place in found[label]:
            print(f'    {place}')


main()
