#!/usr/bin/env python3
"""Facts that stand in the contracts of three functions or more, and pairs of parameters that three signatures or more have.

Run at the top of the repository, or with the folder of another checkout as the argument.
"""
import collections
import glob
import os
import re
import sys

FUNCTION = re.compile(r'(?:^|\n) *(?:pub |pub\(crate\) )?fn (\w+)(?:<[^(]*>)?\(')
CONTRACT = re.compile(r'((?:(?!\n *\{\n|\n *\{\}|;\n|\{\n).)*)', re.S)
CLAUSE = re.compile(r'(?:requires|ensures) ?\w* ?\{ (.*) \}')


def parameters(text, start):
    """The parameters of the function whose `(` ends at `start`, and where its contract begins."""
    depth, end = 1, start
    while depth:
        depth += {'(': 1, ')': -1}.get(text[end], 0)
        end += 1
    listed = re.split(r',(?![^<\[]*[>\]])', text[start:end - 1])
    typed = [re.sub(r'\s+', ' ', p.strip()).removeprefix('mut ') for p in listed]
    return [p for p in typed if p and not re.match(r'&?(mut )?self\b', p)], end


def read(folder):
    facts, pairs = collections.defaultdict(set), collections.defaultdict(set)
    for path in sorted(glob.glob(os.path.join(folder, 'crates/*/src/*.rt'))):
        text = open(path, encoding='utf-8').read()
        crate = path.split(os.sep)[-3]
        for found in FUNCTION.finditer(text):
            name = f'{crate}::{found.group(1)}'
            listed, end = parameters(text, found.end())
            for i, one in enumerate(listed):
                for other in listed[i + 1:]:
                    pairs[f'{one}, {other}'].add(name)
            for fact in CLAUSE.findall(CONTRACT.match(text[end:]).group(1)):
                facts[fact].add(name)
    return facts, pairs


def show(title, found):
    print(title)
    for what, names in sorted(found.items(), key=lambda x: (-len(x[1]), x[0])):
        if len(names) >= 3:
            print(f'  {len(names)}  {what}  in {", ".join(sorted(names))}')


facts, pairs = read(sys.argv[1] if len(sys.argv) > 1 else '.')
show('facts in the contracts of three functions or more', facts)
show('pairs of parameters in the signatures of three functions or more', pairs)
