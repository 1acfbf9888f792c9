#!/usr/bin/env python3
"""Counts forms in the sources of a commit: python3 tools/forms.py twins COMMIT, or facts COMMIT.

twins: functions whose bodies are equal but for names and numbers.
facts: what the `requires` of three functions or more ask, and rows of four parameters that three functions or more take.
"""
import collections
import re
import subprocess
import sys

FUNCTION = re.compile(r'^( *)(?:pub )?(?:extern "C" )?fn (\w+)[^\n]*\n(?:.*?\n)??\1\{\n(.*?)^\1\}\n', re.M | re.S)
HEAD = re.compile(r'fn (\w+)[^(]*\(([^)]*)\)(.*?)^ *\{$', re.M | re.S)
KEPT = {'let', 'mut', 'if', 'else', 'while', 'for', 'in', 'return', 'match', 'loop', 'N', 'as', 'Some', 'None', 'Ok', 'Err'}


def git(*words):
    return subprocess.run(['git', *words], capture_output=True, text=True, check=True).stdout


def sources(commit):
    for path in git('ls-tree', '-r', '--name-only', commit).split():
        if re.match(r'crates/[^/]*/src/.*\.rt$', path):
            yield path.split('/')[1], git('show', f'{commit}:{path}')


def shape(body):
    body = re.sub(r'//.*', '', body)
    body = re.sub(r'0x[0-9a-f_]+|\b\d[\d_]*\w*\b', 'N', body)
    body = re.sub(r'\b[A-Za-z_]\w*\b', lambda word: word.group(0) if word.group(0) in KEPT else 'W', body)
    return re.sub(r'\s+', ' ', body)


def twins(commit):
    groups = collections.defaultdict(list)
    for crate, text in sources(commit):
        for found in FUNCTION.finditer(text):
            form = shape(found.group(3))
            if len(form) > 60:
                groups[form].append(f'{crate}::{found.group(2)}')
    several = sorted(group for group in groups.values() if len(group) > 1)
    for group in several:
        print(' '.join(group))
    print(sum(map(len, several)), 'functions in', len(several), 'groups')


def facts(commit):
    asked, rows = collections.defaultdict(set), collections.defaultdict(set)
    for crate, text in sources(commit):
        for found in HEAD.finditer(text):
            name = f'{crate}::{found.group(1)}'
            for clause in re.finditer(r'requires \w*\s*\{(.*?)\}\n', found.group(3) + '\n', re.S):
                for fact in clause.group(1).strip().split(' × '):
                    fact = re.sub(r'^\((.*)\)$', r'\1', re.sub(r'\s+', ' ', fact.strip()))
                    asked[fact].add(name)
            taken = [re.sub(r'\s+', ' ', part.strip()) for part in found.group(2).split(',') if ':' in part]
            taken = [part for part in taken if not part.startswith('rt:')]
            for first in range(len(taken) - 3):
                rows[', '.join(taken[first:first + 4])].add(name)
    for word, table in (('fact', asked), ('row', rows)):
        several = sorted(((what, names) for what, names in table.items() if len(names) > 2), key=lambda pair: -len(pair[1]))
        for what, names in several:
            print(len(names), what, '|', ' '.join(sorted(names)))
        print(len(several), f'{word}s')


if __name__ == '__main__':
    {'twins': twins, 'facts': facts}[sys.argv[1]](sys.argv[2])
