#!/usr/bin/env python3
"""Checks the figure of layers in docs/ARCHITECTURE.md against what the files of crates name.

usage: tests/figure.py

Each crate of crates.txt stands in it once. What a crate's sources, definitions and proofs name stands in a row below, or to its right in its row; crates of
tests may name any. The first 11 columns of a row say what it is, and `|` parts code from laws. crates.txt lists the uses that files name, and
no others. It prints each breach; the status is 1 where there is one.
"""
import os
import re
import sys

sys.path.insert(0, os.path.join(os.path.dirname(os.path.abspath(__file__)), '..', 'tools'))
from sources import listed, read, uses  # noqa: E402


def rows_of(page):
    """The crates of each row of the figure, by its label; a row without a label goes on with the one above."""
    found, label = [], ''
    for line in re.search(r'^```layers\n(.*?)^```$', read(page), re.M | re.S).group(1).splitlines():
        label = line[:11].strip() or label
        found.append((label, [name for name in line[11:].split() if name != '|']))
    return found


def breaches(figure, named):
    at, tests = {}, set()
    for number, (label, names) in enumerate(figure):
        for place, name in enumerate(names):
            if name in at:
                yield f'{name} stands twice in the figure'
            if name not in named:
                yield f'{name} stands in the figure, and is no crate'
            at[name] = (0 if label == 'tests' else number, place)
            if label == 'tests':
                tests.add(name)
    for crate, others in sorted(named.items()):
        if crate not in at:
            yield f'{crate} is missing in the figure'
        for other in sorted(others & set(at)):
            if crate in tests or crate not in at:
                continue
            if other in tests:
                yield f'{crate} names {other}, which is for tests'
            elif not (at[other][0] > at[crate][0] or at[other][0] == at[crate][0] and at[other][1] > at[crate][1]):
                yield f'{crate} names {other}, which stands above it or to its left'


def unnamed(named):
    """The uses that crates.txt lists and no file names."""
    return {f'{crate}: {other}' for crate, others in listed().items() for other in set(others) - named[crate]}


def unlisted(named):
    """The uses that a file names and crates.txt doesn't list."""
    return {f'{crate}: {other}' for crate, others in named.items() for other in others - set(listed()[crate])}


def main():
    named = uses()
    found = list(breaches(rows_of('docs/ARCHITECTURE.md'), named))
    found += [f'crates.txt lists a use that no file names: {it}' for it in sorted(unnamed(named))]
    found += [f'crates.txt lacks a use that a file names: {it}' for it in sorted(unlisted(named))]
    print(*found, f'{len(named)} crates, {len(found)} breaches in the figure of layers', sep='\n')
    return 1 if found else 0


if __name__ == '__main__':
    sys.exit(main() if len(sys.argv) == 1 else __doc__)
