#!/usr/bin/env python3
"""Checks what can be told of the documents without running a program.

usage: tests/pages.py

Looked at are README.md, docs/*.md and the READMEs of crates: words by page and in all, as `wc -w` counts them; lines of at most 160 columns, but for tables;
names in backquotes, each of which is a file, a crate, or a word of the sources, the scripts or the examples, or stands in tests/foreign.txt; links and
their headings; the rows of docs/FIELD.md, whose names stand in their files; and the records of docs/DECISIONS.md, of at most 60 words. It prints what isn't so; the status is 1 where anything isn't.
"""
import glob
import os
import re
import sys

TOP = os.path.normpath(os.path.join(os.path.dirname(os.path.abspath(__file__)), '..'))
LIMITS = {'README.md': 900, 'docs/MANUAL.md': 6500, 'docs/REFUSALS.md': 2000, 'docs/ARCHITECTURE.md': 4500, 'docs/CHECKING.md': 2500,
          'docs/DECISIONS.md': 4000, 'docs/PROVED.md': 4000, 'docs/DEFINITIONS.md': 5000, 'docs/FIELD.md': 600}
ALL, WIDTH = 30000, 160
FILE = re.compile(r'[\w./{},*-]+\.(rt|antt|sh|py|md|txt|c|edit|jimple|stdout|status|args)$|[\w.-]*/[\w./{},*-]*$')


def text_of(page):
    with open(os.path.join(TOP, page), encoding='utf-8') as it:
        return it.read()


def without_blocks(text):
    """The text with its blocks of code blanked, so that lines keep their numbers."""
    return re.sub(r'^ *```.*?^ *```$', lambda found: re.sub(r'[^\n]', '', found.group()), text, flags=re.M | re.S)


def known_words():
    """Each word of the sources, of scripts and of examples."""
    found = set()
    for pattern in ('crates/**/*', 'tests/*', 'tools/*', 'bench/**/*', 'examples/*', 'java/**/*', 'boomer', 'crates.txt', 'HANDLES', '.ci/run'):
        for file in glob.glob(os.path.join(TOP, pattern), recursive=True):
            parts = os.path.relpath(file, TOP).split(os.sep)
            if os.path.isfile(file) and 'out' not in parts and not file.endswith(('.md', 'foreign.txt')):
                with open(file, encoding='utf-8', errors='replace') as it:
                    found |= set(re.findall(r'\w+', it.read()))
                found |= set(re.findall(r'\w+', ' '.join(parts)))
    return found


def expanded(path):
    """What a path with braces means."""
    found = re.search(r'\{([^{}]*)\}', path)
    if not found:
        return [path]
    return [it for part in found.group(1).split(',') for it in expanded(path[:found.start()] + part + path[found.end():])]


def is_there(path, page):
    roots = ('', 'crates', 'docs', 'examples', os.path.join('crates', '*'), os.path.dirname(page))
    return any(glob.glob(os.path.join(TOP, root, path)) for root in roots)


def unknown_in(page, text, words, foreign):
    for span in re.findall(r'`([^`\n]+)`', without_blocks(text)):
        for word in span.split():
            word = word.rstrip('.,;')
            if word in foreign or span in foreign:
                continue
            if FILE.fullmatch(word) and not word.startswith('./boomer'):
                yield from (f'{page}: there is no {it}' for it in expanded(word) if not is_there(it, page))
            else:
                yield from (f'{page}: nothing is called {it} in `{span}`' for it in re.findall(r'\w+', word) if it not in words and not it.isdigit())


def slug(heading):
    text = re.sub(r'\[([^\]]*)\]\([^)]*\)', r'\1', heading).replace('`', '')
    return re.sub(r'[^\w\- ]', '', text.strip().lower()).replace(' ', '-')


def headings_of(page):
    return {slug(it) for it in re.findall(r'^#+ (.*)$', without_blocks(text_of(page)), re.M)}


def dead_links(page, text):
    for target in re.findall(r'\]\(([^)]+)\)', without_blocks(text)):
        if re.match(r'https?:', target):
            continue
        path, _, heading = target.partition('#')
        file = os.path.normpath(os.path.join(os.path.dirname(page), path)) if path else page
        if not os.path.exists(os.path.join(TOP, file)):
            yield f'{page}: the link {target} leads nowhere'
        elif heading and heading not in headings_of(file):
            yield f'{page}: the link {target} leads to no heading'


def wrong_in_field():
    for line in text_of('docs/FIELD.md').splitlines():
        cells = [it.strip() for it in line.strip().strip('|').split(' | ')]
        file = re.fullmatch(r'`([\w/]+\.(?:rt|antt))`', cells[-1])
        if file and is_there(file.group(1), 'docs/FIELD.md'):
            source = text_of(os.path.join('crates', file.group(1)))
            yield from (f'docs/FIELD.md: no {it} in {file.group(1)}' for it in re.findall(r'`(\w+)`', ' '.join(cells[:-1]))
                        if not re.search(rf'\b{it}\b', source))


def wrong_records():
    """Records of decisions: numbers from 1, and at most 60 words each."""
    found = re.findall(r'^### (\d+)\. .*\n((?:(?!#).*\n)*)', text_of('docs/DECISIONS.md'), re.M)
    if [int(number) for number, _ in found] != list(range(1, len(found) + 1)):
        yield 'docs/DECISIONS.md: the records don\'t go from 1 on'
    yield from (f'docs/DECISIONS.md: record {number} has {len(body.split())} words' for number, body in found if len(body.split()) > 60)


def main():
    pages = ['README.md'] + sorted(os.path.relpath(it, TOP) for it in glob.glob(os.path.join(TOP, 'docs', '*.md')))
    readmes = sorted(os.path.relpath(it, TOP) for it in glob.glob(os.path.join(TOP, 'crates', '*', 'README.md')))
    words, foreign = known_words(), set(text_of('tests/foreign.txt').splitlines())
    found, count = [], 0
    for page in pages + readmes:
        text = text_of(page)
        size = len(text.split())
        if page in pages:
            count += size
            if size > LIMITS.get(page, 0):
                found.append(f'{page} has {size} words, and may have {LIMITS.get(page, 0)}')
        elif len(text.splitlines()) > 30:
            found.append(f'{page} has {len(text.splitlines())} lines')
        found += [f'{page}:{number} is {len(line)} columns wide' for number, line in enumerate(text.splitlines(), 1)
                  if len(line) > WIDTH and not line.lstrip().startswith('|')]
        found += [*unknown_in(page, text, words, foreign), *dead_links(page, text)]
    if count > ALL:
        found.append(f'all pages have {count} words, and may have {ALL}')
    found += [*wrong_in_field(), *wrong_records()]
    print(*found, f'{len(pages)} pages and {len(readmes)} READMEs of crates, {count} words, {len(found)} wrong', sep='\n')
    return 1 if found else 0


if __name__ == '__main__':
    sys.exit(main() if len(sys.argv) == 1 else __doc__)
