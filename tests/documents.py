#!/usr/bin/env python3
"""Runs the commands in the documents, and compares what they print with what the documents say.

usage: tests/documents.py [--try]

Looked at are README.md and docs/*.md: a block that is one command of ./boomer, and the next block, its reply; a block with lines that begin with `$ `, each a
command of ./boomer or of tools/, and what stands below it; and in docs/REFUSALS.md each program with the reply behind it, to the command that stands at its
head. The commands of ./boomer are run by tests/cases.sh, which tells differences, with --try without proof. The status is 1 where something differs.
"""
import os
import re
import shlex
import subprocess
import sys
import tempfile

TOP = os.path.normpath(os.path.join(os.path.dirname(os.path.abspath(__file__)), '..'))


def blocks_of(page):
    """The blocks of code of a page, without their indentation."""
    with open(os.path.join(TOP, page), encoding='utf-8') as it:
        found = re.findall(r'^( *)```\w*\n(.*?)^ *```$', it.read(), re.M | re.S)
    return [re.sub('^' + indent, '', text, flags=re.M) for indent, text in found]


def commands_of(page):
    """The commands of a page, each with what it prints."""
    blocks = blocks_of(page)
    for block, following in zip(blocks, blocks[1:] + ['']):
        lines = block.splitlines()
        if block.startswith('./boomer ') and len(lines) == 1 and following:
            yield lines[0], following
        for line, printed in re.findall(r'^\$ (.*)\n((?:(?!\$ ).*\n)*)', block, re.M):
            yield line, printed


def refusals_of(page):
    """The programs of the page of refusals, each with the reply to its command."""
    blocks = blocks_of(page)
    words = shlex.split(next(it for it in blocks if it.startswith('boomer ')))[1:-2]
    for program, reply in zip(blocks, blocks[1:]):
        if reply.startswith('refused ') and 'class' in program:
            yield words, program, reply


def main(flags):
    wrong = ran = 0
    with tempfile.TemporaryDirectory() as folder:
        cases = []
        for page in ['README.md'] + sorted(f'docs/{name}' for name in os.listdir(os.path.join(TOP, 'docs')) if name.endswith('.md')):
            for line, printed in commands_of(page):
                words = shlex.split(line)
                if words[0] == './boomer':
                    name = words.pop() if '<' in words else None
                    cases.append((page, [it for it in words[1:] if it != '<'], open(os.path.join(TOP, name)).read() if name else '', printed))
                else:
                    ran += 1
                    said = subprocess.run(words, cwd=TOP, capture_output=True, text=True).stdout
                    if said.rstrip('\n') != printed.rstrip('\n'):
                        wrong += 1
                        print(f'== {page}: {line}\n{said}')
        cases += [('docs/REFUSALS.md', *case) for case in refusals_of('docs/REFUSALS.md')]
        for number, (page, words, program, reply) in enumerate(cases):
            case = os.path.join(folder, f'{number:03}-{os.path.basename(page)}')
            for ending, text in (('', program), ('.args', '\n'.join(words) + '\n'), ('.stdout', reply)):
                with open(case + ending, 'w', encoding='utf-8') as it:
                    it.write(text)
        print(f'{ran - wrong} of {ran} commands of tools as the documents say')
        told = subprocess.run([os.path.join(TOP, 'tests', 'cases.sh'), *flags, folder])
    return 1 if wrong or told.returncode else 0


if __name__ == '__main__':
    sys.exit(main(sys.argv[1:]) if sys.argv[1:] in ([], ['--try']) else __doc__)
