#!/usr/bin/env python3
"""What certificates cost: `explain` beside `points-to`, and `replay`, over each `points-to` query of folders.

usage: bench/certificates.py [FOLDER..]

A query is a file NAME.args, a word a line, with its program in NAME, as in `bench/programs`, which is the folder where none is named: programs as Soot writes
them of small libraries. Figures are millions of instructions of the whole command, which `valgrind` counts, so it has to be there; memory is the greatest of
`explain`. `replay` is that of the longest certificate. It judges nothing. The program is that of ./boomer, which builds it first; BOOMER names another one.
"""
import glob
import os
import re
import subprocess
import sys

TOP = os.path.join(os.path.dirname(os.path.abspath(__file__)), '..')
sys.path[:0] = [os.path.join(TOP, 'bench'), os.path.join(TOP, 'tests')]
sys.dont_write_bytecode = True
from explained import parts  # noqa: E402
from queries import measure, program_to_run, room  # noqa: E402


def instructions(program, text, words):
    """Millions of instructions of a command, and its reply."""
    counted = ['valgrind', '--tool=callgrind', '--callgrind-out-file=/dev/null', program, *words]
    done = subprocess.run(counted, input=text.encode(), capture_output=True, check=False)
    return int(re.search(rb'Collected : (\d+)', done.stderr).group(1)) / 1e6, done.stdout.decode()


def main():
    program = program_to_run()
    print('query            points-to  explain  ratio  sites  lines  replay   memory', flush=True)
    plain, all_told = 0, 0
    for case in sorted(it for folder in sys.argv[1:] or [os.path.join(TOP, 'bench', 'programs')] for it in glob.glob(os.path.join(folder, '*.args'))):
        with open(case, encoding='utf-8') as it:
            words = it.read().split('\n')[:-1]
        with open(case[:-5], encoding='utf-8') as it:
            text = it.read()
        if words[0] != 'points-to':
            continue
        asked, _ = instructions(program, text, words)
        words[0] = 'explain'
        told, reply = instructions(program, text, words)
        _, memory, _, _ = measure(program, text, words, 300)
        found, _ = parts(reply)
        certificates = sorted((it for _, it in found), key=len)
        again = instructions(program, f'{text}\n%certificate\n{certificates[-1]}', ['replay', words[1], words[-1]])[0] if certificates else 0
        lines = sum(it.count('\n') for it in certificates)
        name = os.path.basename(case).split('.')[0]
        print(f'{name:<16} {asked:>9.1f} {told:>8.1f} {told / asked:>6.2f} {len(found):>6} {lines:>6} {again:>7.1f} {room(memory):>8}', flush=True)
        plain, all_told = plain + asked, all_told + told
    if plain:
        print(f'{"all":<16} {plain:>9.1f} {all_told:>8.1f} {all_told / plain:>6.2f}')


if __name__ == '__main__':
    main()
