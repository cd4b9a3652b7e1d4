#!/usr/bin/env python3
"""Measures what the gate costs in minutes of processor, by crate, and writes it into docs/tables/minutes.md.

usage: tools/price.py RECORD COMMAND..          runs the command, as `rt ci --anew`, and writes what its checks took to the file RECORD
       tools/price.py [--write] RECORD..        prints the table of docs/tables/minutes.md with what was measured; with --write puts it there

`rt` prints no times. So this looks twice a second at the checks that run below the command, and takes of each the processor time that Linux tells last; what a check
takes in its last half second is left out. A line of RECORD has a crate, what was checked (proof, tests or edits), and the minutes. What the command takes
of what earlier runs kept has no line, and keeps its minutes in the table. The status of a measured command is the command's.
"""
import os
import re
import subprocess
import sys
import time
from collections import defaultdict

import checks

TOP = os.path.normpath(os.path.join(os.path.dirname(os.path.abspath(__file__)), '..'))
PAGE = os.path.join(TOP, 'docs', 'tables', 'minutes.md')
BEGIN, END = '<!-- tools/price.py writes from here -->\n', '<!-- to here -->\n'
HEAD = '| Crate | Functions | Minutes of its proof | of its tests | of its edits | Edits |\n|---|---|---|---|---|---|\n'
KINDS = ('proof', 'tests', 'edits')


def measure(record, command):
    """Runs a command, and records what the checks below it took."""
    seconds = {}
    ran = subprocess.Popen(command)
    while ran.poll() is None:
        for check in checks.running(ran.pid):
            seconds[check.process, check.began, check.crate, check.kind] = check.seconds
        time.sleep(0.5)
    sums = defaultdict(float)
    for (_, _, crate, kind), much in seconds.items():
        sums[crate, kind] += much
    with open(record, 'w', encoding='utf-8') as out:
        out.writelines(f'{crate}\t{kind}\t{much / 60:.2f}\n' for (crate, kind), much in sorted(sums.items()))
    return ran.returncode


def read_records(paths):
    """What records say, by crate and kind. The last one counts where several have the same."""
    found = {}
    for path in paths:
        with open(path, encoding='utf-8') as it:
            for crate, kind, minutes in (line.split('\t') for line in it.read().splitlines()):
                found[crate, kind] = float(minutes)
    return found


def crates():
    """All crates in the order of crates.txt."""
    with open(os.path.join(TOP, 'crates.txt'), encoding='utf-8') as it:
        return [line.split(':')[0].split()[0] for line in it if ':' in line and not line.startswith('#')]


def count_edits(crate):
    folder = os.path.join(TOP, 'crates', crate, 'must-fail')
    return len([it for it in os.listdir(folder) if it.endswith('.edit')]) if os.path.isdir(folder) else 0


def rows_of(table):
    """The functions of each crate of a table and its minutes, by their kinds, as they stand."""
    rows = {}
    for line in table.split('\n'):
        cells = [it.strip() for it in line.strip('|').split('|')]
        if len(cells) == 6 and cells[0].startswith('`'):
            rows[cells[0].strip('`')] = cells[1], dict(zip(KINDS, cells[2:5]))
    return rows


def table_with(rows, measured):
    """The table with what was measured, and the sums below it."""
    lines, sums, edits = [HEAD], dict.fromkeys(KINDS, 0.0), 0
    for crate in crates():
        functions, minutes = rows.get(crate, ('', {}))
        cells = [f'{measured[crate, kind]:.1f}' if (crate, kind) in measured else minutes.get(kind, '') for kind in KINDS]
        for kind, cell in zip(KINDS, cells):
            sums[kind] += float(cell or 0)
        edits += count_edits(crate)
        lines.append(f'| `{crate}` | {functions} | {" | ".join(cells)} | {count_edits(crate) or "none"} |\n')
    told = ', '.join(f'{kind} {sums[kind]:.0f}' if sums[kind] else f'{kind} not measured' for kind in KINDS)
    return ''.join([*lines, f'\nIn all {sum(sums.values()):.0f} minutes of processor: {told}. There are {edits} edits.\n'])


def update(paths, writes):
    with open(PAGE, encoding='utf-8') as it:
        text = it.read()
    found = re.search(f'{re.escape(BEGIN)}(.*?){re.escape(END)}', text, re.S)
    if not found:
        sys.exit(f'tools/price.py: {PAGE} lacks the marks {BEGIN.strip()} and {END.strip()}')
    table = table_with(rows_of(found[1]), read_records(paths))
    if not writes:
        print(table, end='')
        return 0
    with open(PAGE, 'w', encoding='utf-8') as out:
        out.write(text[:found.start(1)] + table + text[found.end(1):])
    return 0


def main(words):
    writes = words[:1] == ['--write']
    words = words[writes:]
    if not words:
        sys.exit(__doc__)
    if writes or all(map(os.path.isfile, words)):
        return update(words, writes)
    return measure(words[0], words[1:]) if len(words) > 1 else sys.exit(f'tools/price.py: there is no record {words[0]}')


if __name__ == '__main__':
    sys.exit(main(sys.argv[1:]))
