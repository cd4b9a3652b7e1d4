#!/usr/bin/env python3
"""Asks `explain` about each `points-to` case of folders, and replays each certificate that it prints.

usage: tests/explained.py FOLDER..

The sites and the demand have to be those of `points-to`, `certificate` has to count the lines, and `replay` has to accept each certificate behind the program,
for the site under which it stands. It prints each difference, and how many certificates were replayed; the status is 1 where something differs. The program is
that of ./boomer, which builds it first; BOOMER names another one.
"""
import glob
import os
import subprocess
import sys

TOP = os.path.join(os.path.dirname(os.path.abspath(__file__)), '..')
PROGRAM = os.environ.get('BOOMER', os.path.join(TOP, 'boomer'))


def ask(words, text):
    done = subprocess.run([PROGRAM, *words], input=text, capture_output=True, check=False)
    return done.returncode, done.stdout.decode()


def parts(reply):
    """The sites of an explanation with their certificates, and the lines that are left: those of `points-to`."""
    lines, found, left = reply.splitlines(keepends=True), [], []
    at = 0
    while at < len(lines):
        left.append(lines[at])
        if lines[at].startswith('site '):
            count = int(lines[at + 2].split()[1])
            assert lines[at + 1].startswith('length ') and lines[at + 3].startswith('query ')
            found.append((lines[at], ''.join(lines[at + 3:at + 4 + count])))
            at += 3 + count
        at += 1
    return found, ''.join(left)


def main():
    replayed, wrong = 0, 0
    for folder in sys.argv[1:]:
        for case in sorted(glob.glob(os.path.join(folder, '*.args'))):
            with open(case, encoding='utf-8') as it:
                words = it.read().split('\n')[:-1]
            if words[0] != 'points-to':
                continue
            with open(case[:-5], 'rb') as it:
                text = it.read()
            plain, answer = ask(words, text)
            status, reply = ask(['explain', *words[1:]], text)
            found, left = parts(reply) if status == 0 else ([], reply)
            if status != plain or left != answer.replace('points-to ', 'explain ', 1):
                print(f'{case}: other sites than points-to')
                wrong += 1
            for site, certificate in found:
                ended = text if text.endswith(b'\n') or not text else text + b'\n'
                status, reply = ask(['replay', words[1], words[-1]], ended + b'%certificate\n' + certificate.encode())
                replayed += 1
                if status or site not in reply:
                    print(f'{case}: {site.strip()}: {reply.strip()}')
                    wrong += 1
    print(f'{replayed} certificates replayed, {wrong} wrong')
    return 1 if wrong or not replayed else 0


if __name__ == '__main__':
    sys.exit(main() if len(sys.argv) > 1 else __doc__)
