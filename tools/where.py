#!/usr/bin/env python3
"""Tells the line and the column of a token, by the number that `refused NotJimple` names, or of a byte, by that of `refused NotText`.

usage: tools/where.py FILE TOKEN
       tools/where.py --byte FILE BYTE

Both are counted from 0, and the number behind the last is the end of the file. It prints FILE:LINE:COLUMN, from 1, the column in characters, then the
line, and a mark below it. The status is 1 where there is no such file, token or byte.
"""
import sys

from jimple import read, run, tokens_of


def main(file, at, is_byte):
    data = read(file)
    starts = range(len(data) + 1) if is_byte else [begin for begin, _ in tokens_of(data)] + [len(data)]
    if at >= len(starts):
        return f'{file} has {len(starts) - 1} {"bytes" if is_byte else "tokens"}'
    byte = starts[at]
    begin = data.rfind(b'\n', 0, byte) + 1
    line = data[begin:].split(b'\n')[0].decode(errors='replace')
    before = data[begin:byte].decode(errors='replace')
    print(f'{file}:{data[:byte].count(10) + 1}:{len(before) + 1}')
    print(line)
    print(''.join('\t' if it == '\t' else ' ' for it in before) + '^')
    return 0


if __name__ == '__main__':
    is_byte = sys.argv[1:2] == ['--byte']
    words = sys.argv[1 + is_byte:]
    if len(words) != 2 or not words[1].isdecimal():
        sys.exit(__doc__)
    run(main, words[0], int(words[1]), is_byte)
