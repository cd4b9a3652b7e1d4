#!/usr/bin/env python3
"""Prints the statements of a method with the INDEX of each, as boomer counts them: from 0, without labels and declarations.

usage: tools/number.py FILE METHOD
       tools/number.py FILE             prints the METHOD of each body in the file

METHOD is a text as '<Main: void main(java.lang.String[])>'. Labels stand between the statements, and traps behind them, without a number. A comment that
stands behind a statement is kept: there Soot puts the number of the line in Java, as /*12*/. The file has to be a program that boomer reads; of another one what
is printed may be wrong. The status is 1 where there is no such file, or no method with a body has the text.
"""
import sys

from jimple import pieces_of, read, run

MODIFIERS = set('abstract final native public protected private static synchronized transient volatile strictfp enum annotation'.split())
BEGINS_STATEMENT = set('''if goto tableswitch lookupswitch return ret throw entermonitor exitmonitor nop breakpoint
    specialinvoke virtualinvoke interfaceinvoke staticinvoke dynamicinvoke'''.split())


def text_of(owner, header):
    """The text of a method, of the words from its modifiers to the end of its parameters."""
    while header[0] in MODIFIERS:
        header = header[1:]
    opened = header.index('(')
    result, name, types = header[:opened - 1], header[opened - 1], header[opened:header.index(')') + 1]
    return f'<{owner}: {"".join(result)} {name}{"".join(types)}>'.replace("'", '')


def bodies_of(words):
    """Each method with a body: its text, and the numbers of the tokens with which the body begins and ends."""
    depth, owner, begins = 0, '', 0
    for at, word in enumerate(words):
        if depth == 0 and word in ('class', 'interface'):
            owner = words[at + 1]
        if depth == 1 and word == '{':
            text, body = text_of(owner, words[begins:at]), at + 1
        if depth == 2 and word == '}':
            yield text, body, at
        depth += (word == '{') - (word == '}')
        if depth == 1 and word in ('{', ';', '}'):
            begins = at + 1


def is_name(word):
    return word[0].isalpha() or word[0] in "$_'"


def lines_of(words, at, end):
    """The labels, the statements and the traps of a body, in order: whether it is a statement, and where it begins and ends."""
    while at < end:
        first, second = words[at], words[at + 1]
        if second == ':':
            yield False, at, at + 2
            at += 2
            continue
        close, depth = at, 0
        while depth or words[close] != ';':
            depth += (words[close] == '{') - (words[close] == '}')
            close += 1
        is_declaration = is_name(first) and first not in BEGINS_STATEMENT and (is_name(second) or words[at + 1:at + 3] == ['[', ']'])
        if first == 'catch' or not is_declaration:
            yield first != 'catch', at, close + 1
        at = close + 1


def tokens_and_comments(data):
    """The tokens of bytes, and of each the comments between it and the next one."""
    tokens, behind = [], []
    for is_comment, at, end in pieces_of(data):
        if not is_comment:
            tokens.append((at, end))
            behind.append([])
        elif behind:
            behind[-1].append(data[at:end])
    return tokens, behind


def as_line(*texts):
    """Texts in one line, with one blank where there were blanks or line feeds."""
    return ' '.join(b' '.join(texts).decode(errors='replace').split())


def main(file, method=None):
    data = read(file)
    tokens, behind = tokens_and_comments(data)
    words = [data[begin:end].decode(errors='replace') for begin, end in tokens]
    try:
        bodies = [body for body in bodies_of(words) if method in (None, body[0])]
        lines = list(lines_of(words, *bodies[0][1:])) if method and bodies else []
    except (IndexError, ValueError):
        return f'{file} is no program that boomer reads'
    if method is None:
        print(*(text for text, _, _ in bodies), sep='\n')
    index = 0
    for is_statement, at, end in lines:
        line = as_line(data[tokens[at][0]:tokens[end - 1][1]], *behind[end - 1] * is_statement)
        print(f'{index:5}  {line}' if is_statement else f'     {line}')
        index += is_statement
    return 0 if bodies else f'{file} has no method with a body' + (f' and the text {method}' if method else '')


if __name__ == '__main__':
    if not 2 <= len(sys.argv) <= 3:
        sys.exit(__doc__)
    run(main, *sys.argv[1:])
