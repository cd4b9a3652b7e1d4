#!/usr/bin/env python3
"""Writes what the documents take from the sources.

usage: tools/tables.py [--check]

A short table stands in a page between two marks, `<!-- table NAME -->` and `<!-- end -->`; a long one is a page of its own in docs/tables. Without a flag
each is written anew. With --check nothing is written: what isn't as the sources are is printed, and the status is 1 where there is something.
"""
import os
import re
import sys
import textwrap

import trusted
from sources import CRATES, TOP, crate_comment, files_of, first_sentence, listed, nearest, read, uses

PAGES = ('README.md', 'docs/ARCHITECTURE.md', 'docs/MANUAL.md', 'docs/CHECKING.md', 'docs/DECISIONS.md', 'docs/PROVED.md')
MARK = re.compile(r'(<!-- table (\w+) -->\n)(.*?)(<!-- end -->)', re.S)
HEAD = '<!-- Written by tools/tables.py: change the sources, not this page. -->\n'


def row(*cells):
    return '| ' + ' | '.join(cells) + ' |\n' if all(cells) else '| ' + ' | '.join(cells).replace('|  |', '| |') + ' |\n'


def head(*cells):
    return row(*cells) + '|' + '---|' * len(cells) + '\n'


def crates():
    """Each crate, what the comment at the head of its root says that it is, and what it stands on; what these stand on themselves is left out."""
    on = nearest(uses())
    lines = [row(f'`{crate}`', short(crate_comment(crate)), ' '.join(f'`{it}`' for it in sorted(on[crate])) or '-') for crate in listed()]
    return head('Crate', 'What it is', 'Stands on') + ''.join(lines)


def short(text):
    """The beginning of a comment: up to a colon, where that says enough, or else its first sentence, up to a comma where it is long."""
    text = ' '.join(text.split())
    sentence = re.match(r'(.*?)(?:\.(?:\s|$)|$)', text).group(1)
    begin = re.split(r': |; ', sentence)[0]
    words = re.sub(r' \([^)]*\)', '', begin if len(begin.split()) > 4 else sentence).split()
    ends = [at for at, word in enumerate(words[:16]) if word.endswith(',') and at > 4]
    if len(words) <= 14 or not ends:
        return ' '.join(words)
    return re.sub(r', and \S+$', '', ' '.join(words[:ends[-1] + 1])[:-1])


def statuses():
    """The statuses with their numbers, and what the type says of each."""
    text = read('crates/boom_top/src/status.rt')
    numbers = dict(re.findall(r'Status::(\w+)[^=\n]* => (\d+),', text))
    lines = []
    for comment, name, field in re.findall(r'((?:    /// [^\n]*\n)+)    (\w+)(?: \{ (\w+): \w+ \}|\(\w+\))?,', text.split('impl Status')[0]):
        said = ' '.join(re.sub(r'^\s*///', '', line).strip() for line in comment.splitlines())
        said = re.sub(r' `\w+::NoMemory` never stands here\.', '', said)
        lines.append(row(numbers[name], f'`{name}`' + (f' {field.upper()}' if field and field != 'which' else ''), said))
    return head('Status', 'Name', 'Where') + ''.join(lines)


def records():
    """The records of decisions by number, with their titles."""
    found = re.findall(r'^### (\d+)\. (.*)$', read('docs/DECISIONS.md'), re.M)
    return textwrap.fill(' · '.join(f'{number} {title}' for number, title in found), 158) + '\n'


def edits():
    """How many edits that must be refused stand in each crate."""
    counts = {crate: len(edits_of(crate)) for crate in listed()}
    having = {crate: count for crate, count in counts.items() if count}
    by = {}
    for crate, count in having.items():
        by.setdefault(count, []).append(crate)
    lines = [row(str(count), ' '.join(f'`{crate}`' for crate in sorted(by[count]))) for count in sorted(by, reverse=True)]
    return head(f'Edits, {sum(having.values())} in {len(having)} crates', 'Crates with so many') + ''.join(lines)


def edits_of(crate):
    folder = os.path.join(CRATES, crate, 'must-fail')
    return sorted(os.listdir(folder)) if os.path.isdir(folder) else []


def scripts():
    """The scripts that a user runs, with the first sentence of each."""
    lines = []
    for folder in ('tests', 'tools'):
        for name in sorted(os.listdir(os.path.join(TOP, folder))):
            text = read(folder, name) if name.endswith(('.sh', '.py')) else ''
            if text.startswith('#!'):
                said = first_comment(text)
                lines.append(row(f'`{folder}/{name}`', said))
    return head('Script', 'What it does') + ''.join(lines)


def first_comment(text):
    """The first sentence of a script's comment."""
    if '"""' in text:
        return sentence_of(text.split('"""')[1])
    lines = [line[2:] for line in text.splitlines()[1:] if line.startswith('# ')]
    return sentence_of(' '.join(lines))


def sentence_of(text):
    return re.match(r'(.*?)(?:\.(?:\s|$)|$)', ' '.join(text.split())).group(1)


def entries():
    """The crates that ARCHITECTURE calls entry points: those in the first column of that table."""
    part = read('docs/ARCHITECTURE.md').split('\n## Entry points\n')[1].split('\n## ')[0]
    return re.findall(r'^\| `(\w+)` ', part, re.M)


def calls():
    """The public calls of the entry points, with the names of their clauses."""
    out = [HEAD, '# Public calls\n\n', 'The crates are those that [ARCHITECTURE](../ARCHITECTURE.md#entry-points) calls entry points. ',
           'A clause without a name stands as *ensures* or *requires*; `law` is a function without a body, whose clauses are statements on definitions.\n']
    for crate in entries():
        found = list(calls_of(crate))
        if found:
            out.append(f'\n## {crate}\n\n{sentence(crate_comment(crate))}\n\n')
            out.append(head('Call', 'File', 'Requires', 'Ensures', 'Says first'))
            out += [row(*call) for call in found]
    return ''.join(out)


def laws():
    """The laws of all crates but those of tests: free functions with an empty body, with what the comment says."""
    lines = []
    for crate in listed():
        for name, _, _, _, said in calls_of(crate):
            if name.startswith('law '):
                said = re.sub(r'^(A|The) laws?( that|:) |[][]', '', said)
                lines.append(row(f'`{crate}::{name[5:-1]}`', said[:1].upper() + said[1:]))
    return head('Law', 'Says') + ''.join(lines)


def sentence(text):
    return short(text) + '.'


def calls_of(crate):
    """The functions that a crate's root hands on, and those of the types and traits that it hands on: name, file, clauses, the first sentence of the comment."""
    root = os.path.join(CRATES, crate, 'src', 'lib.rt')
    if not os.path.isfile(root):
        return
    root = read('crates', crate, 'src', 'lib.rt')
    shown = set(re.findall(r'\w+', ' '.join(re.findall(r'^pub use ([^;]*);', root, re.M))))
    for file in files_of(crate, 'src', ending='.rt'):
        with open(file, encoding='utf-8') as it:
            lines = it.read().split('\n')
        where, comment, trait = os.path.relpath(file, os.path.join(CRATES, crate)), [], False
        owner = ''
        for number, line in enumerate(lines):
            outer = re.match(r'(pub )?(trait|impl)\b(.*)', line)
            if outer:
                owner, trait = name_of_owner(outer.group(3)), outer.group(2) == 'trait' and bool(outer.group(1))
            elif re.match(r'\S', line) and not line.startswith(('}', '//', '#', ')', 'where')):
                owner, trait = '', False
            if re.match(r'\s*///', line):
                comment.append(line.strip()[3:].strip())
                continue
            found = re.match(r'\s*(pub )?(?:ghost )?fn (\w+)', line)
            if found and (found.group(1) or trait and line.startswith('    fn')):
                needs, gives, is_law = clauses_of(lines, number)
                if (owner if line.startswith(' ') else found.group(2)) not in shown:
                    continue
                name = f'`{owner}::{found.group(2)}`' if owner and line.startswith(' ') else f'`{found.group(2)}`'
                yield ('law ' if is_law and not line.startswith(' ') else '') + name, f'`{where}`', needs or '-', gives or '-', cell(sentence_of(' '.join(comment)).split(': - ')[0]) or '-'
            if line.strip() and not line.strip().startswith('#'):
                comment = []


def cell(text):
    return text.replace('|', '\\|')


def name_of_owner(text):
    """The type of an impl, or the name of a trait."""
    text = re.sub(r'<[^<>]*>', '', re.sub(r'<[^<>]*>', '', re.sub(r'<[^<>]*>', '', text)))
    text = text.split(' for ')[-1]
    found = re.search(r'(\w+)', text)
    return found.group(1) if found else ''


def clauses_of(lines, number):
    """The clauses of the function that begins at a line, by their names in order, and whether its body is empty."""
    text = re.sub(r'//[^\n]*', '', '\n'.join(lines[number:number + 200]))
    needs, gives, at = [], [], 0
    while True:
        found = re.compile(r'\b(requires|ensures)(?:\s+(\w+))?\s*\{|\{|;').search(text, at)
        if not found:
            return ' '.join(needs), ' '.join(gives), False
        if not found.group(1):
            return ' '.join(needs), ' '.join(gives), bool(re.match(r'\{\s*\}', text[found.start():]))
        (needs if found.group(1) == 'requires' else gives).append(f'`{found.group(2)}`' if found.group(2) else f'*{found.group(1)}*')
        at, depth = found.end(), 1
        while depth:
            depth += {'{': 1, '}': -1}.get(text[at], 0)
            at += 1


def trusted_order():
    """The files of definitions that DEFINITIONS lists for an auditor, in order."""
    part = read('docs/DEFINITIONS.md').split('\n## For an auditor\n')[1].split('\n## ')[0]
    found = []
    for crate, names in re.findall(r'`(\w+)/specs/([\w{},]+)\.antt`', '\n'.join(line for line in part.splitlines() if line.startswith('| '))):
        found += [f'{crate}/specs/{name}.antt' for name in names.strip('{}').split(',')]
    return found


def comment_above(lines, at):
    """The comment right above a line of a file of definitions, of which a head of a block may stand between."""
    end = at
    while end and trusted.BLOCK.match(lines[end - 1]):
        end -= 1
    begin = end
    while begin and re.match(r'\s*--', lines[begin - 1]):
        begin -= 1
    return ' '.join(re.sub(r'^\s*--', '', line).strip() for line in lines[begin:end])


def definitions_of(file, names):
    """Of the definitions of a file those of some names, in order: the line, and what the comment says. Several in a row may have one comment."""
    lines, said, found = read('crates', file).split('\n'), '', []
    for at, line in enumerate(lines):
        head = trusted.HEAD.match(line.strip())
        if head and (head['words'] or head['name'] in names) and not trusted.USE.match(line) and head['name'] not in [it for _, it, _ in found]:
            said = comment_above(lines, at) or said
            if head['name'] in names:
                found.append((at + 1, head['name'], sentence_of(said)))
        elif not line.strip():
            said = ''
    return found


def trusted_table():
    """Each trusted definition, by files in the order for an auditor, and the types of Rust at the end."""
    all_of = trusted.Definitions()
    found, types = trusted.behind_clauses(all_of, ())
    headline = trusted.behind_clauses(all_of, trusted.HEADLINE)[0]
    by_file = {}
    for module, name in found:
        by_file.setdefault(all_of.paths[module], {})[name] = module
    order = trusted_order()
    wrong = [f'docs/DEFINITIONS.md lists {file} for an auditor, which isn\'t trusted' for file in order if file not in by_file]
    wrong += [f'docs/DEFINITIONS.md lacks {file} for an auditor' for file in sorted(set(by_file) - set(order))]
    wrong += [f'docs/DEFINITIONS.md lists {file} twice' for file in sorted({it for it in order if order.count(it) > 1})]
    if wrong:
        sys.exit('\n'.join(wrong))
    out = [HEAD, '# Trusted definitions\n\n', 'In the order of [DEFINITIONS](../DEFINITIONS.md#for-an-auditor). A definition with a star is behind `sound` or `safe`. ',
           'Lines are its own, without comments. What it means is the first sentence of its comment.\n']
    for file in order:
        names = by_file[file]
        out.append(f'\n## {file.replace("/specs/", ": ").removesuffix(".antt")}\n\n[{file}](../../crates/{file})\n\n')
        out.append(head('Definition', 'Line', 'Lines', 'What it means'))
        for line, name, said in definitions_of(file, names):
            module = names[name]
            star = ' *' if (module, name) in headline else ''
            out.append(row(f'`{name}`{star}', str(line), str(len(all_of.files[module].definitions[name])), cell(said) or '-'))
    out.append('\n## Types of Rust\n\n' + ', '.join(f'`{it}`' for it in sorted(types)) + '.\n')
    return ''.join(out)


TABLES = {'crates': crates, 'laws': laws, 'statuses': statuses, 'edits': edits, 'scripts': scripts, 'records': records}
WHOLE = {'docs/tables/calls.md': calls, 'docs/tables/trusted.md': trusted_table}


def filled(text):
    return MARK.sub(lambda found: found.group(1) + TABLES[found.group(2)]() + found.group(4), text)


def main(flags):
    wrong = 0
    for page in PAGES + tuple(WHOLE):
        file = os.path.join(TOP, page)
        if page not in WHOLE and not os.path.isfile(file):
            continue
        old = read(page) if os.path.isfile(file) else ''
        new = WHOLE[page]() if page in WHOLE else filled(old)
        if new == old:
            continue
        wrong += 1
        if flags:
            print(f'{page} isn\'t as the sources are: run tools/tables.py')
        else:
            with open(file, 'w', encoding='utf-8') as it:
                it.write(new)
            print(f'{page} was written')
    return 1 if flags and wrong else 0


if __name__ == '__main__':
    sys.exit(main(sys.argv[1:]) if sys.argv[1:] in ([], ['--check']) else __doc__)
