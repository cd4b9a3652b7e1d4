#!/usr/bin/env python3
"""Prints the definitions behind the clauses of the top call: those that the clauses name, those that these name, and so on.

usage: tools/trusted.py                  behind all clauses of boom_top::boomer
       tools/trusted.py CLAUSE..         behind these clauses: `sound safe` is the headline
       tools/trusted.py FOLDER           the definitions of a folder, as crates/step_rules/specs, and those behind them
       tools/trusted.py FILE.rt          those that a source file brings by `ghost use`, and those behind them
       tools/trusted.py --check          compares what the pages say with this
       tools/trusted.py --write          writes the numbers into the pages

Who believes these definitions, the Rust types that they name and the kit need believe nothing else of the repository to believe those clauses. It counts by
definitions: of a file of which one definition is named, that one alone. A name is followed to where it is defined, also through files that pass it on by
`pub use`. For each file it prints the lines of these definitions, the lines of the file in all, and their names; then the types of Rust that they speak of,
and at the end `N lines`. Lines are those that are neither empty nor a comment, an import or the head of a block.

--check looks at the sentences of README.md and docs/DEFINITIONS.md that have a number from here (FIGURES, below). It prints what differs; the status is 1 where
something does. The list of all trusted definitions, docs/tables/trusted.md, is written and compared by tools/tables.py.
"""
import os
import re
import sys
from collections import defaultdict

TOP = os.path.normpath(os.path.join(os.path.dirname(os.path.abspath(__file__)), '..'))
CRATES = os.path.join(TOP, 'crates')
CALL = 'boom_top/src/top.rt', 'pub fn boomer'
HEADLINE = ('sound', 'safe')

# The sentences with a number from here: the page, the words, and of which clauses (all, where there are none) and crate it speaks. In the words N is the lines,
# D the definitions and F the files. Any white space may stand between the words.
FIGURES = [
    ('README.md', 'the definitions behind `sound` and `safe`: N lines', HEADLINE, None),
    ('docs/DEFINITIONS.md', 'All clauses rest on N lines, D definitions in F files', (), None),
    ('docs/DEFINITIONS.md', '`sound` and `safe` rest on N lines, D definitions in F files', HEADLINE, None),
]

USE = re.compile(r'\s*(?:ghost )?(?P<pub>pub )?use Rattle\.(?P<path>[^\s{;]+?)\.?(?:\{(?P<items>[^}]*)\}|\.(?P<all>\*))?(?: as (?P<alias>\S+?))?;?\s*$')
BLOCK = re.compile(r'\s*(mutual|module _ .*where)\s*$')
HEAD = re.compile(r'(?P<words>(?:(?:pub|abbrev|unfoldable|opaque|pattern|record|data) )*)(?P<name>[^\s:({]+)(?= [:({]|:)')
CONSTRUCTORS = re.compile(r'\s+((?:[^\s:({→]+ )+): ')
NAME = re.compile(r'[^\s(){}\[\],;."]+(?:\.[^\s(){}\[\],;."]+)*')
NO_NAMES = re.compile(r'--[^\n]*|"(?:[^"\\]|\\.)*"')


class Scope:
    """What the `use` lines of a text bring: things by their names, and modules by theirs. A thing is (module, name); modules are named without `Rattle`."""

    def __init__(self, lines):
        self.things, self.modules, self.passed, self.passes_all = {}, {}, {}, []
        for found in filter(None, map(USE.match, lines)):
            path = found['path']
            if found['items'] is not None:
                self.add_items(path, found['items'], found['pub'])
            elif found['all']:
                self.passes_all += [path] * bool(found['pub'])
            else:
                self.modules[found['alias'] or path.split('.')[-1]] = path

    def add_items(self, path, items, is_passed):
        for item in filter(None, map(str.strip, items.split(','))):
            name, _, alias = item.partition(' as ')
            # An operator, as ◌·◌, is written without its circles.
            self.things[(alias or name).strip('◌')] = (path, name)
            if is_passed:
                self.passed[alias or name] = (path, name)


class File:
    """A file of definitions: the lines of each, and the constructors with what they are of."""

    def __init__(self, path):
        with open(path, encoding='utf-8') as it:
            lines = it.read().split('\n')
        self.scope, self.definitions, self.constructors = Scope(lines), defaultdict(list), {}
        self.heads, name, is_data, block, depth = {}, None, False, '', 0
        for line in lines:
            indent = len(line) - len(line.lstrip())
            if not line.strip() or re.match(r'\s*(--|(pub )?mod [A-Z]|infix)', line) or USE.match(line):
                continue
            if BLOCK.match(line):
                block, depth, name = line, indent + 2, None
                continue
            if indent < depth:
                block, depth = '', 0
            head = HEAD.match(line.strip()) if indent == depth else None
            if head and (head['words'] or head['name'] not in self.definitions):
                name, is_data = head['name'], 'data ' in head['words']
                # What a block binds stands in front of each definition in it.
                self.heads[name] = block
            elif name and is_data and indent == depth + 2:
                for given in (CONSTRUCTORS.match(line) or ['', ''])[1].split():
                    self.constructors[given] = name
            if name:
                self.definitions[name].append(line)
        self.size = sum(map(len, self.definitions.values()))

    def text(self, name):
        return '\n'.join([self.heads[name], *self.definitions[name]])


class Definitions:
    """All files of definitions below crates/, by the names of their modules."""

    def __init__(self):
        self.files, self.paths = {}, {}
        for crate in os.listdir(CRATES):
            for at, _, names in os.walk(os.path.join(CRATES, crate, 'specs')):
                for name in names:
                    path = os.path.relpath(os.path.join(at, name), CRATES)
                    module = path[:-len('.antt')].replace(os.sep, '.').removesuffix('.Lib')
                    self.files[module], self.paths[module] = File(os.path.join(at, name)), path

    def resolve(self, module, name):
        """Where a name of a module is defined, as (module, name); a constructor is where its type is. What isn't defined below crates/ stays as it is."""
        file = self.files.get(module)
        if file is None or name in file.definitions:
            return module, name
        if name in file.constructors:
            return module, file.constructors[name]
        if name in file.scope.passed:
            return self.resolve(*file.scope.passed[name])
        for other in file.scope.passes_all:
            found = self.resolve(other, name)
            if found[0] in self.files and found[1] in self.files[found[0]].definitions:
                return found
        return module, name

    def named_in(self, text, scope, own=None):
        """The things that a text names, in the scope of its file; own is the module that the text stands in."""
        found = set()
        for name in NAME.findall(NO_NAMES.sub('', text)):
            first, *more = name.split('.')
            if first in scope.things:
                found.add(self.resolve(*scope.things[first]))
            elif first in scope.modules and more:
                found.add(self.resolve(scope.modules[first], more[0]))
            elif own:
                found.add(self.resolve(own, first))
        return found

    def behind(self, things):
        """The definitions that things lead to, themselves too, and the types of Rust that these speak of."""
        waiting, found, types = list(things), set(), set()
        while waiting:
            module, name = waiting.pop()
            file = self.files.get(module)
            if file is None and '.specs.declared.' in module and os.path.isdir(os.path.join(CRATES, module.split('.')[0])):
                types.add(re.sub(r'\.specs\.declared|\.TheVariants', '', module))
            if file and name in file.definitions and (module, name) not in found:
                found.add((module, name))
                waiting += self.named_in(file.text(name), file.scope, module)
        return found, types

    def lines(self, things):
        return sum(len(self.files[module].definitions[name]) for module, name in things)


def clauses_of(path, function):
    """The clauses of a function in a source file by their names, and the scope of the file."""
    with open(os.path.join(CRATES, path), encoding='utf-8') as it:
        text = it.read()
    contract = text[text.index(function):]
    contract = contract[:contract.index('\n{')]
    clauses = {}
    for head in re.finditer(r'^    (requires|ensures) (?:\* )?(\w+ )?\{', contract, re.M):
        at, depth = head.end(), 1
        while depth:
            depth += {'{': 1, '}': -1}.get(contract[at], 0)
            at += 1
        clauses[(head[2] or head[1]).strip()] = contract[head.end():at - 1]
    return clauses, Scope(text.split('\n'))


def behind_clauses(all_of, names):
    """What stands behind clauses of the top call, all where no names are given."""
    clauses, scope = clauses_of(*CALL)
    for name in names:
        if name not in clauses:
            sys.exit(f'tools/trusted.py: {name} is no clause of boom_top::boomer, which has {" ".join(clauses)}')
    return all_of.behind(set().union(*[all_of.named_in(clauses[name], scope) for name in names or clauses]))


def behind_path(all_of, path):
    """What stands behind a folder of definitions, or behind a source file's imports."""
    if os.path.isdir(path):
        inside = os.path.relpath(path, CRATES) + os.sep
        modules = [module for module, file in all_of.paths.items() if file.startswith(inside)]
        return all_of.behind({(module, name) for module in modules for name in all_of.files[module].definitions})
    with open(path, encoding='utf-8') as it:
        return all_of.behind({all_of.resolve(*thing) for thing in Scope(it.read().split('\n')).things.values()})


def show(all_of, found, types):
    by_module = defaultdict(list)
    for module, name in found:
        by_module[module].append(name)
    for module in sorted(by_module, key=all_of.paths.get):
        used, names = all_of.lines((module, name) for name in by_module[module]), ', '.join(sorted(by_module[module]))
        print(f'{used:5} of {all_of.files[module].size:4}  {all_of.paths[module]}: {names}')
    print(f'types of Rust: {", ".join(sorted(types))}')
    print(f'{len(found)} definitions in {len(by_module)} files of {len({module.split(".")[0] for module in by_module})} crates')
    print(f'{all_of.lines(found)} lines')


def figures(all_of):
    """Each sentence of FIGURES: its page, its words, a pattern for it with any numbers, and the text that it should have."""
    for page, words, clauses, crate in FIGURES:
        found = {(module, name) for module, name in behind_clauses(all_of, clauses)[0] if crate in (None, module.split('.')[0])}
        numbers = {'N': all_of.lines(found), 'D': len(found), 'F': len({module for module, _ in found})}
        parts = re.split(r'\b([NDF])\b', words)
        pattern = ''.join(r'[\d,]*\d' if part in numbers else r'\s+'.join(map(re.escape, part.split(' '))) for part in parts)
        yield page, words, pattern, ''.join(f'{numbers[part]:,}' if part in numbers else part for part in parts)


def with_figure(text, pattern, wanted):
    """A page's text with the numbers of a sentence as they should be: its white space stays."""
    numbers = iter(re.findall(r'[\d,]*\d', wanted))
    return re.sub(pattern, lambda found: re.sub(r'[\d,]*\d', lambda _: next(numbers), found[0]), text, count=1)


def compare(all_of, writes):
    """Compares the pages with the definitions, or writes the numbers, and returns what differs still."""
    wrong = []
    for page, words, pattern, wanted in figures(all_of):
        path = os.path.join(TOP, page)
        with open(path, encoding='utf-8') as it:
            text = it.read()
        found = re.search(pattern, text)
        if not found:
            wrong.append(f'{page}: no sentence has the words "{words}"')
        elif writes:
            with open(path, 'w', encoding='utf-8') as it:
                it.write(with_figure(text, pattern, wanted))
        elif ' '.join(found[0].split()) != wanted:
            wrong.append(f'{page}: "{" ".join(found[0].split())}" is now "{wanted}"')
    return wrong


def main(words):
    all_of = Definitions()
    if words in (['--check'], ['--write']):
        wrong = compare(all_of, words == ['--write'])
        print(*wrong, f'{len(wrong)} differences', sep='\n')
        return 1 if wrong else 0
    if len(words) == 1 and os.path.exists(words[0]):
        show(all_of, *behind_path(all_of, words[0]))
    else:
        show(all_of, *behind_clauses(all_of, words))
    return 0


if __name__ == '__main__':
    sys.exit(main(sys.argv[1:]))
