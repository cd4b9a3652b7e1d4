"""What the scripts here share: the crates of the repository, and which of them a crate's sources, definitions and proofs name."""
import os
import re

TOP = os.path.normpath(os.path.join(os.path.dirname(os.path.abspath(__file__)), '..'))
CRATES = os.path.join(TOP, 'crates')


def read(*parts):
    with open(os.path.join(TOP, *parts), encoding='utf-8') as it:
        return it.read()


def listed():
    """The crates of crates.txt, each with the libraries that its line lists."""
    found = {}
    for line in read('crates.txt').splitlines():
        line = line.split('#')[0].strip()
        if line:
            name, libraries = line.split(':', 1)
            found[name.split()[0]] = libraries.split()
    return found


def files_of(crate, *parts, ending=('.rt', '.antt')):
    for part in parts or ('src', 'specs', 'proofs'):
        for folder, folders, files in os.walk(os.path.join(CRATES, crate, part)):
            folders.sort()
            yield from (os.path.join(folder, file) for file in sorted(files) if file.endswith(ending))


def uses():
    """Which crates of the repository, and which libraries of the kit, the files of each crate name."""
    crates = listed()
    known = set(crates) | {library for libraries in crates.values() for library in libraries}
    found = {}
    for crate in crates:
        named = set()
        for file in files_of(crate):
            with open(file, encoding='utf-8') as it:
                text = re.sub(r'^\s*(//|--).*$', '', it.read(), flags=re.M)
            named |= set(re.findall(r'\bRattle\.(\w+)\.', text))
            if file.endswith('.rt'):
                named |= set(re.findall(r'^\s*(?:pub )?use (\w+)', text, re.M)) | set(re.findall(r'\b(\w+)::', text))
        found[crate] = named & known - {crate}
    return found


def nearest(uses):
    """Of what each crate names what it reaches by nothing else that it names: the rest follows."""
    below = {}

    def all_below(crate):
        if crate not in below:
            below[crate] = set()
            for other in uses.get(crate, ()):
                below[crate] |= {other} | all_below(other)
        return below[crate]
    return {crate: {it for it in named if not any(it in all_below(other) for other in named if other != it)} for crate, named in uses.items()}


def first_sentence(text):
    """The first sentence of a comment, up to a colon or a full stop."""
    found = re.match(r'(.*?)(?:[.:](?:\s|$)|$)', ' '.join(text.split()))
    return found.group(1)


def crate_comment(crate):
    """The comment at the head of a crate's root."""
    file = os.path.join(CRATES, crate, 'src', 'lib.rt')
    if not os.path.isfile(file):
        file = os.path.join(CRATES, crate, 'src', 'main.rt')
    with open(file, encoding='utf-8') as it:
        return re.match(r'((?://![^\n]*\n)*)', it.read()).group(1).replace('//!', ' ')
