#!/usr/bin/env python3
"""Gives a function another name: rename.py CRATE FILE OLD NEW [--definition] [IN..], at the top of a checkout; FILE is below the crate's src.

It changes the function, its calls and imports, the links in documents, the labels of its calls in proofs and edits, and the folder of its own
proofs: in the crate and in those that use it, or in the files and folders IN alone. With --definition the definition of this name in the crate's
specs goes with it, wherever the word stands but in plain comments. It then lists what is left of the old word in the crate.

    rename.py --imports    says which name is imported from a file of definitions or proofs that doesn't have it, in all crates

A text that the prover would refuse after minutes is often found by that in a second. Pages are left alone: .ci/pages.py names what is gone."""
import pathlib
import re
import sys

CRATES = pathlib.Path('crates')
KINDS = ('.rt', '.antt', '.edit')


def users(crate):
    """The crates whose line names this one."""
    for line in pathlib.Path('crates.txt').read_text().splitlines():
        name, _, below = line.partition('#')[0].partition(':')
        if crate in below.split():
            yield name.strip()


def texts(places):
    """The files at and below these places that may have the name."""
    for place in places:
        for path in [place] if place.is_file() else sorted(place.rglob('*')):
            if path.suffix in KINDS and 'out' not in path.parts:
                yield path


class Name:
    """Where a word is the name of the function."""

    def __init__(self, old, new, is_definition):
        word = re.escape(old)
        self.new, self.is_definition = new, is_definition
        self.word = re.compile(rf'(?<!\w){word}(?!\w)')
        self.call = re.compile(rf'(?<!\w){word}(?=(?:::<[^()]*>|<[^()]*>)?\()')
        self.label = re.compile(rf'(?<=[.\-+]){word}(?!\w)|(?<!\w){word}(?=-)')
        self.folder = re.compile(rf'(?<=[.+]){word}(?=\.(?:Goals|Given|Met|Statement)\b)')

    def pattern(self, path):
        if self.is_definition:
            return self.word
        if path.suffix != '.antt':
            return self.call
        return self.label if path.name in ('Answers.antt', 'Invariants.antt', 'Proof.antt') else self.folder

    def line(self, path, line):
        """The line with the new name: in a comment only where the word is in backticks."""
        comment = re.search(r'(?:^|\s)--(?:\s|$)' if path.suffix == '.antt' else '//', line)
        at = comment.start() if comment else len(line)
        return self.pattern(path).sub(self.new, line[:at]) + re.sub('`[^`]*`', lambda it: self.word.sub(self.new, it[0]), line[at:])

    def text(self, path):
        text = path.read_text()
        changed = '\n'.join(self.line(path, line) for line in text.split('\n'))
        if path.suffix == '.rt':
            code = re.compile(r'(?m)^ *(?:pub(?:\(\w+\))? )?use [^;]*;')
            changed = code.sub(lambda it: self.word.sub(self.new, it[0]), changed)
        if changed != text:
            path.write_text(changed)
        return changed != text


def move_folders(crate, file, old, new):
    """The folder of the function's own proofs, and the paths in it."""
    top = (CRATES / crate / 'proofs' / file).with_suffix('')
    for folder in sorted(top.rglob('*'), reverse=True) if top.exists() else ():
        if folder.is_dir() and folder.name.lstrip('+') == old:
            moved = folder.rename(folder.with_name(folder.name.replace(old, new)))
            for path in moved.rglob('*.antt'):
                path.write_text(re.sub(rf'(?<=[.+]){re.escape(old)}(?=\.(?:Goals|Given)\b)', new, path.read_text()))


def rename(crate, file, old, new, is_definition, places):
    places = [CRATES / it if (CRATES / it).exists() else pathlib.Path(it) for it in places]
    places = places or [CRATES / it for it in (crate, *users(crate))]
    name = Name(old, new, is_definition)
    taken = [str(it) for it in texts([CRATES / crate]) if re.search(rf'(?<!\w){re.escape(new)}(?!\w)', it.read_text())]
    if taken:
        sys.exit(f'rename: {new} is there already: {" ".join(taken[:5])}')
    changed = [path for path in texts(places) if name.text(path)]
    move_folders(crate, file, old, new)
    for path in texts([CRATES / crate]):
        for number, line in enumerate(path.read_text().splitlines(), 1):
            if name.word.search(line) and not re.match(r'\s*(//|--)', line):
                print(f'{path}:{number}: {line.strip()[:100]}')
    print(f'rename: {len(changed)} files changed')


def imports():
    """What is imported from a file that doesn't have it."""
    found, words = [], {}
    for path in texts([CRATES]):
        for crate, part, module, names in re.findall(r'use Rattle\.(\w+)\.(specs|proofs)\.([\w.+]+)\.\{([^}]*)\}', path.read_text()):
            file = CRATES / crate / part / f'{module.replace(".", "/")}.antt'
            if not (CRATES / crate).exists() or re.match(r'declared|contracts|.*\.(Goals|Given|Met|Statement)$', module):
                continue
            if file not in words:
                words[file] = set(re.findall(r'[^\s(){};:,.]+', file.read_text())) if file.exists() else set()
            found += [f'{path}: {it} isn\'t in {file}' for it in (n.split(' as ')[0].strip() for n in names.split(',')) if it and it not in words[file]]
    print('\n'.join(found + [f'imports: {len(found)} failed']))
    return 1 if found else 0


if sys.argv[1:] == ['--imports']:
    sys.exit(imports())
options = [it for it in sys.argv[1:] if it != '--definition']
if len(options) < 4:
    sys.exit(__doc__.split('\n')[0])
rename(*options[:4], '--definition' in sys.argv, options[4:])
