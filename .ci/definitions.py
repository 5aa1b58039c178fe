"""Definitions of crates/*/specs: which there are, which each one cites, and which some clauses reach."""
import collections
import pathlib
import re

USE = re.compile(r'((?:pub |unfoldable |ghost )*)use Rattle\.(\w+)\.specs\.([\w.]+?)\.\{(.*)\};?$')
KIND = '(?:(?:abbrev|unfoldable|pub|record|data|instance) )'
# a definition begins at the margin, or two blanks from it in a module with parameters
HEAD = re.compile(rf'{KIND}+([^\s:({{]+)|  (?:pub )?(?:abbrev|unfoldable|record|data|instance) {KIND}*([^\s:({{]+)')
NAME = re.compile(r"[^\W\d][\w'⁻-]*")


class Definitions:
    """The definitions of one file: their lines by name, the names of constructors, and what is imported."""

    def __init__(self, path):
        self.imports, self.passed_on, self.lines, self.part_of = {}, {}, collections.defaultdict(list), {}
        current, is_data = None, False
        for line in path.read_text().splitlines():
            use, head = USE.match(line), HEAD.match(line)
            if use:
                for part in filter(None, map(str.strip, use[4].split(','))):
                    name, _, alias = part.partition(' as ')
                    self.imports[alias or name] = use[2], use[3], name
                    if 'pub ' in use[1]:
                        self.passed_on[alias or name] = use[2], use[3], name
            elif line.strip() and not re.match(r'\s*--|(pub )?use |module ', line):
                if head:
                    current, is_data = head[1] or head[2], 'data ' in line.partition(':')[0]
                    self.part_of[current] = current
                elif is_data and (constructor := re.match(r'\s+(?:pub )?(\S+) :', line)):
                    self.part_of[constructor[1]] = current
                if current:
                    self.lines[current].append(line)


files = {(it.parts[1], it.stem): Definitions(it) for it in pathlib.Path('crates').glob('*/specs/*.antt') if it.stem != 'Lib'}


def found(crate, file, name):
    """Where a name is defined, through files that pass it on; None where it is the kit's or a type of src/."""
    here = files.get((crate, file))
    if here and name in here.part_of:
        return crate, file, here.part_of[name]
    return found(*here.passed_on[name]) if here and name in here.passed_on else None


def cited(crate, file, name):
    """The definitions that one cites."""
    here = files[crate, file]
    text = re.sub(r'--.*', '', '\n'.join(here.lines[name]))
    names = set(NAME.findall(text))
    for operator in (it for it in {*here.part_of, *here.imports} if '◌' in it):
        if operator.strip('◌') in text or operator == '◌>>=◌' and re.search(r'\bdo\b', text):
            names.add(operator)
    for it in names:
        if it in here.part_of:
            yield crate, file, here.part_of[it]
        elif it in here.imports and (at := found(*here.imports[it])):
            yield at


def reached_from(*tops):
    """The definitions that the clauses of these files cite, those that these cite, and so on."""
    reached, left = set(), [at for top in tops for it in Definitions(top).imports.values() if (at := found(*it))]
    while left:
        it = left.pop()
        if it not in reached:
            reached.add(it)
            left += cited(*it)
    return reached
