#!/usr/bin/env python3
"""Each specs/Lib.antt says which of its files are the meaning: libs.py [--write], at the top of a checkout.

The meaning is what the clauses of `ijtag` and of `ijtag_tools` reach. After it come laws and examples, which no clause reaches, and then how
the code goes: views, tables and notes that contracts of single functions speak of. A Lib that names its first group otherwise is ordered by
hand; there the meaning has to be in the first group, and others may be, too. A crate that has none of it may say what its own calls mean."""
import pathlib
import re
import sys

from definitions import reached_from

TOPS = [pathlib.Path(f'crates/{it}/src/top.rt') for it in ('ijtag_core', 'ijtag_tools')]
MEANING, LAWS, CODE = '-- the meaning', '-- laws and examples', '-- how the code goes'
meant = {(crate, file) for crate, file, _ in reached_from(*TOPS)}


def group_of(crate, file):
    """The group that a file belongs to."""
    if (crate, file) in meant:
        return MEANING
    return LAWS if re.search('Laws?$|Examples$|^OneRegister$', file) else CODE


def ordered(crate, names):
    """The text of a Lib with these files."""
    made = []
    for group in (MEANING, LAWS, CODE):
        of_group = [it for it in names if group_of(crate, it) == group]
        made += [group, *(f'pub mod {it}' for it in of_group)] if of_group else []
    return '\n'.join(made) + '\n'


failed = 0
for path in sorted(pathlib.Path('crates').glob('*/specs/Lib.antt')):
    crate, text = path.parts[1], path.read_text()
    names = re.findall(r'pub mod (\w+)', text)
    if text.startswith('-- ') and not text.startswith((MEANING, LAWS, CODE)):
        first = re.findall(r'pub mod (\w+)', text.split('\n-- ')[0])
        wrong = [it for it in names if (crate, it) in meant and it not in first]
    elif text.startswith(MEANING) and not any((crate, it) in meant for it in names):
        wrong = []
    else:
        wrong = ['its order'] if text != ordered(crate, names) else []
        if wrong and '--write' in sys.argv:
            path.write_text(ordered(crate, names))
            wrong = []
    for it in wrong:
        print(f'{path}: {it}')
    failed += len(wrong)
print(f'libs: {len(meant)} files are the meaning, {failed} failed')
sys.exit(1 if failed or not meant else 0)
