#!/usr/bin/env python3
"""Counts again what docs/THEOREM.md says that has to be read: theorem.py [--write], at the top of a checkout.

It follows the clauses of `ijtag` (crates/ijtag_core/src/top.rt) through the definitions that they cite, those that these cite, and so on. Of
the page's tables it wants that each file is there, each name is one of its row's files, each file that is reached is in exactly one row,
and that the lines are those of the definitions that are reached, without imports, comments and blank lines. --write puts the lines in, also
those of the bodies that have to be believed.

A cell of files is `crate` `File` `File`; `crate` `File`. A row whose first cell is empty has the sum of its table."""
import collections
import pathlib
import re
import sys

from definitions import files, reached_from

PAGE, TOP = pathlib.Path('docs/THEOREM.md'), pathlib.Path('crates/ijtag_core/src/top.rt')

reached = reached_from(TOP)
lines = collections.Counter()
for crate, file, name in reached:
    lines[crate, file] += len(files[crate, file].lines[name])

failed, listed, total, made = [], collections.Counter(), 0, []
in_table = False
for line in PAGE.read_text().splitlines():
    cells = [it.strip() for it in line.split('|')]
    in_table = line.startswith('|') and (in_table or cells[1:6] == ['Step', 'The question', 'Files', 'Lines', 'Names'])
    if in_table and cells[1] == 'Step':
        total = 0
    elif in_table and not cells[1].startswith('-'):
        of_row = [(crate, file) for group in cells[3].split(';') for crate, *rest in [re.findall(r'`(\w+)`', group) or [None]] for file in rest]
        for it in of_row:
            listed[it] += 1
            if it not in files:
                failed.append(f'step {cells[1]}: there is no crates/{it[0]}/specs/{it[1]}.antt')
            elif it not in lines:
                failed.append(f'step {cells[1]}: nothing of {it[0]} {it[1]} is reached')
        for name in re.findall(r'`([^`]+)`', cells[5]):
            if not any(name in files[it].part_of for it in of_row if it in files):
                failed.append(f'step {cells[1]}: {name} is in none of its files')
        number = sum(lines[it] for it in of_row) if cells[1] else total
        total += number
        if cells[4] != f'{number:,}':
            if '--write' not in sys.argv:
                failed.append(f'step {cells[1] or "sum"}: {number:,} lines, and not {cells[4]}')
            cells[4] = f'{number:,}'
            line = '| ' + ' | '.join(cells[1:-1]) + ' |'
    made.append(line)
text = '\n'.join(made) + '\n'
# the bodies that have to be believed, with their lines
for known in re.findall(r'- Of this repository[^.]*?((?:`crates/[^`]+`[^`\d]*)+)([\d,]+)\s+lines', text):
    number = sum(len(pathlib.Path(it).read_text().splitlines()) for it in re.findall(r'`([^`]+)`', known[0]))
    if known[1] != f'{number:,}' and '--write' not in sys.argv:
        failed.append(f'the bodies that have to be believed have {number:,} lines, and not {known[1]}')
    text = text.replace(known[0] + known[1], known[0] + f'{number:,}')
failed += [f'{crate} {file} is in no row: {count} lines are reached' for (crate, file), count in sorted(lines.items()) if not listed[crate, file]]
failed += [f'{crate} {file} is in {count} rows' for (crate, file), count in listed.items() if count > 1]
if '--write' in sys.argv:
    PAGE.write_text(text)
for line in failed:
    print(line)
print(f'theorem: {len(reached)} definitions, {sum(lines.values())} lines, {len(lines)} files, {len(failed)} failed')
sys.exit(1 if failed or not reached else 0)
