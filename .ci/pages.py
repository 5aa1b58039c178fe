#!/usr/bin/env python3
"""Looks at the pages' form: pages.py, run at the top of a checkout.

Prose has at most 100 columns (tables, code and headings may have more), README.md at most 160 lines, and no sentence more than 32 words.
README.md and docs/ have at most 190,000 bytes in all, without the table that .ci/minutes.py writes. Each link leads to a file, and to a
heading of it. No page has one of the words that this project writes otherwise. The time of the first build is that of README.md wherever
it is said."""
import pathlib
import re
import sys

WORDS = {'want of memory': 'out of memory', 'in front of': 'before', 'behind': 'after', 'is told': 'is reported', 'are told': 'are reported',
         'half a day': 'what is counted in THEOREM.md'}
pages = [pathlib.Path('README.md'), *sorted(pathlib.Path('docs').rglob('*.md')), *sorted(pathlib.Path('examples').glob('*/README.md'))]
failed, count = [], 0


def prose(text):
    """The lines of a page, with their numbers, that are no table, no code and no heading."""
    fenced = False
    for number, line in enumerate(text.splitlines(), 1):
        fenced ^= line.startswith('```')
        if not fenced and not line.startswith(('|', '    ', '#', '```')):
            yield number, line


def anchors(text):
    """The names of a page's headings in links."""
    for heading in re.findall(r'(?m)^#+ (.*)$', text):
        yield re.sub(r'[^\w\- ]', '', heading.lower()).replace(' ', '-')


for page in pages:
    text = page.read_text()
    for number, line in prose(text):
        count += 1
        if len(line) > 100:
            failed.append(f'{page}:{number}: {len(line)} columns')
    for number, line in enumerate(text.splitlines(), 1):
        for word, better in WORDS.items():
            if re.search(rf'\b{word}\b', re.sub(r'`[^`]*`', '', line), re.I):
                failed.append(f'{page}:{number}: {word}: write {better}')
    for target in re.findall(r'\]\(([^)\s]+)\)', text):
        path, _, anchor = target.partition('#')
        if path.startswith(('http:', 'https:')):
            continue
        count += 1
        to = (page.parent / path) if path else page
        if not to.exists():
            failed.append(f'{page}: there is no {target}')
        elif anchor and anchor not in anchors(to.read_text()):
            failed.append(f'{page}: no heading of {to} is #{anchor}')

first = pathlib.Path('README.md').read_text()
if len(first.splitlines()) > 160:
    failed.append(f'README.md: {len(first.splitlines())} lines')
for page in pages:
    text = '\n'.join(line for _, line in prose(re.sub(r'(?m)^(\||    |#).*$', '', page.read_text())))
    for block in re.split(r'\n\s*\n|\n(?=- |\d+\. )', text):
        for sentence in re.split(r'(?<=[.:;?])\*{0,2}\s', re.sub(r'\s+', ' ', block)):
            count += 1
            if len(sentence.split()) > 32:
                failed.append(f'{page}: {len(sentence.split())} words: {sentence}')

texts = [re.sub(r'(?m)^\|.*\n', '', page.read_text()) if page.name == 'GATE.md' else page.read_text() for page in pages if page.parts[0] != 'examples']
if (size := sum(len(text.encode()) for text in texts)) > 190_000:
    failed.append(f'README.md and docs/ have {size} bytes')
first_build = re.search(r'proves and builds all of the program: (.+?)\. ', re.sub(r'\s+', ' ', first))
for name in ('docs/ARCHITECTURE.md', 'ijtag', '.ci/build.py'):
    count += 1
    if not first_build or first_build[1] not in re.sub(r'\s+', ' ', pathlib.Path(name).read_text()):
        failed.append(f"{name}: the time of the first build isn't that of README.md")

for line in failed:
    print(line)
print(f'pages: {count - len(failed)} passed, {len(failed)} failed, {size} bytes')
sys.exit(1 if failed or not count else 0)
