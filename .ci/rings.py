#!/usr/bin/env python3
"""Draws the rings of crates.txt into docs/ARCHITECTURE.md: rings.py, at the top of a checkout.

    rings.py            says whether each crate is in a ring and depends on earlier ones alone, and whether the page has this picture, each
                        crate's row, and of each ring a paragraph whose "Never below it: .." is true
    rings.py --write    draws the picture

A line `# NAME: ..` of crates.txt begins a ring. In the picture a ring lies on those that it depends on, without those that follow from
others. So each way from the highest ring down to the lowest is a column, and a ring has columns side by side."""
import functools
import itertools
import pathlib
import re
import sys
import textwrap

PAGE, WIDTH, MARGIN = pathlib.Path('docs/ARCHITECTURE.md'), 96, '    '
BEGIN, END = '<!-- drawn by .ci/rings.py -->\n\n', '\n<!-- end of what is drawn -->'
CRATES = '| Crate | The question'
RING = re.compile(r"# ([A-Za-z][A-Za-z' ]*): \S")
UP, DOWN, LEFT, RIGHT = 1, 2, 4, 8
GLYPHS = {it: '|' if it == UP | DOWN else '-' if it == LEFT | RIGHT else '+' if it else ' ' for it in range(16)}
wrong = []


def read_crates():
    """The crates of each ring, and what each crate depends on, crates of the kit too."""
    rings, stands_on = {}, {}
    for line in pathlib.Path('crates.txt').read_text().splitlines():
        names, colon, rest = line.partition('#')[0].partition(':')
        if found := RING.match(line):
            if found[1] in rings:
                wrong.append(f'crates.txt begins the ring {found[1]} twice')
            rings.setdefault(found[1], [])
        elif colon:
            crate = names.split()[0]
            stands_on[crate] = rest.split()
            if rings:
                rings[list(rings)[-1]].append(crate)
            else:
                wrong.append(f'{crate} is in no ring')
    return rings, stands_on


def reach(below):
    """All that each depends on, directly or not."""
    found = {}

    def all_below(name):
        if name not in found:
            found[name] = set()
            found[name] = set(below[name]).union(*map(all_below, below[name]))
        return found[name]

    return {name: all_below(name) for name in below}


def least(below):
    """What each depends on, without what follows from others of it."""
    everything = reach(below)
    return {name: [it for it in its if not any(it in everything[other] for other in its)] for name, its in below.items()}


def columns_of(order):
    """The ways from the highest ring down, from left to right, where the columns of each ring are side by side."""
    at, columns = dict.fromkeys(order, 0), []
    while True:
        way = ['']
        while order[way[-1]]:
            way.append(order[way[-1]][at[way[-1]]])
        columns.append(way[1:])
        turn = next((it for it in reversed(way) if at[it] + 1 < len(order[it])), None)
        if turn is None:
            break
        at[turn] += 1
    for ring in order:
        places = [k for k, way in enumerate(columns) if ring in way]
        if places and places[-1] - places[0] + 1 != len(places):
            return None
    return columns


def arranged(rings, below):
    """The columns of a picture that isn't too wide and shows all of what rings depend on, or all but one or two; and what it doesn't show."""
    several = [(ring, it) for ring, its in below.items() for it in its if len(its) > 1]
    for hidden in itertools.chain.from_iterable(itertools.combinations(several, count) for count in range(3)):
        shown = {ring: [it for it in its if (ring, it) not in hidden] for ring, its in below.items()}
        # the one way in, from above all rings that nothing depends on
        shown[''] = [ring for ring in reversed(below) if not any(ring in its for its in shown.values())]
        for its in itertools.product(*(itertools.permutations(its[::-1]) for its in shown.values())):
            if (columns := columns_of(dict(zip(shown, its)))) and sum(Layout(rings, columns).narrow()) < WIDTH:
                return columns, hidden
    sys.exit('rings: too many of them cross for a picture')


@functools.cache
def text_of(ring, crates, width):
    """The lines of a ring: its name, and its crates."""
    return [ring.upper(), *textwrap.wrap(crates, width)]


class Layout:
    """Where rings begin, and how wide columns are."""

    def __init__(self, rings, columns):
        self.texts = {ring: ' '.join(its) for ring, its in rings.items()}
        self.least = {ring: max(map(len, [ring, *its])) for ring, its in rings.items()}
        self.mine = {ring: [k for k, way in enumerate(columns) if ring in way] for ring in rings}
        self.above = {ring: {way[way.index(ring) - 1] for way in columns if ring in way[1:]} for ring in rings}
    def room(self, ring, widths):
        return sum(widths[k] for k in self.mine[ring]) - 3

    def text(self, ring, widths):
        return text_of(ring, self.texts[ring], self.room(ring, widths))

    def tops(self, widths):
        """The line at which each ring begins, and the last one, from above."""
        tops, end = {}, {}
        for ring in reversed(self.texts):
            tops[ring] = max((end[it] for it in self.above[ring]), default=0)
            end[ring] = tops[ring] + 1 + len(self.text(ring, widths))
        return tops, max(end.values())

    def cost(self, widths):
        return self.tops(widths)[1], sum(it * it for it in widths), widths

    def moves(self, widths):
        for a, b in itertools.permutations(range(len(widths)), 2):
            for step in range(1, widths[a] - 1):
                moved = [it - step * (k == a) + step * (k == b) for k, it in enumerate(widths)]
                if any(self.room(ring, moved) < least for ring, least in self.least.items()):
                    break
                yield self.cost(moved)

    def narrow(self):
        """Widths that are as small as can be."""
        narrow = [2] * (1 + max(map(max, self.mine.values())))
        for ring, its in self.mine.items():
            while self.room(ring, narrow) < self.least[ring]:
                narrow[min(its, key=narrow.__getitem__)] += 1
        for k in range(len(narrow)):
            while narrow[k] > 2 and all(self.room(ring, [it - (k == at) for at, it in enumerate(narrow)]) >= least for ring, least in self.least.items()):
                narrow[k] -= 1
        return narrow

    def found(self):
        """Widths for which the picture is low, and then even: those found from as narrow as can be, with one column that has the rest."""
        narrow, ends = self.narrow(), []
        for wide in range(len(narrow)):
            end = self.cost([it + max(0, WIDTH - 1 - sum(narrow)) * (k == wide) for k, it in enumerate(narrow)])
            while (better := min(self.moves(end[2]), default=end)) < end:
                end = better
            ends.append(end)
        return min(ends)[2]


def picture(rings, below):
    """The picture, and after it in words what it doesn't show."""
    columns, hidden = arranged(rings, below)
    layout = Layout(rings, columns)
    layout.widths = layout.found()
    tops, end = layout.tops(layout.widths)
    edges = [sum(layout.widths[:k]) for k in range(len(columns) + 1)]
    sides = [[0] * (edges[-1] + 1) for _ in range(end + 1)]
    for k, way in enumerate(columns):
        for row in [*(tops[ring] for ring in way), end]:
            for x in range(edges[k], edges[k + 1]):
                sides[row][x] |= RIGHT
                sides[row][x + 1] |= LEFT

    def owner(k, row):
        return next((it for it in reversed(columns[k]) if tops[it] <= row), None) if 0 <= k < len(columns) else None

    for row, (k, x) in itertools.product(range(end), enumerate(edges)):
        if owner(k - 1, row) != owner(k, row):
            sides[row][x] |= DOWN
            sides[row + 1][x] |= UP
    lines = [[GLYPHS[it] for it in row] for row in sides]
    for ring in rings:
        left = edges[layout.mine[ring][0]] + 2
        for row, text in enumerate(layout.text(ring, layout.widths), tops[ring] + 1):
            lines[row][left:left + len(text)] = text
    lines += [f'{ring} depends on {it}, too.' for ring, it in hidden]
    return ''.join(MARGIN + ''.join(line).rstrip() + '\n' for line in lines)


def look_at_page(page, rings, stands_on):
    """Looks at the page's rows of crates and at its paragraphs of rings; the number of what is never below a ring or crate of it."""
    own = {crate: [it for it in its if it in stands_on] for crate, its in stands_on.items()}
    table = page[page.index(CRATES):].split('\n\n')[0]
    if re.findall(r'(?m)^\| `(\w+)` \|', table) != list(stands_on):
        wrong.append(f'the rows of {PAGE} are not the crates of crates.txt in their order')
    everything = reach(own)
    paragraphs = re.findall(r'(?m)^- \*\*(.+?)\*\*((?:.*\n)(?:  .*\n)*)', page[page.index(END):page.index(CRATES)])
    if [ring for ring, _ in paragraphs] != list(rings):
        wrong.append(f'the paragraphs of {PAGE} are not the rings of crates.txt in their order')
    claims = 0
    for ring, text in paragraphs:
        lists = re.findall(r'Never below (it|`\w+`): ([^.]*)\.', re.sub(r'\s+', ' ', text))
        if len(lists) != text.count('Never'):
            wrong.append(f'{PAGE}, {ring}: not each "Never" begins "Never below it: " or "Never below `crate`: "')
        for who, what in lists:
            mine = rings.get(ring, []) if who == 'it' else [who.strip('`')]
            for it in what.split(', '):
                them = [it.strip('`')] if it.startswith('`') else rings.get(it)
                if them is None or not {*mine, *them} <= set(stands_on):
                    wrong.append(f'{PAGE}, {ring}: there is no {it}, or no {who}')
                    continue
                claims += 1
                wrong.extend(f'{PAGE}, {ring}: {a} depends on {b}' for a in mine for b in them if b in everything[a])
    return claims


def main():
    rings, stands_on = read_crates()
    of_ring = {crate: ring for ring, its in rings.items() for crate in its}
    order = list(rings)
    on = {ring: {of_ring.get(it) for crate in its for it in stands_on[crate]} for ring, its in rings.items()}
    below = {ring: [it for it in rings if it in its and it != ring] for ring, its in on.items()}
    for ring, its in below.items():
        wrong.extend(f'{ring} depends on {it}, which is later' for it in its if order.index(it) > order.index(ring))
    places = list(stands_on)
    wrong.extend(f'{crate} depends on {it}, which is no earlier line' for crate, its in stands_on.items() for it in its
                 if it in stands_on and places.index(it) >= places.index(crate))
    wrong.extend(f'{ring} has no crate' for ring, its in rings.items() if not its)
    claims = 0
    if not wrong:
        page = PAGE.read_text()
        before, _, rest = page.partition(BEGIN)
        drawn, _, after = rest.partition(END)
        made = picture(rings, least(below))
        if '--write' in sys.argv:
            PAGE.write_text(before + BEGIN + made + END + after)
        elif drawn != made:
            wrong.append(f'the picture of {PAGE} is not that of crates.txt: run .ci/rings.py --write')
        wrong.extend(f'{len(line)} columns: {line}' for line in made.splitlines() if len(line) > 110)
        claims = look_at_page(PAGE.read_text(), rings, stands_on)
    for line in wrong:
        print(f'rings: {line}')
    print(f'rings: {len(rings)} rings, {len(stands_on)} crates, {claims} times "never below", {len(wrong)} failed')
    return 1 if wrong else 0


sys.exit(main())
