#!/usr/bin/env python3
"""Each refusal that the program can print has a row in docs/REFUSALS.md and a case that wants it, each row says what helps, and each limit
has a case at its number and one at the next number. Run at the top of a checkout.

The refusals are the variants of the enumerations of faults in the sources, and the limits those below, all of docs/MANUAL.md's section on
them among them. The cases are those of .ci/answers.py."""
import itertools
import pathlib
import re
import sys

sys.dont_write_bytecode = True
import answers

STAGES = {
    'LoadFault': 'file', 'LexFault': 'icl', 'ParseFault': 'icl', 'DeviceFault': 'device', 'TableFault': 'tables', 'SvfFault': 'svf',
    'ElabFault': 'elab', 'ConnectFault': 'connect', 'NestFault': 'nest', 'FitsFault': 'fit', 'PdlFault': 'pdl', 'ExpandFault': 'pdl',
    'TargetFault': 'pdl', 'FeedFault': 'pdl', 'MakeFault': 'make',
    'MuxFault': 'muxtest',
    # causes that the crate of numbers hands to its callers, which have variants of their own for what they print
    'NumberFault': None, 'FitFault': None,
    # a file that isn't written is no refusal, but `write fault`
    'StoreFault': None,
    # they hold the refusals of the others
    'StepFault': None, 'StageFault': None}

# what no text can bring about
PASSED_OVER = {
    # it depends on the machine, and is `out of memory`
    'OutOfMemory',
    # a file that can't be read is no refusal, but `read fault`
    'Failed',
    # it holds another crate's refusal
    'Target'}

# Each limit, by its page and the words there: what a refusal says of it, and the cases at its number and at the next one, by what their
# titles begin with, where `..` is any text. The greatest file and SVF file are checks of .ci/limits.py.
LIMITS = {
    'MANUAL': (
        ('at most 16,777,216 bytes', 'Long', 'limits.py: ICL at the limit', 'words: other names and a long file: <16777217'),
        ('an SVF file 134,217,728', 'Long', 'limits.py: SVF at the limit', 'limits.py: SVF above the limit'),
        ('`Hierarchy` | 64', 'Limit Hierarchy 64', 'elab: Hierarchy 64 is taken', 'elab: more than Hierarchy 64'),
        ('`Cells` | 8192', 'Limit Cells 8192', 'elab: Cells 8192 is taken', 'elab: more than Cells 8192'),
        ('`ScanBits` | 4096', 'Limit ScanBits 4096', 'elab: ScanBits 4096 is taken', 'elab: more than ScanBits 4096'),
        ('`ScanBits` | 4096', 'Limit ScanBits 4096', 'large: registers of all widths: 4095', 'large: widths that no register has: 4096'),
        ('`Muxes` | 1024', 'Limit Muxes 1024', 'elab: Muxes 1024 is taken', 'elab: more than Muxes 1024'),
        ('`Instruments` | 256', 'Limit Instruments 256', 'elab: Instruments 256 is taken', 'elab: more than Instruments 256'),
        ('`Ports` | 16', 'Limit Ports 16', 'elab: ports ..DataInPort p; DataOutPort q;', 'elab: ports ..DataInPort q;'),
        ('`Ports` | 16', 'Limit Ports 16', 'elab: ports ..DataOutPort P; DataInPort a;', 'elab: ports ..DataOutPort Q;'),
        ('`PortBits` | 64', 'Limit PortBits 64', 'elab: ports ..: DataInPort d[63:0]', 'elab: ports ..: DataInPort d[64:0]; => c'),
        ('`PortBits` | 64', 'Limit PortBits 64', 'elab: ports ..: DataOutPort d[1:64]', 'elab: ports ..: DataOutPort d[1:65]'),
        ('`Width` | 65,536', 'Limit Width 65536', 'elab: a range of one declaration', 'elab: items of a module: DataInPort x[65536:0]'),
        ('`Groups`, 4096', 'Groups 4096', 'compile: a text of several pieces', 'compile: more groups'),
        ('`RunLoop`, 1,000,000', 'RunLoop 1000000', 'pdl: the most cycles: iRunLoop 1000000', 'pdl: more cycles: iRunLoop 1000001'),
        ('`RunCycles`, 4,000,000', 'RunCycles 4000000', 'pdl: the most cycles: <4 * ', 'pdl: more cycles: <4 * ..iRunLoop 1'),
        ('100,000 commands', 'TooManySteps', 'large: the most steps', 'large: PDL that is refused: <100001 * iApply'),
        ('64 calls', 'CallDepth', 'pdl: 64 calls', 'pdl: 65 calls'),
        ('16 multiplexers', 'TooDeep', 'nest: sixteen multiplexers', 'nest: seventeen multiplexers'),
        ('at most 8192 SDR commands (`refused muxtest Limit Scans 8192`)', 'Limit Scans 8192', 'muxtest: Scans 8192 is taken',
         'muxtest: more than Scans 8192'),
        ('scans of at most 65,536 bits', 'SvfLimit', 'play: the longest scan', 'svf: refused SVF: SDR 65537 '),
        ('1,000,000,000 clocks', 'SvfLimit', "svf: SVF that isn't refused: RUNTEST 999999999 ", 'svf: refused SVF: RUNTEST 1000000000 '),
        ('64 open parentheses', 'ExprLimit', 'icl: limits of expressions: <64 * (>', 'icl: limits of expressions: <65 * (>'),
        ('256 operators', 'ExprLimit', 'icl: limits of expressions: <256 * 1+>', 'icl: limits of expressions: <257 * 1+>'),
        ('number of 1 to 19 digits', 'usage', 'make: a made design 9999999999999999999 ', 'words: seed and size ..: 10000000000000000000 '),
        ('1 to 64 instruments', 'BadSize', 'make: a made design 1 1', 'words: a size ..: 0'),
        ('1 to 64 instruments', 'BadSize', 'make: a made design 7 64', 'words: a size ..: 65')),
    'formats/DEVICE-AND-TABLES': (
        ('N is from 2 to 64', 'DevSyntax', 'device: opcodes: 2', r'device: ..<FLAT> => device 1\nir 1\n'),
        ('N is from 2 to 64', 'DevSyntax', 'large: a device', r'device: ..<FLAT> => device 1\nir 65\n'),
        ('an opcode 1 to 16', 'DevSyntax', 'large: a device', 'device: ..IJTAG 000000000000000A0'),
        ('eight hexadecimal digits', 'DevSyntax', 'device: a device', 'device: ..idcode 012345678 0E'),
        ('WIDTH from 1 to 64', 'TableLimit', r'tables: the largest tables: in a 1\nword', 'tables: larger tables: in a 0'),
        ('WIDTH from 1 to 64', 'TableLimit', 'tables: the largest tables: in a 64', 'tables: larger tables: in a 65'),
        ('WIDTH from 1 to 64', 'TableLimit', 'tables: the largest tables: ..word w 1 ', 'tables: larger tables: word w 0'),
        ('WIDTH from 1 to 64', 'TableLimit', 'tables: the largest tables: ..word w 64', 'tables: larger tables: word w 65'),
        ('WIDTH from 1 to 64', 'TableLimit', 'tables: the largest tables: ..mem m 1 1', 'tables: larger tables: mem m 256 0'),
        ('WIDTH from 1 to 64', 'TableLimit', 'tables: the largest tables: ..mem m 256 64', 'tables: larger tables: mem m 256 65'),
        ('DEPTH from 1 to 256', 'TableLimit', 'tables: the largest tables: ..mem m 1 1', 'tables: larger tables: mem m 0 8'),
        ('DEPTH from 1 to 256', 'TableLimit', 'tables: the largest tables: ..mem m 256 64', 'tables: larger tables: mem m 257 64'),
        ('and one `mem`', 'TableLimit', 'tables: the largest tables: ..mem m 256 64', 'tables: larger tables: ..mem n 1 1'),
        ('at most 8 words', 'TableLimit', 'tables: the largest tables: ..word h 1', 'tables: larger tables: ..word i 1'),
        ('16 inputs', 'TableLimit', 'tables: the largest tables: ..in p 1', 'tables: larger tables: ..in q 1'),
        ('16 outputs', 'TableLimit', 'tables: the largest tables: ..out p = w', 'tables: larger tables: ..out q = w'),
        ('64 rows', 'TableLimit', 'tables: the largest tables: ..<64 * change', 'tables: larger tables: ..<65 * change'),
        ('64 rows', 'TableLimit', 'tables: the largest tables: ..<32 * run', 'tables: larger tables: ..<33 * run')),
    'formats/PDL': (
        ('more than 4096 bits', 'TooWide', 'compile: values that ..: 0b<4096 * 1>', 'compile: values that ..: 0b<4097 * 0>'),
        ('more than 4096 bits', 'TooWide', 'compile: values that ..: 0x<1024 * F>', 'compile: values that ..: 0x<1025 * 0>'),
        ('A decimal above 2^128 - 1', 'TooWide', f'compile: values that ..: {2 ** 128 - 1}', f'compile: values that ..: {2 ** 128}'),
        ('at most 4,294,967,295', 'PdlSyntax', 'pdl: commands: iWrite R[4294967295]', 'pdl: commands: iWrite R[4294967296]')),
    'formats/ICL': (
        ('at most 4,294,967,295', 'Syntax', 'elab: the greatest numbers: 4294967295 => ', 'elab: the greatest numbers: 4294967296'),),
    'formats/SVF': (
        ('1 to 10 decimal digits', 'SvfSyntax', "svf: SVF that isn't refused: RUNTEST 0000000001 ", 'svf: refused SVF: RUNTEST 00000000001'),
        ('A scan has 1 to 65,536 bits', 'SvfSyntax', "svf: SVF that isn't refused: SDR 1 ", 'svf: refused SVF: SDR 0 '),
        ('A scan has 1 to 65,536 bits', 'SvfLimit', "svf: SVF that isn't refused: SDR 65536 ", 'svf: refused SVF: SDR 65537 ')),
    'MEANING': (
        ('from 0 to 4,294,967,295', 'BadNumber', 'elab: the greatest numbers: 65535 * 65537', 'elab: the greatest numbers: 4294967295 + 1'),
        ('its size is 1 to 4096', 'BadNumber', "elab: the greatest numbers: 1'b1", "elab: items of a module: Parameter p = 0'b0"),
        ('its size is 1 to 4096', 'BadNumber', "elab: the greatest numbers: 4096'b", "elab: the greatest numbers: 4097'b"),
        ('at most 4096 bits', 'BadNumber', "elab: the greatest numbers: 'b<4096", "elab: the greatest numbers: 'b<4097"),
        ('at most 4096 bits', 'BadNumber', "elab: the greatest numbers: 'h<1024", "elab: the greatest numbers: 'h<1025"))}

# the lines that each case wants on the error stream
wanted = [(case.title, [step.err for step in case.steps if isinstance(step, answers.Run)]) for case in itertools.chain(*answers.all_cases())]
sized = pathlib.Path('.ci/limits.py').read_text()
missing = []
count = 0


def check(holds, text):
    global count
    count += 1
    if not holds:
        missing.append(text)


def page_of(name):
    """A page's text, where each run of blanks and line feeds is one blank."""
    return re.sub(r'\s+', ' ', pathlib.Path(f'docs/{name}.md').read_text())


def is_wanted(pattern):
    return any(re.match(pattern, line) for _, lines in wanted for line in lines)


def refusal_at(name, refusal):
    """Whether the cases of this name want this refusal; nothing where there are none, or where only some do."""
    script, _, of_sizes = name.partition('limits.py: ')
    if not script:
        return None if f"check('{of_sizes}'" not in sized else 'above' in of_sizes
    pattern = re.compile('.*'.join(map(re.escape, name.split('..'))))
    found = {any(refusal in line for line in lines) for title, lines in wanted if pattern.match(title)}
    return found.pop() if len(found) == 1 else None


# ---- refusals, and what helps

page = pathlib.Path('docs/REFUSALS.md').read_text()
parts = dict(re.findall(r'(?ms)^## (\w+)[^\n]*\n(.*?)(?=^## |\Z)', page))
for source in sorted(pathlib.Path('crates').glob('*/src/**/*.rt')):
    for name, body in re.findall(r'^pub enum (\w*Fault|Which) \{\n(.*?)^\}', source.read_text(), re.M | re.S):
        variants = [it for it in re.findall(r'^    ([A-Z]\w*)\b', body, re.M) if it not in PASSED_OVER]
        if name == 'Which':
            for variant in variants:
                check(is_wanted(rf'refused (elab|pdl) Limit (\d+:\d+ )?{variant} '), f'no case wants the limit {variant}')
            continue
        check(name in STAGES, f'{source}: .ci/refusals.py has no stage of {name}')
        stage = STAGES.get(name)
        for variant in variants if stage else ():
            check(re.search(rf'`{variant}\b', parts.get(stage, '')), f'not in docs/REFUSALS.md: {source}: {name}::{variant}')
            check(is_wanted(rf'refused {stage} {variant}\b'), f'no case wants it: {source}: {name}::{variant}')
for line in re.findall(r'(?m)^\|.*\|$', page):
    if not re.fullmatch(r'[-| ]+', line):
        check(re.split(r'(?<!\\)\|', line)[-2].strip(), f'not in docs/REFUSALS.md: what helps: {line}')

# ---- limits

for name, limits in LIMITS.items():
    text = page_of(name)
    left = re.sub(r'.* ## Limits | ## .*', '', text) if name == 'MANUAL' else ''
    for words, refusal, at, above in limits:
        check(words in text, f'docs/{name}.md: there is no {words}')
        check(refusal_at(at, refusal) is False, f'docs/{name}.md: {words}: no case at the number: {at}')
        check(refusal_at(above, refusal), f'docs/{name}.md: {words}: no case at the next number: {above}')
        left = left.replace(words, '')
    check(not re.search(r'\d', left), f'docs/{name}.md: limits without cases: {" ".join(re.findall("[0-9][0-9,]*", left))}')

for line in missing:
    print(line)
print(f'refusals: {count - len(missing)} passed, {len(missing)} failed')
sys.exit(1 if missing or not count else 0)
