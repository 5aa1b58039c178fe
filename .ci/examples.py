#!/usr/bin/env python3
"""Runs the commands and the examples that the pages show, and compares what they print: examples.py PROGRAM, at the top of a checkout.

In README.md, docs/*.md and examples/*/README.md a line of four blanks, `$` and a command is run in a copy of examples/, with PROGRAM as
./ijtag, and the second program, which is beside it, as ./ijtag-tools. The indented lines after it, up to the next command or the end of the
block, are what it must print on its two streams. The commands of a page may write into out/, and nowhere else.

In a table `TEXT` gives `STAGE CAUSE ..` is an example of a refusal: TEXT is a whole file of the stage icl, pdl, svf, device or tables, and
`refused STAGE CAUSE ..` is the line that the program must print. For the stages elab, connect and nest TEXT is the second line of the
module Net below, whose scan output is that of the register R. Without STAGE, it is the one that the heading above begins with."""
import os
import pathlib
import re
import shutil
import subprocess
import sys
import tempfile

FLAT = {'icl': 'chip.icl', 'pdl': 'chip.pdl', 'device': 'chip.dev', 'tables': 'chip.tab', 'svf': 'foreign.svf'}
IN_NETWORK = ('elab', 'connect', 'nest')
NETWORK = '''Module Net { ScanInPort SI; ScanOutPort SO { Source R; } ScanInterface client { Port SI; Port SO; }
%s
} Module chip { Instance net Of Net; AccessLink tap Of STD_1149_1_2001 { BSDLEntity chip; IJTAG { ScanInterface { net.client; } } } }
'''
program = os.path.abspath(sys.argv[1])
pages = [pathlib.Path('README.md'), *sorted(pathlib.Path('docs').rglob('*.md')), *sorted(pathlib.Path('examples').glob('*/README.md'))]
passed, failed = 0, []


def commands(text):
    """Each command of a page, with the text that it must print."""
    command, wanted = None, []
    for line in [*text.splitlines(), '']:
        if line.startswith('    ') and not line.startswith('    $ ') and command is not None:
            wanted.append(line[4:])
            continue
        if command is not None:
            yield command, ''.join(it + '\n' for it in wanted)
        command, wanted = (line[6:], []) if line.startswith('    $ ') else (None, [])


def refusals(text):
    """Each example of a refusal: its stage, its text, and the refusal."""
    stage = None
    for line in text.splitlines():
        heading = re.match(r'##+ (\w+)', line)
        stage = heading[1] if heading else stage
        for given, answer in re.findall(r'`([^`]+)` gives `([^`]+)`', line) if line.startswith('|') else ():
            said, _, rest = answer.partition(' ')
            known = said in FLAT or said in IN_NETWORK
            yield said if known else stage, given.replace('\\|', '|'), rest if known else answer


def refused(stage, text, folder):
    """What the program prints where this text is in place of the flat example's."""
    names = {it: f'examples/flat/{name}' for it, name in FLAT.items()}
    whole = NETWORK % text if stage in IN_NETWORK else text
    names['icl' if stage in IN_NETWORK else stage] = 'out/given'
    pathlib.Path(folder, 'out', 'given').write_text(whole)
    procedure = [names['icl'], names['pdl'], names['device'], 'chip', 'p', 'out/made.svf']
    play = [names['svf'], names['icl'], names['device'], names['tables'], 'chip']
    words = ['play', *play] if stage in ('svf', 'tables') else ['compile', *procedure]
    return subprocess.run(['./ijtag', *words], cwd=folder, stdout=subprocess.PIPE, stderr=subprocess.STDOUT, text=True).stdout


def compare(page, what, found, wanted):
    global passed
    if found == wanted:
        passed += 1
    else:
        failed.append(f'{page}: {what}\n  prints {found!r}\n  wanted {wanted!r}')


for page in pages:
    with tempfile.TemporaryDirectory() as folder:
        shutil.copytree('examples', f'{folder}/examples')
        os.mkdir(f'{folder}/out')
        os.symlink(program, f'{folder}/ijtag')
        os.symlink(os.path.join(os.path.dirname(program), 'ijtag-tools'), f'{folder}/ijtag-tools')
        before = sorted(os.walk(f'{folder}/examples'))
        for command, wanted in commands(page.read_text()):
            done = subprocess.run(['bash', '-c', command], cwd=folder, stdout=subprocess.PIPE, stderr=subprocess.STDOUT, text=True)
            compare(page, command, done.stdout, wanted)
        for stage, text, wanted in refusals(page.read_text()):
            compare(page, text, refused(stage, text, folder), f'refused {stage} {wanted}\n')
        compare(page, 'files outside of out/', (sorted(os.listdir(folder)), sorted(os.walk(f'{folder}/examples'))), (['examples', 'ijtag', 'ijtag-tools', 'out'], before))

for line in failed:
    print(line)
print(f'examples: {passed} passed, {len(failed)} failed')
sys.exit(1 if failed or not passed else 0)
