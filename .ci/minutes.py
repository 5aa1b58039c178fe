#!/usr/bin/env python3
"""Runs the gate and writes docs/GATE.md, what it takes: minutes.py [--blank | --again] [NAME..], at the top of a checkout.

It runs `rt ci` and hands on what that prints. The functions of a crate are those of the gate's own lines. The processor time is looked up in
/proc, twice a second: a process that rt started with `--crate-name NAME` is the proof of NAME, that of its tests where it has the word
`--test`, and that of an edit where it works in a folder of its own. It ends with the status of the gate, and writes the page only at 0.

--again goes on where an earlier run of this checkout ended, also one that failed or was cut off: a crate that it proved isn't proved once
more, and the page has what that took. Each run leaves what it measured in out/minutes.json. With names it proves these crates and those
that they depend on, and leaves the page to a run without.

--blank writes the page without running anything: the crates and their edits, and no numbers."""
import collections
import datetime
import json
import os
import pathlib
import re
import signal
import subprocess
import sys
import threading
import time

PAGE = pathlib.Path('docs/GATE.md')
KEPT = pathlib.Path('out/minutes.json')
TICKS = os.sysconf('SC_CLK_TCK')
KINDS = ('proof', 'tests', 'edits')
YARDSTICK = 'ij_bits'
HEAD = '''# What the gate takes

The merge gate is `rt ci`: it proves every crate and its tests from nothing, tries each edit that
must fail, and runs the programs. `.ci/minutes.py` ran it and wrote this page.

{facts}

"Proof" is the minutes of a processor for a crate's functions, "tests" those for the proof of its
tests. Functions are counted with the drops that the compiler makes. "Edits" is how many wrong
bodies `must-fail/` has, and the column after it what they take: for a crate with edits the gate
checks the crate once more before it tries them. "By hand" are those of `wrong-bodies/`, which the
gate leaves out and `.ci/wrong_bodies.py` tries.

| Crate | Functions | Proof | Tests | Edits | Minutes of the edits | By hand |
|---|---|---|---|---|---|---|
'''


class Sampler(threading.Thread):
    """Looks up the processor time of a process and of all that it started, by crate and kind."""

    def __init__(self, top):
        super().__init__(daemon=True)
        self.top, self.seen, self.ended = top, {}, threading.Event()

    def run(self):
        while not self.ended.wait(0.5):
            self.look()

    def look(self):
        parents, ticks, begun, crate = {}, {}, {}, {}
        for folder in pathlib.Path('/proc').glob('[0-9]*'):
            number = int(folder.name)
            try:
                stat = (folder / 'stat').read_text().rpartition(')')[2].split()
                parents[number], begun[number] = int(stat[1]), stat[19]
                # its own time, and that of those below it that have ended
                ticks[number] = sum(map(int, stat[11:15]))
                words = (folder / 'cmdline').read_bytes().decode(errors='replace').split('\0')
                if '--crate-name' in words:
                    kind = 'edits' if '/rt-edit-' in os.readlink(folder / 'cwd') else 'tests' if '--test' in words else 'proof'
                    crate[number] = words[words.index('--crate-name') + 1], kind
            except (OSError, ValueError, IndexError):
                continue
        now = collections.Counter()
        for number in ticks:
            # the highest process with a crate's name on the way up to rt
            at, owner = number, None
            while at in parents and at != self.top:
                owner, at = at if at in crate else owner, parents[at]
            if at == self.top and owner is not None:
                now[owner, begun[owner], *crate[owner]] += ticks[number]
        for key, value in now.items():
            self.seen[key] = max(self.seen.get(key, 0), value)

    def seconds(self):
        found = collections.Counter()
        for (_, _, name, kind), value in self.seen.items():
            found[name, kind] += value / TICKS
        return found


def crates():
    lines = pathlib.Path('crates.txt').read_text().splitlines()
    return [it.split(':')[0].split()[0] for it in lines if ':' in it and not it.startswith('#')]


def edits(name, folder):
    return len([*pathlib.Path('crates', name, folder).glob('*.edit')])


def page(functions, seconds, facts):
    """The page: of each crate what was counted and measured, and the sums."""
    def shown(value):
        return f'{value / 60:.1f}' if value else ''

    rows = [[f'`{name}`', str(functions.get(name, '')), shown(seconds[name, 'proof']), shown(seconds[name, 'tests']), str(edits(name, 'must-fail')),
             shown(seconds[name, 'edits']), str(edits(name, 'wrong-bodies'))] for name in crates()]
    sums = {kind: shown(sum(seconds[name, kind] for name in crates())) for kind in KINDS}
    rows.append(['all', str(sum(functions.values()) or ''), sums['proof'], sums['tests'], str(sum(int(it[4]) for it in rows)), sums['edits'], str(sum(int(it[6]) for it in rows))])
    return HEAD.format(facts=facts) + ''.join('| ' + ' | '.join(it) + ' |\n' for it in rows)


def kept_before():
    """What earlier runs of this checkout measured: functions, seconds, minutes in all, and how many runs there were."""
    if '--again' not in sys.argv or not KEPT.exists():
        return {}, collections.Counter(), 0.0, 0
    of = json.loads(KEPT.read_text())
    return of['functions'], collections.Counter({tuple(key.split()): value for key, value in of['seconds'].items()}), of['minutes'], of['runs']


def keep(functions, seconds, minutes, runs):
    KEPT.parent.mkdir(exist_ok=True)
    shown = {' '.join(key): value for key, value in seconds.items()}
    KEPT.write_text(json.dumps({'functions': functions, 'seconds': shown, 'minutes': minutes, 'runs': runs}, indent=1))


def measured(seconds, minutes, runs, kit):
    total = sum(value for (name, _), value in seconds.items() if name in crates()) / 60
    parts = '' if runs == 1 else f', in {runs} runs of which each went on where the one before ended'
    return '\n'.join([f'- On {datetime.date.today():%-d %B %Y}, with `{kit}`, on {len(os.sched_getaffinity(0))} processors, from nothing{parts}.',
                      f'- **{total:.0f} minutes of a processor**, {minutes:.0f} minutes in all.',
                      f'- The yardstick for another machine: the proof of `{YARDSTICK}` took\n'
                      f'  {seconds[YARDSTICK, "proof"]:.0f} processor seconds.'])


def main():
    if '--blank' in sys.argv:
        PAGE.write_text(page({}, collections.Counter(), '(Not measured yet.)'))
        return 0
    names = [word for word in sys.argv[1:] if not word.startswith('--')]
    functions, before, minutes, runs = kept_before()
    kit = subprocess.run(['rt', 'version'], stdout=subprocess.PIPE, text=True, check=True).stdout.strip()
    begin = time.monotonic()
    signal.signal(signal.SIGTERM, lambda *_: sys.exit(1))
    gate = subprocess.Popen(['rt', 'ci', *names], stdout=subprocess.PIPE, stderr=subprocess.STDOUT, text=True, errors='replace')
    sampler = Sampler(gate.pid)
    sampler.start()
    name = None
    try:
        for line in gate.stdout:
            print(line, end='', flush=True)
            if line.startswith('== '):
                name = line[3:].strip()
            elif name and (found := re.match(r'logic=proved\b.* functions=(\d+)', line)):
                functions[name] = int(found[1])
        status = gate.wait()
    finally:
        sampler.ended.set()
        sampler.join()
        # of a crate that two runs came to, the one that went further counts; of the tests, the crates that have them say so in the minutes
        seconds = collections.Counter({key: max(before[key], sampler.seconds()[key]) for key in {*before, *sampler.seconds()}})
        functions = {it: value for it, value in functions.items() if ': ' not in it}
        minutes, runs = minutes + (time.monotonic() - begin) / 60, runs + 1
        keep(functions, seconds, minutes, runs)
    if not status and not names:
        PAGE.write_text(page(functions, seconds, measured(seconds, minutes, runs, kit)))
    return status


sys.exit(main())
