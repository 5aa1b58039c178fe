#!/usr/bin/env python3
"""Builds the program that ./ijtag or ./ijtag-tools runs: build.py proved|unproved ijtag|ijtag-tools. Ends with 0, with 7 where there is no
program, with 130 where it is interrupted.

One build of a kind runs at a time: a second call waits, and then takes what the first one built. The program, the number of its sources
(.ci/stamp), the kit that built it and the log are in out/, those of the unproved program in out/unproved/.

The proved program is what `rt run` builds once it has proved every crate below it. What is proved before an interrupt is kept by rt.
Each IJTAG_REPORT_SECONDS, 180 where it isn't set, a line says what is being proved.

The unproved program is what `rt try` compiles to run it once: it stops at an index out of bounds, an overflow or a failed unwrap, and tests
no contract. rt removes it at its end, so it is linked out of rt's temporary folder as soon as it is there."""
import fcntl
import os
import pathlib
import re
import shutil
import signal
import subprocess
import sys
import tempfile
import time

TOP = pathlib.Path(__file__).resolve().parent.parent
PROGRAMS = {'ijtag': 'ijtag_cli', 'ijtag-tools': 'ijtag_tools'}
EVERY = int(os.environ.get('IJTAG_REPORT_SECONDS', '180'))
kind, name = sys.argv[1:]
CLI = TOP / 'crates' / PROGRAMS[name]
built = TOP / 'out' if kind == 'proved' else TOP / 'out' / 'unproved'
program, log = built / name, built / 'build.log'


def say(text):
    print(f'{name}: {text}', file=sys.stderr, flush=True)


def fail(text):
    say(text)
    sys.exit(7)


def stamp():
    return subprocess.run([TOP / '.ci' / 'stamp', kind], stdout=subprocess.PIPE, text=True, check=True).stdout


def is_current():
    mark = built / f'{name}.stamp'
    return os.access(program, os.X_OK) and mark.is_file() and mark.read_text() == stamp()


def crates_below(name):
    """The crates that a crate depends on, and itself, in the order of crates.txt."""
    stands_on = {}
    for line in (TOP / 'crates.txt').read_text().splitlines():
        crate, colon, below = line.partition(':')
        if colon and not crate.startswith('#'):
            stands_on[crate.split()[0]] = below.split()
    found, left = set(), [name]
    while left:
        crate = left.pop()
        if crate in stands_on and crate not in found:
            found.add(crate)
            left += stands_on[crate]
    return [it for it in stands_on if it in found]


def crates_at_work(process):
    """The crates that a process and those below it check or build now."""
    parents, names = {}, {}
    for folder in pathlib.Path('/proc').glob('[0-9]*'):
        try:
            parents[int(folder.name)] = int(re.search(r'\) . (\d+)', (folder / 'stat').read_text())[1])
            words = (folder / 'cmdline').read_text().split('\0')
        except (OSError, TypeError, UnicodeDecodeError):
            continue
        # rt first reads all sources at once, which proves nothing
        if '--crate-name' in words and '--lib' not in words:
            names[int(folder.name)] = words[words.index('--crate-name') + 1]
    found = set()
    for number, name in names.items():
        while number in parents and number != process:
            number = parents[number]
        if number == process:
            found.add(name)
    return found


def follow(run, each):
    """Waits for a process, calling `each` again and again."""
    def stop(*_):
        os.killpg(run.pid, signal.SIGTERM)
        run.wait()
        kept = 'what is proved so far is kept, so the next call goes on from there' if kind == 'proved' else 'the next call begins anew'
        say(f'interrupted: the program is not built; {kept}')
        sys.exit(130)

    for it in (signal.SIGINT, signal.SIGTERM, signal.SIGHUP):
        signal.signal(it, stop)
    while run.poll() is None:
        each()
    for it in (signal.SIGINT, signal.SIGTERM, signal.SIGHUP):
        signal.signal(it, signal.SIG_DFL)


def build_proved(rt, how):
    begin = last = time.monotonic()
    crates = crates_below(PROGRAMS[name])
    # a run without words builds the program, and ends with its usage text
    run = subprocess.Popen([rt, 'run', '--'], cwd=CLI, **how)

    def report():
        nonlocal last
        time.sleep(0.2)
        if time.monotonic() - last >= EVERY:
            last = time.monotonic()
            at_work = [it for it in crates if it in crates_at_work(run.pid)]
            where = f'proving {", ".join(at_work)}, crate {crates.index(at_work[-1]) + 1} of {len(crates)}' if at_work else 'reading the sources'
            say(f'{round((last - begin) / 60)} min: {where}')

    follow(run, report)
    made = CLI / 'out' / PROGRAMS[name]
    return made if re.search('^rt: running', log.read_text(errors='replace'), re.M) and made.is_file() else None


def build_unproved(rt, how):
    kept = built / 'program'
    kept.unlink(missing_ok=True)
    for left in built.glob('rt-*'):
        shutil.rmtree(left, ignore_errors=True)
    with tempfile.TemporaryDirectory(prefix='rt-', dir=built) as room:
        how['env'] = dict(os.environ, TMPDIR=room)
        run = subprocess.Popen([rt, 'try', '--seconds', '1'], cwd=CLI, **how)

        def take():
            time.sleep(0.02)
            for folder, _, names in os.walk(room):
                path = os.path.join(folder, 'program')
                if 'program' in names and not (kept.exists() and os.path.samefile(kept, path)):
                    kept.unlink(missing_ok=True)
                    try:
                        # what is still being written grows under this name, too
                        os.link(path, kept)
                    except OSError:
                        pass

        follow(run, take)
    return kept if kept.is_file() and kept.read_bytes()[:4] == b'\x7fELF' else None


def main():
    rt = shutil.which('rt') or shutil.which('/opt/rattle/bin/rt')
    if not rt:
        fail("the Rattle kit is needed to build the program: put its command rt on the PATH (README.md, 'Build')")
    try:
        built.mkdir(parents=True, exist_ok=True)
        lock = open(built / 'lock', 'w')
    except OSError:
        fail(f"the folder {built} can't be written: build in a copy of your own")
    try:
        fcntl.flock(lock, fcntl.LOCK_EX | fcntl.LOCK_NB)
    except BlockingIOError:
        say('another call is building the program: waiting for it')
        fcntl.flock(lock, fcntl.LOCK_EX)
        if is_current():
            return
    # taken first, so what is edited from here on counts as another source
    sources = stamp()
    kit = subprocess.run([rt, 'version'], stdout=subprocess.PIPE, text=True).stdout.strip()
    if kind == 'proved':
        say(f'building the program with {kit}: all of it is proved first: some 155 minutes of a processor, measured, so 40 on four')
        say(f'it may be interrupted, and what is proved by then is kept (log: {log})')
    else:
        say(f'building an unproved program with {kit}: some three minutes (log: {log})')
    with open(log, 'w') as out:
        # a build that outlives this process keeps the lock
        how = dict(stdin=subprocess.DEVNULL, stdout=out, stderr=subprocess.STDOUT, start_new_session=True, pass_fds=[lock.fileno()])
        made = build_proved(rt, how) if kind == 'proved' else build_unproved(rt, how)
    if not made:
        for line in log.read_text(errors='replace').splitlines()[-8:]:
            print(f'  {line}', file=sys.stderr)
        if program.exists():
            say(f'the program of earlier sources is still {program}')
        fail(f'the program could not be built; see {log}')
    new = built / f'{name}.new'
    shutil.copy2(made, new)
    os.chmod(new, 0o755)
    os.replace(new, program)
    (built / 'program').unlink(missing_ok=True)
    (built / 'kit').write_text(kit + '\n')
    (built / f'{name}.stamp').write_text(sources)


try:
    main()
except KeyboardInterrupt:
    sys.exit(130)
