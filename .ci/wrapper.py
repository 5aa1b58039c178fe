#!/usr/bin/env python3
"""Tries ./ijtag with a stand-in for the kit's rt, whose build takes a second: wrapper.py, run at the top of a checkout.

Two calls at once, signals, a touch, a copy, a copy that can't be written, a source that doesn't build, an interrupted build, no kit, and the
unproved program. Nothing is proved, and the checkout stays as it is."""
import os
import pathlib
import shutil
import signal
import subprocess
import sys
import tempfile
import time

# counts its builds in $BUILDS; a source with the word `broken` doesn't build
RT = '''#!/usr/bin/env bash
[ "$1" = version ] && { echo stand-in; exit; }
echo "$1" >> "$BUILDS"
echo "rt: reading"
sleep "${SECONDS_OF_BUILD:-1}" &
wait
grep -q broken ../ij_bits/src/lib.rt && { echo "error: broken"; exit 1; }
if [ "$1" = try ]; then
  cp /bin/echo "$TMPDIR/program"
  sleep 1
else
  mkdir -p out
  cp /bin/echo "out/${PWD##*/}"
  echo "rt: running ${PWD##*/}"
fi
'''
PROVED, UNPROVED = {}, {'IJTAG_UNPROVED': '1'}
failed, count = [], 0


def check(what, found, wanted):
    global count
    count += 1
    if found != wanted:
        failed.append(f'{what}: {found!r}, wanted {wanted!r}')


def begin(top, more=PROVED, path=None, user=None, program='ijtag'):
    env = dict(os.environ, PATH=path or f'{room}/bin:{os.environ["PATH"]}', BUILDS=str(room / 'builds'), **more)
    env.pop('IJTAG_UNPROVED', None) if not more else None
    return subprocess.Popen([top / program, 'some', 'words'], env=env, text=True, stdout=subprocess.PIPE, stderr=subprocess.PIPE,
                            start_new_session=True, user=user)


def end(run):
    out, err = run.communicate(timeout=60)
    return run.returncode, out, err


def call(top, more=PROVED, **how):
    return end(begin(top, more, **how))


def builds():
    """How many builds were begun since this was asked last."""
    kept = room / 'builds'
    number = len(kept.read_text().split()) if kept.exists() else 0
    kept.unlink(missing_ok=True)
    return number


with tempfile.TemporaryDirectory() as made:
    room = pathlib.Path(made)
    room.chmod(0o755)
    top = room / 'top'
    (room / 'bin').mkdir()
    (room / 'bin' / 'rt').write_text(RT)
    (room / 'bin' / 'rt').chmod(0o755)
    leave = shutil.ignore_patterns('out', 'must-fail', 'wrong-bodies')
    for name in ('ijtag', 'ijtag-tools', 'crates.txt'):
        top.mkdir(exist_ok=True)
        shutil.copy2(name, top)
    for name in ('.ci', 'crates'):
        shutil.copytree(name, top / name, ignore=leave)
    source = top / 'crates' / 'ij_bits' / 'src' / 'lib.rt'
    good = source.read_text()
    ran = (0, 'some words\n', '')

    both = [begin(top), begin(top)]
    answers = [end(it) for it in both]
    check('two calls at once: they run', [it[:2] for it in answers], [ran[:2], ran[:2]])
    check('two calls at once: one builds', builds(), 1)
    check('two calls at once: the other says that it waits', sum('waiting for it' in it[2] for it in answers), 1)
    check('the next call says nothing', call(top), ran)
    check('the kit is beside the program', (top / 'out' / 'kit').read_text(), 'stand-in\n')
    check('the second program is built by its first call', (call(top, program='ijtag-tools')[:2], builds()), (ran[:2], 1))
    check('and not once more', (call(top, program='ijtag-tools'), call(top), builds()), (ran, ran, 0))

    # what the program is handed: a write past `ulimit -f` fails, and no signal ends it
    program = top / 'out' / 'ijtag'
    kept = program.read_bytes()
    program.write_text('#!/usr/bin/env bash\ngrep SigIgn /proc/$$/status\n')
    ignored = int(call(top)[1].split()[1], 16)
    check('no signal where a file grows past the limit', ignored >> (signal.SIGXFSZ - 1) & 1, 1)
    program.write_bytes(kept)

    source.touch()
    check('a touch', call(top), ran)
    source.write_text(good + '// more\n')
    source.write_text(good)
    check('an edit there and back', call(top), ran)
    shutil.copytree(top, room / 'copy')
    check('a copy', call(room / 'copy'), ran)
    check('these build nothing', builds(), 0)
    source.write_text(good + '// more\n')
    check('an edit', (call(top)[:2], builds()), (ran[:2], 1))

    # what may not be written: root may write everywhere, so another user calls
    nobody = 65534 if os.getuid() == 0 else None
    fixed = room / 'copy'
    for folder, _, _ in os.walk(fixed):
        os.chmod(folder, 0o555)
    check('a copy that can\'t be written', call(fixed, user=nobody), ran)
    for folder, _, _ in os.walk(fixed):
        os.chmod(folder, 0o755)
    shutil.rmtree(fixed / 'out')
    for folder, _, _ in os.walk(fixed):
        os.chmod(folder, 0o555)
    status, out, err = call(fixed, user=nobody)
    check('the same without a program', (status, out, err.count('\n'), 'build in a copy of your own' in err), (7, '', 1, True))
    for folder, _, _ in os.walk(fixed):
        os.chmod(folder, 0o755)
    builds()

    source.write_text(good + '// broken\n')
    status, out, err = call(top)
    check('a source that doesn\'t build', (status, out, 'error: broken' in err, 'could not be built' in err), (7, '', True, True))
    source.write_text(good)
    builds()

    run = begin(top, {'SECONDS_OF_BUILD': '60'})
    while not (room / 'builds').exists():
        time.sleep(0.1)
    os.killpg(run.pid, signal.SIGINT)
    status, out, err = end(run)
    check('an interrupted build', (status, out, 'interrupted' in err), (130, '', True))
    check('after it', (call(top)[:2], builds()), (ran[:2], 2))

    source.write_text(good + '// slow\n')
    err = call(top, {'SECONDS_OF_BUILD': '25', 'IJTAG_REPORT_SECONDS': '1'})[2]
    check('a slow build says that it goes on', err.count(' min: ') > 1, True)
    builds()

    bare = room / 'bare'
    bare.mkdir()
    for name in ('bash', 'readlink', 'find', 'sort', 'xargs', 'sha256sum', 'cut', 'dirname', 'env'):
        os.symlink(shutil.which(name), bare / name)
    os.symlink(sys.executable, bare / 'python3')
    script = top / '.ci' / 'build.py'
    script.write_text(script.read_text().replace('/opt/rattle/bin/rt', '/nowhere/rt'))
    check('no kit, a program', call(top, path=str(bare)), ran)
    source.write_text(good + '// other\n')
    status, out, err = call(top, path=str(bare))
    check('no kit, no program', (status, out, 'the Rattle kit is needed' in err), (7, '', True))

    check('unproved', call(top, UNPROVED)[:2], ran[:2])
    check('unproved, once more', call(top, UNPROVED), (0, 'some words\n', 'ijtag: unproved build\n'))
    check('unproved: one build', builds(), 1)
    check('unproved: in a folder of its own', (top / 'out' / 'unproved' / 'ijtag').exists(), True)
    check('the proved one is built apart', (call(top)[:2], builds()), (ran[:2], 1))

for line in failed:
    print(line)
print(f'wrapper: {count - len(failed)} passed, {len(failed)} failed')
sys.exit(1 if failed else 0)
