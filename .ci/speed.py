#!/usr/bin/env python3
"""What the programs take: speed.py OUT [OLD], at the top of a checkout.

OUT and OLD are folders with `ijtag` and maybe `ijtag-tools`. It makes texts at the limits and beyond what
examples have, and runs the programs over them: processor seconds, the least of some runs, and the most memory
of a run. The first part has the figures that are wanted beside those that are measured. In the second one the
work is doubled twice, and the growth of the seconds stands beside it: 2 is linear. With OLD it says how many
times better OUT is, both in one run, and `-` where OLD has no such command or refuses the text. It fails
nowhere: machines differ."""
import os
import pathlib
import random
import shutil
import subprocess
import sys
import tempfile

import peer

FEW, MANY = 3, 9
SHORT, LONG = 0.9, 5
TOOLS = 'list', 'explain', 'where', 'picture', 'tighten', 'wave'
SIB = pathlib.Path('examples/sibs/chip.icl').read_text()
CELLS = SIB[:SIB.index('Module Net {')]
BARE = """Module Bare { ScanInPort SI; SelectPort SEL; ScanOutPort SO { Source R[0]; }
  ScanInterface client { Port SI; Port SEL; Port SO; }
  ScanRegister R[2:0] { ScanInSource SI; CaptureSource R; ResetValue 3'b0; } }
"""
LINK = """Module chip {
  Instance net Of Net;
  AccessLink tap Of STD_1149_1_2001 { BSDLEntity chip; IJTAG { ScanInterface { net.client; } } }
}
"""
OPENED = 'STATE RESET;\nSTATE IDLE;\nSIR 8 TDI (A0);\n'
# nothing is below this top, nor is there this procedure: what is before is done, and no more
NO_TOP, NO_PROC = 'none', 'no'
folders = sys.argv[1:3]
room = pathlib.Path(tempfile.mkdtemp(prefix='speed'))
apart = ''

# a process's most memory is at least what its parent had when it began, so each run has a small parent of its
# own; it ends what takes minutes or some GB
PARENT = """import os, resource, sys
resource.setrlimit(resource.RLIMIT_CPU, (300, 300))
resource.setrlimit(resource.RLIMIT_AS, (6_000_000_000, 6_000_000_000))
null = [(os.POSIX_SPAWN_OPEN, 1, os.devnull, os.O_WRONLY, 0)]
_, status, used = os.wait4(os.posix_spawn(sys.argv[1], sys.argv[1:], os.environ, file_actions=null), 0)
print(os.waitstatus_to_exitcode(status), used.ru_utime + used.ru_stime, used.ru_maxrss / 1000)"""


def file(name, text):
    """A text of this name: where work is doubled, each size has its own."""
    path = room / (apart + name)
    path.write_text(text)
    return path


def size(name):
    """In MB."""
    return (room / name).stat().st_size / 1e6


def net(out, parts, cells=CELLS):
    ports = f'  ScanInPort SI; ScanOutPort SO {{ Source {out}; }}\n'
    ports += '  ScanInterface client { Port SI; Port SO; }\n'
    return f'{cells}Module Net {{\n{ports}{parts}}}\n{LINK}'


def sibs(count, module, more=''):
    """This many SIBs, each before a register, which is in one of the modules above."""
    parts, before = '', 'SI'
    for at in range(count):
        ports = f'InputPort SI = s{at}.toSI; InputPort SEL = s{at}.toSEL;'
        parts += f'  Instance s{at} Of Sib {{ InputPort SI = {before}; InputPort fromSO = w{at}.SO; }}\n'
        parts += f'  Instance w{at} Of {module} {{ {ports} {more}}}\n'
        before = f's{at}.SO'
    return net(before, parts, CELLS + BARE)


def instruments(count, bits):
    return sibs(count, 'Wrap', f'Parameter W = {bits}; ')


def multiplexers(count):
    """More of them than a network has instruments."""
    return sibs(count, 'Bare')


def row(count, more=''):
    """This many registers of one bit in a row."""
    register = "  ScanRegister r{} {{ ScanInSource {}; CaptureSource r{}; ResetValue 1'b0; }}\n"
    parts = ''.join(register.format(at, f'r{at - 1}' if at else 'SI', at) for at in range(count))
    return net(f'r{count - 1}', parts + more, '')


def row_with_alias(count):
    return row(count, f'  Alias all[{count - 1}:0] = {", ".join(f"r{at}" for at in range(count))};\n')


def rows(count, open_bit=''):
    """A multiplexer with this many rows, each with its own value, and maybe an x."""
    bits = (count - 1).bit_length() + len(open_bit)
    values = ' '.join(f"{bits}'b{at:0{bits - len(open_bit)}b}{open_bit} : SI;" for at in range(count))
    register = f"ScanRegister S[{bits - 1}:0] {{ ScanInSource m; CaptureSource S; ResetValue {bits}'b0; }}"
    return net('S[0]', f'  ScanMux m SelectedBy S {{ {values} }}\n  {register}\n', '')


def tower():
    """Less than 1 kB, with wide ports that nobody uses at many instances."""
    wide = 'DataInPort p[65535:0]; '
    text = f'Module A0 {{ {wide}DataOutPort q[65535:0] {{ Source p; }} }}\n'
    for level in range(1, 4):
        inside = ''.join(f'Instance {it} Of A{level - 1} {{ InputPort p = p; }} ' for it in 'abcde')
        text += f'Module A{level} {{ {wide}{inside}}}\n'
    return row(1, '  Instance tower Of A3;\n') + text


def pdl(lines):
    head = 'iPDLLevel 0 -version STD_1687_2014\niProcsForModule chip\niProc none {} {\n}\n'
    return head + 'iProc p {} {\n' + lines + '}\n'


def rounds(count, held, bits, read, write):
    """The first round writes all registers, so that all are on the path from then on. Each later one writes
    one, and each second one of these reads one, too. One read of 64 expects what isn't there."""
    drawn = random.Random(1)
    values = [drawn.getrandbits(bits) for _ in range(held)]
    lines = ''.join(f'  iWrite {write.format(at)} 0x{value:X}\n' for at, value in enumerate(values))
    lines += '  iApply\n'
    for at in range(1, count):
        if at % 2:
            which = drawn.randrange(held)
            lines += f'  iRead {read.format(which)} 0x{values[which] ^ (at % 128 == 1):X}\n'
        which = drawn.randrange(held)
        values[which] = drawn.getrandbits(bits)
        lines += f'  iWrite {write.format(which)} 0x{values[which]:X}\n  iApply\n'
    return pdl(lines)


def calls(count):
    """One iCall of this many values: the worst text for memory."""
    return 'iProcsForModule chip\niProc p {} {\n  iCall q' + ' 1' * count + '\n}\n'


def tables(count, bits, change):
    block = f'instrument net.w{{}}.ins\nin d {bits}\nword v {bits}\nout q = v\n{change}\nend\n'
    return 'tables 1\n' + ''.join(block.format(at) for at in range(count))


def ran(words):
    """Processor seconds of a run, its most memory in MB, and its status with the stage of a refusal."""
    called = [sys.executable, '-S', '-c', PARENT, *map(str, words)]
    run = subprocess.run(called, stdout=subprocess.PIPE, stderr=subprocess.PIPE, text=True)
    status, took, memory = run.stdout.split()
    return float(took), float(memory), (status, *run.stderr.split()[:2])


class Runs:
    """The runs of one program: the seconds of each by its words, and the most memory of all."""

    def __init__(self, folder):
        self.folder = folder
        self.memory = 0.0
        self.took = {}

    def __call__(self, *words, refused=None):
        """One run more, which ends with 0 or 1, or is refused by that stage. The least seconds so far."""
        program = f'{self.folder}/{"ijtag-tools" if words[0] in TOOLS else "ijtag"}'
        if not os.path.exists(program):
            raise LookupError
        seconds, memory, end = ran([program, *words])
        if end[1:] != ('refused', refused) if refused else end[0] not in '01':
            if self.folder == folders[0]:
                print(f'speed: {words} ended with {end}', file=sys.stderr)
            raise LookupError
        self.took.setdefault(words, []).append(seconds)
        self.memory = max(self.memory, memory)
        return min(self.took[words])


def found(figure, runs):
    try:
        return figure(runs)
    except LookupError:
        return None


def measured(pairs):
    """What each figure gives of its runs. They take turns, since a machine may be slow for some seconds."""
    for turn in range(1, MANY + 1):
        values = [found(figure, runs) for figure, runs in pairs]
        seconds = sum(sum(map(sum, runs.took.values())) for _, runs in pairs) / len(pairs)
        if seconds > (SHORT if turn >= FEW else LONG):
            break
    return values


def shown(number, unit=''):
    return f'{number:.{3 if unit == "s" else 1}f} {unit}'.strip() if number is not None else '-'


def times(now, before, more_is_better=False):
    """How many times better OUT is."""
    if now is None or before is None:
        return '-'
    return f'{now / before if more_is_better else before / now:.1f}'


def tell(what, unit, wanted, values, memories):
    text = f'{what:55} {wanted:>13} {shown(values[0], unit):>16} {shown(memories[0], "MB"):>9}'
    if len(values) > 1:
        better = times(*values, unit in ('times', 'MB/s', 'M clocks/s'))
        text += f' {shown(values[1], unit):>16} {shown(memories[1], "MB"):>9} {better:>7}'
    print(text, flush=True)


def line(what, unit, wanted, figure):
    """Prints what `figure` gives of each program, which is handed its runs."""
    runs = [Runs(folder) for folder in folders]
    values = measured([(figure, it) for it in runs])
    tell(what, unit, wanted, values, [it.memory or None for it in runs])
    return values


def growth(what, most, prepared, refused=None):
    """Doubles the work twice, up to `most`, or goes through sizes that are given. `prepared` makes the texts
    of a size, and gives the words of a run, or a figure of seconds."""
    sizes = most if isinstance(most, tuple) else (most // 4, most // 2, most)
    global apart
    pairs = []
    for count in sizes:
        apart = f'{count}.'
        of = prepared(count)
        figure = of if callable(of) else lambda run, words=of: run(*words, refused=refused)
        pairs += [(figure, Runs(folder)) for folder in folders]
    values = measured(pairs)
    took = [values[at::len(folders)] for at in range(len(folders))]
    text = f'{what:43} {sizes[0]:>7} to {sizes[-1]:>7}' + ''.join(f' {shown(it, "s"):>8}' for it in took[0])
    text += f' {factors(took[0]):>11}'
    if len(took) > 1:
        text += f' {factors(took[1]):>11} {times(took[0][-1], took[1][-1]):>7}'
    print(text, flush=True)


def factors(values):
    pairs = zip(values, values[1:])
    there = ((before, after) if before and after and before > 0 else None for before, after in pairs)
    return ' '.join(f'{it[1] / it[0]:.2f}' if it else '-' for it in there)


device = file('chip.dev', 'device 1\nir 8\nlink tap IJTAG A0\n')
none = file('none.pdl', pdl(''))
small = file('small.icl', row(4))
small_tables = file('small.tab', 'tables 1\n')
s64 = file('s64.icl', instruments(64, 32))
file('s64.tab', tables(64, 32, 'change do v = d'))
limit = file('limit.icl', multiplexers(1023))
file('limit.tab', 'tables 1\n')
made = room / 'made'


def compiled(icl, text, proc='p'):
    return 'compile', icl, text, device, 'chip', proc, made


def less(words, before):
    """Seconds of a run without those of another one."""
    return lambda run: run(*words) - run(*before)


def alias_audited(count):
    """An audit of 65 iApplys, each of this many registers of one bit."""
    icl, text = file('alias.icl', row_with_alias(count)), alias_rounds(count, 65)
    svf = room / f'{count}.alias.svf'
    subprocess.run([f'{folders[0]}/ijtag', *compiled(icl, text)[:-1], svf])
    return 'audit', svf, icl, text, device, 'chip', 'p'


def read_icl(text, device=device):
    return 'compile', text, none, device, NO_TOP, 'p', made


def read_pdl(text):
    return compiled(s64, text, NO_PROC)


def read_svf(text):
    return 'play', text, small, device, small_tables, NO_TOP


def rounds_of(name, count):
    """A PDL text of this many rounds, over the network of that name."""
    path = room / f'{name}.{count}.pdl'
    if path.exists():
        return path
    if name == 's64':
        path.write_text(rounds(count, 64, 32, 'net.w{}.ins.q', 'net.w{}.ins.d'))
    else:
        path.write_text(rounds(count, 1023, 3, 'net.w{}.R', 'net.w{}.R'))
    return path


def scans_of(name, count):
    """Its SVF text, as OUT compiles it."""
    path = room / f'{name}.{count}.svf'
    if not path.exists():
        words = compiled(room / f'{name}.icl', rounds_of(name, count))
        subprocess.run([f'{folders[0]}/ijtag', *words[:-1], path])
    return path


def played(name, count):
    return 'play', scans_of(name, count), room / f'{name}.icl', device, room / f'{name}.tab', 'chip'


def clocks_of(name, count):
    """Its clocks, and how many compares differ in a play."""
    words = f'{folders[0]}/ijtag', *played(name, count)
    last = subprocess.run(words, stdout=subprocess.PIPE, text=True).stdout.split('\n')[-2].split()
    return int(last[3]), int(last[5])


def alias_rounds(count, applies, command='iWrite'):
    """This many iApplys, each of one command that names all registers by their alias."""
    drawn = random.Random(1)
    lines = ''.join(f'  {command} net.all 0x{drawn.getrandbits(count):X}\n  iApply\n' for _ in range(applies))
    return file(f'{command}.{count}.{applies}.pdl', pdl(lines))


def more_applies(count, command='iWrite'):
    """Seconds of 64 iApplys, each of this many registers of one bit."""
    icl = file('alias.icl', row_with_alias(count))
    few, more = (alias_rounds(count, applies, command) for applies in (1, 65))
    return less(compiled(icl, more), compiled(icl, few))


def short_scans(count):
    return file('short.svf', OPENED + 'SDR 4 TDI (5) TDO (A) MASK (0);\n' * count)


def long_scans(count):
    scan = 'SDR 2112 TDI (' + 'A5' * 264 + ') TDO (' + '5A' * 264 + ') MASK (' + 'FF' * 264 + ');\n'
    return file('long.svf', OPENED + scan * count)


def copies(count):
    """This many times three modules, some 1.2 kB."""
    return file('long.icl', CELLS * count)


def writes(count):
    line = '  iWrite net.w{}.ins.d 0x{:X}\n  iApply\n'
    return file('long.pdl', pdl(''.join(line.format(at % 64, at * 40503 % 2 ** 32) for at in range(count))))


def empty_procedures(count):
    lines = ''.join(f'iProc p{at} {{}} {{\n}}\n' for at in range(count))
    return file('procs.pdl', 'iProcsForModule chip\n' + lines)


def all_of_the_table():
    head = f'{"What":55} {"wanted":>13} {"measured":>16} {"memory":>9}'
    print(head + (f' {"old":>16} {"memory":>9} {"better":>7}' if folders[1:] else ''))
    applies = more_applies(4096)
    line('one iApply of 4096 registers of one bit', 'ms', 'below 1 ms', lambda run: 1000 / 64 * applies(run))
    alias = compiled(room / 'alias.icl', alias_rounds(4096, 4096))
    line('4096 such iApplys', 's', 'below 5 s', lambda run: run(*alias))
    for name, icl, wanted in ('limit', limit, '40 MB/s'), ('s64', s64, '100 MB/s'):
        what = 'at the limits, 1023 multiplexers' if name == 'limit' else '64 SIBs of 32 bits'
        words = compiled(icl, rounds_of(name, 4096))
        line(f'compile, 4096 rounds, {what}', 'MB/s', wanted, lambda run: written(run(*words)))
    against_verilator(2048)
    clocks = clocks_of('limit', 1024)[0] / 1e6
    line('play at the limits', 'M clocks/s', '', lambda run: clocks / run(*played('limit', 1024)))
    short = short_scans(500_000)
    play = 'play', short, small, device, small_tables, 'chip'
    line('play of 4-bit scans, without reading them', 'M clocks/s', '75 M clocks/s',
         lambda run: 500_000 * 9e-6 / (run(*play) - run(*read_svf(short), refused='elab')))
    for what, text, words, stage, wanted in (
            ('SVF, long scans', long_scans(20_000), read_svf, 'elab', 200),
            ('SVF, short commands', short, read_svf, 'elab', 100),
            ('ICL', copies(4000), read_icl, 'elab', 40),
            ('PDL', writes(200_000), read_pdl, 'pdl', 30)):
        line(f'reading {what}', 'MB/s', f'{wanted} MB/s',
             lambda run: size(text) / run(*words(text), refused=stage))
    called = file('calls.pdl', calls(2_000_000))
    for what, text in ('iWrites', room / 'long.pdl'), ('an iCall of many values', called):
        line(f'memory for each byte of PDL, {what}', 'bytes', '20 bytes',
             lambda run: (run(*read_pdl(text), refused='pdl'), run.memory / size(text))[1])
    opened = compiled(file('x.icl', rows(2000, 'x')), none, 'none')
    line('2000 rows of a multiplexer with x bits', 's', 'n log n', lambda run: run(*opened))
    wide = compiled(file('tower.icl', tower()), none, 'none')
    line(f'ports that nobody uses, {len(tower())} bytes of text', 'MB', 'below 100 MB',
         lambda run: (run(*wide), run.memory)[1])


def written(seconds):
    """MB of the written file for each second."""
    return size(made) / seconds


def against_verilator(count):
    """Plays over the same clocks as the models."""
    clocks, differs = clocks_of('s64', count)
    what = f'play, 64 SIBs of 32 bits, {clocks / 1e6:.1f} M clocks'
    values = line(what, 'M clocks/s', '', lambda run: clocks / 1e6 / run(*played('s64', count)))
    models = peer.verilator(room, scans_of('s64', count).read_text(), 64, 32)
    for kind, (pins, compared, theirs, seconds) in models.items():
        quick = pins / 1e6 / seconds
        nothing = [None for _ in values]
        tell(f'  Verilator, {kind}', 'M clocks/s', '', [quick, *nothing[1:]], nothing)
        ratios = [it and it / quick for it in values]
        tell('  so many times is the play as quick', 'times', '30 times', ratios, nothing)
        same = (clocks, differs) == (pins, theirs)
        print(f'    {compared} compares in {pins} clocks, {theirs} differ:',
              'the same in the play' if same else f'in the play {differs} in {clocks}')
    if not models:
        print('  Verilator is left out: it is not there')


def all_growth():
    head = f'\n{"Growth by doubling":43} {"sizes":>18} {"seconds":>26} {"growth":>11}'
    print(head + (f' {"of old":>11} {"better":>7}' if folders[1:] else ''))

    def nothing(icl):
        return compiled(icl, none, 'none')

    def rows_of(count, open_bit=''):
        return file('rows.icl', rows(count, open_bit))

    def row_of(count):
        return file('row.icl', row(count))

    def many(count):
        return file('many.icl', multiplexers(count))

    def running(count):
        icl, models = file('many.icl', instruments(count, 8)), tables(count, 8, 'run do v = v + 1')
        svf = file('runs.svf', OPENED + 'RUNTEST 200000 TCK;\n')
        return 'play', svf, icl, device, file('many.tab', models), 'chip'

    def comments(count):
        text = '# a comment line of a device file\n' * count + device.read_text()
        return read_icl(small, file('long.dev', text))

    def waved(count):
        """The same clocks for each count of registers, of which few are shown."""
        svf = file('same.svf', OPENED + f'SDR {count} TDI (5);\n' * (32_768 // count))
        return 'wave', 'all', svf, row_of(count), device, small_tables, 'chip', made, 0, 100

    growth('reading ICL, copies of three modules', 8000, lambda n: read_icl(copies(n)), 'elab')
    growth('reading PDL, rounds', 200_000, lambda n: read_pdl(writes(n)), 'pdl')
    growth('reading PDL, values of an iCall', 2_000_000,
           lambda n: read_pdl(file('calls.pdl', calls(n))), 'pdl')
    growth('reading PDL, procedures', 200_000, lambda n: read_pdl(empty_procedures(n)), 'pdl')
    growth('reading a device file, lines', 400_000, comments, 'elab')
    growth('migrate, instruments of tables', 80_000,
           lambda n: ('migrate', file('many.tab', tables(n, 32, 'change do v = d')), made))
    growth('reading SVF, long scans', 40_000, lambda n: read_svf(long_scans(n)), 'elab')
    growth('reading SVF, short commands', 1_000_000, lambda n: read_svf(short_scans(n)), 'elab')
    growth('compile, registers that iApplys write', 4096, more_applies)
    growth('compile, registers that iApplys read', 4096, lambda n: more_applies(n, 'iRead'))
    growth('compile, rounds, 64 SIBs', 4096, lambda n: compiled(s64, rounds_of('s64', n)))
    growth('compile, rounds, 1023 multiplexers', 4096,
           lambda n: less(compiled(limit, rounds_of('limit', n)), nothing(limit)))
    growth('play, rounds, 64 SIBs', 4096, lambda n: played('s64', n))
    reset = 'play', file('reset.svf', OPENED), *played('limit', 1024)[2:]
    growth('play, rounds, 1023 multiplexers', 1024, lambda n: less(played('limit', n), reset))
    growth('play, instruments that run', 256, running)
    growth('audit, rounds, 64 SIBs', 4096,
           lambda n: ('audit', scans_of('s64', n), s64, rounds_of('s64', n), device, 'chip', 'p'))
    growth('audit, registers that iApplys write', 4096, alias_audited)
    growth('the network, registers', 4096, lambda n: nothing(row_of(n)))
    growth('the network, multiplexers', 1022, lambda n: nothing(many(n)))
    growth('the network, instruments', 256, lambda n: nothing(file('many.icl', instruments(n, 8))))
    growth('the network, rows of a multiplexer', 65_536, lambda n: nothing(rows_of(n)))
    growth('the network, rows with x bits', 4096, lambda n: nothing(rows_of(n, 'x')))
    growth('muxtest, rows of a multiplexer', 4096, lambda n: ('muxtest', rows_of(n), device, 'chip', made))
    # a row is two scans at most, and each is as long as there are multiplexers
    growth('muxtest, multiplexers, its text doubled', (511, 723, 1022),
           lambda n: ('muxtest', many(n), device, 'chip', made))
    for form in 'text', 'json':
        growth(f'list {form}, registers', 4096, lambda n: ('list', form, row_of(n), device, 'chip'))
    growth('list text, multiplexers', 1022, lambda n: ('list', 'text', many(n), device, 'chip'))
    for form in 'svg', 'dot':
        growth(f'picture {form}, registers', 4096,
               lambda n: ('picture', form, row_of(n), device, 'chip', made))
        growth(f'picture {form}, multiplexers', 1022,
               lambda n: ('picture', form, many(n), device, 'chip', made))
    growth('explain, rounds', 2048, lambda n: ('explain', *played('s64', n)[1:], made))
    growth('where, rounds', 4096, lambda n: ('where', *played('s64', n)[1:], n + 1, 0))
    growth('tighten, rounds', 4096,
           lambda n: ('tighten', 'full', s64, rounds_of('s64', n), device, 'chip', 'p', made))
    for kind, most in ('pins', 1024), ('state', 1024), ('all', 16):
        growth(f'wave {kind}, rounds', most, lambda n: ('wave', kind, *played('s64', n)[1:], made))
    growth('wave all of 100 clocks, registers', 4096, waved)


try:
    all_of_the_table()
    all_growth()
finally:
    shutil.rmtree(room)
