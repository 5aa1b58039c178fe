#!/usr/bin/env python3
"""Hands texts to the program and compares what it answers: answers.py PROGRAM [TITLE..], run at the top of a checkout. A title begins with
its topic, as in `pdl: texts`. Where some are given, the cases whose titles begin with one of them are run; else all that are run nowhere
else: those of .ci/answers/, which are about a real disk or about ijtag-tools, and those whose texts are computed here. All others, of
crates/ijtag_answers/data/, are run by ijtag_answers, the program of the gate. docs/DEVELOPING.md says how a case is written; two lines are
for this script alone:

      tools WORDS          a call of the second program, ijtag-tools, which is beside PROGRAM"""
import concurrent.futures
import functools
import os
import pathlib
import re
import subprocess
import sys
import tempfile

ANY = None
ESCAPES = {'n': '\n', 't': '\t', 'r': '\r'}
SHARED = pathlib.Path('crates/ijtag_answers')
MADE = ('t.icl', 't.pdl', 't.dev', 't.tab', 't.svf')
texts = {}


class Run:
    """A call of the program, and what is wanted of it; the output may be a function that tells whether it is right."""

    def __init__(self, words, status=0, out='', err='', holds=None, tools=False):
        self.words, self.status, self.out, self.err, self.holds, self.tools = words, status, out, err, holds or {}, tools


class Case:
    """Files, as names and texts, and runs, in their order."""

    def __init__(self, title, *steps):
        self.title, self.steps = title, list(steps)


# ---- the files of cases

def block(lines, indent):
    """Takes the lines that are indented so far."""
    text = ''
    while lines and lines[0].startswith(indent):
        line = lines.pop(0)[len(indent):]
        text += line if re.fullmatch('<[^ ]*>', line) else line + '\\n'
    return text


def read_topic(path):
    """The cases of a file, one for each row; its texts are added to the others."""
    first, *parts = path.read_text().split('\ncase ')
    read_case('', first, '')
    for part in parts:
        title = f'{path.stem}: {part.splitlines()[0]}'
        rows = re.findall('(?m)^  row (.*)$', part)
        yield from (read_case(f'{title}: {row}', part, row) for row in rows)
        if not rows:
            yield read_case(title, part, '')


def with_row(line, row):
    """A line with the parts of a row in their places."""
    for k, part in enumerate(row.split(' => '), 1):
        line = line.replace(f'<{k}>', part)
    return line


def read_case(title, part, row):
    """A case with the parts of a row."""
    case, lines = Case(title), [with_row(line, row) for line in part.splitlines()[1:]]
    while lines:
        line = lines.pop(0)
        indent = len(line) - len(line.lstrip())
        kind, _, rest = line[indent:].partition(' ')
        if kind in ('run', 'tools'):
            case.steps.append(Run([full(word) for word in rest.split()], tools=kind == 'tools'))
        elif kind == 'status':
            case.steps[-1].status = int(rest)
        elif kind not in ('', 'row') and not kind.startswith('#'):
            name, equals, text = rest.partition('=')
            text = full(text.removeprefix(' ') or block(lines, ' ' * (indent + 2))) if equals else ANY
            put(case, kind, name.strip(), text)
    return case


def put(case, kind, name, text):
    if kind == 'text':
        if texts.setdefault(name, text) != text:
            sys.exit(f'answers: two texts are named {name}')
    elif kind == 'file':
        case.steps.append((name, text))
    elif kind == 'holds':
        case.steps[-1].holds[name] = text
    elif kind in ('out', 'err'):
        setattr(case.steps[-1], kind, text)
    else:
        sys.exit(f'answers: a line begins with {kind}')


def full(text):
    """The bytes of a text, with those that it names in their places."""
    def escaped(plain):
        return re.sub(r'\\(x[0-9a-f]{2}|[ntr])', lambda it: ESCAPES.get(it[1]) or chr(int(it[1][1:], 16)), plain)

    def named(name):
        count, times, piece = name.partition(' * ')
        return escaped(piece) * int(count) if times else texts[name]
    parts = re.split('<([^>]*)>', text)
    return ''.join(named(part) if k % 2 else escaped(part) for k, part in enumerate(parts))


# ---- cases whose texts are computed

def refused(title, icl, top, line):
    files = ('a.icl', icl), ('a.pdl', full('<WRITE>')), ('a.dev', full('<DEVICE>'))
    return Case(title, *files, Run(['compile', 'a.icl', 'a.pdl', 'a.dev', top, 'p', 'a.svf'], 3, '', f'refused {line}\n'))


def hierarchies():
    """Modules m0, m1 and so on, each with this many instances of the one before it: a top with the last one has as many of something as may be
    and no link, and a top that has the module `one`, too, has one more."""
    mux, register = 'ScanInPort i; ScanMux m SelectedBy 1\'b0 { 0 : i; }', 'ScanInPort i; ScanRegister r%s { ScanInSource i; }'
    for items, one, instances, last, limit in (
            ('', 'Instance i Of m63;', 1, 63, 'Hierarchy 64'), ('', '', 2, 12, 'Cells 8192'), ('DataInPort d;', 'DataInPort d;', 2, 8, 'Instruments 256'),
            (mux, mux, 2, 10, 'Muxes 1024'), (register % '[31:0]', register % '', 2, 7, 'ScanBits 4096')):
        icl = f'Module m0 {{ {items} }}\nModule one {{ {one} }}\n'
        for k in range(1, last + 1):
            icl += f'Module m{k} {{{"".join(f" Instance i{i} Of m{k - 1};" for i in range(instances))} }}\n'
        icl += f'Module at {{ Instance i Of m{last}; }}\nModule above {{ Instance i Of m{last}; Instance j Of one; }}\n'
        yield refused(f'elab: {limit} is taken', icl, 'at', 'connect NoLink tap IJTAG')
        yield refused(f'elab: more than {limit}', icl, 'above', f'elab Limit {limit}')


def chain(muxes):
    """This many multiplexers inside one another: S0 selects the outermost one, whose row 1 ends with S1, and so on."""
    front = 'Module Net { ScanInterface client { Port SI; Port SO; } ScanInPort SI; ScanOutPort SO { Source S0; }\n'
    parts = ''.join(
        f"ScanMux m{k} SelectedBy S{k} {{ 1'b0 : SI; 1'b1 : S{k + 1}; }} "
        f"ScanRegister S{k} {{ ScanInSource m{k}; CaptureSource S{k}; ResetValue 1'b0; }}\n" for k in range(muxes))
    last = f"ScanRegister S{muxes} {{ ScanInSource SI; CaptureSource S{muxes}; ResetValue 1'b0; }} }}\n"
    return front + parts + last + full('<CHIP>')


def chains():
    yield refused('nest: seventeen multiplexers', chain(17), 'chip', 'nest TooDeep net.m16')
    # each scan opens one multiplexer more, and the last one writes
    scans = ''.join(f'SDR {k} TDI ({(1 << k) - 1:0{(k + 3) // 4}X});\n' for k in range(1, 18))
    yield Case(
        'nest: sixteen multiplexers', ('a.icl', chain(16)), ('a.dev', full('<DEVICE>')),
        ('a.pdl', 'iProcsForModule chip\niProc p {} {\n  iWrite net.S16 1\n  iApply\n}\n'),
        Run(['compile', 'a.icl', 'a.pdl', 'a.dev', 'chip', 'p', 'a.svf'], holds={'a.svf': full('<PREFACE>') + '! apply 1\n' + scans}))


def most_scans():
    """A multiplexer of 64 rows, each of which goes through one more of 63 rows: a row is opened by one scan and gone through by another,
    but the first is open. Multiplexers of one row more take one scan each: 8192 scans may be, and no more."""

    def mux(name, select, sources):
        rows = ' '.join(f"6'd{k} : {source};" for k, source in enumerate(sources))
        return (f"  ScanMux {name} SelectedBy {select} {{ {rows} }}\n"
                f"  ScanRegister {select}[5:0] {{ ScanInSource {name}; CaptureSource {select}; ResetValue 6'b0; }}\n")

    front = 'Module Net {\n  ScanInPort SI; ScanOutPort SO { Source T0; }\n  ScanInterface client { Port SI; Port SO; }\n'
    rows = mux('m', 'S', [f'B{k}[0]' for k in range(64)]) + ''.join(mux(f'b{k}', f'B{k}', ['SI'] * 63) for k in range(64))
    for title, more, status, out, err in (
            ('Scans 8192 is taken', 1, 0, lambda text: text.endswith('\nmuxtest scans 8192 rows 4097 unseen 4097\n'), ''),
            ('more than Scans 8192', 2, 3, '', 'refused muxtest Limit Scans 8192\n')):
        icl = front + rows + ''.join(
            f"  ScanMux n{k} SelectedBy T{k} {{ 1'b0 : {f'T{k + 1}' if k + 1 < more else 'S[0]'}; }}\n"
            f"  ScanRegister T{k} {{ ScanInSource n{k}; CaptureSource T{k}; ResetValue 1'b0; }}\n" for k in range(more)) + '}\n' + full('<CHIP>')
        yield Case(
            f'muxtest: {title}', ('a.icl', icl), ('a.dev', full('<DEVICE>')),
            Run(['muxtest', 'a.icl', 'a.dev', 'chip', 'a.svf'], status, out, err, {} if status else {'a.svf': ANY}))


def calls():
    """Procedures that call one another, this many inside one another: the last one writes."""
    for depth, status, err in ((64, 0, ''), (65, 3, 'refused pdl CallDepth 195:3\n')):
        procs = ''.join(f'iProc {name} {{}} {{\n  iCall c{k}\n}}\n' for k, name in enumerate(['p', *(f'c{k}' for k in range(1, depth))], 1))
        pdl = f'iProcsForModule chip\n{procs}iProc c{depth} {{}} {{\n  iWrite net.R 5\n  iApply\n}}\n'
        yield Case(
            f'pdl: {depth} calls inside one another', ('a.icl', full('<FLAT>')), ('a.pdl', pdl), ('a.dev', full('<DEVICE>')),
            Run(['compile', 'a.icl', 'a.pdl', 'a.dev', 'chip', 'p', 'a.svf'], status, '', err, {} if status else {'a.svf': full('<SVF>')}))


def pieces():
    """The most groups: their text of more than 64 KiB is added to its file piece by piece. One more is refused at its iApply."""
    svf = full('<PREFACE>') + ''.join(f'! apply {n}\nSDR 4 TDI ({n % 16:X});\n' for n in range(1, 4097))
    for title, groups, status, err in (('a text of several pieces', 4096, 0, ''), ('more groups', 4097, 3, 'refused pdl Limit 8196:3 Groups 4096\n')):
        pdl = ''.join(f'  iWrite net.R {n % 16}\n  iApply\n' for n in range(1, groups + 1))
        yield Case(
            f'compile: {title}', ('a.icl', full('<FLAT>')), ('a.pdl', f'iProcsForModule chip\niProc p {{}} {{\n{pdl}}}\n'), ('a.dev', full('<DEVICE>')),
            Run(['compile', 'a.icl', 'a.pdl', 'a.dev', 'chip', 'p', 'a.svf'], status, '', err, {} if status else {'a.svf': svf}))


def segments():
    """The three instruments of examples/sibs/, whose page shows the file and its play: their run has both."""
    page = pathlib.Path('examples/sibs/README.md').read_text()
    svf, report = (''.join(line[4:] + '\n' for line in part.splitlines()) for part in re.findall(r'(?m)^    \$ .*\n((?:    [^$].*\n)+)', page))
    files = [f'chip.{kind}' for kind in ('icl', 'pdl', 'dev', 'tab')]
    yield Case(
        'run: three instruments in segments', *((name, pathlib.Path('examples/sibs', name).read_text()) for name in files),
        Run(['run', *files, 'chip', 'p', 'a.svf'], out=report, holds={'a.svf': svf}))


def far_wants():
    """A multiplexer that the rounds don't ask for takes the row of its next want, also where 65 wants of the other row come before."""
    parts = ("  ScanRegister S { ScanInSource SI; CaptureSource S; ResetValue 1'b1; }\n"
             "  ScanMux M0 SelectedBy S[0] { 1'b0 : M1; 1'b1 : B; }\n"
             "  ScanRegister X { ScanInSource S; CaptureSource X; ResetValue 1'b1; }\n"
             "  ScanMux M1 SelectedBy X[0] { 1'b0 : X; 1'b1 : D; }\n"
             "  ScanRegister D[1:0] { ScanInSource X; CaptureSource D; ResetValue 2'b00; }\n"
             "  ScanRegister B[1:0] { ScanInSource S; CaptureSource B; ResetValue 2'b00; }\n"
             "  ScanMux M2 SelectedBy E[0] { 1'b0 : M0; 1'b1 : W; }\n"
             "  ScanRegister W { ScanInSource M0; CaptureSource W; ResetValue 1'b0; }\n"
             "  ScanRegister E { ScanInSource M2; CaptureSource E; ResetValue 1'b0; }\n")
    icl = 'Module Net {\n  ScanInPort SI; ScanOutPort SO { Source E; }\n  ScanInterface client { Port SI; Port SO; }\n' + parts + '}\n' + full('<CHIP>')
    rounds = ['net.W 0b1', *(f'net.B 0b{"01"[k % 2] * 2}' for k in range(1, 66))]
    pdl = 'iProcsForModule chip\niProc p {} {\n' + ''.join(f'  iWrite {it}\n  iApply\n' for it in rounds) + '}\n'
    return Case(
        'tools: a row that is wanted late', ('a.icl', icl), ('a.pdl', pdl), ('a.dev', full('<DEVICE>')),
        Run(['tighten', 'full', 'a.icl', 'a.pdl', 'a.dev', 'chip', 'p', 'a.svf'], out='scans 68 clocks 624 were scans 68 clocks 689 least 617\n',
            holds={'a.svf': ANY}, tools=True))


def longest_scan():
    """A scan of 65,536 bits through a register of four: TDO has what went in four clocks before, and is compared where MASK has a 1."""
    digits = '8' + '0123456789abcde' * 1092 + '123'
    part = '(8' + '0123456789abcde\n' * 1092 + '123)'
    bits = [int(digit, 16) >> k & 1 for digit in reversed(digits) for k in range(4)]
    found = [0] * 4 + bits[:-4]
    lines = [f'differs scan 2 bit {i} expected 1 read 0\n' for i, bit in enumerate(bits) if bit and not found[i]]
    report = ''.join(lines) + f'register net.R 1000\nscans 2 clocks 65556 differs {len(lines)}\n'
    svf = 'SIR 8 TDI (A0);\nSDR 65536 TDI' + part + 'TDO' + part + 'MASK' + part + 'SMASK' + part + ';'
    return Case(
        'play: the longest scan', ('a.svf', svf), *((name, full(text)) for name, text in (('a.icl', '<FLAT>'), ('a.dev', '<DEVICE>'), ('a.tab', '<TABLES>'))),
        Run(['play', 'a.svf', 'a.icl', 'a.dev', 'a.tab', 'chip'], 1, report))


def made_designs():
    """Designs of all sizes, which their procedures find as they should be, and one that is made, compiled and played again."""
    files = dict.fromkeys(MADE, ANY)
    for seed, size in ((1, 1), (0, 1), (9999999999999999999, 1), (1, 8), (2, 8), (3, 8), (4, 8), (7, 64)):
        yield Case(f'make: a made design {seed} {size}', Run(['make', str(seed), str(size), 't'], out=lambda line, size=size: is_made(line, size), holds=files))
    lines = []
    yield Case(
        'make: a design made again', Run(['make', '3', '4', 't'], out=lambda line: lines.append(line) or is_made(line, 4), holds=files),
        Run(['make', '3', '4', 'u'], out=lambda line: line == lines[0], holds={f'u{name[1:]}': (name,) for name in MADE}),
        Run(['compile', 't.icl', 't.pdl', 't.dev', 'chip', 'p', 'again.svf'], holds={'again.svf': ('t.svf',)}),
        Run(['play', 't.svf', 't.icl', 't.dev', 't.tab', 'chip'], out=lambda report: report.endswith(' differs 0\n')))


def is_made(line, size):
    """As many registers as multiplexers and instruments, one to four multiplexers and four groups for each instrument."""
    number = re.fullmatch(r'made registers (\d+) muxes (\d+) instruments (\d+) groups (\d+) scans \d+ clocks \d+ differs 0\n', line)
    registers, muxes, instruments, groups = map(int, number.groups()) if number else (0,) * 4
    return instruments == size and registers == muxes + size and size <= muxes <= 4 * size and groups == 4 * size


# ---- runs

def short(value):
    told = repr(value)
    return told if len(told) < 400 else f'{told[:400]}.. of {len(told)}'


def wrong(program, case):
    """A line for each thing that is otherwise than wanted."""
    lines, files = [], {}

    def compare(what, found, wanted):
        if found != wanted:
            lines.append(f'{short(case.title)}: {what}: {short(found)}, wanted {short(wanted)}')
    with tempfile.TemporaryDirectory() as name:
        folder = pathlib.Path(name)
        for step in case.steps:
            if not isinstance(step, Run):
                files[step[0]] = step[1].encode('latin-1')
                (folder / step[0]).write_bytes(files[step[0]])
                continue
            called = os.path.join(os.path.dirname(program), 'ijtag-tools') if step.tools else program
            done = subprocess.run([called, *step.words], cwd=folder, capture_output=True)
            out = done.stdout.decode('latin-1')
            compare('status', done.returncode, step.status)
            compare('output', out, (out if step.out(out) else 'another one') if callable(step.out) else step.out)
            compare('error stream', done.stderr.decode('latin-1'), step.err)
            found = {it.name: it.read_bytes() for it in folder.iterdir()}
            for name, text in step.holds.items():
                files[name] = found.get(name, b'') if text is ANY else found.get(text[0]) if isinstance(text, tuple) else text.encode('latin-1')
            for name in sorted(found.keys() | files.keys()):
                compare(f'file {name}', found.get(name), files.get(name))
    return lines


def all_cases():
    """The cases that only this script runs, and then those of the gate's program, whose texts all may name."""
    shared = [SHARED / 'data' / name for name in (SHARED / 'args').read_text().split()]
    if {*shared} != {*SHARED.glob('data/*.txt')}:
        sys.exit(f'answers: {SHARED}/args has not each topic of {SHARED}/data, once')
    gate = [case for path in shared for case in read_topic(path)]
    own = [case for path in sorted(pathlib.Path('.ci/answers').glob('*.txt')) for case in read_topic(path)]
    return [*own, *hierarchies(), *chains(), *most_scans(), *calls(), *pieces(), *segments(), far_wants(), longest_scan(), *made_designs()], gate


def main(program, *titles):
    own, gate = all_cases()
    cases = [case for case in own + gate if case.title.startswith(titles)] if titles else own
    with concurrent.futures.ThreadPoolExecutor(os.cpu_count() or 1) as workers:
        failed = [lines for lines in workers.map(functools.partial(wrong, os.path.abspath(program)), cases) if lines]
    for lines in failed:
        print(*lines, sep='\n')
    print(f'answers: {len(cases) - len(failed)} passed, {len(failed)} failed')
    return 1 if failed or not cases else 0


if __name__ == '__main__':
    sys.exit(main(*sys.argv[1:]))
