#!/usr/bin/env python3
"""Runs of the built program at the limits of sizes, and on devices: what no contract and no test within the prover's reach can show.

    limits.py PROGRAM        run at the top of a checkout
"""
import os
import pathlib
import resource
import subprocess
import sys
import tempfile

SOURCE_LIMIT = 16_777_216
SVF_LIMIT = 134_217_728
GROUP_LIMIT = 4096
LEVELS = 3
FLAT = pathlib.Path('examples/flat').resolve()
MERGE = pathlib.Path('examples/merge').resolve()
REPORT = b'register net.R 0101\nscans 2 clocks 29 differs 0\n'

# a process's most memory is at least what its parent had when it began, so a small parent of its own asks for it
PARENT = """import os, sys
_, status, used = os.wait4(os.posix_spawn(sys.argv[1], sys.argv[1:], os.environ), 0)
print(os.waitstatus_to_exitcode(status), used.ru_maxrss)"""

program = os.path.abspath(sys.argv[1])
failed = []
count = 0


def check(what, found, wanted):
    global count
    count += 1
    if found != wanted:
        failed.append(f'{what}: {found!r}, wanted {wanted!r}')


def run(words, stdout=subprocess.PIPE):
    """A run of the program, or of the second one, which is beside it."""
    words = [*map(str, words)]
    called = [os.path.join(os.path.dirname(program), 'ijtag-tools'), *words[1:]] if words[0] == 'tools' else [program, *words]
    done = subprocess.run(called, stdout=stdout, stderr=subprocess.PIPE)
    return done.returncode, done.stdout, done.stderr


def play(svf, stdout=subprocess.PIPE):
    return run(['play', svf, FLAT / 'chip.icl', FLAT / 'chip.dev', FLAT / 'chip.tab', 'chip'], stdout)


def compile_to(svf, icl=FLAT / 'chip.icl'):
    return run(['compile', icl, FLAT / 'chip.pdl', FLAT / 'chip.dev', 'chip', 'p', svf])


with tempfile.TemporaryDirectory() as folder:
    folder = pathlib.Path(folder)

    # a text of exactly the limit is read, and one byte more is too long
    icl = folder / 'long.icl'
    module = (FLAT / 'chip.icl').read_bytes()
    icl.write_bytes(module + b' ' * (SOURCE_LIMIT - len(module)))
    check('ICL at the limit', compile_to(folder / 'at.svf', icl), (0, b'', b''))
    with icl.open('ab') as file:
        file.write(b' ')
    check('ICL above the limit', compile_to(folder / 'none.svf', icl), (3, b'', f'refused file Long {icl}\n'.encode()))
    check('no SVF is begun', (folder / 'none.svf').exists(), False)

    svf = folder / 'flat.svf'
    svf.write_bytes(b'a longer text that is there already\n' * 100)
    check('a compile', compile_to(svf), (0, b'', b''))
    text = svf.read_bytes()
    check('the size of the SVF text', len(text), 90)
    check('its play', play(svf), (0, REPORT, b''))
    svf.write_bytes(text + b'\n' * (SVF_LIMIT - len(text)))
    check('SVF at the limit', play(svf), (0, REPORT, b''))
    with svf.open('ab') as file:
        file.write(b'\n')
    check('SVF above the limit', play(svf), (3, b'', f'refused file Long {svf}\n'.encode()))
    svf.write_bytes(text)

    # this many branches of a merge that write one bit: none joins another, and each is one scan
    pdl = folder / 'merge.pdl'
    for branches, wanted in [(GROUP_LIMIT, (0, b'', b'')), (GROUP_LIMIT + 1, (3, b'', b'refused pdl Limit 4105:3 Groups 4096\n'))]:
        pdl.write_text('iProcsForModule chip\niProc p {} {\n  iMerge -begin\n' + '  iCall q\n' * branches
                       + '  iMerge -end\n}\niProc q {} {\n  iWrite fast.start 1\n  iApply\n}\n')
        words = ['compile', MERGE / 'chip.icl', pdl, MERGE / 'chip.dev', 'chip', 'p', folder / 'merge.svf']
        check(f'{branches} branches', run(words), wanted)
    check('their scans', (folder / 'merge.svf').read_bytes().count(b'SDR'), GROUP_LIMIT)

    # this many registers, each in a row of its own of one multiplexer, written by one iApply: a round each, in the order of their mention,
    # and before each but the first a scan that opens its row, since row 0 is selected at power-up
    rows, order = 200, [(7 * i) % 200 for i in range(200)]
    icl.write_text('Module Rows {\n  ScanInPort SI; ScanOutPort SO { Source M; }\n  ScanInterface client { Port SI; Port SO; }\n'
                   '  ScanRegister S[7:0] { ScanInSource SI; ResetValue 8\'d0; }\n'
                   + ''.join(f'  ScanRegister R{i} {{ ScanInSource S[0]; }}\n' for i in range(rows))
                   + '  ScanMux M SelectedBy S {\n' + ''.join(f'    8\'d{i} : R{i};\n' for i in range(rows)) + '  }\n}\n'
                   'Module chip {\n  Instance net Of Rows;\n  AccessLink tap Of STD_1149_1_2001 {\n'
                   '    BSDLEntity chip; IJTAG { ScanInterface { net.client; } }\n  }\n}\n')
    pdl.write_text('iProcsForModule chip\niProc p {} {\n' + ''.join(f'  iWrite net.R{i} 1\n' for i in order) + '  iApply\n}\n')
    words = ['compile', icl, pdl, FLAT / 'chip.dev', 'chip', 'p', folder / 'rounds.svf']
    check(f'{rows} rounds of one iApply', run(words), (0, b'', b''))
    scans = [line for line in (folder / 'rounds.svf').read_text().split('\n') if line.startswith('SDR')]
    check('their scans', len(scans), 2 * rows - 1)
    # position 0 is the register of the row, and the select bits follow
    opened = [int(line.split('TDI (')[1].split(')')[0], 16) >> 1 for line in scans[1::2]]
    check('the rows that they open', opened, order[1:])

    # the mux test of one multiplexer with as many rows as 12 bits select, all from scan-in: each row but the first takes two scans, none
    # changes the path, and rows are judged so often that a search for each of them would take minutes
    rows = 4096
    icl.write_text('Module Rows {\n  ScanInPort SI;\n  ScanOutPort SO { Source S[0]; }\n  ScanInterface client { Port SI; Port SO; }\n'
                   '  ScanMux M SelectedBy S {\n' + ''.join(f'    12\'d{i} : SI;\n' for i in range(rows)) + '  }\n'
                   '  ScanRegister S[11:0] { ScanInSource M; CaptureSource S; ResetValue 12\'b0; }\n}\n'
                   'Module chip {\n  Instance net Of Rows;\n  AccessLink tap Of STD_1149_1_2001 {\n'
                   '    BSDLEntity chip; IJTAG { ScanInterface { net.client; } }\n  }\n}\n')
    before = resource.getrusage(resource.RUSAGE_CHILDREN).ru_utime
    status, out, err = run(['muxtest', icl, FLAT / 'chip.dev', 'chip', folder / 'rows.svf'])
    check(f'the mux test of {rows} rows', (status, out.count(b'\n'), out.split(b'\n')[-2], err),
          (0, rows + 1, f'muxtest scans {2 * rows - 1} rows {rows} unseen {rows}'.encode(), b''))
    check('its processor seconds are few', resource.getrusage(resource.RUSAGE_CHILDREN).ru_utime - before < 20, True)

    # an alias of this many registers of one bit, written and read by each of many iApplys: four times the registers take some
    # four times as long, and not sixteen times
    taken = []
    for bits in (1024, 4096):
        rows = ''.join(f'  ScanRegister R{i} {{ ScanInSource {f"R{i - 1}" if i else "SI"}; CaptureSource R{i}; ResetValue 1\'b0; }}\n'
                       for i in range(bits))
        icl.write_text(f'Module Row {{\n  ScanInPort SI; ScanOutPort SO {{ Source R{bits - 1}; }}\n  ScanInterface client {{ Port SI; Port SO; }}\n'
                       f'{rows}  Alias all[{bits - 1}:0] = {", ".join(f"R{i}" for i in range(bits))};\n}}\n'
                       'Module chip {\n  Instance net Of Row;\n  AccessLink tap Of STD_1149_1_2001 {\n'
                       '    BSDLEntity chip; IJTAG { ScanInterface { net.client; } }\n  }\n}\n')
        pdl.write_text('iProcsForModule chip\niProc p {} {\n' + '  iWrite net.all 0x5A\n  iRead net.all 0\n  iApply\n' * 256 + '}\n')
        before = resource.getrusage(resource.RUSAGE_CHILDREN).ru_utime
        check(f'an alias of {bits} registers', run(['compile', icl, pdl, FLAT / 'chip.dev', 'chip', 'p', folder / 'alias.svf']), (0, b'', b''))
        taken.append(resource.getrusage(resource.RUSAGE_CHILDREN).ru_utime - before)
    check('their time grows as they do', taken[1] < 8 * taken[0], True)

    # an explained text of exactly the limit can be read again, and one byte more is too long
    count_of_scans, note = 1_800_000, '\n!: scan {} path 4\n!:   3..0 net.R[3:0] writes 0101'
    notes = len('\n!: scan 1 instruction A0 network') + sum(len(note.format(n)) for n in range(2, count_of_scans + 2)) + (count_of_scans - 1) * len(' as before')
    source = 'SIR 8 TDI (A0);\nSDR 4 TDI (5);\n' + 'SDR 4;\n' * (count_of_scans - 1)
    source += '!' + 'x' * (SVF_LIMIT - len(source) - notes - 2) + '\n'
    explained = folder / 'explained.svf'
    words = ['tools', 'explain', svf, FLAT / 'chip.icl', FLAT / 'chip.dev', FLAT / 'chip.tab', 'chip', explained]
    svf.write_text(source)
    check('an explained text at the limit', run(words), (0, b'', b''))
    check('its size', explained.stat().st_size, SVF_LIMIT)
    check('its play', play(explained), play(svf))
    explained.unlink()
    svf.write_text(source + ' ')
    check('an explained text above the limit', run(words), (3, b'', b'refused explain TooLong\n'))
    check('no explained text is begun', explained.exists(), False)

    # a device that takes nothing, and one that was closed
    check('SVF on a full device', compile_to('/dev/full'), (5, b'', b'write fault /dev/full\n'))
    # of each command that prints: its output is flushed before the status is decided
    files = [FLAT / f'chip.{kind}' for kind in ('icl', 'pdl', 'dev', 'tab')]
    check('the SVF text that is audited', compile_to(svf)[0], 0)
    printing = {'tools list': ['text', files[0], files[2], 'chip'], 'tools where': [svf, files[0], *files[2:], 'chip', '2', '0'],
                'tools tighten': ['full', *files[:3], 'chip', 'p', folder / 'tight.svf'], 'play': [svf, files[0], *files[2:], 'chip'], 'run': [*files, 'chip', 'p', folder / 'run.svf'], 'direct': [*files, 'chip', 'p'],
                'audit': [svf, *files[:3], 'chip', 'p'], 'muxtest': [files[0], files[2], 'chip', folder / 'mux.svf'],
                'make': ['0', '1', folder / 'made']}
    for name, words in printing.items():
        check(f'{name}, whose output is taken', run([*name.split(), *words])[::2], (0, b''))
        with open('/dev/full', 'wb') as full:
            check(f'{name} on a full device', run([*name.split(), *words], full)[::2], (5, b'write fault output\n'))
        reader, writer = os.pipe()
        os.close(reader)
        check(f'{name} on a closed pipe', run([*name.split(), *words], writer)[::2], (5, b'write fault output\n'))
        os.close(writer)

    # an SVF text of two pieces: into a pipe with a name, whose reader sees one writer throughout
    made = folder / 'long'
    check('a long SVF text', run(['make', '7', '64', made])[::2], (0, b''))
    long = made.with_suffix('.svf').read_bytes()
    check('it has more than one piece', len(long) > 65_536, True)
    words = ['compile', *(made.with_suffix(f'.{kind}') for kind in ('icl', 'pdl', 'dev')), 'chip', 'p']
    pipe = folder / 'pipe'
    os.mkfifo(pipe)
    with subprocess.Popen(['cat', pipe], stdout=subprocess.PIPE) as reader:
        writer = subprocess.Popen([program, *map(str, words), pipe], stderr=subprocess.PIPE)
        try:
            got = reader.communicate(timeout=600)[0]
            check('an SVF text in a pipe with a name', (writer.wait(timeout=600), writer.stderr.read(), got == long), (0, b'', True))
        except subprocess.TimeoutExpired:
            reader.kill(), writer.kill()
            failed.append('an SVF text in a pipe with a name: it hangs')

    # a limit on the size of files, as `ulimit -f` sets it and as ./ijtag hands it on: the second piece is cut
    svf = folder / 'cut.svf'
    at = 70_000
    done = subprocess.run([program, *map(str, words), svf], stderr=subprocess.PIPE, restore_signals=False,
                          preexec_fn=lambda: resource.setrlimit(resource.RLIMIT_FSIZE, (at, at)))
    check('SVF above a limit on files', (done.returncode, done.stderr), (5, f'write fault {svf}\n'.encode()))
    check('what it leaves', svf.read_bytes() == long[:at], True)

    # pairs of compiles at once to one file: of equal texts, one whole text is there wherever both end well
    for number in range(200):
        svf = folder / f'pair{number % 2}.svf'
        words = ['compile', FLAT / 'chip.icl', FLAT / 'chip.pdl', FLAT / 'chip.dev', 'chip', 'p', svf]
        pair = [subprocess.Popen([program, *map(str, words)]) for _ in range(2)]
        ended = [it.wait() for it in pair]
        if ended != [0, 0] or svf.read_bytes() != text:
            check(f'pair {number} of compiles to one file', (ended, svf.read_bytes()), ([0, 0], text))
            break
    check('pairs of compiles to one file', number, 199)

    # a long report is handed to the operating system in pieces of 8 KiB: in such a pipe each write is apart, in packets
    # of at most 4,096 bytes
    scan = b'SDR 65536 TDI (0) TDO (' + b'F' * 16384 + b');\n'
    svf.write_bytes(b'SIR 8 TDI (A0);\n' + scan * 4)
    reader, writer = os.pipe2(os.O_DIRECT)
    player = subprocess.Popen(
        [program, 'play', svf, FLAT / 'chip.icl', FLAT / 'chip.dev', FLAT / 'chip.tab', 'chip'], stdout=writer)
    os.close(writer)
    packets = []
    while packet := os.read(reader, 65536):
        packets.append(packet)
    check('the status of a play that differs', player.wait(), 1)
    report = b''.join(packets)
    check('its lines', report.count(b'\n'), 262_146)
    check('its writes are large', len(packets) <= len(report) // 4096 + len(report) // 8192 + 2, True)
    # a text of 1 kB that has a tower of wide ports asks for less than 100 MB
    wide = 'DataInPort p[65535:0]; '
    tower = f'Module A0 {{ {wide}DataOutPort q[65535:0] {{ Source p; }} }}\n'
    for level in range(1, LEVELS + 1):
        tower += f'Module A{level} {{ {wide}' + ''.join(f'Instance {it} Of A{level - 1} {{ InputPort p = p; }} ' for it in 'abcde') + '}\n'
    flat = (FLAT / 'chip.icl').read_text()
    icl.write_text(tower + flat.replace('Module Net {', f'Module Net {{ Instance tower Of A{LEVELS};', 1))
    check('what is before a tower', f'Of A{LEVELS};' in icl.read_text(), True)
    check('the bytes of a tower', len(tower) < 1024, True)
    words = [program, 'compile', icl, FLAT / 'chip.pdl', FLAT / 'chip.dev', 'chip', 'p', folder / 'tower.svf']
    status, memory = subprocess.run([sys.executable, '-S', '-c', PARENT, *map(str, words)], stdout=subprocess.PIPE).stdout.split()
    check('a tower of wide ports', int(status), 0)
    check('its memory is below 100 MB', int(memory) < 100_000, True)


for line in failed:
    print(line)
print(f'limits: {count - len(failed)} passed, {len(failed)} failed')
sys.exit(1 if failed else 0)
