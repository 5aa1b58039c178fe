"""What Verilator's models of a chip take, for speed.py: SIBs, each before the register of an instrument.

The pins come from the SVF text, clock by clock, and the model is built twice. In the first one things happen
where they do on a chip: at both edges of TCK, so that a clock is two calls. In the second one all of a clock
happens at one change of TCK, in one call. Both are compiled for speed. An instrument's output is what its
input holds, and the chip is reset at the beginning alone."""
import re
import shutil
import subprocess

TABLE = bytes(byte - ord('0') if byte in b'01' else byte for byte in range(256))
KINDS = {'dual edge': [], 'single edge': ['SINGLE']}

CELLS = """`ifdef SINGLE
`define RISES edge tck
`define FALLS edge tck
`else
`define RISES posedge tck
`define FALLS negedge tck
`endif
module Sib(input tck, input reset, input capture, input shift, input update,
           input si, input from_so, output so, output to_sel);
  reg stage = 0, held = 0;
  assign so = stage, to_sel = held;
  always @(`RISES) if (capture) stage <= held; else if (shift) stage <= held ? from_so : si;
  always @(`FALLS) if (reset) held <= 0; else if (update) held <= stage;
endmodule
module Ins #(parameter W = 8) (input [W-1:0] d, output [W-1:0] q);
  assign q = d;
endmodule
module Wrap #(parameter W = 8) (input tck, input reset, input capture, input shift, input update,
                                input sel, input si, output so);
  reg [W-1:0] stage = 0, held = 0;
  wire [W-1:0] q;
  Ins #(.W(W)) ins(.d(held), .q(q));
  assign so = stage[0];
  always @(`RISES) if (sel & capture) stage <= q; else if (sel & shift) stage <= {si, stage[W-1:1]};
  always @(`FALLS) if (reset) held <= 0; else if (sel & update) held <= stage;
endmodule
"""

TAP = """module chip(input tck, input tms, input tdi, output tdo);
  localparam RESET = 0, IDLE = 1,
    SELECT_DR = 2, CAPTURE_DR = 3, SHIFT_DR = 4, EXIT1_DR = 5, PAUSE_DR = 6, EXIT2_DR = 7, UPDATE_DR = 8,
    SELECT_IR = 9, CAPTURE_IR = 10, SHIFT_IR = 11, EXIT1_IR = 12, PAUSE_IR = 13, EXIT2_IR = 14,
    UPDATE_IR = 15;
  reg [3:0] state = RESET;
  reg [7:0] stage = 0, instruction = 8'hFF;
  reg bypass = 0;
  always @(`RISES) case (state)
    RESET: state <= tms ? RESET : IDLE;
    IDLE, UPDATE_DR, UPDATE_IR: state <= tms ? SELECT_DR : IDLE;
    SELECT_DR: state <= tms ? SELECT_IR : CAPTURE_DR;
    CAPTURE_DR, SHIFT_DR: state <= tms ? EXIT1_DR : SHIFT_DR;
    EXIT1_DR: state <= tms ? UPDATE_DR : PAUSE_DR;
    PAUSE_DR: state <= tms ? EXIT2_DR : PAUSE_DR;
    EXIT2_DR: state <= tms ? UPDATE_DR : SHIFT_DR;
    SELECT_IR: state <= tms ? RESET : CAPTURE_IR;
    CAPTURE_IR, SHIFT_IR: state <= tms ? EXIT1_IR : SHIFT_IR;
    EXIT1_IR: state <= tms ? UPDATE_IR : PAUSE_IR;
    PAUSE_IR: state <= tms ? EXIT2_IR : PAUSE_IR;
    EXIT2_IR: state <= tms ? UPDATE_IR : SHIFT_IR;
  endcase
  wire network = instruction == 8'hA0, reset = state == RESET;
  wire capture = network & state == CAPTURE_DR;
  wire shift = network & state == SHIFT_DR;
  wire update = network & state == UPDATE_DR;
  always @(`RISES)
    if (state == CAPTURE_IR) stage <= 1; else if (state == SHIFT_IR) stage <= {tdi, stage[7:1]};
  always @(`RISES) if (state == CAPTURE_DR) bypass <= 0; else if (state == SHIFT_DR) bypass <= tdi;
  always @(`FALLS) if (reset) instruction <= 8'hFF; else if (state == UPDATE_IR) instruction <= stage;
  wire out = state == SHIFT_IR ? stage[0] : state == SHIFT_DR & (network ? LAST : bypass);
`ifdef SINGLE
  assign tdo = out;
`else
  reg given = 0;
  assign tdo = given;
  always @(`FALLS) given <= out;
`endif
"""

DRIVER = """#include "Vchip.h"
#include <cstdio>
#include <ctime>
#include <fstream>
#include <iterator>
#include <vector>
int main(int, char** words) {
  std::ifstream file(words[1], std::ios::binary);
  const std::vector<char> pins((std::istreambuf_iterator<char>(file)), std::istreambuf_iterator<char>());
  Vchip chip;
  long compared = 0, differs = 0;
  chip.tck = 0;
  chip.eval();
  const clock_t began = clock();
  for (const char it : pins) {
    compared += it >> 2 & 1;
    differs += it >> 2 & 1 & (chip.tdo ^ it >> 3);
    chip.tms = it & 1;
    chip.tdi = it >> 1 & 1;
    chip.tck ^= 1;
    chip.eval();
#ifndef SINGLE
    chip.tck ^= 1;
    chip.eval();
#endif
  }
  const double took = double(clock() - began) / CLOCKS_PER_SEC;
  chip.final();
  std::printf("%ld %ld %f\\n", compared, differs, took);
}
"""


def model(count, bits):
    """The chip in Verilog, with this many SIBs."""
    pins = '.tck(tck), .reset(reset), .capture(capture), .shift(shift), .update(update)'
    text, before = CELLS + TAP.replace('LAST', f's{count - 1}_so'), 'tdi'
    for at in range(count):
        sib = f'.si({before}), .from_so(w{at}_so), .so(s{at}_so), .to_sel(s{at}_sel)'
        text += f'  wire s{at}_so, s{at}_sel, w{at}_so;\n  Sib s{at}({pins}, {sib});\n'
        text += f'  Wrap #(.W({bits})) w{at}({pins}, .sel(s{at}_sel), .si({before}), .so(w{at}_so));\n'
        before = f's{at}_so'
    return text + 'endmodule\n'


def positions(digits, length):
    """A number whose byte k is position k of the digits."""
    return int.from_bytes(f'{int(digits, 16):0{length}b}'[::-1].encode().translate(TABLE), 'little')


def pins(svf):
    """A byte for each clock. From the lowest bit on: TMS, TDI, whether TDO is compared, and with what."""
    reset = True
    for words in map(str.split, re.sub('![^\n]*', '', svf).split(';')):
        if words[:2] == ['STATE', 'RESET']:
            reset = True
            yield b'\1' * 5
        elif words and words[0] in ('STATE', 'RUNTEST', 'SIR', 'SDR') and reset:
            reset = False
            yield b'\0'
        if words[:1] == ['RUNTEST']:
            yield bytes(int(words[1]))
        elif words[:1] in (['SIR'], ['SDR']):
            length = int(words[1])
            parts = dict(re.findall(r'(TDI|TDO|MASK)\(([^)]*)\)', ''.join(words[2:])))
            tdi, mask, tdo = (positions(parts.get(it, '0'), length) for it in ('TDI', 'MASK', 'TDO'))
            shifts = bytearray((2 * tdi + 4 * mask + 8 * tdo).to_bytes(length, 'little'))
            shifts[-1] |= 1
            yield (b'\1\1\0\0' if words[0] == 'SIR' else b'\1\0\0') + shifts + b'\1\0'


def built(folder, names):
    """The model that is built with these names defined, or nothing."""
    defined = [f'-D{it}' for it in names]
    words = ['verilator', '--cc', '--exe', '--build', '-j', '4', '-O3', '--x-assign', 'fast']
    words += ['--x-initial', 'fast', '-CFLAGS', ' '.join(['-O3', *defined]), '-MAKEFLAGS', 'OPT_FAST=-O3']
    words += ['-Wno-fatal', *defined]
    run = subprocess.run([*words, '--Mdir', folder, folder.parent / 'chip.v', folder.parent / 'driver.cpp'],
                         stdout=subprocess.DEVNULL, stderr=subprocess.PIPE, text=True)
    if run.returncode:
        print(f'speed: Verilator builds no model: {run.stderr}')
        return None
    return folder / 'Vchip'


def verilator(room, svf, count, bits):
    """For each kind of model its clocks, the positions that it compares, how many of them differ, and the
    processor seconds, the least of two runs. Nothing where there is no Verilator."""
    if not shutil.which('verilator'):
        return {}
    (room / 'chip.v').write_text(model(count, bits))
    (room / 'driver.cpp').write_text(DRIVER)
    clocks = (room / 'pins').write_bytes(b''.join(pins(svf)))
    found = {}
    for kind, names in KINDS.items():
        program = built(room / kind.split()[0], names)
        if program:
            words = [program, room / 'pins']
            runs = [subprocess.run(words, check=True, stdout=subprocess.PIPE, text=True) for _ in range(2)]
            told = [run.stdout.split() for run in runs]
            found[kind] = clocks, int(told[0][0]), int(told[0][1]), min(float(it[2]) for it in told)
    return found
