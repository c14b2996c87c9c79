"""Verilog: as RTLIL by Yosys, and over a stimulus by iverilog."""
import os
import subprocess
import tempfile
from typing import List, NamedTuple, Sequence, Tuple

from order.rtlil import Design, Wire, read_design

# What a step of iverilog shows besides the outputs: how often each control changed in it, and its value at the end.
Control = Tuple[int, str]


class Shown(NamedTuple):
    """A step of iverilog: the output vector as a line, and the controls."""
    line: str
    controls: Tuple[Control, ...]


def rtlil_text(verilog: str, then: str = '') -> str:
    """What Yosys writes of Verilog, after these further commands."""
    with tempfile.TemporaryDirectory(prefix='order-') as room:
        with open(os.path.join(room, 'design.v'), 'w') as file:
            file.write(verilog)
        commands = '; '.join(['read_verilog design.v', 'hierarchy', *([then] if then else []), 'write_rtlil design.il'])
        subprocess.run(['yosys', '-q', '-p', commands], cwd=room, check=True, stdout=subprocess.DEVNULL)
        with open(os.path.join(room, 'design.il')) as file:
            return file.read()


def design_of(verilog: str, then: str = '') -> Design:
    """Verilog as a design."""
    return read_design(rtlil_text(verilog, then))


def plain(wire: Wire) -> str:
    """The Verilog name of a port."""
    return wire.name[1:]


def bench_of(module: str, inputs: Sequence[Wire], outputs: Sequence[Wire], controls: Sequence[str], steps: Sequence[str]) -> str:
    """A test bench that gives a vector at each step, and shows what has come of it after a while."""
    lines = ['`timescale 1ns/1ns', 'module bench;']
    lines += [f'  reg [{wire.width - 1}:0] {plain(wire)};' for wire in inputs]
    lines += [f'  wire [{wire.width - 1}:0] {plain(wire)};' for wire in outputs]
    ports = ', '.join(f'.{plain(wire)}({plain(wire)})' for wire in [*inputs, *outputs])
    lines += [f'  {module} dut({ports});']
    for at, control in enumerate(controls):
        lines += [f'  integer moves{at} = 0;', f'  always @(dut.{control}) moves{at} = moves{at} + 1;']
    lines += ['  initial begin', *(step_text(inputs, outputs, controls, line) for line in steps), '  end', 'endmodule']
    return '\n'.join(lines) + '\n'


def step_text(inputs: Sequence[Wire], outputs: Sequence[Wire], controls: Sequence[str], line: str) -> str:
    """One step of a test bench."""
    given = ', '.join(plain(wire) for wire in inputs)
    value = ', '.join(f"{wire.width}'b{word}" for wire, word in zip(inputs, line.split()))
    zero = ''.join(f' moves{at} = 0;' for at in range(len(controls)))
    form = ' '.join(['%b'] * len(outputs)) + ' |' + ' %0d:%b' * len(controls)
    told = ', '.join([plain(wire) for wire in outputs] + [f'moves{at}, dut.{name}' for at, name in enumerate(controls)])
    return f'   {zero} {{{given}}} = {{{value}}}; #1; $display("{form}", {told});'


def shown_of(line: str) -> Shown:
    """A line that the test bench wrote."""
    outputs, _, controls = line.partition('|')
    pairs = (word.split(':') for word in controls.split())
    return Shown(outputs.strip(), tuple((int(moves), value) for moves, value in pairs))


def simulate(verilog: str, design: Design, module: str, steps: Sequence[str], controls: Sequence[str] = ()) -> List[Shown]:
    """What iverilog shows of a module over a stimulus."""
    top = design[f'\\{module}']
    bench = bench_of(module, top.ports('input'), top.ports('output'), controls, steps)
    with tempfile.TemporaryDirectory(prefix='order-') as room:
        with open(os.path.join(room, 'all.v'), 'w') as file:
            file.write(f'{bench}{verilog}')
        subprocess.run(['iverilog', '-g2005', '-s', 'bench', '-o', 'all', 'all.v'], cwd=room, check=True)
        told = subprocess.run(['vvp', '-n', 'all'], cwd=room, check=True, stdout=subprocess.PIPE, text=True).stdout
    return [shown_of(line) for line in told.splitlines() if '|' in line]
