"""The rows of rows/order: sessions that simulate the waveforms. What they want comes from the model, and from iverilog where it
has 0 or 1; that of netlists comes from the model over netlists that Yosys makes."""
import os
from typing import Iterator, List, Sequence

from order.program import TOP
from order.release import Order
from order.rtlil import read_design
from order.run import trace
from order.verilog import rtlil_text, simulate
from order.waves import WAVES, Wave

FOLDER = os.path.join(TOP, 'rows', 'order')
MAPPED = 'proc; opt -full; techmap; opt -full'
HEAD = {
    Order.TOGETHER: '''# Resets that registers give up, as the first order of time has them (Together): in the step in which the reset is given up the
# source merges the value under reset with the next one, so what counts from there is unknown.''',
    Order.RELEASED: '''# Resets that registers give up, as the second order of time has them (Released): a clock's edge takes the value under the reset
# as it was before the step, and the counter counts from there, in source and netlist.''',
}
COMMON = '''# Written by `python3 bench/order rows`: the traces of sources are those of an independent model, and in the second order iverilog
# has the same wherever it has 0 or 1; the traces of netlists are those of the model over netlists of Yosys.'''


def plain_text(wave: Wave) -> str:
    """The design of a waveform without comments, and without attributes that mean nothing over time."""
    lines = rtlil_text(wave.verilog, wave.then).splitlines()
    return '\n'.join(line.rstrip() for line in lines if not is_idle(line.split()))


def is_idle(words: Sequence[str]) -> bool:
    """Whether a line says nothing about time."""
    return not words or words[0] in ('#', 'autoidx') or (words[0] == 'attribute' and words[1] != '\\init')


def netlist_trace(wave: Wave, steps: List[str], order: Order) -> List[str]:
    """The trace of a netlist that Yosys makes. It is known in each bit, so that it is that of any netlist of the source."""
    found = trace(read_design(rtlil_text(wave.verilog, MAPPED)), '\\wave', steps, order)
    if any(set(line) & set('xz') for line in found):
        raise ValueError(f'{wave.name}: the netlist is not known in each bit: {found}')
    return found


def clashes(shown: Sequence[str], found: Sequence[str]) -> bool:
    """Whether one has 0 and the other 1, in some place."""
    return any({a, b} == {'0', '1'} for line, other in zip(shown, found) for a, b in zip(line, other))


def source_trace(wave: Wave, text: str, steps: List[str], order: Order) -> List[str]:
    """The trace of the source by the model; in the second order iverilog has nothing against it."""
    design = read_design(text)
    found = trace(design, '\\wave', steps, order)
    shown = [step.line for step in simulate(wave.verilog, design, 'wave', steps)]
    if order is Order.RELEASED and clashes(shown, found):
        raise ValueError(f'{wave.name}: iverilog has {shown}, and the model {found}')
    return found


def row(wave: Wave, order: Order) -> Iterator[str]:
    """A row: a session that loads the waveform's design and simulates source and netlist."""
    text, steps = plain_text(wave), wave.short.split(', ')
    word = ' released' if order is Order.RELEASED else ''
    yield from ('', f'row {wave.name}', 'words --session', '> load', *(f'> {line}' for line in text.splitlines()), '> .')
    for what in ('source', 'netlist'):
        yield from (f'> sim {what} \\wave{word}', *(f'> {line}' for line in steps), '> .')
    source, netlist = source_trace(wave, text, steps, order), netlist_trace(wave, steps, order)
    yield from ('< ok modules 1', f'< ok steps {len(steps)}', *(f'< {line}' for line in source))
    yield from (f'< ok built 1 reused 0 steps {len(steps)}', *(f'< {line}' for line in netlist))


def table(order: Order) -> str:
    """The table of an order."""
    lines = [HEAD[order], COMMON, *(line for wave in WAVES for line in row(wave, order))]
    return '\n'.join([*lines, ''])


def tables() -> Iterator[tuple]:
    """The paths of the tables, and what they have to be."""
    for order in Order:
        yield os.path.join(FOLDER, f'{order.value}.rows'), table(order)
