"""Stimuli: from a file of lines, from a VCD, or drawn at random around a clock and a reset."""
from __future__ import annotations

import random
from typing import NamedTuple, Optional, Sequence

from . import vcd
from .errors import Failed
from .files import read
from .netlist import Port, plain
from .traces import steps_of

#: How many clock cycles a reset is held at the begin of a random stimulus.
RESET_CYCLES = 2
#: Endings of names of resets that act at 0.
LOW = ('_n', '_ni', '_b', '_l', 'rstn', 'resetn', 'nrst', 'nreset')


class Stimulus(NamedTuple):
    """The steps, and for each the line of the file that it stands at, where it is from one."""
    steps: list[str]
    lines: list[int]


def from_file(path: str, ports: Sequence[Port], scope: Optional[str] = None) -> Stimulus:
    """The steps of a file: a VCD, or a line for each step."""
    text = read(path)
    if path.endswith('.vcd'):
        return from_vcd(vcd.read(text), ports, scope)
    numbered = steps_of(text)
    return Stimulus([line for _, line in numbered], [number for number, _ in numbered])


def from_vcd(waves: vcd.Waves, ports: Sequence[Port], scope: Optional[str] = None) -> Stimulus:
    """A step for each time of a VCD, with the signals that have the names of the input ports."""
    rows = [waves.signal(plain(port.name), port.width, scope) for port in ports]
    if ports and not waves.times:
        raise Failed('the VCD has no time')
    return Stimulus([' '.join(row[at] for row in rows) or '-' for at in range(len(waves.times))], [])


def at_random(ports: Sequence[Port], count: int, seed: int, clock: Optional[str] = None,
              reset: Optional[str] = None) -> Stimulus:
    """Steps drawn at random. With a clock it is 0 and 1 in turn, and the other inputs change where it is 0, so that
    each edge takes inputs that stood before it. A reset acts for the first cycles, from the first step on, and ends
    where the clock is 0; a name such as `rst_n`, or `=0` after it, says that it acts at 0."""
    draw = random.Random(seed)
    clock_name, _ = level_of(clock, ports)
    reset_name, level = level_of(reset, ports)
    held: dict[str, str] = {}
    steps = []
    for step in range(count):
        if clock is None or step % 2 == 0:
            held = {port.name: format(draw.getrandbits(port.width), f'0{port.width}b') for port in ports}
        cycle = step // 2 if clock else step
        fixed = {clock_name: str(step % 2), reset_name: level if cycle < RESET_CYCLES else '10'[int(level)]}
        steps.append(' '.join(fixed.get(port.name, held[port.name]) for port in ports) or '-')
    return Stimulus(steps, [])


def level_of(named: Optional[str], ports: Sequence[Port]) -> tuple[str, str]:
    """The port that a word `NAME` or `NAME=LEVEL` names, and the level at which it acts."""
    if named is None:
        return '', '1'
    name, _, level = named.partition('=')
    port = next((port for port in ports if plain(port.name) == name.lstrip('\\')), None)
    if port is None or port.width != 1:
        names = ' '.join(plain(it.name) for it in ports if it.width == 1)
        raise Failed(f'{name} is no input port of one bit: those are {names or "none"}')
    if level not in ('', '0', '1'):
        raise Failed(f'{named}: the level of a reset is 0 or 1')
    return port.name, level or ('0' if name.lower().endswith(LOW) else '1')
