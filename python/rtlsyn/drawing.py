"""Waveforms and schematics as SVG."""
from __future__ import annotations

import os
import re
import shutil
import subprocess
import tempfile
from html import escape
from typing import Iterator, Optional, Sequence

from . import files
from .errors import Failed
from .simulation import Simulation
from .waves import hexadecimal, rows_of
from .yosys import YosysFailed, run

#: Sizes of a waveform in pixels: a step, a row, the height of a signal, and room for the numbers of the steps.
STEP, ROW, HEIGHT, HEAD = 22, 24, 14, 20
#: The width of a character of the names.
CHARACTER = 7.3
#: What a value of a waveform is drawn as.
COLOURS = {'both': '#1a7f37', 'input': '#0550ae', 'source': '#8250df', 'netlist': '#1a7f37'}
#: How long `dot` may take for one schematic, in seconds; with these words it takes a quarter of the time.
SECONDS = 60
SOONER = ['-Gnslimit=1', '-Gnslimit1=1', '-Gmclimit=0.5']


def waveform(simulated: Simulation) -> str:
    """The waveform of a simulation: a row for each port, two where source and netlist differ."""
    rows = list(rows_of(simulated))
    left = CHARACTER * max(len(f'{name} {side}') for side, name, _, _ in rows) + 24
    steps = len(simulated.rows)
    width, height = left + STEP * steps + 8, HEAD + ROW * len(rows) + 8
    body = list(grid(left, steps, height))
    for number, (side, name, values, bits) in enumerate(rows):
        top = HEAD + ROW * number + (ROW - HEIGHT) / 2
        label = name if side in ('both', 'input') else f'{name} {side}'
        body.append(f'<text class="name" x="{left - 8:.0f}" y="{top + 11:.0f}">{escape(label)}</text>')
        draw = bit if bits == 1 else word
        body += draw(values, bits, left, top, COLOURS[side])
    return f'<svg width="{width:.0f}" height="{height:.0f}" viewBox="0 0 {width:.0f} {height:.0f}" ' \
           f'role="img" aria-label="waveform">{"".join(body)}</svg>'


def grid(left: float, steps: int, height: float) -> Iterator[str]:
    """The lines between the steps, and the number of each fifth."""
    for step in range(steps):
        x = left + STEP * step
        yield f'<path class="grid" d="M{x:.0f} {HEAD}V{height - 8:.0f}"/>'
        if (step + 1) % 5 == 0 or step == 0:
            yield f'<text class="step" x="{x + STEP / 2:.0f}" y="13">{step + 1}</text>'


def runs_of(values: Sequence[str]) -> Iterator[tuple[int, int, str]]:
    """Where each value begins and ends."""
    begin = 0
    for at in range(1, len(values) + 1):
        if at == len(values) or values[at] != values[begin]:
            yield begin, at, values[begin]
            begin = at


def bit(values: Sequence[str], _: int, left: float, top: float, colour: str) -> list[str]:
    """A signal of one bit: a line that is high or low, and a grey bar where it is unknown."""
    parts, line, is_open = [], '', False
    for begin, end, value in runs_of(values):
        x, after = left + STEP * begin, left + STEP * end
        if value in '01':
            y = top if value == '1' else top + HEIGHT
            line += f'{"V" if is_open else f"M{x:.0f} "}{y:.0f}H{after:.0f}'
        else:
            parts.append(f'<rect class="unknown" x="{x:.0f}" y="{top:.0f}" width="{after - x:.0f}" height="{HEIGHT}"/>')
        is_open = value in '01'
    return [*parts, f'<path class="line" stroke="{colour}" d="{line}"/>'] if line else parts


def word(values: Sequence[str], bits: int, left: float, top: float, colour: str) -> list[str]:
    """A signal of several bits: a box for each value, with its hexadecimal digits where there is room."""
    parts = []
    for begin, end, value in runs_of(values):
        x, width = left + STEP * begin, STEP * (end - begin)
        shade = 'unknown' if set(value) <= {'x', 'z'} else 'box'
        parts.append(f'<rect class="{shade}" stroke="{colour}" x="{x + 0.5:.1f}" y="{top:.0f}" width="{width - 1:.0f}" '
                     f'height="{HEIGHT}" rx="2"/>')
        text = hexadecimal(value, bits)
        if len(text) * 6.2 < width - 4:
            parts.append(f'<text class="value" x="{x + width / 2:.1f}" y="{top + 11:.0f}">{text}</text>')
    return parts


def can_draw() -> bool:
    """Whether the tools that draw schematics are there."""
    return bool(shutil.which('dot') and shutil.which('yosys'))


def schematic(netlist: str, module: str) -> Optional[str]:
    """The schematic of a module, drawn by `dot` from what Yosys shows; nothing where one of the two is missing, takes
    too long or does not take the module."""
    if not can_draw():
        return None
    with tempfile.TemporaryDirectory() as room:
        path = os.path.join(room, 'netlist.il')
        files.write(path, netlist)
        try:
            # The words of `show` have no quotes: the path has no blank, and a name never has one.
            run([f'read_rtlil "{path}"', f'show -format dot -notitle -prefix {os.path.join(room, "shown")} {module}'])
        except YosysFailed:
            return None
        return svg_of(os.path.join(room, 'shown.dot'))


def svg_of(path: str) -> Optional[str]:
    """The drawing of a graph, without the head of its file; nothing where `dot` takes too long."""
    try:
        done = subprocess.run(['dot', *SOONER, '-Tsvg', path], capture_output=True, timeout=SECONDS, check=False)
    except subprocess.TimeoutExpired:
        return None
    if done.returncode:
        raise Failed(f'dot ended with status {done.returncode}')
    found = re.search(r'<svg.*</svg>', done.stdout.decode('utf-8', 'replace'), re.S)
    return re.sub(r'<!--.*?-->|<title>.*?</title>', '', found[0], flags=re.S) if found else None
