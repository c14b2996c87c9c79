"""A waveform as a picture of characters."""
from __future__ import annotations

from typing import Iterator, Sequence

from .netlist import plain
from .simulation import Simulation

#: Bits over time, by the value now; what an edge begins with, by the value before and now.
LEVEL = {'0': '▁', '1': '▔', 'x': '░', 'z': '╌'}
EDGE = {('0', '1'): '╱', ('1', '0'): '╲'}
#: The characters of a step, and how many steps are to stand beside each other where they get more.
NARROW, FEWEST = 2, 6


def bit_line(values: Sequence[str], step: int = NARROW) -> str:
    """A signal of one bit, with so many characters for each step."""
    pairs = zip(['', *values], values)
    return ''.join(EDGE.get(pair, LEVEL[pair[1]]) + LEVEL[pair[1]] * (step - 1) for pair in pairs)


def word_line(values: Sequence[str], width: int, step: int = NARROW) -> str:
    """A signal of several bits: its value in hexadecimal digits after each change, as far as there is room."""
    line, at = '', 0
    while at < len(values):
        end = at
        while end < len(values) and values[end] == values[at]:
            end += 1
        room = step * (end - at)
        text = hexadecimal(values[at], width)
        line += f'│{text if len(text) < room else "·" * (room - 1)}'.ljust(room)
        at = end
    return line


def hexadecimal(value: str, width: int) -> str:
    """A value by four bits a digit: x where none of a digit is known, X where some are."""
    digits = value.rjust(-(-width // 4) * 4, '0' if value[:1] in '01' else value[:1])
    return ''.join(digit_of(digits[at:at + 4]) for at in range(0, len(digits), 4))


def digit_of(four: str) -> str:
    """One hexadecimal digit."""
    if set(four) <= {'0', '1'}:
        return f'{int(four, 2):x}'
    return four[0] if len(set(four)) == 1 else 'X'


def rows_of(run: Simulation) -> Iterator[tuple[str, str, list[str], int]]:
    """Side, name, values and width of each line of the picture: one line where source and netlist are equal."""
    for port in [*run.inputs, *run.outputs]:
        values = run.values(port)
        if values.get('source') == values.get('netlist') and 'source' in values:
            yield 'both', plain(port.name), values['source'], port.width
        else:
            for side, line in values.items():
                yield side, plain(port.name), line, port.width


def picture(run: Simulation, columns: int) -> list[str]:
    """The picture in lines of at most so many columns: as many rows of signals below each other as the steps take."""
    rows = list(rows_of(run))
    names = max((len(name) for _, name, _, _ in rows), default=0)
    step = step_of([width for _, _, _, width in rows], columns - names - 9)
    steps = max(FEWEST, (columns - names - 9) // step)
    lines: list[str] = []
    for begin in range(0, max(1, len(run.rows)), steps):
        end = min(begin + steps, len(run.rows))
        lines += [''] if begin else []
        lines.append(f'{"":{names + 9}}{ruler(begin, end, step)}')
        for side, name, values, width in rows:
            part = values[begin:end]
            drawn = bit_line(part, step) if width == 1 else word_line(part, width, step)
            lines.append(f'{name:{names}} {side:7} {drawn}')
        marks = ''.join(('^' if row.source != row.netlist else ' ').ljust(step) for row in run.rows[begin:end])
        lines += [f'{"":{names + 9}}{marks}'.rstrip()] if marks.strip() else []
    return lines


def step_of(widths: Sequence[int], room: int) -> int:
    """The characters of a step: as many as the digits of the widest word take, where some steps then still stand beside
    each other."""
    wide = max((-(-width // 4) + 1 for width in widths if width > 1), default=NARROW)
    return wide if NARROW <= wide <= room // FEWEST else NARROW


def ruler(begin: int, end: int, step: int) -> str:
    """The numbers of the steps: each tenth, or each where there is room."""
    every = 1 if step > len(str(end)) else 10
    return ''.join(f'{at + 1:<{every * step}}' for at in range(begin, end, every))[:step * (end - begin)].rstrip()
