"""Stimuli and traces as text: a line for each step, a word for each port, a digit 0, 1, x or z for each bit."""
from __future__ import annotations

from typing import NamedTuple, Sequence


class Row(NamedTuple):
    """A step: its inputs, and the outputs of source and netlist."""
    inputs: str
    source: str
    netlist: str


def steps_of(text: str) -> list[tuple[int, str]]:
    """The steps of a stimulus, each with the number of its line. Blank lines and lines that begin with # are none."""
    lines = [(number, line.strip(' \t\r')) for number, line in enumerate(text.split('\n'), 1)]
    return [(number, line) for number, line in lines if line and not line.startswith('#')]


def table_of(rows: Sequence[Row]) -> list[str]:
    """The lines of a table of inputs, source and netlist, with marks below a row where the last two differ."""
    head = ('inputs', 'source', 'netlist')
    widths = [max(map(len, column)) for column in zip(head, *rows)]
    lines = [('step', head)]
    for number, (inputs, source, netlist) in enumerate(rows, 1):
        lines.append((str(number), (inputs, source, netlist)))
        if source != netlist:
            lines.append(('', ('', '', marks_of(source, netlist))))
    return [f'{first:>6}  ' + '  '.join(map(str.ljust, row, widths)).rstrip() for first, row in lines]


def marks_of(source: str, netlist: str) -> str:
    """Below each bit in which the two differ: `^` where only the netlist knows it, and `!` where the source does."""
    return ''.join(' ' if a == b else '^' if a in 'xz' else '!' for a, b in zip(source, netlist))


def lost_bits(rows: Sequence[Row]) -> int:
    """How many bits the source knows and the netlist does not have."""
    return sum(marks_of(source, netlist).count('!') for _, source, netlist in rows)
