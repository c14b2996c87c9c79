"""The worked examples of examples/time: the trace of each source in both orders, beside what iverilog shows."""
import glob
import os
from typing import Iterator, List, Sequence, Tuple

from order.program import TOP
from order.release import Order
from order.rtlil import read_design
from order.run import trace
from order.verilog import simulate

FOLDER = os.path.join(TOP, 'examples', 'time')
HEAD = ('inputs', 'iverilog', 'Together', 'Released')


def read(path: str) -> str:
    """The text of a file."""
    with open(path) as file:
        return file.read()


def marks(shown: str, line: str) -> str:
    """Below each bit of a line: `!` where it is another known one than that of iverilog, `x` where iverilog alone knows it, `+`
    where iverilog does not."""
    kinds = {(True, True): '!', (True, False): 'x', (False, True): '+'}
    return ''.join(' ' if a == b else kinds.get((a in '01', b in '01'), ' ') for a, b in zip(shown, line))


def table(steps: Sequence[str], shown: Sequence[str], orders: Sequence[Sequence[str]]) -> str:
    """The steps as a table, with a line of marks where an order has another bit than iverilog."""
    rows = list(zip(steps, shown, *orders))
    widths = [max(map(len, column)) for column in zip(HEAD, *rows)]

    def line(first: str, words: Sequence[str]) -> str:
        return f'{first:>4}  ' + '  '.join(map(str.ljust, words, widths)).rstrip()
    lines = [line('step', HEAD).strip()]
    for number, row in enumerate(rows, 1):
        lines.append(line(str(number), row))
        below = ['', '', *(marks(row[1], it) for it in row[2:])]
        lines += [line('', below)] if ''.join(below).strip() else []
    return '\n'.join([*lines, ''])


def steps_of(text: str) -> List[str]:
    """The lines of a stimulus without comments."""
    return [line for line in text.splitlines() if line and not line.startswith('#')]


def worked(verilog: str) -> Tuple[str, str]:
    """The path of an example's table, and what it has to be."""
    stem = verilog[:-2]
    design, steps = read_design(read(f'{stem}.il')), steps_of(read(f'{stem}.steps'))
    name = os.path.basename(stem)
    shown = [step.line for step in simulate(read(verilog), design, name, steps)]
    return f'{stem}.traces', table(steps, shown, [trace(design, f'\\{name}', steps, order) for order in Order])


def examples() -> Iterator[Tuple[str, str]]:
    """All tables."""
    yield from map(worked, sorted(glob.glob(os.path.join(FOLDER, '*.v'))))
