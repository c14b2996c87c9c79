#!/usr/bin/env python3
"""How much of the outputs a source knows, in both orders of time: the designs of examples/designs and examples/order over a
random stimulus of known inputs. What a source does not know, refinement says nothing of."""
import sys
from random import Random
from typing import Dict, Iterator, List, NamedTuple, Tuple

import click
from rich.console import Console
from rich.table import Table

from order.agree import Text, example_texts
from order.commands import share
from order.program import BUILT, Program
from order.release import Order
from order.rtlil import Design, read_design
from order.run import trace

# Words in the names of inputs that are clocks, and of inputs that are resets, with the level at which they are active.
CLOCKS = ('clk', 'clock')
RESETS = {'rst': 1, 'srst': 1, 'reset': 1, 'arst': 1, 'rst_n': 0, 'arst_n': 0, 'reset_n': 0}
# So many steps the resets are active at first.
BEGIN = 8


class Known(NamedTuple):
    """A design: how many output bits there were in all steps, and how many were known in each order."""
    name: str
    bits: int
    known: Dict[Order, int]


def top_of(text: Text, design: Design) -> str:
    """The module that no other has an instance of."""
    inner = {cell.kind for module in design.values() for cell in module.cells}
    return next(name for name in text.modules if name not in inner)


def stimulus(design: Design, top: str, steps: int, seed: int) -> List[str]:
    """A stimulus that begins with the resets active and clocks that turn at each step. Then the resets are given up, where no
    clock turns; a clock turns in every second step on average, and all other inputs are random and move where none does."""
    random = Random(seed)
    ports = design[top].ports('input')
    values = {wire.name: 0 for wire in ports}
    lines = []
    for step in range(steps):
        turns = 0 < step < BEGIN or (step != BEGIN and random.random() < 0.5)
        for wire in ports:
            name = wire.name[1:].lower()
            if name.startswith(CLOCKS):
                values[wire.name] ^= int(turns and (step < BEGIN or random.random() < 0.8))
            elif name in RESETS:
                values[wire.name] = RESETS[name] ^ int(step >= BEGIN)
            elif not turns:
                values[wire.name] = random.getrandbits(wire.width)
        lines.append(' '.join(f'{values[wire.name]:0{wire.width}b}' for wire in ports) or '-')
    return lines


def count(lines: List[str], digits: str) -> int:
    """How many of these digits there are."""
    return sum(line.count(digit) for line in lines for digit in digits)


def by_model(design: Design, top: str, lines: List[str]) -> Dict[Order, List[str]]:
    """The traces by the model."""
    return {order: trace(design, top, lines, order) for order in Order}


def by_program(path: str, text: Text, top: str, lines: List[str]) -> Dict[Order, List[str]]:
    """The traces by the program."""
    with Program(path) as program:
        program.load(text.text)
        return {order: program.trace('source', top, lines, order) for order in Order}


def known(path: str, steps: int, seed: int, model: bool) -> Iterator[Known]:
    """Each design, with what its source knows."""
    for text in example_texts():
        design = read_design(text.text)
        top = top_of(text, design)
        lines = stimulus(design, top, steps, seed)
        traces = by_model(design, top, lines) if model else by_program(path, text, top, lines)
        bits = count(traces[Order.TOGETHER], '01xz')
        yield Known(text.name, bits, {order: count(traces[order], '01') for order in Order})


def total(rows: List[Known], name: str) -> Tuple[str, ...]:
    """The row of the sum."""
    bits = sum(row.bits for row in rows)
    return (name, str(bits), *(share(sum(row.known[order] for row in rows), bits) for order in Order))


@click.command(help=__doc__)
@click.option('--program', default=BUILT, show_default=True, help='The program.')
@click.option('--steps', default=1000, show_default=True, help='Steps of each stimulus.')
@click.option('--seed', default=1, show_default=True, help='Of the stimuli.')
@click.option('--model', is_flag=True, help='By the model in bench/order in place of the program.')
def main(program: str, steps: int, seed: int, model: bool) -> None:
    """Prints the table."""
    sys.setrecursionlimit(100_000)
    rows = list(known(program, steps, seed, model))
    table = Table('design', 'output bits in all steps', *(order.name.capitalize() for order in Order))
    for row in rows:
        table.add_row(row.name, str(row.bits), *(share(row.known[order], row.bits) for order in Order))
    table.add_row(*total(rows, 'all'))
    Console(highlight=False).print(table)


if __name__ == '__main__':
    main()
