"""rtlsyn stat: what a netlist consists of."""
from __future__ import annotations

import json
from typing import Optional, Sequence

import click

from .. import statistics as counting
from ..files import read
from ..netlist import plain
from ..statistics import Module, Statistics, has_gates, mapped, told
from ..tables import counted, lines_of
from ..words import json_word


@click.command()
@click.argument('netlist', metavar='NETLIST')
@click.option('--against', metavar='NETLIST', help='A second netlist, whose figures stand beside those of the first.')
@click.option('--liberty', metavar='FILE', help='A library for the area; Yosys maps gates to it by dfflibmap and abc.')
@click.option('--path', 'with_path', is_flag=True, help='Also the cells of the longest path.')
@json_word
def stat(netlist: str, against: Optional[str], liberty: Optional[str], with_path: bool, as_json: bool) -> None:
    """Cells by type, registers, depth and area of a netlist, for each module and for the hierarchy.

    The depth is the number of cells on the longest path between two registers, or a register and a port. That of a
    module ends at its instances; that of the hierarchy goes through them. `-` is standard input.
    """
    found = [statistics_of(path, liberty) for path in (netlist, against) if path]
    if as_json:
        results = {path: told(it) for path, it in zip((netlist, against), found)}
        click.echo(json.dumps(results if against else told(found[0]), indent=2))
    elif against:
        show_beside((netlist, against), found)
    else:
        show(found[0], with_path)


def statistics_of(path: str, liberty: Optional[str]) -> Statistics:
    """The statistics of a file, mapped to the library first where it has gates."""
    text = read(path)
    if liberty and has_gates(text, liberty):
        text = mapped(text, liberty)
    return counting.statistics(text, liberty)


# Tables


def show(found: Statistics, with_path: bool) -> None:
    """Two tables: the modules, and the cells of the hierarchy."""
    has_area = found.hierarchy.area is not None
    heads = ['module', 'uses', 'cells', 'flip-flops', 'latches', *(['area'] if has_area else []), 'depth',
             'longest path']
    rows = [row_of(module, has_area) for module in [*found.modules, found.hierarchy]]
    cells = [(name, str(count)) for name, count in by_count(found.hierarchy)]
    for line in [*lines_of(heads, rows, ['longest path']), '', *lines_of(['cells of the hierarchy', ''], cells),
                 *notes_on(found, with_path)]:
        click.echo(line)


def row_of(module: Module, has_area: bool) -> list[str]:
    """A module's row."""
    path = f'{module.path.start} -> {module.path.end}' if module.path.depth else ''
    area = [area_of(module)] if has_area else []
    return [plain(module.name), str(module.uses), str(sum(module.cells.values())), str(module.flip_flops),
            str(module.latches), *area, str(module.path.depth), path]


def area_of(module: Module) -> str:
    """The area in digits."""
    return '' if module.area is None else number(module.area)


def number(value: float) -> str:
    """A number in digits, without an exponent where it is whole."""
    return f'{value:.10g}'


def by_count(module: Module) -> list[tuple[str, int]]:
    """The types of cells with their numbers, the most frequent first."""
    return sorted(module.cells.items(), key=lambda it: (-it[1], it[0]))


def notes_on(found: Statistics, with_path: bool) -> list[str]:
    """What else is to be said, a line each."""
    notes = []
    if found.hierarchy.memory_bits:
        notes.append(f'memories: {found.hierarchy.memory_bits} bits')
    if found.hierarchy.processes:
        processes = counted(found.hierarchy.processes, 'process', 'processes')
        notes.append(f'{processes} not counted: this is a source, whose netlist has cells in their place')
    if found.hierarchy.path.loops:
        notes.append(f'loops of combinational cells were cut at {found.hierarchy.path.loops} cells')
    if found.unknown:
        notes.append(f'not in the library: {" ".join(found.unknown)}')
    if with_path:
        path = found.hierarchy.path
        notes.append(f'the longest path: from {path.start}')
        notes += [f'  {stage.type} gives {stage.bit}' for stage in path.stages] + [f'to {path.end}']
    return notes


def show_beside(names: Sequence[str], found: Sequence[Statistics]) -> None:
    """The figures of two netlists, and by how much the second differs."""
    one, other = (it.hierarchy for it in found)
    figures: list[tuple[str, float, float]] = [
        ('cells', sum(one.cells.values()), sum(other.cells.values())), ('flip-flops', one.flip_flops, other.flip_flops),
        ('latches', one.latches, other.latches), ('depth', one.path.depth, other.path.depth)]
    if one.area is not None and other.area is not None:
        figures.append(('area', one.area, other.area))
    figures += [(name, one.cells.get(name, 0), other.cells.get(name, 0)) for name in sorted({*one.cells, *other.cells})]
    rows = [(name, number(before), number(after), f'{after - before:+.10g}' if after != before else '')
            for name, before, after in figures]
    for line in lines_of(['', *names, 'change'], rows):
        click.echo(line)
