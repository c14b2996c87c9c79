"""The commands of `python3 bench/order`."""
import os
import sys
from typing import Dict, Iterable, Iterator, List, Tuple

import click
from rich.console import Console
from rich.table import Table

from order.agree import Differs, Text, agreements, cases, example_texts, random_texts, refinements, tally
from order.compare import Found, compare
from order.modules import sample_of
from order.program import BUILT, TOP, Program
from order.release import Order
from order.tables import tables
from order.verilog import design_of
from order.waves import WAVES, moves
from order.worked import examples

SHOWN = 10
# Trees of processes and their reading are recursive.
sys.setrecursionlimit(100_000)
console = Console(highlight=False, soft_wrap=True)
THEN = click.option('--then', default='', help="Commands of Yosys before the text is written, as proc: the model then has "
                                               'storage cells in the place of processes.')


@click.group(help='An independent model of designs over time, in both orders, beside the program and beside Verilog.')
def main() -> None:
    """The group of the commands."""


def share(part: int, whole: int) -> str:
    """A share as a percentage."""
    return f'{100 * part / whole:.1f} %' if whole else '-'


def waves_found(steps: int, seed: int, then: str) -> Iterator[Found]:
    """The seven waveforms, compared."""
    for wave in WAVES:
        lines = moves(wave.clocks, wave.resets, wave.others, steps, seed)
        design = design_of(wave.verilog, '; '.join(filter(None, [wave.then, then])))
        yield compare(wave.name, wave.verilog, design, 'wave', lines, wave.controls)


def samples_found(count: int, steps: int, then: str) -> Iterator[Found]:
    """Random modules, compared."""
    samples = [sample_of(number, steps) for number in range(count)]
    design = design_of('\n'.join(sample.verilog for sample in samples), then)
    for sample in samples:
        yield compare(sample.name, sample.verilog, design, sample.name, sample.steps, sample.controls)


def show_waves(rows: List[Found]) -> None:
    """A row for each waveform."""
    table = Table('waveform', 'bits that iverilog knows', 'Together', 'Released', 'Released alone', 'against')
    for found in rows:
        table.add_row(found.name, str(found.known), str(found.together), str(found.released), str(found.more),
                      str(sum(map(len, found.against.values()))))
    console.print(table)


def show_deviations(rows: Iterable[Found]) -> None:
    """The deviations by class, with the first place of each module."""
    table = Table('deviation', 'class', 'modules', 'bits', 'first places: iverilog / Together / Released')
    for what in ('against', 'less'):
        kinds: Dict[str, List[Found]] = {}
        for found in rows:
            for kind in getattr(found, what):
                kinds.setdefault(kind, []).append(found)
        for kind, those in kinds.items():
            places = [f'{found.name} {getattr(found, what)[kind][0]}' for found in those[:3]]
            table.add_row('against iverilog' if what == 'against' else 'x where Together is known', kind, str(len(those)),
                          str(sum(len(getattr(found, what)[kind]) for found in those)), '\n'.join(places))
    console.print(table)


def end(holds: bool) -> None:
    """The exit status."""
    sys.exit(0 if holds else 1)


@main.command(help='Seven waveforms of resets: where iverilog has 0 or 1, Released has it or x, and x only where Together has it.')
@click.option('--steps', default=300, show_default=True, help='Steps of each waveform.')
@click.option('--seed', default=1, show_default=True, help='Of the stimuli.')
@THEN
def waves(steps: int, seed: int, then: str) -> None:
    """Compares the waveforms."""
    rows = list(waves_found(steps, seed, then))
    show_waves(rows)
    show_deviations(rows)
    end(all(found.holds() for found in rows))


@main.command(name='random', help='Random modules of one clock, whose resets are inputs or registers, beside iverilog.')
@click.option('--count', default=200, show_default=True, help='Modules.')
@click.option('--steps', default=60, show_default=True, help='Steps of each.')
@THEN
def random_modules(count: int, steps: int, then: str) -> None:
    """Compares the modules."""
    rows = list(samples_found(count, steps, then))
    known, exact = sum(found.known for found in rows), sum(not found.against for found in rows)
    console.print(f'{exact} of {count} modules agree with iverilog in every bit that Released knows; of {known} bits that iverilog '
                  f'knows, Together has {share(sum(found.together for found in rows), known)} and Released '
                  f'{share(sum(found.released for found in rows), known)}; Released alone knows {sum(found.more for found in rows)} more')
    show_deviations(rows)
    end(all(found.holds() for found in rows))


def texts_of(count: int) -> Iterator[Text]:
    """The examples, and random designs."""
    yield from example_texts()
    yield from random_texts(count)


def told(what: str, runs: int, differences: List[Differs]) -> bool:
    """Says how many runs there were, and the first ones that differ; whether none does."""
    console.print(f'{what}: {runs} runs, {len(differences)} of which differ')
    for difference in differences[:SHOWN]:
        console.print(f'  {difference.place}:\n    {difference.wanted}\n    {difference.found}', markup=False)
    return not differences


@main.command(help='The model beside the traces that the program answers: examples and random designs, source and netlist.')
@click.option('--program', default=BUILT, show_default=True, help='The program.')
@click.option('--released', is_flag=True, help='In both orders: the program has to know the word `released`.')
@click.option('--count', default=50, show_default=True, help='Random designs of each kind.')
@click.option('--steps', default=40, show_default=True, help='Steps of each run.')
@click.option('--cases', 'paths', multiple=True, help='Cases of a file in place of the program: design, module, steps and trace.')
def agree(program: str, released: bool, count: int, steps: int, paths: List[str]) -> None:
    """Compares traces."""
    if paths:
        end(all([told(path, *tally(cases(path))) for path in paths]))
    orders = list(Order) if released else [Order.TOGETHER]
    with Program(program) as session:
        end(all([told(text.name, *tally(agreements(session, text, orders, steps))) for text in texts_of(count)]))


@main.command(help='Whether each netlist of the program refines its source in both orders, by the model: examples and random designs.')
@click.option('--program', default=BUILT, show_default=True, help='The program.')
@click.option('--count', default=50, show_default=True, help='Random designs of each kind.')
@click.option('--steps', default=40, show_default=True, help='Steps of each run.')
def refines(program: str, count: int, steps: int) -> None:
    """Compares sources with netlists."""
    with Program(program) as session:
        end(all([told(text.name, *tally(refinements(session, text, steps))) for text in texts_of(count)]))


def kept(texts: Iterable[Tuple[str, str]], check: bool) -> bool:
    """Writes texts into their files, or compares them; whether they are as they have to be."""
    holds = True
    for path, text in texts:
        if check:
            with open(path) as file:
                same = file.read() == text
            holds &= same
            console.print(f'{os.path.relpath(path, TOP)}: {"as it has to be" if same else "otherwise"}')
        else:
            with open(path, 'w') as file:
                file.write(text)
    return holds


@main.command(help='Writes the tables of rows/order, which simulate the seven waveforms; with --check, whether they are so.')
@click.option('--check', is_flag=True, help='Writes nothing.')
def rows(check: bool) -> None:
    """Writes or compares the tables of the waveforms."""
    end(kept(tables(), check))


@main.command(help='Writes the traces of examples/time; with --check, whether they are so.')
@click.option('--check', is_flag=True, help='Writes nothing.')
def times(check: bool) -> None:
    """Writes or compares the traces of the worked examples."""
    end(kept(examples(), check))
