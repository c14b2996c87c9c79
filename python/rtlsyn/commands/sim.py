"""rtlsyn sim: source and netlist over one stimulus."""
from __future__ import annotations

import json
import shutil
import sys
from typing import Optional, Sequence

import click

from .. import files
from ..errors import Failed, Refused
from ..explaining import refusal
from ..netlist import Port, design_of, plain, top_of
from ..session import Session
from ..simulation import Simulation, simulate, vcd_of
from ..stimuli import Stimulus, at_random, from_file
from ..traces import table_of
from ..waves import picture
from ..words import json_word, reading_of, reading_words, script_words
from ..yosys import rtlil_of


@click.command()
@click.argument('design', metavar='DESIGN')
@click.argument('steps', required=False, metavar='[STEPS]')
@click.option('--module', metavar='NAME', help='The module to run: the top module.')
@click.option('--vcd', 'vcd_path', metavar='FILE', help='Write the waveforms as VCD, for GTKWave: step N at N ns.')
@click.option('--scope', metavar='NAME', help='Where STEPS is a VCD: the scope of the inputs, as tb.dut.')
@click.option('--random', 'count', type=click.IntRange(1), metavar='N', help='N steps drawn at random, for STEPS.')
@click.option('--seed', type=int, default=1, show_default=True, metavar='S', help='What the random steps begin from.')
@click.option('--clock', metavar='NAME', help='With --random: an input that is 0 and 1 in turn.')
@click.option('--reset', metavar='NAME[=LEVEL]', help='With --random: an input that acts in the first steps.')
@click.option('--order', type=click.Choice(['together', 'released']), default='together', show_default=True,
              help='How edges of one step act on each other.')
@click.option('--table/--waves', 'as_table', default=None, help='Lines of bits, or a picture: by the output.')
@reading_words
@script_words
@json_word
def sim(design: str, steps: Optional[str], module: Optional[str], vcd_path: Optional[str], scope: Optional[str],
        count: Optional[int], seed: int, clock: Optional[str], reset: Optional[str], order: str,
        as_table: Optional[bool], top: str, read: str, then: str, script: Optional[str], workers: Optional[int],
        as_json: bool) -> None:
    """Runs a stimulus through source and netlist of a design, and shows the two.

    DESIGN is Verilog, or RTLIL where it ends in .il. STEPS is a file with a line for each step and a word for each
    input port, or a VCD, of which each time is a step. Before the first step all inputs are x. On a terminal a picture
    is drawn, in a pipe a line for each step is printed, with ^ below the bits that only the netlist knows.
    """
    text = rtlil_of([design], reading_of(top, read, then), click.echo)
    bodies = design_of(text)
    name = top_of(bodies, module)
    stimulus = stimulus_of(bodies[name].ports('input'), steps, scope, count, seed, clock, reset)
    with Session(script=script, workers=workers) as session:
        try:
            session.load(text)
            run = simulate(session, bodies[name], stimulus.steps, order)
        except Refused as refused:
            raise Failed(explained(refused, text, steps, stimulus, order)) from refused
    if vcd_path:
        files.write(vcd_path, vcd_of(run, f'rtlsyn: {plain(name)}'))
    show(run, as_table, as_json)
    if run.lost:
        raise Failed('the netlist does not have a bit that the source knows: that is a fault of rtlsyn')


def stimulus_of(ports: Sequence[Port], steps: Optional[str], scope: Optional[str], count: Optional[int], seed: int,
                clock: Optional[str], reset: Optional[str]) -> Stimulus:
    """The stimulus that the words ask for."""
    if (steps is None) == (count is None):
        raise click.UsageError('give a stimulus: a file STEPS, or --random N')
    if steps is not None:
        return from_file(steps, ports, scope)
    return at_random(ports, count or 0, seed, clock, reset)


def explained(refused: Refused, text: str, steps: Optional[str], stimulus: Stimulus, order: str) -> str:
    """The error line, with the line of the stimulus or the place in the source."""
    if refused.number == 23:
        at = int(refused.words[0]) - 1
        line = stimulus.lines[at] if at < len(stimulus.lines) else at + 1
        return f'{steps}:{line}: {refused.line}: {refused.cause}'
    if refused.number == 21 and order != 'together':
        return f'the program does not know the order {order}'
    return refusal(refused.line, text)


def show(run: Simulation, as_table: Optional[bool], as_json: bool) -> None:
    """Prints the run in the form that is asked for."""
    if as_json:
        click.echo(json.dumps({'module': run.module, 'inputs': [port._asdict() for port in run.inputs],
                               'outputs': [port._asdict() for port in run.outputs],
                               'steps': [row._asdict() for row in run.rows], 'only_netlist': run.only_netlist,
                               'lost': run.lost}, indent=2))
    elif as_table or as_table is None and not sys.stdout.isatty():
        for line in table_of(run.rows):
            click.echo(line)
    else:
        for line in picture(run, shutil.get_terminal_size().columns):
            click.echo(line)
        click.echo(f'{len(run.rows)} steps; {run.only_netlist} bits are known to the netlist alone')
