"""rtlsyn report: one page about a design."""
from __future__ import annotations

import os
import re
import time
from typing import Mapping, Optional, Sequence

import click

from .. import files
from ..changes import text_of
from ..drawing import SECONDS, can_draw, schematic, waveform
from ..errors import Failed, Refused
from ..explaining import refusal_of
from ..netlist import Body, Port, design_of, plain, shown, tops_of
from ..page import Report, page_of
from ..session import Session
from ..simulation import Simulation, simulate
from ..stable import Module, modules_of
from ..statistics import statistics
from ..stimuli import at_random, from_file
from ..tables import counted
from ..words import complain, reading_of, reading_words, script_words, sources_word
from ..yosys import Reading, rtlil_of

#: The steps that are drawn, and the modules of which a schematic is.
DRAWN, SCHEMATICS = 48, 8
CLOCK = re.compile(r'i?_?(clk|clock|ck)(_?i|_in)?', re.I)
RESET = re.compile(r'i?_?n?(rst|reset|arst)(_?n|_?ni|_?i|_b)?', re.I)


@click.command()
@sources_word
@click.option('-o', '--output', required=True, metavar='FILE', help='Where the page goes.')
@click.option('--before', metavar='FILE', help='The design as it was: what an edit builds and what it reuses is told.')
@click.option('--simulate', metavar='STEPS', help='The stimulus, as for `sim`; without it steps are drawn at random.')
@click.option('--module', metavar='NAME', help='The module that is simulated: the top module.')
@click.option('--cells', default=300, show_default=True, metavar='N',
              help='The largest module that is drawn, in cells.')
@reading_words
@script_words
def report(sources: tuple[str, ...], output: str, before: Optional[str], simulate: Optional[str], module: Optional[str],
           cells: int, top: str, read: str, then: str, script: Optional[str], workers: Optional[int]) -> None:
    """Writes a page of HTML about a design and its netlist, which needs nothing from outside.

    It has the hierarchy, what was built and what reused, the cells and the depth of each module, the waveform of a
    simulation, and schematics of the netlist's smaller modules. Yosys and Graphviz draw the schematics.
    """
    reading = reading_of(top, read, then)
    modules = modules_of(rtlil_of(sources, reading, complain))
    text = text_of(modules)
    with Session(script=script, workers=workers) as session:
        try:
            done = [*built_before(session, before, reading, modules), built(session, text)]
            netlist = session.print().body
            design = design_of(text)
            run, note = simulated(session, design, simulate, module)
        except Refused as refused:
            raise Failed(refusal_of(refused, modules, text)) from refused
    title = ' '.join(os.path.basename(path) for path in sources)
    made = Report(title, design, tops_of(design), statistics(netlist), done, waveform(run) if run else None, note)
    draw(made, netlist, cells)
    files.write(output, page_of(made))
    click.echo(f'wrote {output}')


# What was built


def built(session: Session, text: str) -> str:
    """Loads the design and builds it, and says what was done."""
    begun = time.monotonic()
    modules = session.load(text)
    counts = session.run()
    return f'{counted(modules, "module")}, built {counts["built"]} reused {counts["reused"]}, ' \
           f'{time.monotonic() - begun:.2f} s'


def built_before(session: Session, before: Optional[str], reading: Reading, modules: Mapping[str, Module]) -> list[str]:
    """Builds the design as it was, and says which modules are otherwise now."""
    if before is None:
        return []
    old = modules_of(rtlil_of([before], reading, complain))
    told = built(session, text_of(old))
    changed = [shown(name) for name, it in modules.items() if name not in old or old[name].text != it.text]
    gone = [shown(name) for name in old if name not in modules]
    beside = f'; gone: {" ".join(gone)}' if gone else ''
    return [f'before: {told}', f'changed: {" ".join(changed) or "no module"}{beside}']


# The simulation


def simulated(session: Session, design: Mapping[str, Body], steps: Optional[str],
              module: Optional[str]) -> tuple[Optional[Simulation], str]:
    """The simulation that is drawn, and what it shows in words."""
    tops = [module if module[0] in '\\$' else f'\\{module}'] if module else tops_of(design)
    if len(tops) != 1 or tops[0] not in design:
        return None, 'No module is the top: name one by --module to have it simulated.'
    body = design[tops[0]]
    ports = body.ports('input')
    clock, reset = found(ports, CLOCK), found(ports, RESET)
    stimulus = from_file(steps, ports) if steps else at_random(ports, DRAWN, 1, clock, reset)
    if not body.ports() or not stimulus.steps:
        return None, f'{shown(tops[0], body)} has no ports, or the stimulus no steps.'
    run = simulate(session, body, stimulus.steps[:DRAWN])
    drawn = f'inputs drawn at random, clock {clock or "none"}, reset {reset or "none"}'
    how = f'inputs of the file {steps}' if steps else drawn
    differ = f'bits that the netlist alone knows: {run.only_netlist}' if run.only_netlist else \
        'source and netlist are equal at each step'
    return run, f'{shown(tops[0], body)}, {len(run.rows)} steps: {how}. Grey is unknown; {differ}.'


def found(ports: Sequence[Port], form: re.Pattern) -> Optional[str]:
    """The first port of one bit whose name has the form."""
    return next((plain(port.name) for port in ports if port.width == 1 and form.fullmatch(plain(port.name))), None)


# The schematics


def draw(made: Report, netlist: str, most: int) -> None:
    """Adds the schematics of the netlist's modules of up to so many cells: the top first, then the smallest."""
    design = design_of(netlist)
    small = [body for body in design.values() if 0 < len(body.cells) <= most]
    small.sort(key=lambda body: (body.name not in made.tops, len(body.cells)))
    late = []
    for body in small[:SCHEMATICS] if can_draw() else ():
        drawing = schematic(netlist, body.name)
        if drawing:
            made.schematics[shown(body.name, body)] = drawing
        else:
            late.append(shown(body.name, body))
    drawn = f'Modules of the netlist of up to {most} cells, the top first, at most {SCHEMATICS}.'
    made.schematics_note = ' '.join([drawn, *left_out(design, len(small), most, late)])


def left_out(design: Mapping[str, Body], small: int, most: int, late: Sequence[str]) -> list[str]:
    """Which modules are not drawn, and why."""
    if small and not can_draw():
        return ['None is drawn: Yosys or Graphviz is not installed.']
    counts = [(sum(len(body.cells) > most for body in design.values()), 'larger'),
              (sum(not body.cells for body in design.values()), 'without cells'),
              (max(0, small - SCHEMATICS), f'beyond the first {SCHEMATICS}')]
    told = [f'{count} {why}' for count, why in counts if count]
    told += [f'{" ".join(late)}, for which Graphviz took more than {SECONDS} s'] if late else []
    return [f'Not drawn: {", ".join(told)}.'] if told else []
