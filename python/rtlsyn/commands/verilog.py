"""rtlsyn verilog: Verilog to gates in one command."""
from __future__ import annotations

from typing import Optional

import click

from .. import equivalence
from ..errors import Failed, Refused
from ..explaining import refusal
from ..netlist import design_of, shown
from ..statistics import Statistics, has_gates, mapped, statistics
from ..synthesis import of_text
from ..tables import counted
from ..words import complain, reading_of, reading_words, script_words, sources_word
from ..writers import write_netlist
from ..yosys import rtlil_of
from .check import told


@click.command()
@sources_word
@click.option('-o', '--output', required=True, metavar='FILE',
              help='Where the netlist goes: RTLIL, or by its ending .v, .json, .blif or .edif.')
@click.option('--liberty', metavar='FILE', help='A library, to whose cells Yosys maps the gates by dfflibmap and abc.')
@click.option('--check', 'is_checked', is_flag=True, help='Also have Yosys prove the netlist of gates.')
@reading_words
@script_words
def verilog(sources: tuple[str, ...], output: str, liberty: Optional[str], is_checked: bool, top: str, read: str,
            then: str, script: Optional[str], workers: Optional[int]) -> None:
    r"""Makes gates of Verilog: Yosys reads it, the program makes the netlist, and Yosys writes it.

    A module with parameters is named as in Verilog: \fifo #(DEPTH=16). With --check the netlist of gates is proved once
    more, by Yosys, before cells of a library take its place. The exit status is 1 where that is not proven.
    """
    text = rtlil_of(sources, reading_of(top, read, then), complain)
    try:
        done = of_text(text, script=script, workers=workers)
    except Refused as refused:
        raise Failed(in_verilog(refusal(refused.line, text), text)) from refused
    click.echo(f'{counted(len(design_of(text)), "module")}, built {done.built} reused {done.reused}')
    for line in figures(done.netlist):
        click.echo(f'  {line}')
    is_proven = not is_checked or checked(text, done.netlist, script, top)
    gates = mapped(done.netlist, liberty, complain) if liberty and has_gates(done.netlist, liberty) else done.netlist
    if liberty:
        click.echo(mapped_told(statistics(gates, liberty)))
    write_netlist(output, gates, complain)
    click.echo(f'wrote {output}')
    click.get_current_context().exit(0 if is_proven else 1)


def figures(netlist: str) -> list[str]:
    """A line for each module of the netlist."""
    found = statistics(netlist)
    return [f'{it.name}: {counted(sum(it.cells.values()), "cell")}, {counted(it.flip_flops, "flip-flop")}, '
            f'depth {it.path.depth}' for it in found.modules]


def mapped_told(found: Statistics) -> str:
    """What the netlist is in cells of the library, and which of its cells the library does not have."""
    whole = found.hierarchy
    beside = f'; not in the library: {" ".join(found.unknown)}' if found.unknown else ''
    return f'  mapped: {counted(sum(whole.cells.values()), "cell")}, area {whole.area:g}{beside}'


def checked(text: str, netlist: str, script: Optional[str], top: Optional[str]) -> bool:
    """Whether Yosys proves the netlist. The verdict is said."""
    verdict = equivalence.check(text, netlist, script, top)
    click.echo(f'  Yosys: {told(verdict)}')
    return verdict.is_proven


def in_verilog(line: str, text: str) -> str:
    """The line with modules named as in Verilog."""
    design = design_of(text)
    return ' '.join(shown(word, design.get(word)) for word in line.split(' '))
