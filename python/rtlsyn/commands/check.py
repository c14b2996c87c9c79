"""rtlsyn check: a second opinion by Yosys."""
from __future__ import annotations

import json
import sys
from dataclasses import asdict
from typing import Optional

import click

from .. import equivalence
from ..errors import Failed, Refused
from ..explaining import refusal
from ..files import read as read_file
from ..tables import counted
from ..words import complain, json_word, reading_of, reading_words
from ..yosys import rtlil_of

#: How many names of what is left are said.
SAID = 8


@click.command()
@click.argument('design', metavar='DESIGN')
@click.argument('netlist', required=False, metavar='[NETLIST]')
@reading_words
@click.option('--script', metavar='S', help='The script by which the netlist is made, or was.')
@json_word
def check(design: str, netlist: Optional[str], top: str, read: str, then: str, script: Optional[str],
          as_json: bool) -> None:
    """Has Yosys prove that the netlist does what the source does.

    DESIGN is Verilog, or RTLIL where it ends in .il. NETLIST is what the program made of it by the script; without it
    the netlist is made. Registers are paired by name, words of memories and states of machines by what the program does
    to them. The exit status is 0 where all is proven, and 1 where something is left. That is not different: Yosys has
    not found a proof.
    """
    text = rtlil_of([design], reading_of(top, read, then), complain)
    gates = None if netlist is None else read_file(netlist)
    if sys.stderr.isatty():
        click.echo('Yosys compares source and netlist: some seconds, or minutes for thousands of registers', err=True)
    try:
        found = equivalence.check(text, gates, script, top)
    except Refused as refused:
        raise Failed(refusal(refused.line, text)) from refused
    if as_json:
        click.echo(json.dumps(asdict(found), indent=2))
    else:
        click.echo(f'{design}: {told(found)}')
    click.get_current_context().exit(0 if found.is_proven else 1)


def told(found: equivalence.Verdict) -> str:
    """The verdict in a line."""
    matched = [counted(found.words, 'word of a memory', 'words of memories')] if found.words else []
    matched += [counted(found.machines, 'state machine')] if found.machines else []
    beside = f' ({" and ".join(matched)} matched)' if matched else ''
    if found.is_proven:
        return f'proven by {found.by}, {counted(found.pairs, "bit")} compared{beside}'
    names = ' '.join(found.left[:SAID]) + (' ..' if len(found.left) > SAID else '')
    return f'not proven: of {counted(found.pairs, "bit")} compared {len(found.left)} are left{beside}: {names}'
