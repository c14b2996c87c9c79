"""rtlsyn synth: one design to its netlist."""
from __future__ import annotations

import json
import sys
import time
from contextlib import contextmanager
from typing import Iterator, Optional

import click

from ..errors import Failed, Refused
from ..explaining import refusal
from ..tables import counted
from ..synthesis import Progress, Synthesis, of_text
from ..words import complain, json_word, reading_of, reading_words, script_words, sources_word
from ..writers import write_netlist
from ..yosys import rtlil_of

#: A design of fewer modules is built at once.
FEWEST = 32


@click.command()
@sources_word
@click.option('-o', '--output', default='-', metavar='FILE',
              help='Where the netlist goes, as RTLIL; by Yosys as .v, .json, .blif or .edif. Else standard output.')
@reading_words
@script_words
@json_word
def synth(sources: tuple[str, ...], output: str, top: str, read: str, then: str, script: Optional[str],
          workers: Optional[int], as_json: bool) -> None:
    """Makes the netlist of a design in Verilog, or in RTLIL where the files end in .il.

    On a terminal the modules that are built are counted; in a pipe nothing is said. With --json what was done is told
    on standard output.
    """
    if as_json and output == '-':
        raise click.UsageError('--json needs -o: the netlist goes to standard output without it')
    begun = time.monotonic()
    text = rtlil_of(sources, reading_of(top, read, then), complain)
    done = built(text, script, workers)
    write_netlist(output, done.netlist, complain)
    told = {'modules': done.modules, 'built': done.built, 'reused': done.reused, 'bytes': len(done.netlist),
            'seconds': round(time.monotonic() - begun, 3), 'netlist': output}
    if as_json:
        click.echo(json.dumps(told, indent=2))
    elif sys.stderr.isatty() and output != '-':
        click.echo(f'{output}: {counted(done.modules, "module")}, built {done.built} reused {done.reused}, '
                   f'{told["seconds"]:.2f} s', err=True)


def built(text: str, script: Optional[str], workers: Optional[int]) -> Synthesis:
    """The netlist, with the progress told where somebody sees it."""
    try:
        with modules_told(text) as progress:
            return of_text(text, script=script, workers=workers, progress=progress)
    except Refused as refused:
        raise Failed(refusal(refused.line, text)) from refused


@contextmanager
def modules_told(text: str) -> Iterator[Optional[Progress]]:
    """What counts the modules on a terminal; nothing in a pipe, and where they are few."""
    if not sys.stderr.isatty() or text.count('\nmodule ') < FEWEST:
        yield None
        return
    from rich.console import Console
    from rich.progress import BarColumn, MofNCompleteColumn, Progress as Bar, TextColumn, TimeElapsedColumn
    with Bar(TextColumn('modules'), BarColumn(), MofNCompleteColumn(), TimeElapsedColumn(),
             console=Console(stderr=True), transient=True) as bar:
        task = bar.add_task('modules', total=None)
        yield lambda done, total: bar.update(task, completed=done, total=total)
