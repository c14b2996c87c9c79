"""rtlsyn watch: the netlist again after every edit."""
from __future__ import annotations

from typing import Any, Optional

import click

from ..watching import Options, follow
from ..words import limit_word, reading_of, reading_words, script_words, sources_word


@click.command()
@sources_word
@click.option('--netlist', '-o', default='netlist.il', metavar='FILE', help='Where the netlist goes: netlist.il.')
@click.option('--once', is_flag=True, help='End after the first netlist or error.')
@click.option('--simulate', metavar='STEPS', help='A stimulus: a line a step, with a word for each input port.')
@click.option('--module', metavar='NAME', help='The module to simulate: the top module.')
@click.option('--keep-src', is_flag=True, help='Leave the src attributes in the texts and the netlist.')
@click.option('--also', multiple=True, metavar='FILE', help='One more file to watch.')
@reading_words
@script_words
@click.option('--program', metavar='PATH', help='The program, where it is not the one that is found.')
@limit_word
@click.pass_context
def watch(ctx: click.Context, top: str, read: str, then: str, program: Optional[str], **words: Any) -> None:
    """Makes the netlist anew after every edit of the files, and builds only what the edit changed.

    The files are Verilog, or RTLIL where they end in .il. After each edit a line says what was sent, what was built and
    how long it took; an error has its place in the source before it. With --once the exit status is 0 where a netlist
    was written, 1 where the design was refused or a file could not be read or written, and 3 where the program ended.
    """
    options = Options(reading=reading_of(top, read, then), program=[program] if program else None, **words)
    ctx.exit(follow(options))
