"""Words that several commands share."""
from __future__ import annotations

from typing import Any, Callable

import click

from .session import LIMIT
from .yosys import Reading

Command = Callable[..., Any]


def stacked(*options: Callable[[Command], Command]) -> Callable[[Command], Command]:
    """One decorator of several, the first on top."""
    def decorate(command: Command) -> Command:
        for option in reversed(options):
            command = option(command)
        return command
    return decorate


#: How Verilog is read: the arguments `top`, `read` and `then`, of which `Reading` is made.
reading_words = stacked(
    click.option('--top', metavar='NAME', help='The top module, for hierarchy: the one that Yosys finds.'),
    click.option('--read', metavar='COMMAND', help="What reads a Verilog file, as 'read_verilog -Iinclude'."),
    click.option('--then', metavar='COMMANDS', help="Yosys commands before write_rtlil, as 'chformal -remove'."),
)

#: How the program builds: the arguments `script` and `workers`.
script_words = stacked(
    click.option('--script', metavar='S', help="The script, as 'proc opt memory opt techmap opt'."),
    click.option('--workers', type=click.IntRange(1, 64), metavar='N', help='Threads that build modules: 4.'),
)

sources_word = click.argument('sources', nargs=-1, required=True, metavar='FILE...')

json_word = click.option('--json', 'as_json', is_flag=True, help='JSON on standard output, for scripts.')

limit_word = click.option('--limit', type=int, default=LIMIT, metavar='BYTES',
                          help=f'Begin a new session before more than this was sent: {LIMIT}.')


def reading_of(top: str, read: str, then: str) -> Reading:
    """How Verilog is read, by the words that were given."""
    return Reading(top, read, then)


def complain(line: str) -> None:
    """Says a line of Yosys on standard error."""
    click.echo(line, err=True)
