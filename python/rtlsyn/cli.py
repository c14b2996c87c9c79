"""The words of the commands, by `click`."""
from __future__ import annotations

import importlib
import os
import sys
from typing import Optional, Sequence

import click

from .commands import COMMANDS, path_of
from .errors import Ended, Failed


class Lazy(click.Group):
    """A group whose commands are loaded when they are used."""

    def list_commands(self, ctx: click.Context) -> list[str]:
        return [name for name in COMMANDS if path_of(name)]

    def get_command(self, ctx: click.Context, name: str) -> Optional[click.Command]:
        path = path_of(name)
        return getattr(importlib.import_module(path), name) if path else None

    def format_commands(self, ctx: click.Context, formatter: click.HelpFormatter) -> None:
        with formatter.section('Commands'):
            formatter.write_dl([(name, COMMANDS[name][1]) for name in self.list_commands(ctx)])


@click.group(cls=Lazy, context_settings={'help_option_names': ['-h', '--help'], 'max_content_width': 120})
def commands() -> None:
    """Commands around the synthesiser rtlsyn. `rtlsyn COMMAND --help` has the words of each.

    Words that begin with no command go to the proved program as they are: `rtlsyn < design.il`, `rtlsyn --session`.
    """


def run(words: Sequence[str]) -> int:
    """Does what the words say, and gives the exit status: 1 where there is no result, 2 for words without a meaning,
    3 where the proved program ended or did not start."""
    try:
        given = ['--help'] if words[0] == 'help' and len(words) == 1 else list(words)
        given = [*given[1:], '--help'] if given[0] == 'help' else given
        return commands.main(given, prog_name='rtlsyn', standalone_mode=False) or 0
    except click.exceptions.Exit as end:
        return end.exit_code
    except click.ClickException as fault:
        fault.show()
        return fault.exit_code
    except Failed as fault:
        print(f'rtlsyn: {fault}', file=sys.stderr)
        return 3 if isinstance(fault, Ended) else 1
    except (KeyboardInterrupt, click.Abort):
        return 130
    except BrokenPipeError:
        # Nobody reads the output any more: Python must not try to write the rest of it at exit.
        os.dup2(os.open(os.devnull, os.O_WRONLY), sys.stdout.fileno())
        return 1
