"""rtlsyn explain: what an error line means."""
from __future__ import annotations

import json
import sys
from typing import Optional

import click

from ..errors import Failed
from ..explaining import Explanation, explanation
from ..files import read
from ..words import json_word
from ..yosys import is_rtlil, text_by_yosys


@click.command()
@click.argument('line', metavar='LINE')
@click.argument('design', required=False, metavar='[DESIGN]')
@json_word
def explain(line: str, design: Optional[str], as_json: bool) -> None:
    r"""Says what an error line means, where in the source it points to, and what mends it.

    LINE is the line that the program printed, as 'error 9 \cube $pow$pow.v:3$1', or - for standard input. DESIGN is the
    RTLIL that it was printed for; or Verilog, which Yosys reads. The table is that of docs/REFUSED.md.
    """
    text = None if design is None else read(design) if is_rtlil(design) else text_by_yosys([design])
    found = explanation(error_line(sys.stdin.read()) if line == '-' else line, text)
    if as_json:
        click.echo(json.dumps({'line': found.line, 'place': found.place, 'about': found.about,
                               'cause': found.cause.cause, 'words': found.cause.words, 'hint': found.cause.hint,
                               'example': found.cause.example}, indent=2))
        return
    for told in told_of(found):
        click.echo(told)


def error_line(given: str) -> str:
    """The first line of the input that has an error."""
    found = next((line for line in given.split('\n') if 'error ' in line), None)
    if found is None:
        raise Failed('standard input has no error line')
    return found


def told_of(found: Explanation) -> list[str]:
    """The explanation in lines."""
    lines = [': '.join(filter(None, (found.place, found.line)))]
    lines += [f'  at:    {found.about}'] if found.about else []
    lines += [f'         {line}' for line in found.excerpt]
    lines.append(f'  cause: {found.cause.words}')
    lines += [f'  hint:  {found.cause.hint}'] if found.cause.hint else []
    lines += [f'  see:   examples/refused/{found.cause.example}'] if found.cause.example else []
    return lines
