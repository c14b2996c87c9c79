"""Tables on a terminal and in a pipe, by `rich`; numbers with their nouns."""
from __future__ import annotations

from typing import Iterable, Sequence

# A pipe has no width of its own: tables are as wide there as they are.
WIDE = 1000


def lines_of(heads: Sequence[str], rows: Iterable[Sequence[str]], words: Sequence[str] = ()) -> list[str]:
    """The lines of a table: the first column and those that `words` names are words, the others numbers."""
    from rich.console import Console
    from rich.markup import escape
    from rich.table import Table
    out = Console(highlight=False)
    out = out if out.is_terminal else Console(highlight=False, width=WIDE)
    table = Table(box=None, pad_edge=False, padding=(0, 2, 0, 0), header_style='bold')
    for at, head in enumerate(heads):
        table.add_column(escape(head), justify='left' if at == 0 or head in words else 'right', overflow='fold')
    for row in rows:
        table.add_row(*map(escape, row))
    with out.capture() as captured:
        out.print(table)
    return [line.rstrip() for line in captured.get().rstrip('\n').split('\n')]


def counted(number: int, one: str, many: str = '') -> str:
    """A number with its noun: `1 cell`, `2 cells`."""
    return f'{number} {one if number == 1 else many or f"{one}s"}'
