"""The causes of the program's errors in words, and what takes them away: the table `causes.json`, which is also the
source of docs/REFUSED.md."""
from __future__ import annotations

import json
import os
import re
from functools import lru_cache
from typing import NamedTuple, Optional

TABLE = os.path.join(os.path.dirname(os.path.abspath(__file__)), 'causes.json')
ERROR_LINE = re.compile(r'error (?P<number>[0-9]+)(?: (?P<rest>.*))?', re.S)


# A type of cell in a name that Yosys made: `$pow$pow.v:3$1`.
TYPE_IN_NAME = re.compile(r'(?:^| )(\$[a-z]\w*)\$')


class Cause(NamedTuple):
    """A row of the table: the error's number, the cause's short name, a pattern of the rest of the error line, the
    types of cells that have this cause, the cause in words, what takes it away, and a text of examples/refused. In
    words and hint `{type}` stands for the type of the cell."""
    error: int
    cause: str
    match: Optional[str]
    types: frozenset[str]
    words: str
    hint: str
    example: Optional[str]

    def filled(self, type_name: Optional[str]) -> Cause:
        """The row with the type of the cell in its place, or with words for any type."""
        words, hint = self.words, self.hint
        if type_name is None:
            words = words.replace('cell type {type}', 'the type of the cell').replace('module {type}', 'a module')
        return self._replace(words=words.replace('{type}', type_name or 'TYPE'),
                             hint=hint.replace('{type}', type_name or 'TYPE'))


UNKNOWN = 'this error has no row in the table of causes'


@lru_cache(maxsize=None)
def causes() -> tuple[Cause, ...]:
    """All rows, in the order of the file."""
    with open(TABLE, encoding='utf-8') as file:
        return tuple(Cause(row['error'], row['cause'], row.get('match'), frozenset(row.get('types', ())), row['words'],
                           row.get('hint', ''), row.get('example')) for row in json.load(file))


def cause_of(line: str, type_name: Optional[str] = None, name: Optional[str] = None) -> Cause:
    """The row for an error line. It is the one of this short name, where one is given; else the first of the line's
    number that has the type of the cell, or whose pattern fits the rest of the line; else the general one, which is the
    last of that number."""
    found = ERROR_LINE.fullmatch(line)
    if not found:
        raise ValueError(f'this is no error line: {line}')
    number, rest = int(found['number']), found['rest'] or ''
    choices = [cause for cause in causes() if cause.error == number]
    if not choices:
        return Cause(number, 'unknown', None, frozenset(), UNKNOWN, '', None)
    tests = [lambda it: it.cause == name, lambda it: type_name in it.types,
             lambda it: it.match is not None and re.search(it.match, rest) is not None]
    chosen = next((cause for test in tests for cause in choices if test(cause)), choices[-1])
    return chosen.filled(type_name or type_in(rest, chosen))


def type_in(rest: str, cause: Cause) -> Optional[str]:
    """The type of the cell, where the name that Yosys gave it begins with one of the cause's types."""
    found = TYPE_IN_NAME.search(rest)
    return found[1] if found and found[1] in cause.types else None
