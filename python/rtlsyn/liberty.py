"""Areas and pins of the cells of a Liberty library."""
from __future__ import annotations

import re
from typing import Iterator, NamedTuple

from .files import read

TOKEN = re.compile(r'/\*.*?\*/|"(?:[^"\\]|\\.)*"|[{}();:,]|[^\s{}();:,"]+', re.S)


class LibraryCell(NamedTuple):
    """A cell: its area, its output pins, and whether it keeps a bit."""
    area: float
    outputs: frozenset[str]
    keeps: bool


class Group(NamedTuple):
    """`kind(name) { .. }`: its attributes and the groups inside."""
    kind: str
    name: str
    values: dict[str, str]
    groups: list


def cells_of(path: str) -> dict[str, LibraryCell]:
    """The cells of a library, by their names."""
    tokens = iter([token for token in TOKEN.findall(read(path)) if not token.startswith('/*') and token != '\\'])
    top = Group('', '', {}, [])
    fill(top, tokens)
    return {cell.name: cell_of(cell) for library in top.groups for cell in library.groups if cell.kind == 'cell'}


def cell_of(group: Group) -> LibraryCell:
    """What a group `cell` says."""
    pins = [it for it in group.groups if it.kind == 'pin']
    outputs = frozenset(pin.name for pin in pins if pin.values.get('direction') == 'output')
    keeps = any(it.kind in ('ff', 'latch', 'ff_bank', 'latch_bank', 'statetable') for it in group.groups)
    return LibraryCell(float(group.values.get('area', 0)), outputs, keeps)


def fill(group: Group, tokens: Iterator[str]) -> None:
    """Reads the statements of a group up to its closing brace."""
    for token in tokens:
        if token == '}':
            return
        if token == ';':
            continue
        after = next(tokens, '}')
        if after == ':':
            group.values[token] = ' '.join(up_to(tokens, ';')).strip('"')
        elif after == '(':
            name = ' '.join(up_to(tokens, ')')).strip('"')
            if next(tokens, ';') == '{':
                inner = Group(token, name, {}, [])
                group.groups.append(inner)
                fill(inner, tokens)


def up_to(tokens: Iterator[str], end: str) -> Iterator[str]:
    """The tokens before `end`, which is taken too."""
    for token in tokens:
        if token == end:
            return
        yield token
