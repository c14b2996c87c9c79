"""Where in the source an error line points to."""
from __future__ import annotations

import re
from typing import Mapping, Optional

from .errors import Refused
from .stable import Module, tokens_of

# A place as a `src` attribute tells it: a file and a line, with a column or without.
PLACE = re.compile(r'(?P<file>[^|]+?):(?P<line>[0-9]+)(?:\.(?P<column>[0-9]+))?')


def files_of(places: Mapping[str, str]) -> set[str]:
    """The files that places speak of."""
    return {match['file'] for place in places.values() for match in PLACE.finditer(place)}


def place_of(modules: Mapping[str, Module], module: str, part: str) -> str:
    """Where a part of a module is, or else the module, as editors read it: `FILE:LINE:COLUMN: `; nothing where that is
    not known."""
    places = modules[module].places if module in modules else {}
    match = PLACE.match(places.get(part) or places.get('') or '')
    return ':'.join([*filter(None, match.groups()), ' ']) if match else ''


def placed(refused: Refused, modules: Mapping[str, Module], block: Optional[str]) -> str:
    """The error line, after the place in the source. `block` is the text in which a fault of a text is counted."""
    if refused.place and block is not None:
        module, name = named_at(block, int(refused.place.split(':')[0]))
        return f'{place_of(modules, module, name)}{refused.line}, at {name or "the head"} of {module}'
    return place_of(modules, refused.module or '', refused.name or '') + refused.line


def named_at(block: str, number: int) -> tuple[str, str]:
    """The module, and the part of it, whose text has the line of this number of a block."""
    module, name = '', ''
    for line in block.split('\n')[:number]:
        words = tokens_of(line) or ['']
        if words[0] == 'module':
            module, name = words[-1], ''
        elif words[0] in ('wire', 'memory', 'cell', 'process'):
            name = words[-1]
    return module, name
