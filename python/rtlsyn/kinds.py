"""What a cell is by its type: a register, a latch, a port of a memory, or combinational, and which pins are outputs."""
from __future__ import annotations

import re
from typing import Mapping, NamedTuple

from .liberty import LibraryCell

FLIP_FLOP = re.compile(r'\$(?:s|a|al)?dff(?:e|ce|sr|sre)?|\$ff|\$_(?:S|AL)?DFF(?:E|CE|SR|SRE)?_(?:[NP01]+_)?|\$_FF_')
LATCH = re.compile(r'\$a?dlatch(?:sr)?|\$sr|\$_DLATCH(?:SR)?_[NP01]+_|\$_SR_[NP]+_')
WRITE = re.compile(r'\$memwr(?:_v2)?|\$meminit(?:_v2)?')
READ = re.compile(r'\$memrd(?:_v2)?')


class Kind(NamedTuple):
    """`flip-flop`, `latch`, `write` (a cell without outputs) or `logic`; and the names of its output pins."""
    name: str
    outputs: frozenset[str]

    @property
    def keeps(self) -> bool:
        """Whether the cell keeps bits."""
        return self.name in ('flip-flop', 'latch')


def kind_of(type_name: str, library: Mapping[str, LibraryCell]) -> Kind:
    """The kind of a cell that is no instance."""
    if type_name.lstrip('\\') in library:
        cell = library[type_name.lstrip('\\')]
        return Kind('flip-flop' if cell.keeps else 'logic', frozenset(f'\\{pin}' for pin in cell.outputs))
    if FLIP_FLOP.fullmatch(type_name):
        return Kind('flip-flop', frozenset({'\\Q'}))
    if LATCH.fullmatch(type_name):
        return Kind('latch', frozenset({'\\Q'}))
    if WRITE.fullmatch(type_name):
        return Kind('write', frozenset())
    return Kind('logic', frozenset({'\\DATA' if READ.fullmatch(type_name) else '\\Y'}))
