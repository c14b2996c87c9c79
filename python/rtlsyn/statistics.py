"""What a netlist consists of: cells by their types, registers, depth and area, for each module and the hierarchy."""
from __future__ import annotations

import os
import tempfile
from dataclasses import asdict, dataclass, field
from typing import Any, Mapping, Optional, Sequence

from . import files
from .depth import MOST_CELLS, Path, cells_below, longest
from .kinds import kind_of
from .liberty import LibraryCell, cells_of
from .netlist import Body, design_of, shown, tops_of, uses_of
from .yosys import Say, quiet, run


@dataclass
class Module:
    """A module alone: how often it stands in the hierarchy, its cells by their types, the bits of its flip-flops and
    latches, its processes, which no netlist has, its instances, the area of its cells, and its longest path."""
    name: str
    uses: int = 0
    cells: dict[str, int] = field(default_factory=dict)
    flip_flops: int = 0
    latches: int = 0
    memory_bits: int = 0
    processes: int = 0
    instances: int = 0
    area: Optional[float] = None
    path: Path = field(default_factory=Path)


@dataclass
class Statistics:
    """A netlist: its modules, and the sums over the hierarchy."""
    tops: list[str]
    modules: list[Module]
    hierarchy: Module
    #: The types of cells that the library does not have.
    unknown: list[str] = field(default_factory=list)


def statistics(text: str, liberty: Optional[str] = None) -> Statistics:
    """The statistics of a netlist's text. With a library, whose cells the netlist then has, also its area."""
    design = design_of(text)
    library = cells_of(liberty) if liberty else {}
    tops = tops_of(design)
    uses = uses_of(design, tops)
    modules = [module_of(design, name, uses[name], library, bool(liberty)) for name in design]
    whole = sum_of(design, tops, modules, library)
    unknown = sorted(it for it in whole.cells if it.lstrip('\\') not in library) if liberty else []
    return Statistics([shown(name, design[name]) for name in tops], modules, whole, unknown)


def module_of(design: Mapping[str, Body], name: str, uses: int, library: Mapping[str, LibraryCell],
              has_area: bool) -> Module:
    """The statistics of one module."""
    body = design[name]
    module = Module(shown(name, body), uses, area=0.0 if has_area else None)
    for cell in body.cells:
        if cell.type in design:
            module.instances += 1
            continue
        module.cells[cell.type] = module.cells.get(cell.type, 0) + 1
        kind = kind_of(cell.type, library)
        kept = sum(len(body.bits(cell.pins[pin])) for pin in kind.outputs & set(cell.pins)) if kind.keeps else 0
        module.flip_flops += kept if kind.name == 'flip-flop' else 0
        module.latches += kept if kind.name == 'latch' else 0
        if module.area is not None and cell.type.lstrip('\\') in library:
            module.area += library[cell.type.lstrip('\\')].area
    module.memory_bits = sum(memory.width * memory.size for memory in body.memories.values())
    module.processes = len(body.processes)
    module.path = longest(design, name, library, False)
    return module


def sum_of(design: Mapping[str, Body], tops: Sequence[str], modules: Sequence[Module],
           library: Mapping[str, LibraryCell]) -> Module:
    """The statistics of the hierarchy: each module as often as it stands there. Its longest path is that of the flat
    netlist, which is looked at where it is not too large."""
    whole = Module('hierarchy', uses=1, area=None if all(it.area is None for it in modules) else 0.0)
    for module in modules:
        for name, count in module.cells.items():
            whole.cells[name] = whole.cells.get(name, 0) + count * module.uses
        for part in ('flip_flops', 'latches', 'memory_bits', 'processes', 'instances'):
            setattr(whole, part, getattr(whole, part) + getattr(module, part) * module.uses)
        if whole.area is not None:
            whole.area += (module.area or 0.0) * module.uses
    counts = cells_below(design)
    paths = [longest(design, top, library, True) for top in tops if counts[top] <= MOST_CELLS]
    whole.path = max(paths, key=lambda path: path.depth, default=Path())
    return whole


def mapped(text: str, liberty: str, say: Say = quiet) -> str:
    """The netlist in cells of a library, by Yosys' `dfflibmap` and `abc`."""
    with tempfile.TemporaryDirectory() as room:
        before, after = os.path.join(room, 'gates.il'), os.path.join(room, 'cells.il')
        files.write(before, text)
        library = os.path.abspath(liberty)
        run([f'read_rtlil "{before}"', f'dfflibmap -liberty "{library}"', f'abc -liberty "{library}"', 'clean',
             f'write_rtlil "{after}"'], say)
        return files.read(after)


def has_gates(text: str, liberty: str) -> bool:
    """Whether the netlist has cells that the library lacks and that Yosys may map to it."""
    library = cells_of(liberty)
    design = design_of(text)
    types = {cell.type for body in design.values() for cell in body.cells}
    return any(it.startswith('$') and it not in library and it not in design for it in types)


def told(statistics_of: Statistics) -> dict[str, Any]:
    """The statistics as values for JSON."""
    return asdict(statistics_of)
