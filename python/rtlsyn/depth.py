"""The longest path of cells between registers and ports, in a module alone or in all that is below it."""
from __future__ import annotations

from collections import deque
from dataclasses import dataclass, field
from typing import Iterator, Mapping, NamedTuple, Optional

from .kinds import Kind, kind_of
from .liberty import LibraryCell
from .netlist import Bit, Body, Cell, instances_in, parents_first, plain

#: A bit of the flat netlist: the instances that it stands in, its wire and index; a constant has no path.
Node = tuple[str, str, int]
#: More cells than this below a module are not looked at as a whole.
MOST_CELLS = 2_000_000


class Stage(NamedTuple):
    """A cell of a path: its type and name, and the bit that it gives."""
    type: str
    name: str
    bit: str


@dataclass
class Path:
    """The longest path: how many cells, from where to where, and the cells in between."""
    depth: int = 0
    start: str = ''
    end: str = ''
    stages: list[Stage] = field(default_factory=list)
    #: How often a loop of combinational cells was cut to find the path.
    loops: int = 0


@dataclass
class Gate:
    """A combinational cell of the flat netlist: the nodes that it reads and gives."""
    type: str
    name: str
    inputs: list[Node]
    outputs: list[Node]


def cells_below(design: Mapping[str, Body]) -> dict[str, int]:
    """How many cells each module has with all that is below it."""
    counts: dict[str, int] = {}
    for name in reversed(parents_first(design)):
        counts[name] = sum(counts[cell.type] if cell.type in design else 1 for cell in design[name].cells)
    return counts


class Flat:
    """The flat netlist of a module. With `is_whole` its instances are gone into; else their ports are its ends."""

    def __init__(self, design: Mapping[str, Body], top: str, library: Mapping[str, LibraryCell],
                 is_whole: bool) -> None:
        self.design, self.library, self.is_whole = design, library, is_whole
        self.joined: dict[Node, Optional[Node]] = {}
        self.gates: list[Gate] = []
        # What a path may end at: a node that is read there, and the name of the end.
        self.ends: list[tuple[Node, str]] = []
        self.kinds: dict[str, Kind] = {}
        # The module at each path.
        self.bodies: dict[str, Body] = {}
        stack = [('', top)]
        while stack:
            path, name = stack.pop()
            self.take(path, design[name])
            if is_whole:
                stack += [(f'{path}{plain(cell.name)}.', cell.type) for cell in instances_in(design, name)]
        for port in design[top].ports('output'):
            self.ends += [(node, self.said(node)) for node in (('', port.name, at) for at in range(port.width))]

    def take(self, path: str, body: Body) -> None:
        """Takes the connections and cells of a module that stands at this path."""
        self.bodies[path] = body
        for left, right in body.driver_of.items():
            self.joined[(path, *left)] = node_at(path, right)
        for cell in body.cells:
            if cell.type not in self.design:
                self.take_cell(path, body, cell)
            elif self.is_whole:
                self.take_pins(path, body, cell)
            else:
                self.take_ends(path, body, cell)

    def take_cell(self, path: str, body: Body, cell: Cell) -> None:
        """Takes a cell: a gate with its ends, or a register, at whose inputs paths end."""
        kind = self.kinds.setdefault(cell.type, kind_of(cell.type, self.library))
        pins = {pin: [node for node in (node_at(path, bit) for bit in body.bits(signal)) if node]
                for pin, signal in cell.pins.items()}
        inputs = [node for pin, nodes in pins.items() if pin not in kind.outputs for node in nodes]
        outputs = [node for pin in pins if pin in kind.outputs for node in pins[pin]]
        if kind.name == 'logic':
            self.gates.append(Gate(cell.type, f'{path}{plain(cell.name)}', inputs, outputs))
        else:
            name = self.said(outputs[0]) if outputs else f'{path}{plain(cell.name)}'
            self.ends += [(node, name) for node in inputs]

    def take_pins(self, path: str, body: Body, cell: Cell) -> None:
        """Joins the pins of an instance with the ports of its module."""
        inner = f'{path}{plain(cell.name)}.'
        ports = {port.name: port for port in self.design[cell.type].ports()}
        for pin, signal in cell.pins.items():
            for at, bit in enumerate(body.bits(signal)):
                outer = node_at(path, bit)
                if pin not in ports:
                    continue
                if ports[pin].direction == 'input':
                    self.joined[(inner, pin, at)] = outer
                elif outer:
                    self.joined[outer] = (inner, pin, at)

    def take_ends(self, path: str, body: Body, cell: Cell) -> None:
        """Takes what an instance reads as ends of paths."""
        inputs = {port.name for port in self.design[cell.type].ports('input')}
        for pin in inputs & set(cell.pins):
            for bit in body.bits(cell.pins[pin]):
                if not isinstance(bit, str):
                    self.ends.append(((path, *bit), f'{plain(cell.name)}.{plain(pin)}'))

    def follow(self, node: Node) -> Optional[Node]:
        """Where a bit comes from through connections: nothing for a constant."""
        seen = set()
        while node in self.joined and node not in seen:
            seen.add(node)
            after = self.joined[node]
            if after is None:
                return None
            node = after
        return node

    def said(self, node: Node) -> str:
        """A node as it is named: `scratch.words [3]`."""
        path, name, at = node
        return f'{path}{plain(name)}' + (f' [{at}]' if self.bodies[path].wires[name].width > 1 else '')


def node_at(path: str, bit: Bit) -> Optional[Node]:
    """The node of a module's bit at a path: nothing for a constant."""
    return None if isinstance(bit, str) else (path, *bit)




def longest(design: Mapping[str, Body], top: str, library: Mapping[str, LibraryCell], is_whole: bool) -> Path:
    """The longest path of a module."""
    flat = Flat(design, top, library, is_whole)
    arrival, before, loops = arrivals(flat)
    path = Path(loops=loops)
    last: Optional[Node] = None
    for node, name in flat.ends:
        source = flat.follow(node)
        if source is not None and arrival.get(source, 0) > path.depth:
            path.depth, path.end, last = arrival[source], name, source
    while last in before:
        gate, read = before[last]
        path.stages.append(Stage(gate.type, gate.name, flat.said(last)))
        path.start = flat.said(read) if read else 'a constant'
        # Where a loop was cut, the bit that is read has come later, and is no part of this path.
        last = read if read and arrival.get(read, 0) == arrival[last] - 1 else None
    path.stages.reverse()
    return path


def arrivals(flat: Flat) -> tuple[dict[Node, int], dict[Node, tuple[Gate, Optional[Node]]], int]:
    """For each node that a gate gives, how many gates are on the longest way to it, and the last step of that way."""
    reads = [[node for node in map(flat.follow, gate.inputs) if node] for gate in flat.gates]
    giver = {node: number for number, gate in enumerate(flat.gates) for node in gate.outputs}
    readers: dict[int, list[int]] = {}
    waits = [0] * len(flat.gates)
    for number, nodes in enumerate(reads):
        for other in {giver[node] for node in nodes if node in giver}:
            readers.setdefault(other, []).append(number)
            waits[number] += 1
    arrival: dict[Node, int] = {}
    before: dict[Node, tuple[Gate, Optional[Node]]] = {}
    loops = 0
    for number, is_cut in in_order(waits, readers):
        loops += is_cut
        gate = flat.gates[number]
        read = max(reads[number], key=lambda node: arrival.get(node, 0), default=None)
        for node in gate.outputs:
            arrival[node] = 1 + (arrival.get(read, 0) if read else 0)
            before[node] = (gate, read)
    return arrival, before, loops


def in_order(waits: list[int], readers: Mapping[int, list[int]]) -> Iterator[tuple[int, bool]]:
    """The gates, each after those that it reads. Where a loop leaves none, the first that is left comes, as cut."""
    ready = deque(number for number, count in enumerate(waits) if count == 0)
    done, at = [False] * len(waits), 0
    while True:
        while ready:
            number = ready.popleft()
            if not done[number]:
                done[number] = True
                yield number, False
                release(number, waits, readers, ready)
        while at < len(waits) and done[at]:
            at += 1
        if at == len(waits):
            return
        done[at] = True
        yield at, True
        release(at, waits, readers, ready)


def release(number: int, waits: list[int], readers: Mapping[int, list[int]], ready: deque) -> None:
    """Lets the readers of a gate wait for one less."""
    for reader in readers.get(number, ()):
        waits[reader] -= 1
        if waits[reader] == 0:
            ready.append(reader)
