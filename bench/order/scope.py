"""Bits of a module with all its instances as numbers. The first four are the constants; connections are followed."""
from typing import Callable, Dict, Iterator, List, NamedTuple, Optional, Sequence, Tuple

from order.bits import X, Bit, Bits
from order.rtlil import At, Cell, Design, Module, SigBit, Signal
from order.trees import Leaf, case_by_rules, case_tree, leaves_of, tree_bits

Valuation = List[Bit]


class Node(NamedTuple):
    """Some bits and what gives them: their values of the step before, of now, and of whether the step is the first. Where it
    has start values, these are what it gives before the first step."""
    outs: Sequence[int]
    reads: Sequence[int]
    step: Callable[[Valuation, Valuation, bool], Bits]
    start: Optional[Bits] = None


def starts_of(module: Module) -> Dict[At, Bit]:
    """The start value of each bit that has one: of the wires, and then of the `init` lines."""
    found = {At(wire.name, at): bit for wire in module.wires.values() if wire.init for at, bit in enumerate(wire.init)}
    for process in module.processes:
        root = case_by_rules(process.root)
        trees = {bit: case_tree(root, bit, Leaf(X)) for bit in tree_bits(root)}
        for rule in process.rules:
            for left, right in rule.updates if rule.event == 'init' else []:
                for place, source in zip(left, right):
                    found[place] = leaves_of(Leaf(source), trees)[0]
    return found


class Scope:
    """A module at its place among the instances."""

    def __init__(self, module: Module, first: int):
        self.module = module
        self.first = first
        self.offsets: Dict[str, int] = {}
        for name, width in self.sizes():
            self.offsets[name] = first
            first += width
        self.end = first
        self.starts = starts_of(module)
        self.joins: Dict[int, int] = {}
        self.follow: Callable[[int], int] = lambda at: at

    def sizes(self) -> Iterator[Tuple[str, int]]:
        """The wires and memories with their numbers of bits."""
        yield from ((wire.name, wire.width) for wire in self.module.wires.values())
        yield from ((store.name, store.width * store.size) for store in self.module.memories.values())

    def raw(self, bit: SigBit) -> int:
        """The number of a bit itself."""
        return self.offsets[bit.wire] + bit.index if isinstance(bit, At) else bit

    def at(self, bit: SigBit) -> int:
        """The number of the bit from which this one has its value."""
        return self.follow(self.raw(bit))

    def all_at(self, signal: Signal) -> List[int]:
        """The numbers of the bits from which a signal has its value."""
        return [self.at(bit) for bit in signal]

    def start(self, bit: SigBit) -> Bit:
        """The start value of a bit."""
        return self.starts.get(bit, X) if isinstance(bit, At) else X


def reader(v: Valuation, places: Dict[At, int]) -> Callable[[SigBit], Bit]:
    """A reading of bits at these places under a valuation."""
    return lambda bit: v[places[bit]] if bit in places else bit


def scopes_of(design: Design, top: str) -> Tuple[List[Scope], Dict[int, int]]:
    """The top module and its instances, and the joins between their bits."""
    scopes = [Scope(design[top], 4)]
    joins: Dict[int, int] = {}
    for scope in scopes:
        for left, right in scope.module.links:
            joins.update(zip(map(scope.raw, left), map(scope.raw, right)))
        for cell in scope.module.cells:
            if cell.kind in design:
                inner = Scope(design[cell.kind], scopes[-1].end)
                scopes.append(inner)
                joins.update(instance_joins(scope, cell, inner))
    return scopes, joins


def instance_joins(scope: Scope, cell: Cell, inner: Scope) -> Iterator[Tuple[int, int]]:
    """How the pins of an instance join its bits with those of its parent."""
    for pin, signal in cell.pins.items():
        wire = inner.module.wires[pin]
        for at, bit in enumerate(signal):
            inside = inner.raw(At(pin, at))
            if wire.role == 'input':
                yield inside, scope.raw(bit)
            elif wire.role == 'output' and isinstance(bit, At):
                yield scope.raw(bit), inside


def follower(joins: Dict[int, int]) -> Callable[[int], int]:
    """Where the joins lead from a bit; on a loop, to the constant x."""
    ends: Dict[int, int] = {}

    def follow(at: int) -> int:
        path = []
        here = at
        while here in joins and here not in ends:
            ends[here] = X
            path.append(here)
            here = joins[here]
        end = ends.get(here, here)
        ends.update(dict.fromkeys(path, end))
        return end
    return follow
