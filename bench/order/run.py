"""Runs: a module of a design, flattened, over a stimulus."""
from typing import Dict, Iterator, List, Sequence, Tuple

from order.bits import DIGITS, X, Bits
from order.cells import GATES, WORDS, inputs_of, value_of
from order.memories import read_node, words_node
from order.processes import numbers_of, process_nodes
from order.registers import cell_node, values_of
from order.release import Order
from order.rtlil import At, Cell, Design, Wire
from order.scope import Node, Scope, Valuation, follower, scopes_of
from order.storage import store_of

MEMORY = ('$meminit', '$meminit_v2', '$memwr_v2')


class Unknown(Exception):
    """A cell that the model does not have."""


def cell_nodes(order: Order, scope: Scope, cell: Cell) -> List[Node]:
    """The rows of a cell of the library."""
    if cell.kind in GATES or cell.kind in WORDS:
        return [worked_node(scope, cell)]
    if cell.kind in ('$memrd', '$memrd_v2'):
        return [read_node(scope, cell)]
    if cell.kind in MEMORY:
        return []
    store = store_of(cell.kind, numbers_of(cell), values_of(cell))
    if store is None:
        raise Unknown(cell.kind)
    return [cell_node(order, scope, cell, store)]


def worked_node(scope: Scope, cell: Cell) -> Node:
    """The row of a combinational cell."""
    value = value_of(cell.kind, numbers_of(cell))
    inputs = [scope.all_at(cell.pins[name]) for name in inputs_of(cell.kind, cell.pins)]
    outs = [scope.raw(bit) for bit in cell.pins['\\Y']]
    return Node(outs, [at for word in inputs for at in word], lambda before, now, first: value([[now[at] for at in word] for word in inputs]))


def components(nodes: Sequence[Node]) -> Iterator[List[int]]:
    """The nodes in the order of what they read, those of a loop together."""
    drivers = {out: at for at, node in enumerate(nodes) for out in node.outs}
    below = [sorted({drivers[it] for it in node.reads if it in drivers}) for node in nodes]
    index: Dict[int, int] = {}
    low: Dict[int, int] = {}
    stack: List[int] = []
    done = set()
    for root in range(len(nodes)):
        work = [(root, 0)] if root not in index else []
        while work:
            at, child = work.pop()
            if child == 0:
                index[at] = low[at] = len(index)
                stack.append(at)
            elif below[at][child - 1] not in done:
                low[at] = min(low[at], low[below[at][child - 1]])
            while child < len(below[at]) and below[at][child] in index:
                if below[at][child] not in done:
                    low[at] = min(low[at], index[below[at][child]])
                child += 1
            if child < len(below[at]):
                work += [(at, child + 1), (below[at][child], 0)]
            elif low[at] == index[at]:
                cut = stack.index(at)
                yield stack[cut:]
                done.update(stack[cut:])
                del stack[cut:]


class Run:
    """A run of a module in an order of time. Each step takes an input vector and gives the output vector."""

    def __init__(self, design: Design, module: str, order: Order = Order.TOGETHER):
        self.inputs = design[module].ports('input')
        self.outputs = design[module].ports('output')
        scopes, joins = scopes_of(design, module)
        follow = follower(joins)
        self.size = scopes[-1].end
        self.given = [scopes[0].raw(At(wire.name, at)) for wire in self.inputs for at in range(wire.width)]
        nodes: List[Node] = []
        for scope in scopes:
            scope.follow = follow
            nodes += [node for cell in scope.module.cells if cell.kind not in design for node in cell_nodes(order, scope, cell)]
            nodes += [node for process in scope.module.processes for node in process_nodes(order, scope, process)]
            nodes += [words_node(scope, store) for store in scope.module.memories.values()]
        self.told = [scopes[0].at(At(wire.name, at)) for wire in self.outputs for at in range(wire.width)]
        self.order = list(self.ordered(nodes))
        self.first = True
        self.last: Dict[int, Tuple[Bits, Bits]] = {}
        self.before = self.settle([X] * self.size, [X] * len(self.given), True)

    def ordered(self, nodes: List[Node]) -> Iterator[List[Node]]:
        """The nodes in the order in which they settle; a loop is a list of several, or has the same node twice."""
        for part in components(nodes):
            found = [nodes[at] for at in part]
            loops = len(found) > 1 or not set(found[0].outs).isdisjoint(found[0].reads)
            yield found * 2 if loops and len(found) == 1 else found

    def settle(self, before: Valuation, inputs: Bits, start: bool) -> Valuation:
        """All bits of a step, from x: the least solution."""
        now = [0, 1, *[X] * (self.size - 2)]
        now[3] = 3
        for at, bit in zip(self.given, inputs):
            now[at] = bit
        for part in self.order:
            changed = True
            while changed:
                changed = False
                for node in part:
                    values = self.values(node, before, now, start)
                    for out, bit in zip(node.outs, values):
                        changed |= now[out] != bit
                        now[out] = bit
                changed &= len(part) > 1
        return now

    def values(self, node: Node, before: Valuation, now: Valuation, start: bool) -> Bits:
        """What a node gives. One without start values only reads bits as they are, so it gives what it gave for the same ones."""
        if node.start is not None:
            return node.start if start else node.step(before, now, self.first)
        reads = [now[at] for at in node.reads]
        last = self.last.get(id(node))
        if last is None or last[0] != reads:
            last = self.last[id(node)] = (reads, node.step(before, now, self.first))
        return last[1]

    def step(self, inputs: Bits) -> Bits:
        """The output vector of the next step."""
        self.before = self.settle(self.before, inputs, False)
        self.first = False
        return [self.before[at] for at in self.told]


def bits_of_line(line: str, ports: Sequence[Wire]) -> Bits:
    """The vector of a line of a stimulus."""
    words = line.split() if ports else []
    return [DIGITS.index(digit) for word in words for digit in reversed(word)]


def line_of_bits(bits: Bits, ports: Sequence[Wire]) -> str:
    """The line of a vector, as in a trace."""
    words = []
    for wire in ports:
        words.append(''.join(DIGITS[bit] for bit in reversed(bits[:wire.width])))
        bits = bits[wire.width:]
    return ' '.join(words) or '-'


def trace(design: Design, module: str, steps: Sequence[str], order: Order = Order.TOGETHER) -> List[str]:
    """The lines of a trace over the lines of a stimulus."""
    run = Run(design, module, order)
    return [line_of_bits(run.step(bits_of_line(line, run.inputs)), run.outputs) for line in steps]
