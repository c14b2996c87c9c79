"""Rows of storage cells, and of the rules of processes that stand for them."""
from typing import Dict, List, Sequence

from order.bits import X, Bits
from order.release import Order
from order.rtlil import Cell, SigBit, constant_bits
from order.scope import Node, Scope, Valuation
from order.storage import PER_BIT, Pins, Store, acting, in_first_step, next_bit

LATCHES = ('dlatch', 'adlatch', 'dlatchsr')


def now_pins(kind: str) -> Sequence[str]:
    """The pins that count as they are now."""
    names = {'clk', 'arst', 'aload', 'ad', 'set', 'clr'} | ({'en', 'd'} if kind in LATCHES else set())
    return [] if kind == 'ff' else [name for name in Pins._fields if name in names]


def store_node(order: Order, scope: Scope, store: Store, pins: Dict[str, List[SigBit]], q: List[SigBit]) -> Node:
    """The row of a storage cell; a pin that it lacks is x, and one of a single bit counts for each bit of it."""
    def places(name: str) -> List[int]:
        bits = scope.all_at(pins.get(name, [X]))
        return bits if name in PER_BIT and len(bits) == len(q) else bits[:1] * len(q)
    columns = {name: places(name) for name in Pins._fields}
    rows = list(zip(*(columns[name] for name in Pins._fields)))
    outs = [scope.raw(bit) for bit in q]
    values = store.value or [X] * len(q)

    def step(before: Valuation, now: Valuation, first: bool) -> Bits:
        found = []
        for row, out, value in zip(rows, outs, values):
            was = acting(store.levels, [before[at] for at in row])
            now_acting = acting(store.levels, [now[at] for at in row])
            found.append(next_bit(order, store.kind, value, in_first_step(was) if first else was, now_acting, before[out]))
        return found
    reads = [at for name in now_pins(store.kind) for at in columns[name]]
    return Node(outs, reads, step, [scope.start(bit) for bit in q])


def cell_node(order: Order, scope: Scope, cell: Cell, store: Store) -> Node:
    """The row of a storage cell of a module."""
    pins = {name: cell.pins[pin] for name, pin in store.pins.items() if pin in cell.pins}
    return store_node(order, scope, store, pins, cell.pins['\\Q'])


def values_of(cell: Cell) -> Dict[str, Bits]:
    """The parameters of a cell as bits."""
    return {name: constant_bits(value) for name, value in cell.params.items()}
