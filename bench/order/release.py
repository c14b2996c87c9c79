"""The two orders of time, and the one rule in which they differ: what a clock's edge takes."""
from enum import Enum
from typing import Callable, Protocol

from order.bits import Bit, edge, pick


class Order(Enum):
    """Which value a clock's edge takes where an asynchronous control was active before the step."""
    TOGETHER = 'together'
    RELEASED = 'released'


class Clocked(Protocol):
    """Pins with a clock."""
    clk: Bit


def taken(order: Order, before: Clocked, data: Bit, control: Callable[[Clocked, Bit], Bit]) -> Bit:
    """What the edge takes: the data; in `RELEASED` the data under the asynchronous controls as they were."""
    return control(before, data) if order is Order.RELEASED else data


def clocked(order: Order, before: Clocked, now: Clocked, data: Bit, q: Bit, control: Callable[[Clocked, Bit], Bit]) -> Bit:
    """What the clock makes of a bit: what its edge takes, the old bit where there is no edge, else what both have in common."""
    return pick(edge(before.clk, now.clk), taken(order, before, data, control), q)
