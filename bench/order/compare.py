"""Runs of both orders beside what iverilog shows: which bits agree, and in which class a deviation falls."""
from dataclasses import dataclass, field
from typing import Dict, Iterator, List, Sequence, Tuple

from order.release import Order
from order.rtlil import Design
from order.run import trace
from order.verilog import Shown, simulate

# The classes of steps after which a design may deviate, as the settled values of both orders have neither.
PULSE = 'a control pulses within one edge'
UNKNOWN = 'a control becomes x'
WAS_UNKNOWN = 'a control was x before the step'
OTHER = 'other'


@dataclass
class Found:
    """What a comparison found, in bits: how many iverilog knows, how many of these each order knows, and deviations by class."""
    name: str
    known: int = 0
    together: int = 0
    released: int = 0
    more: int = 0
    against: Dict[str, List[str]] = field(default_factory=dict)
    less: Dict[str, List[str]] = field(default_factory=dict)

    def holds(self) -> bool:
        """Whether each deviation is of a class that is expected."""
        return OTHER not in self.against and OTHER not in self.less


Bits = Tuple[str, str, str]


def bits_of(shown: str, together: str, released: str) -> Iterator[Bits]:
    """The bits of three lines, place by place."""
    return (bits for bits in zip(shown, together, released) if bits[0] != ' ')


def cause_of(before: Shown, step: Shown) -> str:
    """What has happened to the controls in a step, after another, by which the first deviation of a module may begin."""
    if any(moves > 1 for moves, _ in step.controls):
        return PULSE
    if any(moves and set(value) & set('xz') for moves, value in step.controls):
        return UNKNOWN
    return WAS_UNKNOWN if any(set(value) & set('xz') for _, value in before.controls) else OTHER


def compare(name: str, verilog: str, design: Design, module: str, steps: Sequence[str], controls: Sequence[str] = ()) -> Found:
    """A module over a stimulus: iverilog, and the model in both orders. Where a module has deviated already, what it does later
    may follow from that, and is of the same class where its step has no cause of its own."""
    shown = simulate(verilog, design, module, steps, controls)
    together = trace(design, f'\\{module}', steps, Order.TOGETHER)
    released = trace(design, f'\\{module}', steps, Order.RELEASED)
    found = Found(name)
    before = OTHER
    for at, (step, *lines) in enumerate(zip(shown, together, released)):
        cause = cause_of(shown[at - 1] if at else step, step)
        kind = cause if cause in (PULSE, UNKNOWN) or before == OTHER else before
        for bits in bits_of(step.line, *lines):
            if count(found, bits, f'step {at + 1}: {step.line} / {lines[0]} / {lines[1]}', kind):
                before = kind
    return found


def count(found: Found, bits: Bits, place: str, kind: str) -> bool:
    """Counts one bit: against iverilog, or less than the first order, is a deviation of the class. Whether it is one."""
    shown, together, released = bits
    if shown not in '01':
        found.more += released in '01'
        return False
    found.known += 1
    found.together += together == shown
    found.released += released == shown
    against, less = released in '01' and released != shown, released not in '01' and together == shown
    if against or less:
        (found.against if against else found.less).setdefault(kind, []).append(place)
    return against or less
