"""Random designs as RTLIL: storage cells of every kind, whose clocks and controls are inputs, gates and other storage bits."""
from random import Random
from typing import Dict, List, Tuple

from order.rtlil import Design

CONTROLS = {'clk': 'CLK', 'en': 'EN', 'arst': 'ARST', 'srst': 'SRST', 'aload': 'ALOAD', 'set': 'SET', 'clr': 'CLR'}
# The kinds of storage cells, with their controls.
STORAGE = (
    ('ff', ''), ('dff', 'clk'), ('dffe', 'clk en'), ('sdff', 'clk srst'), ('sdffe', 'clk en srst'), ('sdffce', 'clk en srst'),
    ('adff', 'clk arst'), ('adffe', 'clk en arst'), ('aldff', 'clk aload'), ('aldffe', 'clk en aload'), ('dffsr', 'clk set clr'),
    ('dffsre', 'clk en set clr'), ('dlatch', 'en'), ('adlatch', 'en arst'), ('dlatchsr', 'en set clr'), ('sr', 'set clr'))
REGISTERS = [row for row in STORAGE if row[0][:2] in ('ad', 'al') and 'clk' in row[1] or row[0].startswith('dffs')]
GATES = ('and', 'or', 'xor', 'mux')
INPUTS = ('clk', 'r0', 'r1', 'd0', 'd1', 'd2')


class Writer:
    """Writes a module cell by cell."""

    def __init__(self, random: Random, name: str):
        self.random = random
        self.name = name
        self.wires = [f'  wire input {at} \\{it}' for at, it in enumerate(INPUTS, 1)]
        self.cells: List[str] = []
        self.bits = [f'\\{it}' for it in INPUTS]
        self.ports = len(INPUTS)

    def wire(self, name: str, width: int) -> None:
        """An output with these bits, with a start value now and then."""
        self.ports += 1
        if self.random.random() < 0.2:
            self.wires.append(f"  attribute \\init {width}'{self.constant(width, '01x')}")
        self.wires.append(f'  wire width {width} output {self.ports} \\{name}')
        self.bits += [f'\\{name} [{at}]' for at in range(width)]

    def constant(self, width: int, digits: str = '01') -> str:
        """The digits of a constant."""
        return ''.join(self.random.choice(digits) for _ in range(width))

    def bit(self) -> str:
        """A bit that has its wire already, or now and then a constant."""
        return self.random.choice(self.bits) if self.random.random() < 0.96 else f"1'{self.constant(1)}"

    def signal(self, width: int) -> str:
        """A signal of bits."""
        return '{ ' + ' '.join(self.bit() for _ in range(width)) + ' }'

    def cell(self, kind: str, name: str, parameters: Dict[str, str], pins: Dict[str, str]) -> None:
        """A cell."""
        lines = [f'  cell ${kind} \\{name}']
        lines += [f'    parameter \\{it} {value}' for it, value in parameters.items()]
        self.cells.append('\n'.join([*lines, *(f'    connect \\{it} {value}' for it, value in pins.items()), '  end']))

    def gate(self, at: int) -> None:
        """A gate of one bit."""
        kind = self.random.choice(GATES)
        pins = {pin: self.bit() for pin in ('A', 'B', 'S')[:3 if kind == 'mux' else 2]}
        self.wire(f'g{at}', 1)
        self.cell(f'_{kind.upper()}_', f'cell{at}', {}, {**pins, 'Y': f'\\g{at}'})

    def storage(self, at: int) -> None:
        """A storage cell; its bits may be read before it is made, by itself too."""
        kind, controls = self.random.choice(REGISTERS if self.random.random() < 0.6 else STORAGE)
        width = self.random.randint(1, 2)
        self.wire(f'q{at}', width)
        parameters, pins = {'WIDTH': str(width)}, {}
        for control in controls.split():
            name = CONTROLS[control]
            parameters[f'{name}_POLARITY'] = f"1'{self.constant(1)}"
            pins[name] = '\\clk' if control == 'clk' and self.random.random() < 0.9 else \
                self.signal(width) if control in ('set', 'clr') else self.bit()
            if control in ('arst', 'srst'):
                parameters[f'{name}_VALUE'] = f"{width}'{self.constant(width, '0011x')}"
        pins.update({'AD': self.signal(width)} if 'aload' in controls else {})
        pins.update({'D': self.signal(width)} if kind != 'sr' else {})
        self.cell(kind, f'cell{at}', parameters, {**pins, 'Q': f'\\q{at}'})

    def text(self) -> str:
        """The module."""
        return '\n'.join([f'module \\{self.name}', *self.wires, *self.cells, 'end', ''])


def net_of(number: int) -> Tuple[str, str]:
    """The module of a number, always the same: its name and its text."""
    random = Random(f'net {number}')
    writer = Writer(random, f'net{number}')
    for at in range(random.randint(4, 8)):
        (writer.gate if random.random() < 0.35 else writer.storage)(at)
    return writer.name, writer.text()


def stimulus(design: Design, module: str, steps: int, seed: int, unknown: float = 0.06) -> List[str]:
    """A stimulus whose inputs keep their value in most steps; some bits are x or z."""
    random = Random(seed)
    words = [[0] * wire.width for wire in design[module].ports('input')]
    lines = []
    for _ in range(steps):
        for word in words:
            for at in range(len(word)):
                if random.random() < 0.4:
                    word[at] = random.choice('xz') if random.random() < unknown else random.getrandbits(1)
        lines.append(' '.join(''.join(map(str, word)) for word in words) or '-')
    return lines
