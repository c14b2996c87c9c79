"""Random small modules in Verilog: registers of one clock, whose asynchronous resets are inputs or registers."""
from random import Random
from typing import List, NamedTuple, Optional, Sequence, Tuple

from order.waves import moves

RESETS, DATA = 2, 3


class Register(NamedTuple):
    """A register: its name and width, its reset with the active level, where it has one, and its reset value."""
    name: str
    width: int
    reset: Optional[str]
    level: int
    value: int


class Sample(NamedTuple):
    """A module with the bits that are resets, and a stimulus."""
    name: str
    verilog: str
    controls: Tuple[str, ...]
    steps: List[str]


def registers_of(random: Random) -> List[Register]:
    """Three to six registers; a reset is an input, or an earlier register of one bit."""
    found: List[Register] = []
    for at in range(random.randint(3, 6)):
        width = 1 if at < 2 else random.randint(1, 3)
        resets = [f'r{it}' for it in range(RESETS)] + [it.name for it in found if it.width == 1] * 2
        reset = random.choice(resets) if random.random() < 0.85 else None
        level = random.randrange(2) if reset and reset[0] == 'q' else 1
        found.append(Register(f'q{at}', width, reset, level, random.getrandbits(width)))
    return found


def operand(random: Random, registers: Sequence[Register]) -> str:
    """An input of data, a register or a constant."""
    names = [f'd{at}' for at in range(DATA)] + [it.name for it in registers]
    return random.choice(names + ["1'b1"])


def value_of(random: Random, registers: Sequence[Register]) -> str:
    """An expression."""
    a, b, c = (operand(random, registers) for _ in range(3))
    forms = [a, f'~{a}', f'{a} & {b}', f'{a} | {b}', f'{a} ^ {b}', f'{a} + {b}', f"({a} != 0) ? {b} : {c}"]
    return random.choice(forms)


def block_of(random: Random, own: Register, registers: Sequence[Register]) -> List[str]:
    """The block of a register."""
    enable = f'if ({operand(random, registers)} != 0) ' if random.random() < 0.3 else ''
    value = f'{own.name} <= {value_of(random, registers)};'
    if own.reset is None:
        return [f'  always @(posedge clk) {enable}{value}']
    edge, active = ('posedge', own.reset) if own.level else ('negedge', f'!{own.reset}')
    return [f'  always @(posedge clk or {edge} {own.reset})',
            f"    if ({active}) {own.name} <= {own.width}'d{own.value};", f'    else {enable}{value}']


def verilog_of(random: Random, name: str) -> Tuple[str, Tuple[str, ...]]:
    """A module, and its resets."""
    registers = registers_of(random)
    inputs = ['clk', *(f'r{at}' for at in range(RESETS)), *(f'd{at}' for at in range(DATA))]
    ports = [f'input {it}' for it in inputs]
    ports += [f'output reg [{it.width - 1}:0] {it.name}' if it.width > 1 else f'output reg {it.name}' for it in registers]
    lines = [f"module {name}({', '.join(ports)});"]
    for own in registers:
        lines += block_of(random, own, registers)
    controls = dict.fromkeys(it.reset for it in registers if it.reset)
    return '\n'.join([*lines, 'endmodule', '']), tuple(controls)


def sample_of(number: int, steps: int) -> Sample:
    """The module of a number, always the same."""
    random = Random(f'module {number}')
    name = f'sample{number}'
    verilog, controls = verilog_of(random, name)
    return Sample(name, verilog, controls, moves(1, (1,) * RESETS, (1,) * DATA, steps, number))
