"""Gates of bitwise cells alone: all other cells of a netlist stay as they are. So words, chains and trees that a pass
made are seen as cells, and what follows them as gates."""
import re
from typing import Dict, Iterator, List

GATES = {b'$and': b'$_AND_', b'$or': b'$_OR_', b'$xor': b'$_XOR_', b'$not': b'$_NOT_'}
MADE = re.compile(rb' \$syn\$([1-9][0-9]{0,8}|0)$')
CELL = re.compile(rb'  cell (\S+) \S+')
LINE = re.compile(rb'    (?:parameter(?: signed)?|connect) \\(\S+) (.*)')
WIRE = re.compile(rb'  wire (?:.* )?(\S+)$')
WIDTH = re.compile(rb' width (\d+) ')
PART = re.compile(rb"(\d+)'([01xzm-]*)|([\\$]\S+)(?: \[(\d+)(?::(\d+))?\])?")
Bits = List[bytes]
Widths = Dict[bytes, int]


def part_bits(found: 're.Match[bytes]', widths: Widths) -> Bits:
    """The bits of a constant or of a part of a wire, the lowest first."""
    if found[3] is None:
        return [b"1'" + bytes([digit]) for digit in reversed(found[2])]
    name, width = found[3], widths[found[3]]
    high = int(found[4]) if found[4] else width - 1
    low = int(found[5] or high) if found[4] else 0
    if width == 1:
        return [name]
    return [b'%s [%d]' % (name, at) for at in range(low, high + 1)]


def bits_of(signal: bytes, widths: Widths) -> Bits:
    """The bits of a signal as it is written, the lowest first."""
    parts = [part_bits(found, widths) for found in PART.finditer(signal)]
    return [bit for part in reversed(parts) for bit in part]


def extended(bits: Bits, width: int, signed: bool) -> Bits:
    """Bits cut or filled up to a width."""
    fill = bits[-1] if signed and bits else b"1'0"
    return bits[:width] + [fill] * (width - len(bits))


def number_of(value: bytes) -> int:
    """The number of a parameter."""
    return int(value.split(b"'")[1], 2) if b"'" in value else int(value)


def gate(kind: bytes, number: int, inputs: Bits, output: bytes) -> List[bytes]:
    """The lines of a gate."""
    pins = [b'    connect \\%s %s' % (pin, bit) for pin, bit in zip((b'A', b'B'), inputs)]
    return [b'  cell %s $syn$%d' % (kind, number), *pins, b'    connect \\Y ' + output, b'  end']


def gates_of(kind: bytes, lines: List[bytes], widths: Widths, number: int) -> Iterator[List[bytes]]:
    """The gates of a cell, whose numbers go on from this one."""
    told = dict(found.groups() for found in map(LINE.match, lines) if found)
    pins = [pin for pin in (b'A', b'B') if pin in told]
    outputs = bits_of(told[b'Y'], widths)
    signed = all(number_of(told[pin + b'_SIGNED']) for pin in pins)
    operands = [extended(bits_of(told[pin], widths), len(outputs), signed) for pin in pins]
    for at, (*inputs, output) in enumerate(zip(*operands, outputs), 1):
        yield gate(GATES[kind], number + at, inputs, output)


def widths_of(lines: List[bytes]) -> Widths:
    """The widths of the wires of a module."""
    widths = {}
    for line in lines:
        found = WIRE.match(line)
        if found:
            width = WIDTH.search(line)
            widths[found[1]] = int(width[1]) if width else 1
    return widths


def parts_of(lines: List[bytes]) -> Iterator[List[bytes]]:
    """The lines of a module, those of a cell with its attributes together."""
    held: List[bytes] = []
    for line in lines:
        held.append(line)
        open_cell = any(CELL.match(one) for one in held)
        if line.startswith(b'  attribute ') or (open_cell and line != b'  end'):
            continue
        yield held
        held = []
    yield held


def module_with_gates(lines: List[bytes]) -> List[bytes]:
    """A module with gates in the places of its bitwise cells."""
    widths = widths_of(lines)
    number = max((int(found[1]) for found in map(MADE.search, lines) if found), default=0)
    made: List[bytes] = []
    for part in parts_of(lines):
        kind = next((found[1] for found in map(CELL.match, part) if found), b'')
        if kind not in GATES:
            made += part
            continue
        gates = list(gates_of(kind, part, widths, number))
        number += len(gates)
        made += [line for lines_of_gate in gates for line in lines_of_gate]
    return made


def with_gates(netlist: bytes) -> bytes:
    """A netlist in its canonical text with gates in the places of its bitwise cells."""
    modules = re.findall(rb'.*?^end\n', netlist, re.M | re.S)
    return b''.join(b'\n'.join(module_with_gates(module[:-1].split(b'\n'))) + b'\n' for module in modules)
