"""Rows of memories: words that write ports change, and read ports."""
from typing import Dict, List, NamedTuple, Sequence

from order.bits import NOT, X, Bit, Bits, active, and_of, are_known, bits_of, edge, merge, number, pick, xor_of
from order.rtlil import At, Cell, Memory, constant_bits
from order.scope import Node, Scope, Valuation


class Port(NamedTuple):
    """A write port: its number, clock and level, address, enable and data; and the numbers of the ports that it may follow."""
    number: int
    clock: int
    level: int
    address: List[int]
    enable: List[int]
    data: List[int]
    follows: frozenset


def number_of(cell: Cell, name: str) -> int:
    """A parameter as a number."""
    return number([bit & 1 for bit in constant_bits(cell.params[name])])


def mask_of(bits: Bits, first: int = 0) -> frozenset:
    """The numbers of the ports of a mask."""
    return frozenset(first + at for at, bit in enumerate(bits) if bit == 1)


def cell_ports(scope: Scope, name: str) -> List[Port]:
    """The write ports of a memory that are cells."""
    ports = []
    for cell in scope.module.cells:
        if cell.kind == '$memwr_v2' and cell.params['\\MEMID'] == name:
            pins = {pin: scope.all_at(cell.pins[f'\\{pin}']) for pin in ('CLK', 'ADDR', 'EN', 'DATA')}
            level = int(number_of(cell, '\\CLK_POLARITY') != 0)
            ports.append(Port(number_of(cell, '\\PORTID'), pins['CLK'][0], level, pins['ADDR'], pins['EN'], pins['DATA'],
                              mask_of(constant_bits(cell.params['\\PRIORITY_MASK']))))
    return ports


def line_ports(scope: Scope, name: str, first: int) -> List[Port]:
    """The write ports of a memory that are lines of processes, numbered from `first` on."""
    ports: List[Port] = []
    for process in scope.module.processes:
        for rule in process.rules:
            own: Dict[int, int] = {}
            for at, line in enumerate(rule.writes):
                if line.memory == name:
                    own[at] = first + len(ports)
                    follows = frozenset(own[it] for it in mask_of(line.mask) if it in own)
                    ports.append(Port(own[at], scope.at(rule.signal[0]), int(rule.event == 'posedge'), scope.all_at(line.address),
                                      scope.all_at(line.enable), scope.all_at(line.data), follows))
    return ports


def start_words(scope: Scope, store: Memory) -> Bits:
    """The start words of a memory, from its `$meminit` cells."""
    bits = [X] * (store.size * store.width)
    inits = [cell for cell in scope.module.cells if cell.kind in ('$meminit', '$meminit_v2') and cell.params['\\MEMID'] == store.name]
    for cell in sorted(inits, key=lambda it: number_of(it, '\\PRIORITY')):
        first = (number(cell.pins['\\ADDR']) - store.offset) * store.width
        enable = cell.pins.get('\\EN', [1] * store.width)
        for at, bit in enumerate(cell.pins['\\DATA']):
            old = bits[first + at]
            bits[first + at] = {1: bit, 0: old}.get(enable[at % store.width], merge(bit, old))
    return bits


def address_is(address: Bits, value: int) -> Bit:
    """0 where two known bits differ or the number does not fit, 1 where all are known and equal, else x."""
    if value >> len(address):
        return 0
    found = 1
    for bit, wanted in zip(address, bits_of(value, len(address))):
        found = and_of(found, NOT[xor_of(bit, wanted)])
    return found


def after_ports(v: Valuation, ports: Sequence[Port], address: int, at: int, old: Bit) -> Bit:
    """What the ports make of a bit of the word at an address."""
    hits: List[int] = []
    for port in ports:
        hit = and_of(v[port.enable[at]], address_is([v[it] for it in port.address], address))
        new = v[port.data[at]] if all(it in port.follows for it in hits) else X
        old = pick(hit, new, old)
        hits += [port.number] if hit else []
    return old


def words_node(scope: Scope, store: Memory) -> Node:
    """The row of all words of a memory."""
    ports = cell_ports(scope, store.name)
    ports += line_ports(scope, store.name, max([port.number for port in ports], default=-1) + 1)
    ports.sort(key=lambda port: port.number)
    first = scope.offsets[store.name]
    outs = range(first, first + store.size * store.width)
    places = [(store.offset + word, at) for word in range(store.size) for at in range(store.width)]

    def step(before: Valuation, now: Valuation, is_first: bool) -> Bits:
        if not ports:
            return [before[out] for out in outs]
        clock, level = ports[0].clock, ports[0].level
        risen = edge(active(level, X if is_first else before[clock]), active(level, now[clock]))
        if risen == 0:
            return [pick(0, X, before[out]) for out in outs]
        return [pick(risen, after_ports(before, ports, word, at, before[out]), before[out]) for out, (word, at) in zip(outs, places)]
    return Node(outs, [ports[0].clock] if ports else [], step, start_words(scope, store))


def read_node(scope: Scope, cell: Cell) -> Node:
    """The row of a read port."""
    store = scope.module.memories[cell.params['\\MEMID']]
    address = scope.all_at(cell.pins['\\ADDR'])
    first = scope.offsets[store.name]
    words = list(range(first, first + store.size * store.width))

    def step(before: Valuation, now: Valuation, is_first: bool) -> Bits:
        bits = [now[at] for at in address]
        at = (number(bits) - store.offset) * store.width if are_known(bits) else -1
        return [now[it] for it in words[at:at + store.width]] if 0 <= at < len(words) else [X] * store.width
    return Node([scope.raw(bit) for bit in cell.pins['\\DATA'] if isinstance(bit, At)], [*address, *words], step)
