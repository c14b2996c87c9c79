"""A design as it is looked at from outside: modules with ports, cells, pins and connections, read from an RTLIL text
with one statement a line."""
from __future__ import annotations

import re
from dataclasses import dataclass, field
from functools import cached_property
from typing import Iterator, Mapping, NamedTuple, Optional, Union

from .errors import Failed
from .stable import Item, Line, Lines, NotStatements, src_of, take_attributes, take_items, text_in

#: A bit of a wire: the wire's name and the index. A constant bit is a string of one character.
WireBit = tuple[str, int]
Bit = Union[WireBit, str]

# The parts of a signal's text.
PART = re.compile(r'"(?:[^"\\]|\\.)*"|\[ *[0-9]+ *(?:: *[0-9]+ *)?\]|[{}]|[0-9]+\'s?[01xzm-]*|-?[0-9]+|[\\$][^ \t\r]+')


class Port(NamedTuple):
    """A port of a module."""
    name: str
    width: int
    direction: str
    number: int


@dataclass
class Wire:
    """A wire, with its attributes as they are written."""
    name: str
    width: int = 1
    offset: int = 0
    direction: Optional[str] = None
    number: int = 0
    attributes: dict[str, str] = field(default_factory=dict)


@dataclass
class Cell:
    """A cell: parameters and pins as they are written."""
    name: str
    type: str
    parameters: dict[str, str] = field(default_factory=dict)
    pins: dict[str, str] = field(default_factory=dict)
    src: str = ''


@dataclass
class Memory:
    """A memory of a module."""
    name: str
    width: int = 1
    size: int = 0
    offset: int = 0


@dataclass
class Process:
    """A process: the signals of its edges and switches, the wires that it updates, and its place in the source."""
    edges: list[str]
    switches: list[str]
    updates: set[str]
    src: str = ''


@dataclass
class Body:
    """A module."""
    name: str
    attributes: dict[str, str] = field(default_factory=dict)
    parameters: dict[str, str] = field(default_factory=dict)
    wires: dict[str, Wire] = field(default_factory=dict)
    memories: dict[str, Memory] = field(default_factory=dict)
    cells: list[Cell] = field(default_factory=list)
    links: list[tuple[str, str]] = field(default_factory=list)
    processes: dict[str, Process] = field(default_factory=dict)

    def ports(self, *directions: str) -> list[Port]:
        """The ports of these directions, or all, in the order of their numbers."""
        wires = [it for it in self.wires.values() if it.direction and (not directions or it.direction in directions)]
        ports = (Port(it.name, it.width, it.direction or '', it.number) for it in wires)
        return sorted(ports, key=lambda port: port.number)

    @property
    def is_top(self) -> bool:
        """Whether the front end marked it as the top."""
        return '\\top' in self.attributes

    @property
    def is_box(self) -> bool:
        """Whether it is marked as a black box."""
        return '\\blackbox' in self.attributes

    def bits(self, signal: str) -> list[Bit]:
        """The bits of a signal, bit 0 first."""
        return Signal(self, signal).bits()

    @property
    def pairs(self) -> Iterator[Iterator[tuple[Bit, Bit]]]:
        """For each connection the bits on its two sides."""
        return (zip(self.bits(left), self.bits(right)) for left, right in self.links)

    @cached_property
    def driver_of(self) -> dict[WireBit, Bit]:
        """For each bit that a connection drives, what drives it."""
        return {left: right for pair in self.pairs for left, right in pair if not isinstance(left, str)}

    def follow(self, bit: Bit) -> Bit:
        """The bit or constant that a bit comes from through connections."""
        seen = set()
        while not isinstance(bit, str) and bit in self.driver_of and bit not in seen:
            seen.add(bit)
            bit = self.driver_of[bit]
        return bit


class Signal:
    """The text of a signal, from which its bits are read."""

    def __init__(self, body: Body, text: str) -> None:
        self.body, self.text = body, text
        self.parts = PART.findall(text)
        self.at = 0

    def bits(self) -> list[Bit]:
        """All bits, bit 0 first."""
        bits = self.one()
        if self.at != len(self.parts):
            raise Failed(f'{self.body.name}: {self.text} is no signal')
        return bits

    def one(self) -> list[Bit]:
        """The bits of the signal that begins here, with its slices."""
        if self.at == len(self.parts):
            raise Failed(f'{self.body.name}: {self.text} is no signal')
        part = self.parts[self.at]
        self.at += 1
        bits = self.braces() if part == '{' else self.plain(part)
        while self.at < len(self.parts) and self.parts[self.at][0] == '[':
            ends = [int(it) for it in self.parts[self.at].strip('[] ').split(':')]
            bits = bits[ends[-1]:ends[0] + 1]
            self.at += 1
        return bits

    def braces(self) -> list[Bit]:
        """The bits up to the closing brace; the leftmost signal is on top."""
        rows: list[list[Bit]] = []
        while self.at < len(self.parts) and self.parts[self.at] != '}':
            rows.append(self.one())
        self.at += 1
        return [bit for row in reversed(rows) for bit in row]

    def plain(self, part: str) -> list[Bit]:
        """The bits of a wire or a constant."""
        if part[0] in '\\$':
            wire = self.body.wires.get(part)
            if wire is None:
                raise Failed(f'{self.body.name}: there is no wire {part}')
            return [(part, at) for at in range(wire.width)]
        return list(bits_of_constant(part))


def bits_of_constant(text: str) -> str:
    """The bits of a constant as characters, bit 0 first."""
    if text[0] == '"':
        octets = text_in(text).encode('utf-8', 'surrogateescape')
        return ''.join(format(octet, '08b')[::-1] for octet in reversed(octets))
    if "'" not in text:
        return format(int(text) % 2 ** 32, '032b')[::-1]
    width, digits = text.split("'")
    bits = digits.lstrip('s')[::-1]
    above = '0' if bits[-1:] in ('0', '1') else bits[-1:] or 'x'
    return bits[:int(width)].ljust(int(width), above)


def number_of(text: str) -> Optional[int]:
    """The number that a constant is; None where a bit is unknown."""
    bits = bits_of_constant(text)
    return int(bits[::-1] or '0', 2) if set(bits) <= {'0', '1'} else None


# Reading


def design_of(text: str) -> dict[str, Body]:
    """The modules of a text, in order."""
    design: dict[str, Body] = {}
    lines = Lines(text)
    while not lines.at_end():
        attributes, head = take_attributes(lines), lines.take()
        if head.tokens[0] == 'autoidx':
            continue
        if head.tokens[0] != 'module' or len(head.tokens) != 2:
            raise NotStatements(f'line {head.number}: not the begin of a module')
        body = Body(head.tokens[1], values_of(attributes))
        for item in take_items(lines):
            READERS[item.kind()](body, item)
        design[body.name] = body
    return design


def values_of(attributes: list[Line]) -> dict[str, str]:
    """Attributes by their names."""
    return {line.tokens[1]: ' '.join(line.tokens[2:]) for line in attributes}


def options_in(line: Line) -> dict[str, int]:
    """The options of a wire or memory with their numbers."""
    words = line.tokens[1:-1]
    return {word: int(after) for word, after in zip(words, words[1:]) if word.isalpha() and not after.isalpha()}


def read_wire(body: Body, item: Item) -> None:
    """Takes a wire into the module."""
    options = options_in(item.lines[0])
    direction = next((it for it in ('input', 'output', 'inout') if it in options), None)
    body.wires[item.name()] = Wire(item.name(), options.get('width', 1), options.get('offset', 0), direction,
                                   options.get(direction, 0) if direction else 0, values_of(item.attributes))


def read_memory(body: Body, item: Item) -> None:
    """Takes a memory into the module."""
    options = options_in(item.lines[0])
    body.memories[item.name()] = Memory(item.name(), options.get('width', 1), options.get('size', 0),
                                        options.get('offset', 0))


def read_cell(body: Body, item: Item) -> None:
    """Takes a cell into the module."""
    cell = Cell(item.name(), item.type() or '', src=src_of(item.attributes))
    for line in item.lines[1:-1]:
        words = line.tokens[1:]
        if line.tokens[0] == 'connect':
            cell.pins[words[0]] = ' '.join(words[1:])
        elif line.tokens[0] == 'parameter':
            words = words[1:] if words[0] in ('signed', 'real') else words
            cell.parameters[words[0]] = ' '.join(words[1:])
    body.cells.append(cell)


def read_connect(body: Body, item: Item) -> None:
    """Takes a connection into the module: the left signal ends where braces and slices are closed."""
    parts = PART.findall(' '.join(item.lines[0].tokens[1:]))
    at = end_of_signal(parts)
    body.links.append((' '.join(parts[:at]), ' '.join(parts[at:])))


def end_of_signal(parts: list[str]) -> int:
    """The number of parts of the signal that these begin with."""
    depth, at = 0, 0
    while at < len(parts):
        depth += {'{': 1, '}': -1}.get(parts[at], 0)
        at += 1
        if depth == 0 and (at == len(parts) or parts[at][0] != '['):
            break
    return at


def read_parameter(body: Body, item: Item) -> None:
    """Takes a parameter of the module."""
    words = item.lines[0].tokens[1:]
    body.parameters[words[0]] = ' '.join(words[1:])


def read_process(body: Body, item: Item) -> None:
    """Takes a process into the module."""
    def signals(*words: str) -> list[str]:
        """The signals of the lines that begin with these words."""
        return [' '.join(it.tokens[len(words):]) for it in item.lines if it.tokens[:len(words)] == list(words)]
    updates = {PART.findall(line)[0] for line in signals('update')}
    body.processes[item.name()] = Process(signals('sync', 'posedge') + signals('sync', 'negedge'), signals('switch'),
                                          updates, src_of(item.attributes))


READERS = {'wire': read_wire, 'memory': read_memory, 'cell': read_cell, 'connect': read_connect,
           'parameter': read_parameter, 'process': read_process}


# The hierarchy


def tops_of(design: Mapping[str, Body]) -> list[str]:
    """The module that is marked as the top, or else those of which there is no instance."""
    marked = [name for name, body in design.items() if body.is_top]
    used = {cell.type for body in design.values() for cell in body.cells}
    return marked or [name for name in design if name not in used] or list(design)


def top_of(design: Mapping[str, Body], named: Optional[str] = None) -> str:
    """The module that is named, or the one at the top."""
    if named:
        name = named if named[0] in '\\$' else f'\\{named}'
        if name not in design:
            raise Failed(f'there is no module {name}')
        return name
    tops = tops_of(design)
    if len(tops) != 1:
        raise Failed(f'no module is the top: name one, as {" or ".join(map(plain, tops[:4])) or "m"}')
    return tops[0]


def instances_in(design: Mapping[str, Body], name: str) -> Iterator[Cell]:
    """The cells of a module that are instances."""
    return (cell for cell in design[name].cells if cell.type in design)


def uses_of(design: Mapping[str, Body], tops: list[str]) -> dict[str, int]:
    """How often each module stands in the hierarchy below the tops."""
    uses = dict.fromkeys(design, 0)
    for name in tops:
        uses[name] = 1
    for name in parents_first(design):
        for cell in instances_in(design, name):
            uses[cell.type] += uses[name]
    return uses


def parents_first(design: Mapping[str, Body]) -> list[str]:
    """The names of the modules, each before those that it has instances of."""
    order: list[str] = []
    done: set[str] = set()
    stack = [(name, False) for name in design]
    while stack:
        name, is_left = stack.pop()
        if is_left:
            order.append(name)
        elif name not in done:
            done.add(name)
            stack.append((name, True))
            stack += [(cell.type, False) for cell in instances_in(design, name)]
    return order[::-1]


def plain(name: str) -> str:
    """A name without its backslash."""
    return name[1:] if name.startswith('\\') else name


# Names with parameters

PARAMOD = re.compile(r'\$paramod(?:\$[0-9a-f]{40})?(?P<name>\\[^\\]+)(?P<rest>(?:\\[^\\=]+=.*)?)', re.S)
GIVEN = re.compile(r'\\([^\\=]+)=([^\\]*)')


def shown(name: str, body: Optional[Body] = None) -> str:
    """A module's name as it is said in Verilog: `$paramod\\fifo\\DEPTH=s32'..` is `\\fifo #(DEPTH=16)`. Where the name
    has a sum in the place of its parameters, the module's own say them."""
    found = PARAMOD.fullmatch(name)
    if not found:
        return name
    own = body.parameters if body else {}
    given = GIVEN.findall(found['rest']) or [(plain(it), value) for it, value in own.items()]
    told = ', '.join(f'{it}={value_shown(value)}' for it, value in given)
    return f'{found["name"]} #({told})' if told else found['name']


def value_shown(text: str) -> str:
    """A parameter's value as it is said: `s32'00..10000` is 16."""
    found = re.fullmatch(r"(s?)([0-9]+)'([01]+)", text)
    if not found:
        return text
    number = int(found[3], 2)
    is_below = found[1] and found[3].rjust(int(found[2]), '0')[0] == '1'
    return str(number - 2 ** int(found[2]) if is_below else number)
