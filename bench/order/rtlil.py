"""RTLIL text as records: the parts of it that have a meaning over time."""
import re
from dataclasses import dataclass, field
from typing import Dict, Iterator, List, NamedTuple, Optional, Tuple, Union

from order.bits import Bits, DIGITS, X, bits_of

TOKEN = re.compile(
    r'(?P<blank>[ \t]+|#[^\r\n]*)|(?P<end>[\r\n]+)|(?P<text>"(?:\\.|[^"\\])*")|(?P<name>[\\$][^\x00-\x20]+)'
    r"|(?P<value>[0-9]+'s?[01xzm-]*)|(?P<number>-?[0-9]+)|(?P<word>[a-z]+)|(?P<mark>[\[\]{}:,])", re.DOTALL)
ESCAPE = re.compile(r'\\([0-7]{1,3}|.)', re.DOTALL)


class Text(str):
    """A constant that is written as a string."""


class At(NamedTuple):
    """A bit of a wire."""
    wire: str
    index: int


SigBit = Union[int, At]
Signal = List[SigBit]
Constant = Union[Text, int, Bits]


@dataclass
class Wire:
    """A wire with its start value, where it has one."""
    name: str
    width: int = 1
    role: str = ''
    port: int = 0
    init: Optional[Bits] = None


@dataclass
class Memory:
    """A memory: words at the addresses from `offset` on."""
    name: str
    width: int = 1
    size: int = 0
    offset: int = 0


@dataclass
class Cell:
    """A cell or an instance."""
    kind: str
    name: str
    params: Dict[str, Constant] = field(default_factory=dict)
    pins: Dict[str, Signal] = field(default_factory=dict)


@dataclass
class Case:
    """The patterns of a case, none for a default; its assigns and its switches."""
    patterns: List[Signal] = field(default_factory=list)
    assigns: List[Tuple[Signal, Signal]] = field(default_factory=list)
    switches: List['Switch'] = field(default_factory=list)


@dataclass
class Switch:
    """A switch with its cases."""
    signal: Signal
    cases: List[Case] = field(default_factory=list)


class Write(NamedTuple):
    """A memwr line."""
    memory: str
    address: Signal
    data: Signal
    enable: Signal
    mask: Bits


@dataclass
class Rule:
    """A sync rule."""
    event: str
    signal: Signal
    updates: List[Tuple[Signal, Signal]] = field(default_factory=list)
    writes: List[Write] = field(default_factory=list)


@dataclass
class Process:
    """A process: its root case and its rules."""
    name: str
    root: Case
    rules: List[Rule] = field(default_factory=list)


@dataclass
class Module:
    """A module; a link is a pair of left and right."""
    name: str
    wires: Dict[str, Wire] = field(default_factory=dict)
    memories: Dict[str, Memory] = field(default_factory=dict)
    cells: List[Cell] = field(default_factory=list)
    processes: List[Process] = field(default_factory=list)
    links: List[Tuple[Signal, Signal]] = field(default_factory=list)

    def ports(self, role: str) -> List[Wire]:
        """The ports of a role, in the order of their numbers."""
        return sorted((wire for wire in self.wires.values() if wire.role == role), key=lambda wire: wire.port)


Design = Dict[str, Module]


def value_of(text: str) -> Bits:
    """The bits of a written value: filled upward with its top bit, a top 1 with 0, none with x."""
    width, digits = text.split("'")
    bits = [DIGITS.find(digit) if digit in DIGITS else X for digit in reversed(digits.replace('s', ''))]
    fill = X if not bits else 0 if bits[-1] == 1 else bits[-1]
    return (bits + [fill] * (int(width) - len(bits)))[:int(width)]


def string_of(token: str) -> Text:
    """A string without its quotes and escapes."""
    def plain(found):
        code = found.group(1)
        return {'n': '\n', 't': '\t'}.get(code, chr(int(code, 8)) if code[0] in '01234567' else code)
    return Text(ESCAPE.sub(plain, token[1:-1]))


def constant_bits(value: Constant) -> Bits:
    """A constant as bits: an integer has 32, a string 8 for each character, the first on top."""
    if isinstance(value, Text):
        return [bit for byte in reversed(value) for bit in bits_of(ord(byte), 8)]
    return bits_of(value, 32) if isinstance(value, int) else value


def tokens_of(text: str) -> Iterator[Tuple[str, str]]:
    """The tokens with their classes."""
    at = 0
    while at < len(text):
        found = TOKEN.match(text, at)
        if not found:
            raise ValueError(f'no token at byte {at}: {text[at:at + 20]!r}')
        at = found.end()
        if found.lastgroup != 'blank':
            yield found.lastgroup, found.group()
    yield 'end', ''


class Reader:
    """Reads a design from its text, which is taken for a right one."""

    def __init__(self, text: str):
        self.tokens = list(tokens_of(text))
        self.at = 0
        self.module = Module('')
        self.init: Optional[Constant] = None

    def next(self) -> str:
        """The next token, which is taken."""
        self.at += 1
        return self.tokens[self.at - 1][1]

    def peek(self, word: str) -> bool:
        """Whether the next token is this one."""
        return self.tokens[self.at][1] == word

    def ends(self) -> bool:
        """Whether the line ends here."""
        return self.tokens[self.at][0] == 'end'

    def skip_ends(self) -> bool:
        """Passes ends of lines; whether there is more."""
        while self.at < len(self.tokens) and self.ends():
            self.at += 1
        return self.at < len(self.tokens)

    def constant(self) -> Constant:
        """A constant as it is written."""
        kind, token = self.tokens[self.at]
        self.at += 1
        return value_of(token) if kind == 'value' else string_of(token) if kind == 'text' else int(token)

    def element(self) -> Signal:
        """A constant, a wire, or signals in braces."""
        if self.tokens[self.at][0] in ('value', 'text', 'number'):
            return list(constant_bits(self.constant()))
        if not self.peek('{'):
            wire = self.module.wires[self.next()]
            return [At(wire.name, index) for index in range(wire.width)]
        self.next()
        parts = []
        while not self.peek('}'):
            parts.append(self.signal())
        self.next()
        return [bit for part in reversed(parts) for bit in part]

    def signal(self) -> Signal:
        """An element with its brackets."""
        bits = self.element()
        while self.peek('['):
            self.next()
            high = low = int(self.next())
            if self.peek(':'):
                self.next()
                low = int(self.next())
            self.next()
            bits = bits[low:high + 1]
        return bits

    def statements(self) -> Iterator[str]:
        """The first words of statements up to an `end`, which is taken."""
        while self.skip_ends():
            word = self.next()
            if word == 'end':
                return
            yield word

    def design(self) -> Design:
        """All modules."""
        design = {}
        while self.skip_ends():
            word = self.next()
            if word == 'module':
                module = self.read_module()
                design[module.name] = module
            else:
                self.rest(word)
        return design

    def rest(self, word: str) -> None:
        """A line without a meaning here; a start value is kept for the wire that follows."""
        if word == 'attribute':
            init = self.peek('\\init')
            self.next()
            value = self.constant()
            self.init = value if init else self.init
        while not self.ends():
            self.next()

    def read_module(self) -> Module:
        """A module up to its end."""
        self.module = Module(self.next())
        self.init = None
        parts = {'wire': self.wire, 'memory': self.memory, 'cell': self.cell, 'process': self.process, 'connect': self.link}
        for word in self.statements():
            if word in parts:
                parts[word]()
                self.init = None
            else:
                self.rest(word)
        return self.module

    def options(self) -> Dict[str, int]:
        """The options before a name."""
        found: Dict[str, int] = {}
        while self.tokens[self.at][0] != 'name':
            word = self.next()
            found.pop('input' if word == 'output' else 'output', 0) if word in ('input', 'output') else 0
            found[word] = int(self.next()) if self.tokens[self.at][0] == 'number' else 1
        return found

    def wire(self) -> None:
        """A wire."""
        options = self.options()
        role = next((word for word in ('input', 'output', 'inout') if word in options), '')
        wire = Wire(self.next(), options.get('width', 1), role, options.get(role, 0))
        if self.init is not None:
            bits = constant_bits(self.init)
            wire.init = (bits + [X] * (wire.width - len(bits)))[:wire.width]
        self.module.wires[wire.name] = wire

    def memory(self) -> None:
        """A memory."""
        options = self.options()
        name = self.next()
        self.module.memories[name] = Memory(name, **options)

    def cell(self) -> None:
        """A cell."""
        cell = Cell(self.next(), self.next())
        for word in self.statements():
            if word == 'parameter':
                if self.peek('signed'):
                    self.next()
                name = self.next()
                cell.params[name] = self.constant()
            elif word == 'connect':
                name = self.next()
                cell.pins[name] = self.signal()
            else:
                self.rest(word)
        self.module.cells.append(cell)

    def link(self) -> None:
        """A connection."""
        self.module.links.append((self.signal(), self.signal()))

    def process(self) -> None:
        """A process."""
        process = Process(self.next(), Case())
        self.body(process.root, ('sync', 'end'))
        while not self.peek('end'):
            process.rules.append(self.rule())
        self.next()
        self.module.processes.append(process)

    def body(self, case: Case, stops: Tuple[str, ...]) -> None:
        """The assigns and switches of a case, up to one of these words, which is not taken."""
        while self.skip_ends() and self.tokens[self.at][1] not in stops:
            word = self.next()
            if word == 'assign':
                case.assigns.append((self.signal(), self.signal()))
            elif word == 'switch':
                case.switches.append(self.switch())
            else:
                self.rest(word)

    def switch(self) -> Switch:
        """A switch with its cases, up to its end."""
        switch = Switch(self.signal())
        for word in self.statements():
            if word != 'case':
                self.rest(word)
                continue
            case = Case()
            while not self.ends():
                if self.peek(','):
                    self.next()
                case.patterns.append(self.signal())
            self.body(case, ('case', 'end'))
            switch.cases.append(case)
        return switch

    def rule(self) -> Rule:
        """A sync rule."""
        self.skip_ends()
        self.next()
        rule = Rule(self.next(), [])
        if not self.ends():
            rule.signal = self.signal()
        while self.skip_ends() and self.tokens[self.at][1] not in ('sync', 'end'):
            word = self.next()
            if word == 'update':
                rule.updates.append((self.signal(), self.signal()))
            elif word == 'memwr':
                rule.writes.append(Write(self.next(), self.signal(), self.signal(), self.signal(), constant_bits(self.constant())))
            else:
                self.rest(word)
        return rule


def read_design(text: str) -> Design:
    """The design of a text."""
    return Reader(text).design()
