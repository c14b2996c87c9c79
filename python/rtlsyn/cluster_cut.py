"""A text of RTLIL, cut at its modules: where each begins and ends, its ports, and the types of its cells.

A statement of RTLIL ends with its line, unless a string holds the end of the line. So the lines, with strings and names
taken whole, and the first word of each are all that the cutter reads. Whatever else they hold is left in its place for the
program to judge. A text is cut only where the cut is sure, and any other is run whole.
"""
import re
from dataclasses import dataclass, field
from typing import Dict, FrozenSet, List, Optional, Set, Tuple

# Bytes and modules that one run takes; past them its reply is error 17.
MOST_BYTES = 67_108_864
MOST_MODULES = 4_096
LEAST_INT, GREATEST_INT = -(1 << 31), (1 << 31) - 1

# Tokens, each of which can be matched in one way alone: a name and a comment are taken to their ends, so that no pattern
# gives a byte of them back, and a failing one fails in linear time.
NAME = rb'[\\$][^\x00-\x20]+(?![^\x00-\x20])'
STRING = rb'"[^"\\]*(?:\\.[^"\\]*)*"'
COMMENT = rb'#[^\r\n]*(?![^\r\n])'
# What follows the first words of a statement, and the end of its line with the blanks and comments after it.
REST = rb'[^"#\\$\r\n]*(?:(?:' + NAME + b'|' + STRING + b'|' + COMMENT + rb')[^"#\\$\r\n]*)*'
BLANKS = rb'[ \t\r\n]*(?:' + COMMENT + rb'[ \t\r\n]*)*'
LINE_END = rb'[\r\n]' + BLANKS
AFTER = rb'(?![a-z])' + REST + LINE_END
# Statements that neither open nor close anything and are no ports.
PLAIN = rb'(?:attribute|parameter|connect|assign|case|sync|update|memwr|memory)' + AFTER
INNER_WIRE = rb'wire(?![^\\$"#\r\n]*(?:input|output|inout))' + AFTER


def _pattern(*pieces: bytes) -> 're.Pattern[bytes]':
    return re.compile(b''.join(pieces), re.S)


FIRST_BLANKS = _pattern(BLANKS)
AUTOIDX = _pattern(rb'autoidx[ \t]*(-?[0-9]{1,10})[ \t]*(?:', COMMENT, rb')?', LINE_END)
ATTRIBUTE = _pattern(rb'attribute(?![a-z])', REST, LINE_END)
MODULE = _pattern(rb'module[ \t]*(', NAME, rb')', REST, LINE_END)
# In a module: what is plain, and then a whole cell, a port, the head of a process, or the end.
IN_MODULE = _pattern(
    rb'(?:', PLAIN, b'|', INNER_WIRE, rb')*(?:cell[ \t]*(?P<type>', NAME, rb')', REST, LINE_END, rb'(?:', PLAIN, rb')*end',
    AFTER, rb'|(?P<port>wire(?![a-z])', REST, rb')', LINE_END, rb'|(?P<process>process)', AFTER,
    rb'|(?P<end>end)(?![a-z])', REST, rb'(?:', LINE_END, rb'|\Z))')
IN_PROCESS = _pattern(rb'(?:', PLAIN, rb')*(?:(?P<switch>switch)|end)', AFTER)
SOURCE_PLACE = re.compile(rb'attribute[ \t]*\\src[ \t]')

Span = Tuple[int, int]


class NotCut(Exception):
    """The text has to be run whole; the words say why."""


@dataclass
class Module:
    """A module of a text, from its first attribute to the line of its `end`."""
    name: bytes
    start: int
    name_at: Span
    end: int = 0
    attributes: List[Span] = field(default_factory=list)
    ports: List[Span] = field(default_factory=list)
    types: Set[bytes] = field(default_factory=set)


class Design:
    """The modules of a text in their order, each with the modules that it instantiates."""

    def __init__(self, text: bytes, modules: List[Module]) -> None:
        self.text = text
        self.modules = modules
        self.number: Dict[bytes, int] = {module.name: at for at, module in enumerate(modules)}
        self.below: List[List[int]] = [self._instantiated(module) for module in modules]

    def _instantiated(self, module: Module) -> List[int]:
        return sorted(self.number[name] for name in module.types if name in self.number)

    def block(self, at: int) -> bytes:
        """The text of a module."""
        module = self.modules[at]
        return _closed(self.text[module.start:module.end])

    def nameless(self, at: int) -> bytes:
        """The text of a module without its name: its netlist does not depend on it."""
        module = self.modules[at]
        first, after = module.name_at
        return _closed(self.text[module.start:first] + self.text[after:module.end])

    def face(self, at: int) -> bytes:
        """A module of the same name and ports without a body, as its parents see it."""
        module = self.modules[at]
        kept = [self.text[first:after] for first, after in module.attributes]
        lines = [line for line in kept if not SOURCE_PLACE.match(line)]
        lines.append(b'module ' + module.name + b'\n')
        lines.extend(self.text[first:after] + b'\n' for first, after in module.ports)
        return b''.join(lines) + b'end\n'

    def reached(self, at: int) -> FrozenSet[int]:
        """The modules that a module reaches through instances."""
        found: Set[int] = set()
        waiting = list(self.below[at])
        while waiting:
            child = waiting.pop()
            if child not in found:
                found.add(child)
                waiting.extend(self.below[child])
        return frozenset(found)


def _closed(block: bytes) -> bytes:
    """A block whose last line has its end, also where the text stops without one."""
    return block if block.endswith((b'\n', b'\r')) else block + b'\n'


class _Cutter:
    """A place in a text, which goes from statement to statement."""

    def __init__(self, text: bytes) -> None:
        self.text = text
        self.at = 0

    def take(self, pattern: 're.Pattern[bytes]') -> Optional['re.Match[bytes]']:
        """The statements of a pattern, if they stand here."""
        found = pattern.match(self.text, self.at)
        if found is not None:
            self.at = found.end()
        return found

    def modules(self) -> List[Module]:
        """All modules of the text."""
        self.take(FIRST_BLANKS)
        numbered = self.take(AUTOIDX)
        if numbered is not None and not LEAST_INT <= int(numbered.group(1)) <= GREATEST_INT:
            raise NotCut('a number is out of range')
        found: List[Module] = []
        while self.at < len(self.text):
            found.append(self._module())
        return found

    def _module(self) -> Module:
        start = self.at
        attributes: List[Span] = []
        while self.at < len(self.text):
            attribute = self.take(ATTRIBUTE)
            if attribute is None:
                break
            attributes.append(attribute.span())
        head = self.take(MODULE)
        if head is None:
            raise NotCut('something else than a module stands outside of modules')
        module = Module(head.group(1), start, head.span(1), attributes=attributes)
        while not module.end:
            self._statement(module)
        return module

    def _statement(self, module: Module) -> None:
        """What is plain, and then a cell, a port, a process, or the end of the module."""
        found = self.take(IN_MODULE)
        if found is None:
            raise NotCut('a statement is not known')
        if found.group('type'):
            module.types.add(found.group('type'))
        elif found.group('port'):
            module.ports.append(found.span('port'))
        elif found.group('process'):
            self._process()
        else:
            module.end = found.end()

    def _process(self) -> None:
        """The rest of a process, with its switches."""
        depth = 1
        while depth:
            found = self.take(IN_PROCESS)
            if found is None:
                raise NotCut('a statement of a process is not known')
            depth += 1 if found.group('switch') else -1


def cut(text: bytes) -> Design:
    """The design of a text, where all that is not local holds: names stand once, no module reaches itself, and the whole
    is within the limits of one run. Raises NotCut else."""
    if len(text) > MOST_BYTES:
        raise NotCut('the text is longer than one run takes')
    design = Design(text, _Cutter(text).modules())
    if len(design.modules) > MOST_MODULES:
        raise NotCut('the design has more modules than one run takes')
    if len(design.number) < len(design.modules):
        raise NotCut('a name of a module stands twice')
    if has_loop(design):
        raise NotCut('a module instantiates itself')
    return design


def has_loop(design: Design) -> bool:
    """Whether a module reaches itself through instances: whether modules are left when those without open children go."""
    above: List[List[int]] = [[] for _ in design.modules]
    open_children = [len(children) for children in design.below]
    for at, children in enumerate(design.below):
        for child in children:
            above[child].append(at)
    ready = [at for at, count in enumerate(open_children) if not count]
    for child in ready:
        for parent in above[child]:
            open_children[parent] -= 1
            if not open_children[parent]:
                ready.append(parent)
    return len(ready) < len(design.modules)
