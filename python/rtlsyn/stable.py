"""Texts of modules that stay the same while other lines of their source files move.

A front end names what has no name in the source by file, line and a running number, as `$add$a.v:2$3`, notes where
everything stands in `src` attributes, and writes all in the order of these names. So a line inserted at the head of a
file changes the text of every module below it. `modules_of` gives each module a text that depends on it alone:

- wires, memories, cells and processes go by name, with numbers in names taken as numbers: line 9 before line 10;
- the counted parts of names are numbered anew within the module: `$add$a.v:2$3_Y` becomes `$add$1_Y`;
- priorities of start words of memories, which are running numbers too, are numbered anew within the module;
- `src` attributes go into a table by name, from which errors get their line.

Names of modules, ports and memories stay. The order of these records has no meaning in RTLIL, and what is inside of a
module is known to no other, so the design is the same.

This is made for texts that Yosys writes after `read_verilog; hierarchy`. After `opt` and the like the texts mean the
same too, but more of them change, since such passes choose between names in another way each time.
"""
from __future__ import annotations

import re
from itertools import takewhile
from typing import Iterator, NamedTuple, Optional

from .errors import Failed
from .files import BYTES

# A token is a string, which may hold anything, or goes on to the next blank.
TOKEN = re.compile(r'"(?:[^"\\]|\\.)*"|[^ \t\r]+')
# A string, or an identifier.
NAME = re.compile(r'"(?:[^"\\]|\\.)*"|[\\$][^ \t\r]+')
# The counted parts of a name of the front end's own: a number after a `$`, with or without a file and a line before it.
# The number that some names begin with, as `$0\q`, is none: it says which assignment to \q it is.
OWN_PART = re.compile(r'(?!^)(?:\$[^$\\]+:[0-9]+)?\$[0-9]+')
# The counted parts of a name from the source: calls of functions, and blocks without a name.
SOURCE_PART = re.compile(r'\$[^$\\]+:[0-9]+\$[0-9]+|(?<=\$unnamed_block)\$[0-9]+|(?<=\$fordecl_block)\$[0-9]+')
# What a backslash in a string begins: the octal number of a byte, or another byte.
ESCAPE = re.compile(rb'\\(?:([0-7]{1,3})|(.))')
PRIORITY = re.compile(r'(?<=\\PRIORITY )[0-9]+$')
# The kinds of statements of a module, in the order in which they are written.
KINDS = ('parameter', 'wire', 'memory', 'cell', 'process', 'connect')


class NotStatements(Failed):
    """The text does not have one statement a line, as Yosys writes it."""


class Module(NamedTuple):
    """A module: its stable text, the types of its cells, whether it is the top, and where its parts are in the source:
    a wire, memory, cell or process by its name, connection N by `connect N`, the module itself by an empty name."""
    text: str
    types: set[str]
    is_top: bool
    places: dict[str, str]


class Line(NamedTuple):
    """A line with a statement: its number in the text, itself, and its tokens."""
    number: int
    text: str
    tokens: list[str]


class Item(NamedTuple):
    """A statement of a module with its attributes and, of a cell or a process, all that is inside."""
    attributes: list[Line]
    lines: list[Line]

    def kind(self) -> str:
        """The word that the statement begins with."""
        return self.lines[0].tokens[0]

    def name(self) -> str:
        """The name of a wire, memory, cell or process, and nothing for a parameter or a connection."""
        return '' if self.kind() in ('parameter', 'connect') else self.lines[0].tokens[-1]

    def type(self) -> Optional[str]:
        """The type of a cell."""
        return self.lines[0].tokens[1] if self.kind() == 'cell' else None

    def keeps_name(self) -> bool:
        """Whether the name is one that is known elsewhere: of a port, or of a memory, which cells name in a string."""
        options = self.lines[0].tokens[1:-1]
        return self.kind() == 'memory' or self.kind() == 'wire' and bool({'input', 'output', 'inout'} & set(options))


def modules_of(text: str, keep_src: bool = False) -> dict[str, Module]:
    """The modules of an RTLIL text by their names, without their `src` attributes unless these are to be kept."""
    modules = {}
    lines = Lines(text)
    while not lines.at_end():
        attributes, head = take_attributes(lines), lines.take()
        if head.tokens[0] == 'autoidx':
            continue
        if head.tokens[0] != 'module' or len(head.tokens) != 2:
            raise NotStatements(f'line {head.number}: not the begin of a module')
        if head.tokens[1] in modules:
            raise NotStatements(f'line {head.number}: a second module {head.tokens[1]}')
        modules[head.tokens[1]] = stable_module(attributes, head, take_items(lines), keep_src)
    return modules


# Reading


def tokens_of(line: str) -> list[str]:
    """The tokens of a line up to a comment."""
    return list(takewhile(lambda token: not token.startswith('#'), TOKEN.findall(line)))


class Lines:
    """The statements of a text, one after the other. Blank lines and comments are passed over."""

    def __init__(self, text: str) -> None:
        lines = [Line(number, line, tokens_of(line)) for number, line in enumerate(text.split('\n'), 1)]
        self.rest = (line for line in lines if line.tokens)
        self.next = next(self.rest, None)

    def at_end(self) -> bool:
        """Whether there is no further statement."""
        return self.next is None

    def begins(self, word: str) -> bool:
        """Whether the next statement begins with this word."""
        return self.next is not None and self.next.tokens[0] == word

    def take(self) -> Line:
        """The next statement."""
        if self.next is None:
            raise NotStatements('the text ends inside of a module')
        line, self.next = self.next, next(self.rest, None)
        return line


def take_attributes(lines: Lines) -> list[Line]:
    """The lines of attributes that stand before the next statement."""
    taken = []
    while lines.begins('attribute'):
        taken.append(lines.take())
    return taken


def take_items(lines: Lines) -> list[Item]:
    """The statements of a module, up to its `end`."""
    items = []
    while not lines.begins('end'):
        items.append(Item(take_attributes(lines), take_statement(lines)))
    lines.take()
    return items


def take_statement(lines: Lines) -> list[Line]:
    """The lines of the next statement of a module."""
    taken = [lines.take()]
    kind = taken[0].tokens[0]
    if kind not in KINDS or len(taken[0].tokens) < 2:
        raise NotStatements(f'line {taken[0].number}: not a statement of a module')
    depth = 1 if kind in ('cell', 'process') else 0
    while depth:
        taken.append(lines.take())
        depth += {'switch': 1, 'end': -1}.get(taken[-1].tokens[0], 0)
    return taken


# Writing


def stable_module(attributes: list[Line], head: Line, items: list[Item], keep_src: bool) -> Module:
    """The module with these attributes, first line and statements."""
    items = sorted(items, key=lambda item: (KINDS.index(item.kind()), natural(item.name())))
    names, ranks = new_names(items), ranks_of(items)
    lines = [line.text for line in attributes if keep_src or not is_src(line)]
    lines.append(head.text)
    for item in items:
        lines += [line.text for line in item.attributes if keep_src or not is_src(line)]
        lines += [stable_line(item, line, names, ranks) for line in item.lines if keep_src or not is_src(line)]
    text = '\n'.join([*lines, 'end', ''])
    is_top = any(line.tokens[1:2] == ['\\top'] for line in attributes)
    types = {kind for kind in (item.type() for item in items) if kind is not None}
    return Module(text, types, is_top, places_of(attributes, items, names))


def natural(name: str) -> list:
    """A key by which names are put in order with numbers taken as numbers."""
    return [int(part) if odd % 2 else part for odd, part in enumerate(re.split('([0-9]+)', name))]


def new_names(items: list[Item]) -> dict[str, str]:
    """The new name of each wire, cell and process whose name has counted parts."""
    counted = {name: parts_of(name) for name in (item.name() for item in items if not item.keeps_name())}
    parts = {part[0] for found in counted.values() for part in found}
    numbers = {part: number for number, part in enumerate(sorted(parts, key=natural), 1)}
    names = {name: renumbered(name, found, numbers) for name, found in counted.items() if found}
    all_names = [names.get(item.name(), item.name()) for item in items if item.name()]
    # Where two names would become one, the module keeps those that it has.
    return names if len(set(all_names)) == len(all_names) else {}


def parts_of(name: str) -> list[re.Match]:
    """The counted parts of a name."""
    return list((OWN_PART if name.startswith('$') else SOURCE_PART).finditer(name))


def renumbered(name: str, parts: list[re.Match], numbers: dict[str, int]) -> str:
    """The name with the numbers of its counted parts in their places."""
    for part in reversed(parts):
        name = f'{name[:part.start()]}${numbers[part[0]]}{name[part.end():]}'
    return name


def ranks_of(items: list[Item]) -> dict[str, str]:
    """For each priority of start words its rank among those of the module."""
    found = {match[0] for item in items if is_start(item) for match in priorities_in(item)}
    return {priority: str(rank) for rank, priority in enumerate(sorted(found, key=int))}


def is_start(item: Item) -> bool:
    """Whether the item gives start words of a memory."""
    return item.type() in ('$meminit', '$meminit_v2')


def priorities_in(item: Item) -> Iterator[re.Match]:
    """The priorities that the item tells."""
    return filter(None, (PRIORITY.search(line.text) for line in item.lines))


def stable_line(item: Item, line: Line, names: dict[str, str], ranks: dict[str, str]) -> str:
    """A line of a statement with the new names and priorities."""
    word = line.tokens[0]
    if is_start(item) and word == 'parameter':
        return PRIORITY.sub(lambda match: ranks[match[0]], line.text)
    if word in ('attribute', 'parameter', 'memory'):
        return line.text
    # The second word of a cell is its type, and that of a pin the port.
    kept = 2 if item.kind() == 'cell' else 1
    at = [match.end() for match in TOKEN.finditer(line.text)][:kept][-1]
    return line.text[:at] + NAME.sub(lambda match: names.get(match[0], match[0]), line.text[at:])


# Places in the source


def is_src(line: Line) -> bool:
    """Whether the line is an attribute `src`."""
    return line.tokens[:2] == ['attribute', '\\src']


def src_of(attributes: list[Line]) -> str:
    """The place that a `src` attribute tells, or nothing."""
    return next((text_in(line.tokens[2]) for line in attributes if is_src(line) and len(line.tokens) > 2), '')


def text_in(string: str) -> str:
    """The text that a string of RTLIL stands for. Bytes outside of ASCII are escaped there, each by an octal number."""
    def meant(match):
        octal, other = match.groups()
        return bytes([int(octal, 8) % 256]) if octal else {b'n': b'\n', b't': b'\t'}.get(other, other)
    return ESCAPE.sub(meant, string.strip('"').encode(**BYTES)).decode(**BYTES)


def places_of(attributes: list[Line], items: list[Item], names: dict[str, str]) -> dict[str, str]:
    """Where the module and its parts stand in the source."""
    places = {names.get(item.name(), item.name()): src_of(item.attributes) for item in items}
    connections = [item for item in items if item.kind() == 'connect']
    for number, item in enumerate(connections, 1):
        wire = next((names.get(it, it) for it in NAME.findall(item.lines[0].text)), '')
        places[f'connect {number}'] = places.get(wire, '')
    places[''] = src_of(attributes)
    return places
