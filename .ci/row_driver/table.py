"""Tables as files: what `rows/README.md` says of their lines."""
import os
import re
import shlex
from dataclasses import dataclass, field
from typing import Dict, List, Optional, Tuple

ESCAPED = re.compile(rb'\\(n|r|t|\\|x[0-9a-f]{2})')
PLAIN = {b'n': b'\n', b'r': b'\r', b't': b'\t', b'\\': b'\\'}


class BadTable(Exception):
    """A line that no table has."""


@dataclass
class Row:
    """A row, with what its table says for all rows put in."""
    table: str
    name: str
    settings: Dict[str, bytes] = field(default_factory=dict)
    input: Optional[bytes] = None
    wanted: Optional[bytes] = None
    counts: List[Tuple[int, bytes]] = field(default_factory=list)
    each: List[List[bytes]] = field(default_factory=list)

    def number(self, name: str, otherwise: int) -> int:
        """The number of a setting."""
        return int(self.settings.get(name, b'%d' % otherwise))

    def words(self) -> List[bytes]:
        """The words of the call."""
        return words_of(self.settings.get('words', b''))

    def given(self) -> bytes:
        """The whole input."""
        text = self.input or b''
        return text[:self.number('prefix', len(text))]


def words_of(text: bytes) -> List[bytes]:
    """Words, parted and quoted as in a shell."""
    return [word.encode('latin-1') for word in shlex.split(text.decode('latin-1'))]


def unescaped(text: bytes) -> bytes:
    """The bytes that escapes stand for."""
    return ESCAPED.sub(lambda found: PLAIN.get(found[1]) or bytes([int(found[1][1:], 16)]), text)


def numbered(text: bytes) -> bytes:
    """A part once for each of its numbers."""
    first, behind, part = text.split(b' ', 2)
    part = unescaped(part)
    begin, end = int(first), int(behind)
    numbers = range(begin, end) if begin <= end else range(begin - 1, end - 1, -1)
    if b'#' not in part and b'@' not in part:
        return part * len(numbers)
    return b''.join(part.replace(b'#', b'%d' % at).replace(b'@', b'%d' % (at + 1)) for at in numbers)


def bytes_of(line: bytes) -> bytes:
    """The bytes of a line of input or output, whose front is one byte."""
    mark, text = line[1:2], line[2:]
    if mark == b'\\':
        return unescaped(text[1:])
    if mark == b'#':
        return numbered(text[1:])
    if mark in (b' ', b''):
        return text + b'\n'
    raise BadTable(line)


class Reader:
    """The lines of a table so far."""

    def __init__(self, table: str):
        self.table = table
        self.head = Row(table, '')
        self.rows: List[Row] = []

    def present(self) -> Row:
        """The row to which a line belongs."""
        return self.rows[-1] if self.rows else self.head

    def begin(self, name: str) -> None:
        """A row begins."""
        if any(row.name == name for row in self.rows):
            raise BadTable(f'{name} stands twice')
        self.rows.append(Row(self.table, name, dict(self.head.settings), self.head.input, self.head.wanted,
                             list(self.head.counts), list(self.head.each)))

    def text(self, line: bytes) -> None:
        """A line of input or output; the first one of a row takes the place of what the table has for all rows."""
        row, name = self.present(), 'input' if line[:1] == b'>' else 'wanted'
        held = getattr(row, name)
        if row is not self.head and held is getattr(self.head, name):
            held = None
        setattr(row, name, (held or b'') + bytes_of(line))

    def setting(self, line: bytes) -> None:
        """A line that begins with a word."""
        word, _, rest = line.partition(b' ')
        if word == b'row':
            self.begin(rest.decode('latin-1'))
        elif word == b'count':
            number, start = words_of(rest)
            self.present().counts.append((int(number), start))
        elif word == b'each':
            self.present().each.append(words_of(rest))
        elif word in (b'words', b'status', b'prefix', b'pieces', b'times', b'by'):
            self.present().settings[word.decode()] = rest
        elif word == b'words\\':
            self.present().settings['words'] = unescaped(rest)
        else:
            raise BadTable(line)

    def line(self, line: bytes) -> None:
        """Takes a line."""
        if line[:1] in (b'>', b'<'):
            self.text(line)
        elif line and not line.startswith(b'#'):
            self.setting(line)


def read_table(folder: str, table: str) -> List[Row]:
    """The rows of the table of this name."""
    reader = Reader(table)
    with open(os.path.join(folder, table + '.rows'), 'rb') as file:
        for number, line in enumerate(file.read().split(b'\n'), 1):
            try:
                reader.line(line)
            except (BadTable, ValueError) as fault:
                raise BadTable(f'{table}.rows:{number}: {fault}') from fault
    return reader.rows


def tables_in(folder: str) -> List[str]:
    """The names of all tables of a folder."""
    found = []
    for place, _, files in os.walk(folder):
        names = (os.path.relpath(os.path.join(place, name), folder) for name in files if name.endswith('.rows'))
        found += [name[:-len('.rows')] for name in names]
    return sorted(found)
