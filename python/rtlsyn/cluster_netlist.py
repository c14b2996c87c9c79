"""The netlists of modules, cut out of what the program prints and put together again under their own names.

The program prints canonical text: only the line that ends a module is `end` without blanks before it, and a string holds
no end of a line.
"""
from dataclasses import dataclass
from typing import Iterator

END = b'\nend\n'


@dataclass(frozen=True)
class Netlist:
    """The netlist of a module: the text before its name, its name, and the text after it."""
    head: bytes
    name: bytes
    tail: bytes

    def under(self, name: bytes) -> bytes:
        """The text of a module of another name with this body."""
        return self.head + name + self.tail


def netlists(printed: bytes) -> Iterator[Netlist]:
    """Each module that was printed, in order. Raises ValueError where the text is not one that the program prints."""
    at = 0
    while at < len(printed):
        after = printed.index(END, at) + len(END)
        begin = at if printed.startswith(b'module ', at) else printed.index(b'\nmodule ', at, after) + 1
        name_at = begin + len(b'module ')
        name_end = printed.index(b'\n', name_at)
        yield Netlist(printed[at:name_at], printed[name_at:name_end], printed[name_end:after])
        at = after


def packed(netlist: Netlist) -> bytes:
    """A netlist without its name, as it is kept."""
    return b'%d\n' % len(netlist.head) + netlist.head + netlist.tail


def unpacked(kept: bytes, name: bytes) -> bytes:
    """The text of a module of this name with a kept body."""
    length, _, body = kept.partition(b'\n')
    return body[:int(length)] + name + body[int(length):]
