"""Parts of a design as files, for build tools: each module has a part that is named by its key, so that an action of the
tool is one module, and its caches and remote workers serve.

  python3 -m rtlsyn.cluster_files cut DESIGN FOLDER [--script S]    FOLDER/parts/KEY.il, and FOLDER/order
  python3 -m rtlsyn.cluster_files join FOLDER                       FOLDER/nets/KEY.il in that order, to standard output

A design that cannot be cut has one part, which is all of it. The program that makes the nets is no part of the key: the
tool has it as an input of its own.
"""
import argparse
import sys
from pathlib import Path
from typing import List, Optional, Tuple

from rtlsyn.cluster_cut import NotCut, cut
from rtlsyn.cluster_netlist import netlists, packed, unpacked
from rtlsyn.cluster_parts import Cutting, Part, digest

# The place of the own module in a part, where the part is the whole design.
WHOLE = -1


def files_of(text: bytes, script: Optional[str]) -> List[Tuple[str, int, bytes, bytes]]:
    """For each module its key, its place in its part, its name, and the text of the part."""
    try:
        cutting = Cutting(cut(text), script, '')
    except NotCut:
        return [(digest(text, (script or '').encode()).hex(), WHOLE, b'', text)]
    found = []
    for at, module in enumerate(cutting.design.modules):
        part = Part((at,), tuple(sorted({at, *cutting.needs(at)})))
        found.append((cutting.key(at), part.all.index(at), module.name, b''.join(cutting.pieces(part))))
    return found


def write_changed(file: Path, text: bytes) -> None:
    """Writes a file, unless it has the text already: tools go by the time of a file."""
    if not file.exists() or file.read_bytes() != text:
        file.write_bytes(text)


def cut_into_files(design: Path, folder: Path, script: Optional[str]) -> None:
    """Writes a part for each module of a design, and their order. Parts that are there stay as they are."""
    (folder / 'parts').mkdir(parents=True, exist_ok=True)
    lines = []
    for key, place, name, text in files_of(design.read_bytes(), script):
        write_changed(folder / 'parts' / (key + '.il'), text)
        lines.append(b'%s %d %s\n' % (key.encode(), place, name))
    write_changed(folder / 'order', b''.join(lines))


def netlist_of(folder: Path, line: bytes) -> bytes:
    """The netlist of a module, out of the one of its part."""
    key, place, name = line.split(b' ', 2)
    printed = (folder / 'nets' / (key.decode() + '.il')).read_bytes()
    if int(place) == WHOLE:
        return printed
    return unpacked(packed(list(netlists(printed))[int(place)]), name)


def join_files(folder: Path) -> None:
    """Writes the netlist of the design: those of its modules in their order."""
    for line in (folder / 'order').read_bytes().split(b'\n')[:-1]:
        sys.stdout.buffer.write(netlist_of(folder, line))


def main() -> None:
    """The command that was given."""
    words = argparse.ArgumentParser(description='Parts of a design as files, for build tools.')
    commands = words.add_subparsers(dest='command', required=True)
    cutting = commands.add_parser('cut', help='a part for each module of DESIGN, and their order')
    cutting.add_argument('design', type=Path)
    cutting.add_argument('--script')
    joining = commands.add_parser('join', help='the netlist of the design, to standard output')
    for command in (cutting, joining):
        command.add_argument('folder', type=Path)
    given = words.parse_args()
    if given.command == 'cut':
        cut_into_files(given.design, given.folder, given.script)
    else:
        join_files(given.folder)


if __name__ == '__main__':
    main()
