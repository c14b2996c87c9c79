"""One text to its netlist."""
from __future__ import annotations

import os
from dataclasses import dataclass
from typing import Callable, Optional, Sequence

from .errors import Refused
from .files import read
from .netlist import design_of, parents_first
from .session import Session, command_bytes
from .yosys import is_rtlil, text_by_yosys

#: Told how many modules are built, of how many.
Progress = Callable[[int, int], None]
#: About how many parts a design is built in where the progress is told, and the least size of one.
PARTS, LEAST = 50, 16


@dataclass
class Synthesis:
    """The netlist, and how many results were built for it and how many modules reused one."""
    netlist: str
    modules: int
    built: int
    reused: int


def synth(source: str, *, script: Optional[str] = None, workers: Optional[int] = None,
          timeout: Optional[float] = None, program: Optional[Sequence[str]] = None) -> Synthesis:
    """The netlist of a design: an RTLIL text, or the path of a file, of RTLIL where it ends in .il and else of Verilog,
    which Yosys reads. Where the design is refused the exception `Refused` says why."""
    return of_text(text_of(source), script=script, workers=workers, timeout=timeout, program=program)


def text_of(source: str) -> str:
    """The text itself, or what the path leads to."""
    if '\n' in source or not (os.path.exists(source) or source.endswith(('.il', '.v', '.sv'))):
        return source
    return read(source) if is_rtlil(source) else text_by_yosys([source])


def of_text(text: str, *, script: Optional[str] = None, workers: Optional[int] = None, timeout: Optional[float] = None,
            program: Optional[Sequence[str]] = None, progress: Optional[Progress] = None) -> Synthesis:
    """The netlist of an RTLIL text. Where the progress is to be told, modules are built in parts, those first that
    others have instances of."""
    with Session(program, script=script, workers=workers, timeout=timeout) as session:
        built = built_in_parts(session, text, progress) if progress else 0
        modules = session.load(text)
        reply = session.print()
        built += reply.counts['built']
        return Synthesis(reply.body, modules, built, modules - built)


def built_in_parts(session: Session, text: str, progress: Progress) -> int:
    """Builds the modules of the text in parts, and gives how many results were built. What is wrong with the design is
    left to the `load` of the whole that comes after it, which answers its first fault."""
    parts = parts_of(text)
    total = sum(len(names) for names, _ in parts)
    if not session.has_room([command_bytes('edit', part) for _, part in parts] + [command_bytes('load', text)]):
        return 0
    built = done = 0
    for names, part in parts:
        try:
            session.edit(part)
            built += session.run()['built']
        except Refused:
            return built
        done += len(names)
        progress(done, total)
    return built


def parts_of(text: str) -> list[tuple[list[str], str]]:
    """The modules in parts, with their names, those first that others have instances of. A text that is not laid out
    as Yosys does has no parts."""
    texts = module_texts(text)
    order = [name for name in reversed(parents_first(design_of(text))) if name in texts]
    size = max(LEAST, -(-len(order) // PARTS))
    groups = [order[at:at + size] for at in range(0, len(order), size)]
    return [(names, ''.join(texts[name] for name in names)) for names in groups]


def module_texts(text: str) -> dict[str, str]:
    """The text of each module with its attributes, where `module` and `end` begin their lines."""
    texts: dict[str, str] = {}
    name, lines = None, []
    for line in text.split('\n'):
        lines.append(line)
        if line.startswith('module '):
            name = line.split()[1]
        elif line == 'end' and name:
            texts[name] = '\n'.join([it for it in lines if not it.startswith('autoidx ')] + [''])
            name, lines = None, []
    return texts
