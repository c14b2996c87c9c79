"""Which registers of a netlist stand for what in the source, where a pass gave them new names.

`memory` makes a register of each word of a memory, and `fsm` puts one bit for each state in the place of a state wire.
Both are found by having the program run the script up to the pass, and again with it, and comparing the two.
"""
from __future__ import annotations

from typing import Iterator, Mapping, NamedTuple, Optional, Sequence

from .kinds import kind_of
from .netlist import Bit, Body, Cell, Memory, design_of, number_of
from .session import Session

DEFAULT = 'proc opt fsm opt memory opt techmap opt'


class Machine(NamedTuple):
    """A state machine with a new code: the old state wire with its width, the new wire, and the states, of which the
    first is that of bit 0."""
    state: str
    width: int
    wire: str
    states: tuple[int, ...]


class Match(NamedTuple):
    """Of a module: the new names of the wires that are words of memories, and its machines."""
    words: dict[str, str]
    machines: list[Machine]


def matches_of(session: Session, text: str, script: Optional[str]) -> dict[str, Match]:
    """For each module of the netlist that the script makes of the text, what its new registers stand for."""
    words = (script or DEFAULT).split()
    session.load(text)
    matches: dict[str, Match] = {}
    for at, word in enumerate(words):
        if word not in ('fsm', 'memory'):
            continue
        before, after = (built(session, words[:end]) for end in (at, at + 1))
        for name in after:
            match = matches.setdefault(name, Match({}, []))
            if word == 'memory':
                match.words.update(words_between(before[name], after[name]))
            else:
                match.machines.extend(machines_between(before[name], after[name]))
    return matches


def built(session: Session, words: Sequence[str]) -> dict[str, Body]:
    """The design after these words of the script."""
    session.script(' '.join(words))
    return design_of(session.print().body)


def words_between(before: Body, after: Body) -> dict[str, str]:
    """The wires of words that `memory` made. Of each memory that is written, in order, each word has a wire, and these
    wires are the outputs of the new registers."""
    outputs = {cell.pins['\\Q'] for cell in after.cells if cell.type == '$dff'}
    fresh = [name for name in after.wires if name not in before.wires and name in outputs]
    places = [(memory, at) for memory in written(before) for at in range(memory.size)]
    return {wire: f'{memory.name}[{memory.offset + at}]' for wire, (memory, at) in zip(fresh, places)}


def written(body: Body) -> Iterator[Memory]:
    """The memories that have write ports."""
    used = {cell.parameters.get('\\MEMID', '').strip('"').replace('\\\\', '\\') for cell in body.cells
            if cell.type.startswith('$memwr')}
    return (memory for name, memory in body.memories.items() if name in used)


def machines_between(before: Body, after: Body) -> Iterator[Machine]:
    """The machines that `fsm` gave a new code: registers whose output is a new wire."""
    old = {cell.name: cell for cell in before.cells}
    for cell in after.cells:
        wire = after.wires.get(cell.pins.get('\\Q', ''))
        if wire and wire.name not in before.wires and cell.name in old and is_register(cell):
            flop = old[cell.name]
            states = tuple(sorted(states_of(before, flop)))
            if len(states) == wire.width and flop.pins['\\Q'] in before.wires:
                state = before.wires[flop.pins['\\Q']]
                yield Machine(state.name, state.width, wire.name, states)


def is_register(cell: Cell) -> bool:
    """Whether the cell is a register."""
    return kind_of(cell.type, {}).name == 'flip-flop'


def states_of(body: Body, flop: Cell) -> set[int]:
    """The states of a register: the known leaves of the selections at its input, its reset value and start value."""
    width = len(body.bits(flop.pins['\\Q']))
    wire = body.wires.get(flop.pins['\\Q'])
    constants = [flop.parameters.get('\\ARST_VALUE'), wire.attributes.get('\\init') if wire else None]
    found = {number_of(bits) for bits in constants if bits}
    driver = {tuple(body.bits(cell.pins['\\Y'])): cell for cell in body.cells if cell.type in ('$mux', '$pmux')}
    stack, seen = [leaf(body, body.bits(flop.pins['\\D']))], set()
    while stack:
        bits = stack.pop()
        if all(isinstance(bit, str) for bit in bits):
            found.add(known(''.join(map(str, bits))))
        elif bits in driver and bits not in seen:
            seen.add(bits)
            for arms in (body.bits(driver[bits].pins[pin]) for pin in ('\\A', '\\B')):
                stack += [leaf(body, arms[at:at + width]) for at in range(0, len(arms), width)]
    return {state for state in found if state is not None}


def leaf(body: Body, bits: Sequence[Bit]) -> tuple[Bit, ...]:
    """The bits that these come from through connections."""
    return tuple(map(body.follow, bits))


def known(bits: str) -> Optional[int]:
    """The number of bits that are all known, bit 0 first."""
    return int(bits[::-1], 2) if set(bits) <= {'0', '1'} else None


def found_in(matches: Mapping[str, Match]) -> tuple[int, int]:
    """How many words of memories and machines were matched."""
    return sum(len(match.words) for match in matches.values()), sum(len(match.machines) for match in matches.values())
