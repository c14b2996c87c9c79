"""Yosys' own proof that a netlist does what its source does.

Source and netlist become two flat modules `gold` and `gate`. Registers are paired by name; `matching` gives the words
of memories their names back, and beside a state wire of the source stands its code with one bit for each state. Then
`equiv_simple` and `equiv_induct` prove each pair and each output, and where pairs are left the outputs alone are tried
by `sat -tempinduct`. A bit that is x in the source may be anything in the netlist.
"""
from __future__ import annotations

import os
import re
import tempfile
from dataclasses import dataclass, field
from typing import Iterator, Mapping, Optional, Sequence

from . import files
from .kinds import kind_of
from .matching import Machine, Match, found_in, matches_of
from .netlist import Body, design_of, instances_in, plain, top_of
from .session import Session
from .stable import NAME
from .yosys import YosysFailed, run

PREPARE = {'gold': ['proc', 'flatten', 'memory_map', 'opt_clean'], 'gate': ['flatten', 'opt_clean']}
#: How far `sat` looks for an induction, and how long in seconds.
DEPTH, SECONDS = 12, 60
COUNTS = re.compile(r'Of those cells (\d+) are proven and (\d+) are unproven')
#: The head of the line of a pin.
PIN = re.compile(r'    connect \S+ ')
UNPROVEN = re.compile(r'Unproven \$equiv \S+: (\S+) (\S+)')


@dataclass
class Verdict:
    """Whether all was proven and by what; how many pairs were compared; what is left, by name."""
    is_proven: bool
    by: str
    pairs: int = 0
    left: list[str] = field(default_factory=list)
    words: int = 0
    machines: int = 0


def check(text: str, netlist: Optional[str] = None, script: Optional[str] = None, top: Optional[str] = None) -> Verdict:
    """Has Yosys prove that the netlist of the text does what the text does. Without a netlist the program makes it, by
    the script; with one, it is to be the netlist that the script gives."""
    with Session(script=script) as session:
        session.load(text)
        gates = session.print().body if netlist is None else netlist
        matches = matches_of(session, text, script)
    design = design_of(text)
    name = top_of(design, top)
    with tempfile.TemporaryDirectory() as room:
        flat(room, 'gold', text, name)
        flat(room, 'gate', renamed_modules(gates, matches), name)
        machines = list(machines_below(design, name, matches))
        prepare(room, machines)
        verdict = by_induction(room)
        if not verdict.is_proven:
            verdict = by_sat(room, verdict)
    verdict.words, verdict.machines = found_in(matches)
    return verdict


def path(room: str, name: str) -> str:
    """A file of the room."""
    return os.path.join(room, f'{name}.il')


def flat(room: str, side: str, text: str, top: str) -> None:
    """Writes a side as one flat module of its name, and beside it the black boxes that it has instances of."""
    files.write(path(room, f'{side}.in'), text)
    run([f'read_rtlil "{path(room, f"{side}.in")}"', f'hierarchy -top {top}', *PREPARE[side], f'rename -top {side}',
         f'select {side}', f'write_rtlil -selected "{path(room, f"{side}.flat")}"',
         'select =A:blackbox', f'write_rtlil -selected "{path(room, "boxes")}"'])


# Names


def renamed_modules(text: str, matches: Mapping[str, Match]) -> str:
    """The netlist's text, in which words of memories have their names again, and machines have those of `wire_for`. A
    state wire that has no driver any more gets another name."""
    lines, names = [], {}
    for line in text.split('\n'):
        if line.startswith('module '):
            match = matches.get(line.split()[1], Match({}, []))
            names = {**match.words, **{it.wire: wire_for(it.state) for it in match.machines},
                     **{it.state: f'{it.state}.undriven' for it in match.machines if it.state.startswith('\\')}}
        lines.append(renamed(line, names))
    return '\n'.join(lines)


def renamed(line: str, names: Mapping[str, str]) -> str:
    """The line with names of wires in the place of others. Pins and types of cells have names of their own."""
    if not names or line.lstrip().startswith(('attribute ', 'parameter ', 'module ', 'cell ')):
        return line
    pin = PIN.match(line)
    begin = pin.end() if pin else 0
    return line[:begin] + NAME.sub(lambda found: names.get(found[0], found[0]), line[begin:])


def wire_for(state: str) -> str:
    """The name of the code with one bit for each state."""
    return f'{state if state.startswith(chr(92)) else chr(92) + state}.states'


def machines_below(design: Mapping[str, Body], top: str, matches: Mapping[str, Match]) -> Iterator[Machine]:
    """The machines of the flat module, with the names that `flatten` gives their wires."""
    stack = [('', top)]
    while stack:
        prefix, name = stack.pop()
        for machine in matches[name].machines if name in matches else ():
            wire = flat_name(prefix, wire_for(machine.state))
            yield machine._replace(state=flat_name(prefix, machine.state), wire=wire)
        stack += [(f'{prefix}{plain(cell.name)}.', cell.type) for cell in instances_in(design, name)]


def flat_name(prefix: str, name: str) -> str:
    """The name of a wire that stood in an instance."""
    return f'\\{prefix}{name[1:]}' if name.startswith('\\') else f'$flatten\\{prefix}{name}' if prefix else name


# The two modules


def prepare(room: str, machines: Sequence[Machine]) -> None:
    """Writes both sides with names only where bits are kept, so that just those are paired, and with outputs of their
    own, which are no other names of a register."""
    for side in ('gold', 'gate'):
        text = files.read(path(room, f'{side}.flat'))
        body = design_of(text)[f'\\{side}']
        shown = kept_wires(body)
        extra = decoders(body, machines) if side == 'gold' else []
        files.write(path(room, side), ''.join(lines_of(text, body, shown | {it.wire for it in machines}, extra)))


def kept_wires(body: Body) -> set[str]:
    """The wires that have a bit of a register or a latch."""
    outputs = (cell.pins[pin] for cell in body.cells for pin in ('\\Q',)
               if pin in cell.pins and kind_of(cell.type, {}).keeps)
    return {bit[0] for signal in outputs for bit in body.bits(signal) if not isinstance(bit, str)}


def lines_of(text: str, body: Body, shown: set[str], extra: Sequence[str]) -> Iterator[str]:
    """The module's lines with new names and, before its end, the outputs and what is extra."""
    ports = {port.name: port for port in body.ports()}
    names = {it: f'{it}.kept' if it in shown and it.startswith('\\') else f'$inner{it}' for it in body.wires
             if (it in ports and ports[it].direction == 'output') or (it not in ports and it not in shown)}
    for line in text.split('\n'):
        words = line.split()
        if words[:1] == ['wire'] and words[-1] in ports and ports[words[-1]].direction == 'output':
            yield f'  wire width {ports[words[-1]].width} {names[words[-1]]}\n'
        elif line == 'end':
            yield from (f'{renamed(it, names)}\n' for it in extra)
            for port in ports.values():
                yield from output_lines(port.name, port.width, port.number, names) if port.direction == 'output' else ()
            yield 'end\n'
        elif words:
            yield f'{renamed(line, names)}\n'


def output_lines(name: str, width: int, number: int, names: Mapping[str, str]) -> Iterator[str]:
    """An output that is the inverse of the inverse of the wire that had its name."""
    yield f'  wire width {width} output {number} {name}\n'
    yield f'  wire width {width} $inverse{name}\n'
    yield from not_cell(f'$inverse{name}', names[name], f'$inverse{name}', width)
    yield from not_cell(f'$again{name}', f'$inverse{name}', name, width)


def not_cell(name: str, a: str, y: str, width: int) -> Iterator[str]:
    """A cell `$not`."""
    yield f'  cell $not {name}$cell\n    parameter \\A_SIGNED 0\n    parameter \\A_WIDTH {width}\n'
    yield f'    parameter \\Y_WIDTH {width}\n    connect \\A {a}\n    connect \\Y {y}\n  end\n'


def decoders(body: Body, machines: Sequence[Machine]) -> list[str]:
    """The lines of the code with one bit for each state, for the machines whose state wire is there."""
    lines: list[str] = []
    for machine in machines:
        if machine.state not in body.wires:
            continue
        lines.append(f'  wire width {len(machine.states)} {machine.wire}')
        for at, state in enumerate(machine.states):
            width = machine.width
            lines += [f'  cell $eq $state{machine.wire}${at}',
                      '    parameter \\A_SIGNED 0', f'    parameter \\A_WIDTH {width}',
                      '    parameter \\B_SIGNED 0', f'    parameter \\B_WIDTH {width}', '    parameter \\Y_WIDTH 1',
                      f'    connect \\A {machine.state}', f"    connect \\B {width}'{state:0{width}b}",
                      f'    connect \\Y {machine.wire} [{at}]', '  end']
    return lines


# The proofs


def both(room: str) -> list[str]:
    """The commands that read the two modules and their black boxes."""
    return [f'read_rtlil "{path(room, side)}"' for side in ('boxes', 'gold', 'gate')]


def by_induction(room: str) -> Verdict:
    """The pairs by `equiv_simple` and `equiv_induct`."""
    told = run([*both(room), 'equiv_make gold gate equiv', 'hierarchy -top equiv', 'async2sync', 'equiv_simple -undef',
                'equiv_induct -undef', 'tee -a /dev/stdout equiv_status'])
    found = COUNTS.search(told)
    proven, left = (int(found[1]), int(found[2])) if found else (0, 0)
    return Verdict(bool(found) and left == 0, 'induction over paired registers', proven + left,
                   [plain(name) for name, _ in UNPROVEN.findall(told)])


def by_sat(room: str, before: Verdict) -> Verdict:
    """The outputs alone, by an induction of `sat` over the whole state."""
    try:
        run([*both(room), 'miter -equiv -flatten -ignore_gold_x gold gate miter', 'hierarchy -top miter', 'async2sync',
             f'sat -verify -timeout {SECONDS} -tempinduct -maxsteps {DEPTH} -set-init-undef -enable_undef '
             '-prove trigger 0 miter'])
    except YosysFailed:
        return before
    return Verdict(True, f'induction of sat over the outputs, of up to {DEPTH} steps', before.pairs)
