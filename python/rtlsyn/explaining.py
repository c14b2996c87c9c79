"""What an error line means: the cause in words, the place in the source, and what mends it."""
from __future__ import annotations

import re
from typing import Mapping, NamedTuple, Optional

from .causes import Cause, cause_of
from .changes import text_of
from .errors import IN_TEXT, Failed, Refused
from .netlist import Body, Cell, design_of, number_of
from .places import PLACE, placed
from .stable import Module

MEMORY_BITS = 65_536
#: The errors whose first word is a module of the design.
IN_DESIGN = (*range(7, 17), 20)
#: An error line, which may have its cause after it, as `refusal` says it.
BARE = re.compile(r'error (?P<number>[0-9]+)(?P<rest>(?: [^ ]+?)*?)(?:: [a-z`].*)?')
#: What the program says of one on standard error: `pow.v:3:14: error 9: .. (module \\cube, cell $pow$pow.v:3$1)`.
TOLD = re.compile(r'(?:.*?(?P<place>[0-9]+:[0-9]+): )?error (?P<number>[0-9]+): .*?'
                  r'(?: \(module (?P<module>\S+?)'
                  r'(?:, (?P<kind>wire|memory|cell|process|connection|pass) (?P<name>\S+?))?(?:, bit (?P<bit>[0-9]+))?(?:; .*)?\))?')


class Explanation(NamedTuple):
    """An error line with its cause; the place in the source as `FILE:LINE:COLUMN`, what stands there in words, and
    lines of the text around it, where the design was given and says so."""
    line: str
    cause: Cause
    place: str = ''
    about: str = ''
    excerpt: tuple[str, ...] = ()


def explanation(line: str, text: Optional[str] = None) -> Explanation:
    """What the error line means; with the text of the design also where. The line may stand between a place and a
    cause, and it may be what the program says of it on standard error."""
    refused = Refused(bare(line.strip()))
    if text is None:
        return Explanation(refused.line, cause_of(refused.line))
    if refused.place:
        return in_text(refused, text)
    try:
        return in_design(refused, design_of(text))
    except Failed:
        return Explanation(refused.line, cause_of(refused.line))


def bare(line: str) -> str:
    """The error line alone: `error 9 \\cube $pow$pow.v:3$1`."""
    found = TOLD.fullmatch(line)
    if found:
        name = f'connect {found["name"]}' if found['kind'] == 'connection' else found['name']
        place = found['place'] if int(found['number']) in IN_TEXT else None
        return ' '.join(filter(None, ('error', found['number'], place, found['module'], name, found['bit'])))
    at = line.find('error ')
    found = BARE.fullmatch(line[at:]) if at >= 0 else None
    if not found:
        raise Failed(f'this is no error line: {line}')
    return f'error {found["number"]}{found["rest"]}'


def refusal(line: str, text: Optional[str] = None) -> str:
    """The error line between its place in the source and its cause; below it what takes the cause away."""
    found = explanation(line, text)
    hint = f'\nhint: {found.cause.hint}' if found.cause.hint else ''
    return ': '.join(filter(None, (found.place, found.line, found.cause.words))) + hint


def refusal_of(refused: Refused, modules: Mapping[str, Module], block: Optional[str]) -> str:
    """The same for a design whose modules have stable texts, without the hint. `block` is the text in which a fault of
    a text is counted."""
    text = block if refused.place else text_of(modules)
    return f'{placed(refused, modules, block)}: {explanation(refused.line, text).cause.words}'


# A fault of the text


def in_text(refused: Refused, text: str) -> Explanation:
    """A fault at a line and column of the text."""
    number, column = (int(it) for it in (refused.place or '1:1').split(':'))
    lines = text.split('\n')
    line = lines[number - 1] if number <= len(lines) else ''
    word = re.split(r'[ \t]', line[column - 1:])[0] if line else ''
    excerpt = (line, f'{" " * (column - 1)}^') if line else ()
    about = f'at `{word}`' if word else 'at the end of the text'
    cause = cause_of(refused.line, name=cause_in_text(refused.number, text, line, word))
    return Explanation(refused.line, cause, '', f'line {number}, column {column} of the text, {about}', excerpt)


def cause_in_text(number: int, text: str, line: str, word: str) -> Optional[str]:
    """The cause of a fault of the text, by what stands there."""
    if number in (1, 2) and re.search(r'^\s*module\s+\w+\s*[(#;]', text, re.M):
        return 'verilog'
    if number == 2 and word == 'real':
        return 'real-parameter'
    if number == 2 and re.search(r"[0-9]+'s?d[0-9]", line):
        return 'decimal-constant'
    return 'cut-off' if number == 2 and not word else None


# A fault of the design


def in_design(refused: Refused, design: Mapping[str, Body]) -> Explanation:
    """A fault of what the error line names."""
    body = design.get(refused.module or '')
    if body is None:
        about_it = f'no module {refused.module} is in this text' if refused.number in IN_DESIGN else ''
        return Explanation(refused.line, cause_of(refused.line), '', about_it)
    cell = next((it for it in body.cells if it.name == refused.name), None)
    cause = cause_of(refused.line, cell.type if cell else None, cause_in(refused, design, body, cell))
    return Explanation(refused.line, cause, place_in(body, refused.name or '', cell), about(body, refused, cell))


def about(body: Body, refused: Refused, cell: Optional[Cell]) -> str:
    """What is at fault, in words."""
    if cell:
        return f'a cell of type {cell.type} in module {body.name}'
    kinds = {'the wire': set(body.wires), 'the memory': set(body.memories), 'the process': set(body.processes)}
    for words, names in kinds.items():
        if refused.name in names:
            return f'{words} {refused.name} of module {body.name}'
    if refused.name is None or refused.name.startswith('connect '):
        return f'module {body.name}'
    return f'module {body.name}, which has no {refused.name} in this text'


def place_in(body: Body, name: str, cell: Optional[Cell]) -> str:
    """The place in the source of a part of a module, or else of the module."""
    wire = body.wires.get(name)
    src = cell.src if cell else body.processes[name].src if name in body.processes else ''
    src = src or (wire.attributes.get('\\src', '') if wire else '') or body.attributes.get('\\src', '')
    found = PLACE.match(src.strip('"'))
    return ':'.join(filter(None, found.groups())) if found else ''


def cause_in(refused: Refused, design: Mapping[str, Body], body: Body, cell: Optional[Cell]) -> Optional[str]:
    """The short name of the cause, by what the design has at the place."""
    choose = {8: of_missing, 10: of_parameter, 11: of_wide, 12: of_drivers, 13: of_port, 14: of_process,
              15: of_memory}.get(refused.number)
    return choose(refused, design, body, cell) if choose else None


def of_missing(refused: Refused, design: Mapping[str, Body], body: Body, cell: Optional[Cell]) -> Optional[str]:
    """Error 8."""
    return 'unknown-cell' if cell and cell.type.startswith('$') and not cell.type.startswith('$paramod') else None


def of_parameter(refused: Refused, design: Mapping[str, Body], body: Body, cell: Optional[Cell]) -> Optional[str]:
    """Error 10."""
    if cell is None or cell.type not in design:
        return None
    module = design[cell.type]
    if not set(cell.pins) <= {port.name for port in module.ports()}:
        return 'missing-port'
    return 'box-parameter' if module.is_box else 'instance-parameter'


def of_wide(refused: Refused, design: Mapping[str, Body], body: Body, cell: Optional[Cell]) -> Optional[str]:
    """Error 11."""
    return 'process-limit' if cell is None else None


def of_drivers(refused: Refused, design: Mapping[str, Body], body: Body, cell: Optional[Cell]) -> Optional[str]:
    """Error 12: a selection with an arm of nothing but z, which Yosys 0.23 writes as x, is a tri-state driver."""
    wire = body.wires.get(refused.name or '')
    if wire is None:
        return None
    bits = {(wire.name, at) for at in range(wire.width)}
    bits |= {right for pair in body.pairs for left, right in pair if left in bits and not isinstance(right, str)}
    drivers = [it for it in body.cells for pin in ('\\Y', '\\Q') if bits & set(body.bits(it.pins.get(pin, "0'")))]
    if any(it.type == '$tribuf' or re.search(r"'s?[xz]+( |$)", ' '.join(it.pins.values())) for it in drivers):
        return 'tristate-output' if wire.direction else 'tristate'
    return 'shared-variable' if sum(wire.name in it.updates for it in body.processes.values()) > 1 else None


def of_port(refused: Refused, design: Mapping[str, Body], body: Body, cell: Optional[Cell]) -> Optional[str]:
    """Error 13."""
    wire = body.wires.get(refused.name or '')
    if wire is None:
        return 'constant-pin' if cell else None
    if wire.direction == 'inout' and body.is_box and not is_used(body, design):
        return 'unused-inout'
    return {'inout': 'inout', 'input': 'driven-input'}.get(wire.direction or '')


def is_used(body: Body, design: Mapping[str, Body]) -> bool:
    """Whether some module has an instance of it."""
    return any(cell.type == body.name for module in design.values() for cell in module.cells)


def of_process(refused: Refused, design: Mapping[str, Body], body: Body, cell: Optional[Cell]) -> Optional[str]:
    """Error 14: by the edges of the process, and by whether a switch tests one of them."""
    process = body.processes.get(refused.name or '')
    if process is None or len(process.edges) < 2:
        return None
    if len(process.edges) > 2:
        return 'three-edges'
    inverse = {it.pins.get('\\Y'): it.pins.get('\\A') for it in body.cells if it.type in ('$not', '$logic_not')}
    tested = {inverse.get(signal, signal) for signal in process.switches}
    return 'loading-reset' if tested & set(process.edges) else 'untested-edges'


def of_memory(refused: Refused, design: Mapping[str, Body], body: Body, cell: Optional[Cell]) -> Optional[str]:
    """Error 15."""
    memory = body.memories.get(refused.name or '')
    if memory:
        return 'large-memory' if memory.width * memory.size > MEMORY_BITS else 'no-words' if memory.size < 1 else None
    if cell and cell.type.startswith('$memrd') and number_of(cell.parameters.get('\\CLK_ENABLE', '0')):
        return 'clocked-read'
    if cell and cell.type.startswith('$meminit'):
        return 'start-words'
    return None
