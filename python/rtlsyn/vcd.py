"""Waveforms as VCD files (IEEE 1364, chapter 18): written for viewers such as GTKWave, and read as stimuli."""
from __future__ import annotations

import re
from typing import Iterable, Iterator, NamedTuple, Optional, Sequence

from .errors import Failed

DIGITS = [chr(code) for code in range(33, 127)]
CHANGE = re.compile(r'([01xXzZ])(\S+)|[bB]([01xXzZ]+)\s+(\S+)')


class Signal(NamedTuple):
    """A signal of a scope, with a value for each time: one digit for each bit, the most significant first."""
    scope: tuple[str, ...]
    name: str
    width: int
    values: Sequence[str]


def written(signals: Sequence[Signal], times: Sequence[int], comment: str = '') -> str:
    """The VCD of signals whose values change at these times."""
    codes = [code_of(number) for number in range(len(signals))]
    lines = [f'$comment {comment} $end'] if comment else []
    lines.append('$timescale 1ns $end')
    lines += declared(signals, codes)
    lines.append('$enddefinitions $end')
    last: list[Optional[str]] = [None] * len(signals)
    for at, time in enumerate(times):
        lines.append(f'#{time}')
        for number, signal in enumerate(signals):
            if signal.values[at] != last[number]:
                last[number] = signal.values[at]
                lines.append(changed(signal.values[at], codes[number]))
    if times:
        lines.append(f'#{times[-1] + 1}')
    return '\n'.join([*lines, ''])


def code_of(number: int) -> str:
    """The short name of a signal in the file."""
    code = DIGITS[number % len(DIGITS)]
    while number >= len(DIGITS):
        number = number // len(DIGITS) - 1
        code += DIGITS[number % len(DIGITS)]
    return code


def changed(value: str, code: str) -> str:
    """The line of a change."""
    return f'{value}{code}' if len(value) == 1 else f'b{value} {code}'


def declared(signals: Sequence[Signal], codes: Sequence[str]) -> Iterator[str]:
    """The declarations: a scope is opened where a signal stands in another one than the signal before it."""
    scope: tuple[str, ...] = ()
    for signal, code in zip(signals, codes):
        shared = next((at for at, (one, other) in enumerate(zip(scope, signal.scope)) if one != other),
                      min(len(scope), len(signal.scope)))
        yield from ['$upscope $end'] * (len(scope) - shared)
        yield from (f'$scope module {name} $end' for name in signal.scope[shared:])
        scope = signal.scope
        index = f' [{signal.width - 1}:0]' if signal.width > 1 else ''
        yield f'$var wire {signal.width} {code} {signal.name}{index} $end'
    yield from ['$upscope $end'] * len(scope)


class Waves:
    """A VCD that was read: its times, and the values of each signal at each time."""

    def __init__(self) -> None:
        self.times: list[int] = []
        #: Scope, name, width and code of each signal.
        self.declared: list[tuple[str, str, int, str]] = []
        self.values: dict[str, list[str]] = {}

    def signal(self, name: str, width: int, scope: Optional[str] = None) -> list[str]:
        """The values of the signal of this name: in the scope, or in the first that has it."""
        for where, found, has, code in self.declared:
            if found == name and scope in (None, where):
                if has != width:
                    raise Failed(f'{name} has {has} bits in the VCD, and {width} in the design')
                return [filled(value, width) for value in self.values[code]]
        raise Failed(f'the VCD has no signal {name}' + (f' in the scope {scope}' if scope else ''))


def filled(value: str, width: int) -> str:
    """A value with all its digits: the left ones are 0, x or z by the first that is written."""
    above = value[0] if value[0] in 'xz' else '0'
    return value.rjust(width, above)[-width:]


def read(text: str) -> Waves:
    """Reads a VCD. Real numbers, events and the words of no value are passed over; a last time at which nothing changes
    says only when the simulation ended."""
    head, _, body = text.partition('$enddefinitions')
    waves = Waves()
    declare(waves, head.split())
    now = {code: 'x' for _, _, _, code in waves.declared}
    waves.values = {code: [] for code in now}
    has_changed = True
    for token in changes_in(body):
        if isinstance(token, int):
            keep(waves, now)
            waves.times.append(token)
            has_changed = False
        elif token[0] in now:
            now[token[0]] = token[1].lower()
            has_changed = True
    if has_changed:
        keep(waves, now)
    elif waves.times:
        waves.times.pop()
    return waves


def keep(waves: Waves, now: dict[str, str]) -> None:
    """Takes the values of the time that ends."""
    if waves.times:
        for code, value in now.items():
            waves.values[code].append(value)


def declare(waves: Waves, words: list[str]) -> None:
    """Reads the scopes and signals of the head."""
    scopes: list[str] = []
    for at, word in enumerate(words):
        if word == '$scope':
            scopes.append(words[at + 2])
        elif word == '$upscope' and scopes:
            scopes.pop()
        elif word == '$var' and words[at + 1] not in ('real', 'event', 'string'):
            waves.declared.append(('.'.join(scopes), words[at + 4].split('[')[0], int(words[at + 2]), words[at + 3]))


def changes_in(body: str) -> Iterable:
    """Times as numbers, and changes as pairs of a code and a value."""
    for line in body.split('\n'):
        line = line.strip()
        if line.startswith('#'):
            yield int(line[1:])
        else:
            for found in CHANGE.finditer(line) if not line.startswith(('$', 'r', 's')) else ():
                yield (found[2], found[1]) if found[1] else (found[4], found[3])
