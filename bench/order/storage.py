"""Storage cells: what one bit of them becomes from step to step."""
import re
from dataclasses import dataclass, field
from typing import Dict, List, NamedTuple, Optional, Tuple

from order.bits import Bit, Bits, SEEN, X, active, pick
from order.release import Order, clocked

CONTROLS = ('clk', 'en', 'arst', 'srst', 'aload', 'set', 'clr')
PER_BIT = ('ad', 'set', 'clr', 'd')
WORDS = ('ff', 'dff', 'dffe', 'sdff', 'sdffe', 'sdffce', 'adff', 'adffe', 'aldff', 'aldffe', 'dffsr', 'dffsre', 'dlatch', 'adlatch',
         'dlatchsr', 'sr')
# The gates: a pattern of the name, the kind, and the controls of the letters in it; V is a reset's value.
GATES = (
    (r'\$_FF_', 'ff', ''), (r'\$_DFF_([NP])_', 'dff', 'C'), (r'\$_DFFE_([NP])([NP])_', 'dffe', 'CE'),
    (r'\$_DFF_([NP])([NP])([01])_', 'adff', 'CAV'), (r'\$_DFFE_([NP])([NP])([01])([NP])_', 'adffe', 'CAVE'),
    (r'\$_SDFF_([NP])([NP])([01])_', 'sdff', 'CTV'), (r'\$_SDFFE_([NP])([NP])([01])([NP])_', 'sdffe', 'CTVE'),
    (r'\$_SDFFCE_([NP])([NP])([01])([NP])_', 'sdffce', 'CTVE'), (r'\$_DFFSR_([NP])([NP])([NP])_', 'dffsr', 'CSR'),
    (r'\$_DFFSRE_([NP])([NP])([NP])([NP])_', 'dffsre', 'CSRE'), (r'\$_ALDFF_([NP])([NP])_', 'aldff', 'CL'),
    (r'\$_ALDFFE_([NP])([NP])([NP])_', 'aldffe', 'CLE'), (r'\$_DLATCH_([NP])_', 'dlatch', 'E'),
    (r'\$_DLATCH_([NP])([NP])([01])_', 'adlatch', 'EAV'), (r'\$_DLATCHSR_([NP])([NP])([NP])_', 'dlatchsr', 'ESR'),
    (r'\$_SR_([NP])([NP])_', 'sr', 'SR'))
LETTERS = {'C': 'clk', 'E': 'en', 'A': 'arst', 'T': 'srst', 'S': 'set', 'R': 'clr', 'L': 'aload'}
# The pins of a gate that are named otherwise than the pins of a word cell.
PINS = {'clk': '\\C', 'en': '\\E', 'arst': '\\R', 'srst': '\\R', 'set': '\\S', 'clr': '\\R', 'aload': '\\L'}


class Pins(NamedTuple):
    """What a storage bit reads: controls as whether they are active."""
    clk: Bit
    en: Bit
    arst: Bit
    srst: Bit
    aload: Bit
    set: Bit
    clr: Bit
    ad: Bit
    d: Bit


@dataclass
class Store:
    """How a storage cell works: its kind, the levels of its controls, its reset value, the names of its pins."""
    kind: str
    levels: Dict[str, int] = field(default_factory=dict)
    value: Bits = field(default_factory=list)
    pins: Dict[str, str] = field(default_factory=dict)


def store_of(kind: str, params: Dict[str, int], values: Dict[str, Bits]) -> Optional[Store]:
    """The storage cell of a cell's kind, where it is one."""
    if kind[1:] in WORDS:
        levels = {name: int(params.get(f'\\{name.upper()}_POLARITY', 1) != 0) for name in CONTROLS}
        value = values.get('\\ARST_VALUE', values.get('\\SRST_VALUE', []))
        return Store(kind[1:], levels, value, {name: f'\\{name.upper()}' for name in Pins._fields})
    for pattern, store, letters in GATES:
        found = re.fullmatch(pattern, kind)
        if found:
            return gate_of(store, letters, found.groups())
    return None


def gate_of(kind: str, letters: str, marks: Tuple[str, ...]) -> Store:
    """A storage gate, of the letters in its name."""
    store = Store(kind, pins={'d': '\\D', 'ad': '\\AD'})
    for letter, mark in zip(letters, marks):
        if letter == 'V':
            store.value = [int(mark)]
        else:
            store.levels[LETTERS[letter]] = int(mark == 'P')
            store.pins[LETTERS[letter]] = PINS[LETTERS[letter]]
    return store


def acting(levels: Dict[str, int], raw: List[Bit]) -> Pins:
    """The pins with each control as whether it is active."""
    controls = [active(levels.get(name, 1), bit) for name, bit in zip(Pins._fields, raw[:7])]
    return Pins(*controls, raw[7], raw[8])


def in_first_step(before: Pins) -> Pins:
    """The clock and the asynchronous controls of the step before the first count as x."""
    return before._replace(clk=X, arst=X, aload=X, set=X, clr=X)


def data_of(kind: str, value: Bit, before: Pins, q: Bit) -> Bit:
    """What the data, a synchronous reset and an enable of the step before make for the next value."""
    if kind == 'sdffce':
        return pick(before.en, pick(before.srst, value, before.d), q)
    data = pick(before.en, before.d, q) if kind in ('dffe', 'sdffe', 'adffe', 'aldffe', 'dffsre') else before.d
    return pick(before.srst, value, data) if kind in ('sdff', 'sdffe') else data


def controlled(kind: str, value: Bit, pins: Pins, bit: Bit) -> Bit:
    """What the asynchronous controls of the kind make of a bit; a clear goes before a set."""
    if kind in ('adff', 'adffe', 'adlatch'):
        return pick(pins.arst, value, bit)
    if kind in ('aldff', 'aldffe'):
        return pick(pins.aload, pins.ad, bit)
    if kind in ('dffsr', 'dffsre', 'dlatchsr', 'sr'):
        return pick(pins.clr, 0, pick(pins.set, 1, bit))
    return SEEN[bit]


def next_bit(order: Order, kind: str, value: Bit, before: Pins, now: Pins, q: Bit) -> Bit:
    """A storage bit, of its pins in the step before and now, and of what it was."""
    def control(pins: Pins, bit: Bit) -> Bit:
        return controlled(kind, value, pins, bit)
    if kind == 'ff':
        return SEEN[before.d]
    if kind == 'sr':
        return control(now, q)
    if kind in ('dlatch', 'adlatch', 'dlatchsr'):
        return control(now, pick(now.en, now.d, q))
    return control(now, clocked(order, before, now, data_of(kind, value, before, q), q, control))
