"""Bits and their tables. A bit is one of the numbers 0, 1, X and Z; the constants m and - are read as X."""
from typing import Iterable, List

Bit = int
Bits = List[int]
X, Z = 2, 3
DIGITS = '01xz'

# A bit as cells read it: z counts as x.
SEEN = (0, 1, X, X)
NOT = (1, 0, X, X)


def and_of(a: Bit, b: Bit) -> Bit:
    """0 where one is 0, 1 where both are 1, else x."""
    return 0 if a == 0 or b == 0 else 1 if a == 1 and b == 1 else X


def or_of(a: Bit, b: Bit) -> Bit:
    """1 where one is 1, 0 where both are 0, else x."""
    return 1 if a == 1 or b == 1 else 0 if a == 0 and b == 0 else X


def xor_of(a: Bit, b: Bit) -> Bit:
    """x where one is unknown."""
    return a ^ b if a < X and b < X else X


def merge(a: Bit, b: Bit) -> Bit:
    """What two bits have in common: the known bit that both are, else x."""
    return a if a == b and a < X else X


def pick(control: Bit, a: Bit, b: Bit) -> Bit:
    """a where a control is active, b where it is inactive, else what the two have in common."""
    if control == 1:
        return SEEN[a]
    return SEEN[b] if control == 0 else merge(a, b)


def active(level: int, bit: Bit) -> Bit:
    """Whether a control that acts at this level is active."""
    return SEEN[bit] if level else NOT[bit]


def edge(was: Bit, now: Bit) -> Bit:
    """A clock edge, of whether the clock was active and is: 1 certain, 0 impossible, x open."""
    return and_of(NOT[was], now)


def number(bits: Bits) -> int:
    """The number of known bits, the least significant first."""
    return sum(bit << at for at, bit in enumerate(bits))


def bits_of(value: int, width: int) -> Bits:
    """The low bits of a number; of a negative one in two's complement."""
    return [value >> at & 1 for at in range(width)]


def are_known(bits: Iterable[Bit]) -> bool:
    """Whether each bit is 0 or 1."""
    return all(bit < X for bit in bits)


def extend(bits: Bits, width: int, signed: bool) -> Bits:
    """Cut, or filled with the top bit where signed, else with 0; z reads as x."""
    fill = bits[-1] if signed and bits else 0
    return [SEEN[bit] for bit in (bits + [fill] * (width - len(bits)))[:width]]
