"""Values of combinational cells: gates and word cells."""
from functools import reduce
from typing import Callable, Dict, List

from order.bits import NOT, SEEN, X, Bit, Bits, and_of, are_known, bits_of, extend, number, or_of, pick, xor_of

Value = Callable[..., Bits]

GATES: Dict[str, Callable[[Bit, Bit, Bit], Bit]] = {
    '$_BUF_': lambda a, b, s: SEEN[a],
    '$_NOT_': lambda a, b, s: NOT[a],
    '$_AND_': lambda a, b, s: and_of(a, b),
    '$_NAND_': lambda a, b, s: NOT[and_of(a, b)],
    '$_OR_': lambda a, b, s: or_of(a, b),
    '$_NOR_': lambda a, b, s: NOT[or_of(a, b)],
    '$_XOR_': lambda a, b, s: xor_of(a, b),
    '$_XNOR_': lambda a, b, s: NOT[xor_of(a, b)],
    '$_ANDNOT_': lambda a, b, s: and_of(a, NOT[b]),
    '$_ORNOT_': lambda a, b, s: or_of(a, NOT[b]),
    '$_MUX_': lambda a, b, s: pick(s, b, a),
    '$_NMUX_': lambda a, b, s: NOT[pick(s, b, a)],
}


class Sizes:
    """The widths and signs of a word cell."""

    def __init__(self, params: Dict[str, int]):
        self.width = params.get('\\Y_WIDTH', params.get('\\WIDTH', 0))
        self.a_signed = bool(params.get('\\A_SIGNED'))
        self.b_signed = bool(params.get('\\B_SIGNED'))
        self.both = self.a_signed and self.b_signed
        self.offset = params.get('\\OFFSET', 0)


def integer(bits: Bits, signed: bool) -> int:
    """The integer of known bits."""
    return number(bits) - (bits[-1] << len(bits) if signed and bits else 0)


def fold(table: Callable[[Bit, Bit], Bit], bits: Bits) -> Bit:
    """The bits joined by a table."""
    return SEEN[reduce(table, bits)]


def one(bit: Bit, sizes: Sizes) -> Bits:
    """A result of one bit, filled with 0."""
    return ([bit] + [0] * sizes.width)[:sizes.width]


def folded(table: Callable[[Bit, Bit], Bit], inverse: bool = False) -> Value:
    """A fold of the operand, or its inverse."""
    return lambda z, a: one(NOT[fold(table, a)] if inverse else fold(table, a), z)


def bitwise(table: Callable[[Bit, Bit], Bit], inverse: bool = False) -> Value:
    """Bit by bit on extended operands."""
    def value(z, a, b):
        pairs = zip(extend(a, z.width, z.both), extend(b, z.width, z.both))
        return [NOT[table(p, q)] if inverse else table(p, q) for p, q in pairs]
    return value


def logic(table: Callable[[Bit, Bit], Bit]) -> Value:
    """Of the folds of both operands by or."""
    return lambda z, a, b: one(table(fold(or_of, a), fold(or_of, b)), z)


def equal(a: Bits, b: Bits) -> Bit:
    """0 where two known bits differ, 1 where all are known and equal, else x."""
    return reduce(and_of, (NOT[xor_of(p, q)] for p, q in zip(a, b)), 1)


def equality(inverse: bool) -> Value:
    """Whether operands, extended to the greater width, are equal, or differ."""
    def value(z, a, b):
        width = max(len(a), len(b))
        same = equal(extend(a, width, z.both), extend(b, width, z.both))
        return one(NOT[same] if inverse else same, z)
    return value


def ordered(test: Callable[[int, int], bool]) -> Value:
    """The order of the integers."""
    def value(z, a, b):
        known = are_known(a + b)
        return one(int(test(integer(a, z.both), integer(b, z.both))) if known else X, z)
    return value


def arithmetic(result: Callable[[int, int], int]) -> Value:
    """An integer result, x where an operand is not known or the result is not there."""
    def value(z, a, b):
        if not are_known(a + b):
            return [X] * z.width
        try:
            return bits_of(result(integer(a, z.both), integer(b, z.both)), z.width)
        except ZeroDivisionError:
            return [X] * z.width
    return value


def truncated(a: int, b: int) -> int:
    """A quotient toward zero."""
    return abs(a) // abs(b) * (1 if (a < 0) == (b < 0) else -1)


def negated(z: Sizes, a: Bits) -> Bits:
    """The two's complement of the extended operand."""
    return bits_of(-integer(a, z.a_signed), z.width) if are_known(a) else [X] * z.width


def shifted(left: bool = False, by_sign: bool = False, outside: Bit = 0, top: bool = False) -> Value:
    """Bit i is bit i + B of the extended A, or i - B to the left; else what is outside, or the top bit where A is signed."""
    def value(z, a, b):
        if not are_known(b):
            return [X] * z.width
        by = integer(b, by_sign and z.b_signed)
        wide = extend(a, max(len(a), z.width), z.a_signed)
        if outside:
            wide = wide[:len(a)]
        fill = wide[-1] if top and z.a_signed else outside
        places = (at - by if left else at + by for at in range(z.width))
        return [wide[at] if 0 <= at < len(wide) else fill for at in places]
    return value


def selected(z: Sizes, a: Bits, b: Bits, s: Bits) -> Bits:
    """The arm of a multiplexer, or the merge of both."""
    return [pick(s[0], q, p) for p, q in zip(a, b)]


def parallel(z: Sizes, a: Bits, b: Bits, s: Bits) -> Bits:
    """A where no select is active, a part of B where one is, else x."""
    if not are_known(s) or sum(s) > 1:
        return [X] * len(a)
    at = s.index(1) * len(a) if 1 in s else -1
    return [SEEN[bit] for bit in (a if at < 0 else b[at:at + len(a)])]


WORDS: Dict[str, Value] = {
    '$not': lambda z, a: [NOT[bit] for bit in extend(a, z.width, z.a_signed)],
    '$pos': lambda z, a: extend(a, z.width, z.a_signed),
    '$neg': negated,
    '$reduce_and': folded(and_of), '$reduce_or': folded(or_of), '$reduce_bool': folded(or_of),
    '$reduce_xor': folded(xor_of), '$reduce_xnor': folded(xor_of, True), '$logic_not': folded(or_of, True),
    '$and': bitwise(and_of), '$or': bitwise(or_of), '$xor': bitwise(xor_of), '$xnor': bitwise(xor_of, True),
    '$logic_and': logic(and_of), '$logic_or': logic(or_of),
    '$eq': equality(False), '$ne': equality(True),
    '$lt': ordered(int.__lt__), '$le': ordered(int.__le__), '$ge': ordered(int.__ge__), '$gt': ordered(int.__gt__),
    '$add': arithmetic(int.__add__), '$sub': arithmetic(int.__sub__), '$mul': arithmetic(int.__mul__),
    '$div': arithmetic(truncated), '$mod': arithmetic(lambda a, b: a - b * truncated(a, b)),
    '$divfloor': arithmetic(int.__floordiv__), '$modfloor': arithmetic(int.__mod__),
    '$shl': shifted(left=True), '$sshl': shifted(left=True), '$shr': shifted(), '$sshr': shifted(top=True),
    '$shift': shifted(by_sign=True), '$shiftx': shifted(by_sign=True, outside=X),
    '$mux': selected, '$pmux': parallel,
    '$slice': lambda z, a: [SEEN[bit] for bit in a[z.offset:z.offset + z.width]],
    '$concat': lambda z, a, b: [SEEN[bit] for bit in a + b],
}


def value_of(kind: str, params: Dict[str, int]) -> Callable[[List[Bits]], Bits]:
    """The value of a cell of this kind, of the bits at its inputs in order."""
    if kind in GATES:
        gate = GATES[kind]
        return lambda inputs: [gate(*([bits[0] for bits in inputs] + [X] * (3 - len(inputs))))]
    word, sizes = WORDS[kind], Sizes(params)
    return lambda inputs: word(sizes, *inputs)


def inputs_of(kind: str, pins: Dict[str, List]) -> List[str]:
    """The names of the input pins, in order; a multiplexing gate has S third."""
    return [pin for pin in ('\\A', '\\B', '\\S') if pin in pins]
