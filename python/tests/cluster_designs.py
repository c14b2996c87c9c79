"""Texts for the tests and the measures of the cluster: designs of many different modules, variants of the system on a chip
of the examples, random designs, and texts with a fault in them."""
import random
from pathlib import Path
from typing import Callable, Iterator, List, Tuple

TOP = Path(__file__).resolve().parents[2]
DESIGNS = TOP / 'examples' / 'designs'
SYSTEM = TOP / 'examples' / 'system'

SCRIPTS = (None, None, 'proc', 'proc opt memory opt techmap opt', 'proc flatten opt fsm opt memory opt techmap opt')


def binary(kind: str, name: str, width: int, a: str, b: str, y: str, y_width: int) -> str:
    """A word cell of two operands of one width."""
    return (f'  cell {kind} {name}\n    parameter \\A_SIGNED 0\n    parameter \\A_WIDTH {width}\n    parameter \\B_SIGNED 0\n'
            f'    parameter \\B_WIDTH {width}\n    parameter \\Y_WIDTH {y_width}\n    connect \\A {a}\n    connect \\B {b}\n'
            f'    connect \\Y {y}\n  end\n')


def register(name: str, width: int, d: str, q: str) -> str:
    """A register on the clock `\\c`."""
    return (f'  cell $dff {name}\n    parameter \\CLK_POLARITY 1\n    parameter \\WIDTH {width}\n    connect \\CLK \\c\n'
            f'    connect \\D {d}\n    connect \\Q {q}\n  end\n')


def constant(number: int, width: int) -> str:
    """A constant of some bits."""
    return f"{width}'{number % (1 << width):0{width}b}"


def instance(kind: str, name: str, pins: List[Tuple[str, str]]) -> str:
    """A cell of the type of a module."""
    lines = ''.join(f'    connect {port} {signal}\n' for port, signal in pins)
    return f'  cell {kind} {name}\n{lines}  end\n'


def different_module(number: int, width: int = 16) -> str:
    """A module with some hundred gates, unlike all others: sums, products and registers; one in ten has three instances."""
    lines = [f'attribute \\src "chip.v:{number}.1"\nmodule \\m{number}\n',
             f'  wire width {width} input 1 \\a\n  wire width {width} input 2 \\b\n  wire input 3 \\c\n',
             f'  wire width {width} output 4 \\y\n  wire width {width} $p\n  wire width {width} $s\n  wire $e\n',
             f'  wire width {width} $q\n',
             binary('$mul', '$1', width, '\\a', constant(2 * number + 1, width), '$p', width),
             binary('$add', '$2', width, '$p', '\\b', '$s', width),
             binary('$eq', '$3', width, '$s', constant(number, width), '$e', 1),
             register('$4', width, '$s', '$q')]
    if number % 10 == 9:
        for at in (1, 2, 3):
            lines.append(f'  wire width {width} $o{at}\n')
            lines.append(instance(f'\\m{number - at}', f'$i{at}', [
                ('\\a', '$q' if at == 1 else f'$o{at - 1}'), ('\\b', '\\b'), ('\\c', '\\c'), ('\\y', f'$o{at}')]))
        lines.append('  connect \\y $o3\n')
    else:
        lines.append(f'  connect \\y {{ $q [{width - 1}:1] $e }}\n')
    return ''.join(lines) + 'end\n'


def different(count: int, width: int = 16) -> bytes:
    """A design of so many different modules."""
    return ''.join(different_module(number, width) for number in range(count)).encode()


def soc_variants(count: int) -> Iterator[bytes]:
    """The system on a chip of the examples so many times, each with another constant in its timer."""
    text = (DESIGNS / 'soc.il').read_bytes()
    first, timer, rest = text.partition(b'\nmodule \\soc_timer\n')
    for number in range(count):
        mark = f'  wire width 16 $variant\n  connect $variant {constant(number, 16)}\n'.encode()
        yield first + timer + mark + rest


class RandomDesign:
    """A design of some modules that instantiate earlier ones, written in the odd ways that the format allows."""

    def __init__(self, seed: int) -> None:
        self.random = random.Random(seed)
        self.count = self.random.randint(1, 14)

    def text(self) -> bytes:
        """The text of the design, in some order of its modules."""
        modules = [self._module(number) for number in range(self.count)]
        self.random.shuffle(modules)
        first = self.random.choice(['', 'autoidx 7\n', '# none\n\nautoidx -3 # odd\n\n', '\r\n\r\n'])
        return (first + ''.join(modules)).encode('latin-1')

    def _name(self, number: int) -> str:
        return ('\\p%d', '\\q"%d', '$paramod\\r\\W=%d', '\\s#%d', '\\end%d', '\\t\xe9%d')[number % 6] % number

    def _width(self, number: int) -> int:
        return 1 + number % 5

    def _noise(self, made: str) -> str:
        """Blanks and comments, and attributes of what may have some."""
        blanks = ['', '', '', '\n', '# end\n', '  \t# module \\x "\n', '\r\n \t\r\n']
        attributes = ['attribute \\note "two\nmodule \\no\nend\n lines"\n', 'attribute \\src "a.v:1.2"\r\n',
                      'attribute \\note "a \\" quote # and \\\\"\n']
        return self.random.choice(blanks + ([] if made.lstrip().startswith('connect') else attributes))

    def _module(self, number: int) -> str:
        width = self._width(number)
        attributes = ''.join(self.random.sample([
            'attribute \\top 1\n', 'attribute \\src "x.v:1"\n', 'attribute \\text "\nend\n"\n', '# before\n'],
            self.random.randint(0, 2)))
        lines = [f'  wire width {width} input 1 \\a\n', f'wire output 2 width {width}\\y#"\n', f'  wire width {width} \\input\n']
        self.random.shuffle(lines)
        body = lines + [line for made in self._cells(number, width) for line in (self._noise(made), made)]
        body.append(f'  wire \\last\n  connect \\y#" \\input\n')
        return f'{attributes}module {self._name(number)} # "\n' + ''.join(body) + self.random.choice(['end\n', 'end # end\n', 'end\r\n'])

    def _cells(self, number: int, width: int) -> Iterator[str]:
        source = '\\a'
        for step in range(self.random.randint(0, 4)):
            wire = f'$w{step}'
            yield f'  wire width {width} {wire}\n'
            child = self.random.randrange(number) if number and self.random.random() < 0.5 else None
            if child is None:
                kind = self.random.choice(['$add', '$and', '$xor', '$sub', '$mul'])
                yield binary(kind, f'$c{step}', width, source, constant(self.random.getrandbits(5), width), wire, width)
            else:
                yield self._instance(child, step, width, source, wire)
            source = wire
        yield self._end(width, source)

    def _instance(self, child: int, step: int, width: int, source: str, wire: str) -> str:
        other = self._width(child)
        left, right = f'$l{step}', f'$r{step}'
        wires = f'  wire width {other} {left}\n  wire width {other} {right}\n'
        fits = [self._fit(source, width, left, other), self._fit(right, other, wire, width)]
        pins = [('\\a', left), ('\\y#"', right)]
        self.random.shuffle(pins)
        return wires + ''.join(fits) + instance(self._name(child), f'$c{step}', pins)

    @staticmethod
    def _fit(source: str, width: int, target: str, wanted: int) -> str:
        if wanted <= width:
            return f'  connect {target} {source} [{wanted - 1}:0]\n'
        return f"  connect {target} {{ {wanted - width}'0 {source} }}\n"

    def _end(self, width: int, source: str) -> str:
        if self.random.random() < 0.5:
            return f'  connect \\input {source}\n'
        return (f'  process $p\n    assign \\input {source}\n    switch \\a [0]\n      case 1\'1\n'
                f'        assign \\input {constant(self.random.getrandbits(5), width)}\n      attribute \\full 1\n      case\n'
                f'    end\n  end\n')


def _dropped_line(text: bytes, chance: random.Random) -> bytes:
    lines = text.splitlines(True)
    del lines[chance.randrange(len(lines))]
    return b''.join(lines)


def _doubled_line(text: bytes, chance: random.Random) -> bytes:
    lines = text.splitlines(True)
    at = chance.randrange(len(lines))
    return b''.join(lines[:at] + [lines[at]] + lines[at:])


def _changed_byte(text: bytes, chance: random.Random) -> bytes:
    at = chance.randrange(len(text))
    return text[:at] + bytes([chance.choice(b'"\\# \n\r$a0\x00e')]) + text[at + 1:]


def _cut_off(text: bytes, chance: random.Random) -> bytes:
    return text[:chance.randrange(len(text))]


def _doubled_text(text: bytes, chance: random.Random) -> bytes:
    return text + text[text.find(b'module'):] if chance.random() < 0.9 else text


def _swapped_words(text: bytes, chance: random.Random) -> bytes:
    words = [b'wire', b'end', b'cell', b'$and', b'width 2', b'input 1', b'output', b'connect', b'module']
    old, new = chance.choice(words), chance.choice(words)
    return text.replace(old, new, 1) if chance.random() < 0.5 else new.join(text.rsplit(old, 1))


FAULTS: Tuple[Callable[[bytes, random.Random], bytes], ...] = (
    _dropped_line, _doubled_line, _changed_byte, _cut_off, _doubled_text, _swapped_words)


def hostile(seed: int) -> bytes:
    """A text with a fault in it, most of the time: a random design, or one of the examples."""
    chance = random.Random(seed)
    texts = [RandomDesign(seed).text(), (SYSTEM / 'system.il').read_bytes()]
    text = chance.choice(texts)
    for _ in range(chance.randint(1, 2)):
        text = chance.choice(FAULTS)(text, chance) or b'#'
    return text
