#!/usr/bin/env python3
"""Time beside size, for families of designs that grow: how the program's user time grows with the size of its work, which
is the bytes of the text plus the cells of the netlist; and with the bytes plus the cells of the greatest design between two
passes, which may grow faster than both. A family's exponent is the slope of time over size on logarithmic scales, over all
its members; 1 is linear.

usage: bench/growth.py [--program PATH] [--most SECONDS] [FAMILY..]      all families, by ./rtlsyn, without words
No further member of a family is tried once one took more than so many seconds (120 without the option).
"""
import math
import os
import subprocess
import sys
import tempfile
import time

TOP = os.path.dirname(os.path.dirname(os.path.abspath(__file__)))
DIGITS = '0123456789abcdefghijklmnopqrstuvwxyzABCDEFGHIJKLMNOPQRSTUVWXYZ'


def short(number):
    """A short name for a number."""
    name = ''
    while True:
        number, digit = divmod(number, len(DIGITS))
        name = DIGITS[digit] + name
        if number == 0:
            return name


def gates(count):
    """A chain of gates of one bit, each of which reads the one before it, in as few bytes as may be."""
    yield 'module \\top\nwire input 1 \\%s\n' % short(0)
    for k in range(1, count):
        yield 'wire \\%s\n' % short(k)
    yield 'wire output 2 \\%s\n' % short(count)
    for k in range(count):
        yield 'cell $_NOT_ $%s\nconnect \\A \\%s\nconnect \\Y \\%s\nend\n' % (short(k), short(k), short(k + 1))
    yield 'end\n'


def adders(count):
    """Adders of 32 bits, each of which adds to the sum before it."""
    yield 'module \\top\n  wire width 32 input 1 \\x\n  wire width 32 input 2 \\s0\n'
    for k in range(1, count):
        yield '  wire width 32 \\s%d\n' % k
    yield '  wire width 32 output 3 \\s%d\n' % count
    for k in range(count):
        yield ('  cell $add $%d\n    parameter \\A_SIGNED 0\n    parameter \\A_WIDTH 32\n    parameter \\B_SIGNED 0\n'
               '    parameter \\B_WIDTH 32\n    parameter \\Y_WIDTH 32\n    connect \\A \\s%d\n    connect \\B { \\x [%d:0] \\x [31:%d] }\n'
               '    connect \\Y \\s%d\n  end\n' % (k, k, k % 31, k % 31 + 1, k + 1))
    yield 'end\n'


def process(count, case):
    """A register with one process, whose switch has as many cases as the register has bits."""
    width = max(1, (count - 1).bit_length())
    yield 'module \\top\n  wire input 1 \\clk\n  wire width %d input 2 \\sel\n  wire width %d input 3 \\d\n' % (width, count)
    yield '  wire width %d output 4 \\q\n  wire width %d $0\\q\n  process $p\n    assign $0\\q \\q\n    switch \\sel\n' % (count, count)
    for k in range(count):
        yield "      case %d'%s\n        assign %s\n" % (width, format(k, '0%db' % width), case(k))
    yield '    end\n    sync posedge \\clk\n      update \\q $0\\q\n  end\nend\n'


def process_bits(count):
    """Each case gives one bit."""
    return process(count, lambda k: '$0\\q [%d] \\d [%d]' % (k, count - 1 - k))


def process_words(count):
    """Each case gives all bits."""
    return process(count, lambda k: '$0\\q { \\d [%d:0] \\d [%d:%d] }' % (k, count - 1, k + 1) if k + 1 < count else '$0\\q \\d')


def process_lines(count):
    """Each case gives all bits, each in a line of its own."""
    def case(k):
        lines = ('$0\\q [%d] \\d [%d]' % (bit, (bit + k) % count) for bit in range(count))
        return '\n        assign '.join(lines)
    return process(count, case)


def latches(count):
    """Latches in place of the register: their values are kept by the tree."""
    width = max(1, (count - 1).bit_length())
    yield 'module \\top\n  wire width %d input 1 \\sel\n  wire width %d input 2 \\d\n' % (width, count)
    yield '  wire width %d output 3 \\q\n  wire width %d $0\\q\n  process $p\n    assign $0\\q \\q\n    switch \\sel\n' % (count, count)
    for k in range(count // 2):
        yield "      case %d'%s\n        assign $0\\q [%d] \\d [%d]\n" % (width, format(k, '0%db' % width), k, k)
    yield '    end\n    sync always\n      update \\q $0\\q\n  end\nend\n'


def wide_latch(count):
    """One latch of so many bits, by one case: the text does not grow with it."""
    yield 'module \\top\n  wire input 1 \\en\n  wire width %d input 2 \\d\n' % count
    yield '  wire width %d output 3 \\q\n  wire width %d $0\\q\n  process $p\n    assign $0\\q \\q\n' % (count, count)
    yield "    switch \\en\n      case 1'1\n        assign $0\\q \\d\n    end\n"
    yield '    sync always\n      update \\q $0\\q\n  end\nend\n'


def resets(count):
    """Registers of 8 bits with an asynchronous reset, a process each."""
    yield 'module \\top\n  wire input 1 \\clk\n  wire input 2 \\rst\n  wire width 8 input 3 \\d\n'
    yield '  wire width %d output 4 \\q\n' % (8 * count)
    for k in range(count):
        yield '  wire width 8 $%d\\q\n' % k
    for k in range(count):
        yield ("  process $p%d\n    assign $%d\\q \\d\n    switch \\rst\n      case 1'1\n        assign $%d\\q 8'00000000\n    end\n"
               % (k, k, k))
        for event in ('clk', 'rst'):
            yield '    sync posedge \\%s\n      update \\q [%d:%d] $%d\\q\n' % (event, 8 * k + 7, 8 * k, k)
        yield '  end\n'
    yield 'end\n'


def switches(count):
    """A loop that was unrolled to many switches in sequence."""
    script = os.path.join(TOP, 'bench', 'switches.py')
    yield subprocess.run([sys.executable, script, str(count)], check=True, capture_output=True, text=True).stdout


def coder(count):
    """A Hamming coder of so many bits whose loops were unrolled: each line of its process gives a parity bit anew, by a cell
    that reads the line before it."""
    rows = max(2, count.bit_length())
    yield 'module \\top\n  wire width %d input 1 \\d\n  wire width %d output 2 \\parity\n' % (count, rows)
    steps = [(row, k) for row in range(rows) for k in range(count) if (k + 1) >> row & 1]
    last = ["1'0"] * rows
    cells, lines = [], []
    for number, (row, k) in enumerate(steps):
        yield '  wire $%d\\parity\n  wire $xor%d\n' % (number, number)
        cells.append('  cell $xor $c%d\n    parameter \\A_SIGNED 0\n    parameter \\A_WIDTH 1\n    parameter \\B_SIGNED 0\n'
                     '    parameter \\B_WIDTH 1\n    parameter \\Y_WIDTH 1\n    connect \\A %s\n    connect \\B \\d [%d]\n'
                     '    connect \\Y $xor%d\n  end\n' % (number, last[row], k, number))
        last[row] = '$%d\\parity' % number
        lines.append('    assign %s $xor%d\n' % (last[row], number))
    yield from cells
    yield '  process $p\n'
    yield from lines
    yield '    assign \\parity { %s }\n    sync always\n  end\nend\n' % ' '.join(reversed(last))


def memory_ports(k, address, width, data, enable, read):
    """The port that writes memory k and the one that reads it, with so many address bits."""
    unknown = "%d'%s" % (width, 'x' * width)
    yield ('  cell $memwr_v2 $w%d\n    parameter \\MEMID "\\\\m%d"\n    parameter \\ABITS %d\n    parameter \\WIDTH %d\n'
           '    parameter \\CLK_ENABLE 1\n    parameter \\CLK_POLARITY 1\n    parameter \\PORTID 0\n'
           "    parameter \\PRIORITY_MASK 1'0\n    connect \\ADDR \\wa\n    connect \\DATA %s\n    connect \\EN %s\n"
           '    connect \\CLK \\clk\n  end\n' % (k, k, address, width, data, enable))
    yield ('  cell $memrd_v2 $r%d\n    parameter \\MEMID "\\\\m%d"\n    parameter \\ABITS %d\n    parameter \\WIDTH %d\n'
           '    parameter \\CLK_ENABLE 0\n    parameter \\CLK_POLARITY 1\n    parameter \\TRANSPARENCY_MASK 0\'\n'
           "    parameter \\COLLISION_X_MASK 0'\n    parameter \\ARST_VALUE %s\n    parameter \\SRST_VALUE %s\n"
           "    parameter \\INIT_VALUE %s\n    parameter \\CE_OVER_SRST 0\n    connect \\ADDR \\ra\n    connect \\DATA %s\n"
           "    connect \\EN 1'1\n    connect \\CLK 1'x\n    connect \\ARST 1'0\n    connect \\SRST 1'0\n  end\n"
           % (k, k, address, width, unknown, unknown, unknown, read))


def memories(count):
    """Memories of 1,024 words of one bit, each with a port that writes and one that reads."""
    yield 'module \\top\n  wire input 1 \\clk\n  wire width 10 input 2 \\wa\n  wire width 10 input 3 \\ra\n'
    yield '  wire width %d input 4 \\d\n  wire width %d input 5 \\en\n  wire width %d output 6 \\q\n' % (count, count, count)
    for k in range(count):
        yield '  memory width 1 size 1024 \\m%d\n' % k
    for k in range(count):
        yield from memory_ports(k, 10, 1, '\\d [%d]' % k, '\\en [%d]' % k, '\\q [%d]' % k)
    yield 'end\n'


def memory_words(count):
    """Memories of 2,048 words of 32 bits, each with a port that writes whole words and one that reads."""
    yield 'module \\top\n  wire input 1 \\clk\n  wire width 11 input 2 \\wa\n  wire width 11 input 3 \\ra\n'
    yield '  wire width 32 input 4 \\d\n  wire width %d input 5 \\we\n  wire width %d output 6 \\q\n' % (count, 32 * count)
    for k in range(count):
        yield '  memory width 32 size 2048 \\m%d\n' % k
    for k in range(count):
        enable, read = '\\we [%d] ' % k, '\\q [%d:%d]' % (32 * k + 31, 32 * k)
        yield from memory_ports(k, 11, 32, '\\d', '{ %s}' % (enable * 32), read)
    yield 'end\n'


def modules(count):
    """Modules of one inverter, each of which has an instance of the one before it."""
    for k in range(count):
        yield 'module \\m%d\n  wire input 1 \\a\n  wire output 2 \\y\n  wire \\b\n' % k
        yield '  cell $_NOT_ $g\n    connect \\A \\a\n    connect \\Y \\b\n  end\n'
        if k:
            yield '  cell \\m%d \\u\n    connect \\a \\b\n    connect \\y \\y\n  end\n' % (k - 1)
        else:
            yield '  connect \\y \\b\n'
        yield 'end\n'


def instances(count):
    """A module with so many instances of one module of 100 gates, each of which reads the one before it: for `flatten`."""
    yield 'module \\part\n  wire input 1 \\a\n  wire input 2 \\b\n  wire output 3 \\y\n'
    for k in range(1, 100):
        yield '  wire \\n%d\n' % k
    for k in range(100):
        yield ('  cell $_XOR_ $g%d\n    connect \\A %s\n    connect \\B \\b\n    connect \\Y %s\n  end\n'
               % (k, '\\n%d' % k if k else '\\a', '\\n%d' % (k + 1) if k < 99 else '\\y'))
    yield 'end\nmodule \\top\n  wire input 1 \\a\n  wire input 2 \\b\n  wire output 3 \\y\n'
    for k in range(1, count):
        yield '  wire \\w%d\n' % k
    for k in range(count):
        yield ('  cell \\part \\u%d\n    connect \\a %s\n    connect \\b \\b\n    connect \\y %s\n  end\n'
               % (k, '\\w%d' % k if k else '\\a', '\\w%d' % (k + 1) if k < count - 1 else '\\y'))
    yield 'end\n'


FAMILIES = {
    'gates': (gates, (10_000, 100_000, 1_000_000)),
    'adders': (adders, (60, 600, 6_000)),
    'process_bits': (process_bits, (250, 500, 1_000)),
    'process_words': (process_words, (250, 500, 1_000)),
    'process_lines': (process_lines, (250, 500, 1_000)),
    'latches': (latches, (250, 500, 1_000)),
    'wide_latch': (wide_latch, (1_000, 2_000, 4_000)),
    'resets': (resets, (250, 500, 1_000, 2_000)),
    'switches': (switches, (64, 128, 256, 512, 1_024, 2_048)),
    'coder': (coder, (64, 256, 1_024)),
    'memories': (memories, (1, 4, 16, 64)),
    'memory_words': (memory_words, (1, 2, 4)),
    'modules': (modules, (100, 400, 1_600, 4_096)),
    'instances': (instances, (250, 1_000, 4_000)),
}


# The scripts of families that are not for the default script.
SCRIPTS = {'instances': 'proc flatten'}


# The words of the default script after which there may be more cells than at its end.
BEFORE = ('proc', 'proc opt fsm opt memory', 'proc opt fsm opt memory opt techmap')


def run(program, text):
    """The user time, the time and the greatest memory of a run in KB, its status, and the cells of what it writes."""
    with open(text, 'rb') as source, tempfile.TemporaryFile() as netlist:
        began = time.monotonic()
        child = subprocess.Popen(program, stdin=source, stdout=netlist)
        _, status, usage = os.wait4(child.pid, 0)
        child.returncode = os.waitstatus_to_exitcode(status)
        netlist.seek(0)
        cells = sum(line.startswith(b'  cell ') for line in netlist)
    return usage.ru_utime, time.monotonic() - began, usage.ru_maxrss, child.returncode, cells


def least(program, text):
    """The run with the least user time, of up to five, where one takes less than a second in all."""
    runs = [run(program, text)]
    while len(runs) < 5 and sum(user for user, *_ in runs) < 1.0:
        runs.append(run(program, text))
    return min(runs)


def between(program, text, script):
    """The cells of the greatest design between two passes of the script."""
    scripts = [script] if script else BEFORE
    return max(run([*program, '--script', words], text)[4] for words in scripts)


def slope(points):
    """The slope of the line through points with the least squares, on logarithmic scales."""
    points = [(math.log(size), math.log(max(user, 0.005))) for size, user in points]
    n = len(points)
    mean_x, mean_y = sum(x for x, _ in points) / n, sum(y for _, y in points) / n
    return sum((x - mean_x) * (y - mean_y) for x, y in points) / sum((x - mean_x) ** 2 for x, _ in points)


def measure(program, most, family):
    """Prints a line for each member of a family, and the family's two exponents."""
    made, sizes = FAMILIES[family]
    script = SCRIPTS.get(family)
    words = [*program, '--script', script] if script else program
    points, others = [], []
    for size in sizes:
        with tempfile.NamedTemporaryFile('w', suffix='.il') as text:
            text.writelines(made(size))
            text.flush()
            length = os.path.getsize(text.name)
            user, wall, memory, status, cells = least(words, text.name)
            greatest = max(cells, between(program, text.name, script))
        print('| %s | %s | %s | %s | %s | %.2f s | %.1f MB |%s' % (
            family, f'{size:,}', f'{length:,}', f'{cells:,}', f'{greatest:,}', user, memory / 1000,
            '' if status == 0 else ' status %d' % status), flush=True)
        points.append((length + cells, user))
        others.append((length + greatest, user))
        if wall > most or status:
            break
    if len(points) > 1:
        print('| %s | exponent %.2f, between passes %.2f | | | | | |' % (family, slope(points), slope(others)), flush=True)


def options(program, most):
    """The program, the seconds and the names that the words of the call give, or these where they give none."""
    names = []
    words = iter(sys.argv[1:])
    for word in words:
        if word == '--program':
            program = next(words)
        elif word == '--most':
            most = float(next(words))
        else:
            names.append(word)
    return program, most, names


def main():
    program, most, families = options(os.path.join(TOP, 'rtlsyn'), 120.0)
    print('| Family | Size | Bytes of the text | Cells | Cells between passes | User time | Greatest memory |\n|---|---|---|---|---|---|---|')
    for family in families or FAMILIES:
        measure([program], most, family)


if __name__ == '__main__':
    main()
