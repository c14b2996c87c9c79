#!/usr/bin/env python3
"""Prints a text of modules of `$and` and `$xor` cells, which the program makes gates of. Each cell leads to an output.

usage: bench/gates_of_cells.py [BYTES [WIDTH]]      at least so many bytes, cells of so many bits; 60,000,000 and 8 without numbers
"""
import sys

from texts import print_modules

width = int(sys.argv[2]) if len(sys.argv) > 2 else 8
CELL = ('  cell %s $expr$%d\n    parameter \\A_SIGNED 0\n    parameter \\A_WIDTH %d\n    parameter \\B_SIGNED 0\n'
        '    parameter \\B_WIDTH %d\n    parameter \\Y_WIDTH %d\n    connect \\A \\data_%d\n    connect \\B \\data_%d\n'
        '    connect \\Y \\data_%d\n  end\n')


def module(number):
    n, ports = 200, 7
    yield 'module \\core_%d\n' % number
    for k in range(n + ports):
        role = 'input %d ' % (k + 1) if k < ports else 'output %d ' % (k + 1) if k >= n else ''
        yield '  wire width %d %s\\data_%d\n' % (width, role, k)
    for k in range(n):
        yield CELL % (('$and', '$xor')[k % 2], k, width, width, width, k, k + 1, k + ports)
    yield 'end\n'


print_modules(module)
