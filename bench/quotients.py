#!/usr/bin/env python3
"""Prints one module of unsigned `$div` cells, each of one operand by another of its own, and each an output.

usage: bench/quotients.py [CELLS [WIDTH]]      four cells of 128 bits without numbers
"""
import sys

cells = int(sys.argv[1]) if len(sys.argv) > 1 else 4
width = int(sys.argv[2]) if len(sys.argv) > 2 else 128
WIRES = '  wire width %d input %d \\b%d\n  wire width %d output %d \\q%d\n'
CELL = ('  cell $div $div$%d\n    parameter \\A_SIGNED 0\n    parameter \\A_WIDTH %d\n    parameter \\B_SIGNED 0\n'
        '    parameter \\B_WIDTH %d\n    parameter \\Y_WIDTH %d\n    connect \\A \\a\n    connect \\B \\b%d\n'
        '    connect \\Y \\q%d\n  end\n')

print('module \\m\n  wire width %d input 1 \\a' % width)
sys.stdout.write(''.join(WIRES % (width, 2 * k + 2, k, width, 2 * k + 3, k) for k in range(cells)))
sys.stdout.write(''.join(CELL % (k, width, width, width, k, k) for k in range(cells)))
print('end')
