#!/usr/bin/env python3
"""Prints a canonical text of modules of wires and connections, in which no gates are made: the program reads it and writes it.

usage: bench/wires.py [BYTES]      at least so many; 60,000,000 without a number
"""
from texts import print_modules


def module(number):
    n = 200
    yield 'module \\core_%d\n' % number
    for k in range(n):
        yield '  attribute \\src "rtl/core.v:%d.3-%d.40"\n  wire width 16 \\data_path_%d\n' % (k + 10, k + 10, k)
    for k in range(n):
        yield "  connect \\data_path_%d { \\data_path_%d [7:0] 8'00000000 }\n" % (k, (k + 1) % n)
    yield 'end\n'


print_modules(module)
