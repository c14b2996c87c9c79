#!/usr/bin/env python3
"""Prints a text of ordinary modules: wires, word cells, gates, flip-flops, processes, memories and connections.

usage: bench/modules.py [BYTES]      at least so many; 60,000,000 without a number
"""
from texts import print_modules


def wires(n):
    for k in range(n):
        role = 'input %d ' % (k + 1) if k < 4 else 'output %d ' % (k + 1) if k < 8 else ''
        yield '  attribute \\src "rtl/core.v:%d.%d-%d.%d"\n' % (k + 10, 3, k + 10, 40)
        yield '  wire width 16 %s\\data_path_%d\n' % (role, k)


def word_cell(k, n):
    kind = ('$add', '$and', '$or', '$xor', '$sub')[k % 5]
    return ('  attribute \\src "rtl/core.v:%d.%d-%d.%d"\n  cell %s $auto$core.v:%d:expr$%d\n'
            '    parameter \\A_SIGNED 0\n    parameter \\A_WIDTH 16\n    parameter \\B_SIGNED 0\n    parameter \\B_WIDTH 16\n'
            '    parameter \\Y_WIDTH 16\n    connect \\A \\data_path_%d\n    connect \\B { \\data_path_%d [7:0] 8\'00000000 }\n'
            '    connect \\Y \\data_path_%d\n  end\n'
            % (k + 200, 5, k + 200, 21, kind, k + 200, k, k % n, (k + 3) % n, (k + 7) % n))


def gate(k, n):
    return ('  cell $_MUX_ $auto$simplemap.cc:275:simplemap_mux$%d\n    connect \\A \\data_path_%d [%d]\n'
            '    connect \\B \\data_path_%d [%d]\n    connect \\S \\data_path_0 [0]\n    connect \\Y \\data_path_%d [%d]\n  end\n'
            % (k, k % n, k % 16, (k + 1) % n, k % 16, (k + 2) % n, k % 16))


def process(k, n):
    return ('  process $proc$core.v:%d$%d\n    assign \\data_path_%d \\data_path_%d\n    switch \\data_path_1 [2:0]\n'
            '      case 3\'000 , 3\'001\n        assign \\data_path_%d 16\'0000000000000001\n      case 3\'1--\n'
            '        switch \\data_path_2 [0]\n          case 1\'1\n            assign \\data_path_%d { \\data_path_3 [7:0] \\data_path_4 [15:8] }\n'
            '        end\n      case\n    end\n    sync posedge \\data_path_0 [1]\n      update \\data_path_%d \\data_path_%d\n  end\n'
            % (k + 400, k, k % n, (k + 1) % n, k % n, k % n, (k + 5) % n, k % n))


def module(number):
    n = 40
    yield 'attribute \\hdlname "core_%d"\nmodule \\core_%d\n' % (number, number)
    yield from wires(n)
    yield '  memory width 16 size 256 \\table\n'
    for k in range(24):
        yield word_cell(k, n)
    for k in range(40):
        yield gate(k, n)
    for k in range(6):
        yield process(k, n)
    for k in range(10):
        yield '  connect \\data_path_%d [3:0] 4\'01xz\n' % (k + 8)
    yield 'end\n'


print_modules(module)
