#!/usr/bin/env python3
"""Prints one module of `$_AND_` gates, each of which reads the one before it; each drives a wire of its own, the last one the output.

usage: bench/gate_chain.py [GATES]      500,000 without a number
"""
import sys

gates = int(sys.argv[1]) if len(sys.argv) > 1 else 500_000
GATE = '  cell $_AND_ $gate$%d\n    connect \\A \\net_%d\n    connect \\B \\enable\n    connect \\Y \\net_%d\n  end\n'

print('module \\top\n  wire input 1 \\enable\n  wire input 2 \\net_0')
sys.stdout.write(''.join('  wire \\net_%d\n' % (k + 1) for k in range(gates - 1)))
print('  wire output 3 \\net_%d' % gates)
sys.stdout.write(''.join(GATE % (k, k, k + 1) for k in range(gates)))
print('end')
