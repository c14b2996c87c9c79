#!/usr/bin/env python3
"""Prints one module with one process: a loop unrolled to many switches in sequence, as of a memory that is searched by
content. Each switch gives new values of three wires that the next one reads.

usage: bench/switches.py [SWITCHES [WIDTH]]      256 switches and words of 16 bits without numbers
"""
import sys

switches = int(sys.argv[1]) if len(sys.argv) > 1 else 256
width = int(sys.argv[2]) if len(sys.argv) > 2 else 16
place = max(1, (switches - 1).bit_length())


def step(k, name, wide):
    """The wire of this name after so many switches."""
    return '$%d\\%s[%d:0]' % (k, name, wide - 1)


print('module \\search')
print('  wire width %d input 1 \\hits\n  wire width %d input 2 \\words' % (switches, switches * width))
print('  wire output 3 \\found\n  wire width %d output 4 \\place\n  wire width %d output 5 \\word' % (place, width))
WIRES = (('found', 1), ('place', place), ('word', width))
for k in range(switches + 1):
    for name, wide in WIRES:
        print('  wire width %d %s' % (wide, step(k, name, wide)))
print('  process $proc$search$1')
for name, wide in WIRES:
    print("    assign %s %d'%s" % (step(0, name, wide), wide, '0' * wide))
for k in range(switches):
    for name, wide in WIRES:
        print('    assign %s %s' % (step(k + 1, name, wide), step(k, name, wide)))
for k in range(switches):
    print('    switch { %s \\hits [%d] }' % (step(k, 'found', 1), k))
    print("      case 2'01")
    print("        assign %s 1'1" % step(k + 1, 'found', 1))
    print("        assign %s %d'%s" % (step(k + 1, 'place', place), place, format(k, '0%db' % place)))
    print('        assign %s \\words [%d:%d]' % (step(k + 1, 'word', width), (k + 1) * width - 1, k * width))
    print('      case')
    print('    end')
print('    sync always')
for name, wide in WIRES:
    print('      update \\%s %s' % (name, step(switches, name, wide)))
print('  end\nend')
