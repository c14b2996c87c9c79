#!/usr/bin/env python3
"""Prints a session that simulates a ripple of full adders, or with --wanted what it answers.

usage: bench/adders.py [--wanted] [ADDERS [STEPS]]      10,000 adders, which are 50,000 gates, and 20 steps
"""
import random
import sys

numbers = [int(word) for word in sys.argv[1:] if word != '--wanted']
adders, steps = (numbers + [10_000, 20][len(numbers):])[:2]
GATE = '  cell $_%s_ $%s$%d\n    connect \\A %s\n    connect \\B %s\n    connect \\Y %s\n  end\n'


def adder(k):
    a, b, carry, next_carry = ('\\%s [%d]' % at for at in (('a', k), ('b', k), ('carry', k), ('carry', k + 1)))
    p, g, t, s = ('\\%s [%d]' % (name, k) for name in ('p', 'g', 't', 's'))
    for kind, name, x, y, z in (('XOR', 'p', a, b, p), ('XOR', 's', p, carry, s), ('AND', 'g', a, b, g),
                                ('AND', 't', p, carry, t), ('OR', 'c', g, t, next_carry)):
        yield GATE % (kind, name, k, x, y, z)


def design():
    yield 'module \\m\n  wire input 1 \\c\n'
    for wire in ('input 2 \\a', 'input 3 \\b', 'output 4 \\s', '\\p', '\\g', '\\t'):
        yield '  wire width %d %s\n' % (adders, wire)
    yield '  wire output 5 \\o\n  wire width %d \\carry\n' % (adders + 1)
    for k in range(adders):
        yield from adder(k)
    yield '  connect \\carry [0] \\c\n  connect \\o \\carry [%d]\nend\n' % adders


random.seed(1)
stimulus, trace = [], []
for _ in range(steps):
    c, a, b = random.getrandbits(1), random.getrandbits(adders), random.getrandbits(adders)
    total = a + b + c
    stimulus.append('%d %s %s' % (c, format(a, '0%db' % adders), format(b, '0%db' % adders)))
    trace.append('%s %d' % (format(total % 2 ** adders, '0%db' % adders), total >> adders))
if '--wanted' in sys.argv:
    print('\n'.join(['ok modules 1', 'ok steps %d' % steps, *trace, 'ok']))
else:
    print('load\n%s.\nsim source \\m\n%s\n.\nquit' % (''.join(design()), '\n'.join(stimulus)))
