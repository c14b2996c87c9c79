#!/usr/bin/env python3
"""Measures the commands of a session over modules that differ: the first `run`, a second one, an edit of one module with a `run`,
and a `print`; and the memory of sessions in which one module is edited, 1,000 times back and forth and up to 10,000 times to ever
new bodies.

usage: bench/session.py [--program PATH] [MODULES]      200 modules without a number; crates/rtlsyn/out/rtlsyn --session

Each time is the difference of two sessions, the second of which has the command, or many like it, more. Ends with 1 where a
second `run` takes 1 % of the first one's time or more, or an edit with its `run` 3 % or more."""
import argparse
import os
import re
import subprocess
import sys
import tempfile
import time

TOP = os.path.dirname(os.path.dirname(os.path.abspath(__file__)))
PROGRAM = f'{TOP}/crates/rtlsyn/out/rtlsyn'
REPEATS = 50


def module(number, constant):
    """A chain of adders and registers, whose width and length go by the number."""
    width = number % 64 + 1
    stages = number // 64 + 3
    yield f'module \\m{number}\n  wire input 1 \\clk\n  wire width {width} input 2 \\a\n  wire width {width} output 3 \\y\n'
    for k in range(stages):
        yield f'  wire width {width} \\s{k}\n  wire width {width} \\q{k}\n'
    for k in range(stages):
        before = '\\a' if k == 0 else f'\\q{k - 1}'
        yield (f'  cell $add $a{k}\n    parameter \\A_SIGNED 0\n    parameter \\A_WIDTH {width}\n    parameter \\B_SIGNED 0\n'
               f'    parameter \\B_WIDTH {width}\n    parameter \\Y_WIDTH {width}\n    connect \\A {before}\n'
               f"    connect \\B {width}'{constant % 2**width:0{width}b}\n    connect \\Y \\s{k}\n  end\n")
        yield (f'  cell $dff $f{k}\n    parameter \\WIDTH {width}\n    parameter \\CLK_POLARITY 1\n    connect \\CLK \\clk\n'
               f'    connect \\D \\s{k}\n    connect \\Q \\q{k}\n  end\n')
    yield f'  connect \\y \\q{stages - 1}\nend\n'


def block(command, numbers, constant):
    return f'{command}\n' + ''.join(''.join(module(number, constant)) for number in numbers) + '.\n'


def edits(modules, constants):
    """Edits of the widest module, each with a `run`."""
    widest = max(range(modules), key=lambda number: number % 64)
    return ''.join(block('edit', [widest], constant) + 'run\n' for constant in constants)


def ever_new(count):
    """Edits of a small module, each to a body that it never had, each with a `run`."""
    return ''.join(f"edit\nmodule \\m0\n  wire width 32 output 1 \\y\n  connect \\y 32'{number:032b}\nend\n.\nrun\n"
                   for number in range(1, count + 1))


def peak(child):
    """The greatest memory in MB of a running child so far, 0 where it has none any more."""
    with open(f'/proc/{child}/status') as status:
        found = re.search(r'VmHWM:\s*(\d+) kB', status.read())
    return int(found[1]) / 1024 if found else 0


def measured(program, session):
    """The user time in seconds and the greatest memory in MB of the program over a session, and the last line of its replies."""
    with tempfile.TemporaryFile() as lines, tempfile.TemporaryFile() as replies:
        lines.write(session.encode())
        lines.seek(0)
        child = subprocess.Popen([program, '--session'], stdin=lines, stdout=replies)
        memory, ended = 0, 0
        # Not by what it used in all: that counts what this script held when it started the program.
        while not ended:
            memory = max(memory, peak(child.pid))
            time.sleep(0.002)
            ended, status, usage = os.wait4(child.pid, os.WNOHANG)
        if status:
            sys.exit(f'session: {program} ended with status {os.waitstatus_to_exitcode(status)}')
        replies.seek(0)
        told = ''
        for line in replies:
            if line.startswith((b'ok', b'error')):
                told = line.decode().rstrip()
    return usage.ru_utime, memory, told


def main():
    parser = argparse.ArgumentParser(description=__doc__, formatter_class=argparse.RawDescriptionHelpFormatter)
    parser.add_argument('--program', default=PROGRAM)
    parser.add_argument('modules', nargs='?', type=int, default=200)
    given = parser.parse_args()
    if not os.access(given.program, os.X_OK):
        sys.exit('session: build the program first (./rtlsyn), or name one that answers commands with --session')
    load = block('load', range(given.modules), 1)
    cold = load + 'run\n'

    loaded, _, _ = measured(given.program, load)
    whole, memory, told = measured(given.program, cold)
    first = max(whole - loaded, 1e-6)
    print(f'load: {loaded:.3f} s')
    print(f'first run: {first:.3f} s, {memory:.0f} MB at most: {told}')

    good = True
    rows = [
        ('second run', cold + 'run\n' * REPEATS, 1),
        ('edit of one module, and run', cold + edits(given.modules, range(2, 2 + REPEATS)), 3),
        ('print', cold + 'print\n' * REPEATS, None),
    ]
    for name, session, goal in rows:
        used, _, told = measured(given.program, session)
        share = 100 * max(used - whole, 0) / REPEATS / first
        good = good and (goal is None or share < goal)
        print(f'{name}: {share:.2f} % of the first run' + (f', goal under {goal} %' if goal else '') + f': {told}')

    used, memory, told = measured(given.program, cold + edits(given.modules, [k % 2 + 2 for k in range(1000)]))
    print(f'1,000 edits back and forth: {1000 * (used - whole) / 1000:.2f} ms each, {memory:.0f} MB at most: {told}')

    alone = block('load', [0], 1) + 'run\n'
    _, before, _ = measured(given.program, alone)
    for count in (2_500, 5_000, 10_000):
        started, memory, told = measured(given.program, alone + ever_new(count))
        print(f'{count:,} edits of one module to ever new bodies: {1000 * started / count:.2f} ms each, {memory:.0f} MB at most, '
              f'{1024 * (memory - before) / count:.2f} KB each: {told}')
    return 0 if good else 1


sys.exit(main())
