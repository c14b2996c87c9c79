#!/usr/bin/env python3
"""Measures the command `run` of a session by 1, 2 and 4 workers, each on as many processors, after `load` of modules that differ,
of some 10,000 gates each.

usage: bench/workers.py [--program PATH] [--before PATH] [--runs N] [--uneven] [MODULES]
       64 modules and three runs without numbers; crates/rtlsyn/out/rtlsyn; --before names a program that builds without threads;
       --uneven makes the first module one of some 100,000 gates and the others small

The time is the least of the runs, from the last byte of the command to the first of its reply. Ends with 1 where 2 workers are not
1.7 times as fast as one, 4 workers not 3 times, where their memory is more than twice that of one, or where one worker is slower
than the program without threads by more than a twentieth."""
import argparse
import os
import subprocess
import sys
import time

TOP = os.path.dirname(os.path.dirname(os.path.abspath(__file__)))
PROGRAM = f'{TOP}/crates/rtlsyn/out/rtlsyn'
WIDTH = 64
STAGES = 32
# how many times as fast as one worker so many have to be
WANTED = {2: 1.7, 4: 3.0}


def module(number, stages=STAGES):
    """A chain of adders of a value and the module's input, which is turned by as many bits as the number says."""
    turn = number % WIDTH
    turned = f'{{ \\a [{turn - 1}:0] \\a [{WIDTH - 1}:{turn}] }}' if turn else '\\a'
    yield f'module \\m{number}\n  wire width {WIDTH} input 1 \\a\n  wire width {WIDTH} output 2 \\y\n'
    for k in range(stages):
        yield f'  wire width {WIDTH} \\s{k}\n'
    for k in range(stages):
        before = '\\a' if k == 0 else f'\\s{k - 1}'
        yield (f'  cell $add $a{k}\n    parameter \\A_SIGNED 0\n    parameter \\A_WIDTH {WIDTH}\n    parameter \\B_SIGNED 0\n'
               f'    parameter \\B_WIDTH {WIDTH}\n    parameter \\Y_WIDTH {WIDTH}\n    connect \\A {before}\n'
               f'    connect \\B {turned}\n    connect \\Y \\s{k}\n  end\n')
    yield f'  connect \\y \\s{stages - 1}\nend\n'


def answer(child, command):
    """The first line of the reply to a command."""
    child.stdin.write(command)
    child.stdin.flush()
    return child.stdout.readline().decode().rstrip()


def measured(program, workers, load, modules):
    """The time of `run` in seconds, and the greatest memory in MB, with so many workers on as many processors."""
    processors = sorted(os.sched_getaffinity(0))[:workers]
    child = subprocess.Popen([program, '--session', '--workers', str(workers)], stdin=subprocess.PIPE, stdout=subprocess.PIPE,
                             preexec_fn=lambda: os.sched_setaffinity(0, processors))
    loaded = answer(child, load)
    begun = time.monotonic()
    told = answer(child, b'run\n')
    taken = time.monotonic() - begun
    child.stdin.close()
    _, status, usage = os.wait4(child.pid, 0)
    child.returncode = os.waitstatus_to_exitcode(status)
    if (loaded, told, child.returncode) != (f'ok modules {modules}', f'ok built {modules} reused 0', 0):
        sys.exit(f'workers: {program} answered {loaded!r} and {told!r}, and ended with status {child.returncode}')
    return taken, usage.ru_maxrss / 1024


def best(program, workers, load, given):
    runs = [measured(program, workers, load, given.modules) for _ in range(given.runs)]
    return min(taken for taken, _ in runs), max(memory for _, memory in runs)


def main():
    parser = argparse.ArgumentParser(description=__doc__, formatter_class=argparse.RawDescriptionHelpFormatter)
    parser.add_argument('--program', default=PROGRAM)
    parser.add_argument('--before')
    parser.add_argument('--runs', type=int, default=3)
    parser.add_argument('--uneven', action='store_true')
    parser.add_argument('modules', nargs='?', type=int, default=64)
    given = parser.parse_args()
    if given.modules > WIDTH:
        sys.exit(f'workers: at most {WIDTH} modules differ')
    stages = [10 * STAGES if number == 0 else 1 for number in range(WIDTH)] if given.uneven else WIDTH * [STAGES]
    load = ('load\n' + ''.join(''.join(module(number, stages[number])) for number in range(given.modules)) + '.\n').encode()

    print('| Workers | Time of `run` | Speed-up | Greatest memory |\n|---|---|---|---|')
    one, memory = best(given.program, 1, load, given)
    print(f'| 1 | {one:.2f} s | 1 | {memory:.0f} MB |', flush=True)
    failed = False
    if given.before:
        before, _ = best(given.before, 1, load, given)
        print(f'| 1, without threads | {before:.2f} s | {one / before:.2f} | |', flush=True)
        failed = one > 1.05 * before
    for workers, wanted in WANTED.items():
        if workers > len(os.sched_getaffinity(0)):
            print(f'| {workers} | too few processors | | |')
            continue
        taken, most = best(given.program, workers, load, given)
        print(f'| {workers} | {taken:.2f} s | {one / taken:.2f} | {most:.0f} MB |', flush=True)
        failed = failed or one / taken < wanted and not given.uneven or most > 2 * memory
    sys.exit(failed)


if __name__ == '__main__':
    main()
