#!/usr/bin/env python3
"""Time beside the number of modules of generated designs (crates/generated_design), of which at most eight differ but for
their names: the least user time of some runs, the greatest memory, and the time that each further module takes.

usage: bench/generated.py [--program PATH] [--workers N] [--runs N] [MODULES ..]      64, 512 and 4,096 modules by ./rtlsyn, in
                                                                                      one worker and five runs each
Ends with 1 where a summary is not the one that is due.
"""
import argparse
import os
import subprocess
import sys
import tempfile

TOP = os.path.dirname(os.path.dirname(os.path.abspath(__file__)))

# The cells that the default script makes of a module of words of 1 to 8 bits.
CELLS = (2, 6, 12, 18, 24, 30, 36, 42)


def summary(modules):
    """What the program has to write."""
    built = min(modules, len(CELLS))
    cells = sum(CELLS[number % len(CELLS)] for number in range(modules))
    return b'modules %d built %d reused %d cells %d\n' % (modules, built, modules - built, cells)


def run(command):
    """The user time, the greatest memory in KB, and what was written."""
    with tempfile.TemporaryFile() as written:
        child = subprocess.Popen(command, stdin=subprocess.DEVNULL, stdout=written)
        _, status, usage = os.wait4(child.pid, 0)
        child.returncode = os.waitstatus_to_exitcode(status)
        written.seek(0)
        return usage.ru_utime, usage.ru_maxrss, written.read()


def measure(program, workers, runs, modules):
    """The least time and the greatest memory of some runs. A summary that is not due ends the script."""
    done = [run([program, '--gen', str(modules), '--workers', str(workers)]) for _ in range(runs)]
    for _, _, said in done:
        if said != summary(modules):
            sys.exit(f'{modules} modules: {said!r}, where {summary(modules)!r} is due')
    return min(user for user, _, _ in done), max(memory for _, memory, _ in done)


def main():
    words = argparse.ArgumentParser(description='Time beside the number of modules of generated designs.')
    words.add_argument('--program', default=os.path.join(TOP, 'rtlsyn'))
    words.add_argument('--workers', type=int, default=1)
    words.add_argument('--runs', type=int, default=5)
    words.add_argument('modules', type=int, nargs='*', default=[64, 512, 4096])
    given = words.parse_args()
    print('| Modules | User time | Greatest memory | Each further module |\n|---|---|---|---|')
    before = None
    for modules in given.modules:
        user, memory = measure(given.program, given.workers, given.runs, modules)
        step = f'{(user - before[1]) / (modules - before[0]) * 1e6:.0f} µs' if before else ''
        print(f'| {modules:,} | {user:.2f} s | {memory / 1000:.1f} MB | {step} |', flush=True)
        before = modules, user


if __name__ == '__main__':
    main()
