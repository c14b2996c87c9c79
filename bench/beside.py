#!/usr/bin/env python3
"""The program beside Yosys, over the designs of examples/designs and members of the families of growth.py: the user time and
the greatest memory of each, and what share of Yosys' the program takes. Yosys runs the passes of the default script. Either
runs up to five times, where that takes less than two seconds in all; the time is the least, the memory the greatest.

usage: bench/beside.py [--program PATH] [--most SECONDS] [NAME..]      all cases, by ./rtlsyn, without words
Yosys is stopped after so many seconds (300 without the option); its share then says `under`.
"""
import os
import subprocess
import sys
import tempfile

from growth import FAMILIES, TOP, options

PASSES = 'proc; opt; fsm -encoding one-hot; opt; memory; opt; techmap; opt'
MEMBERS = [('switches', 64), ('switches', 256), ('switches', 512), ('coder', 1_024), ('memories', 16),
           ('memory_words', 2), ('adders', 600),
           ('gates', 100_000), ('process_words', 500), ('modules', 400), ('modules', 4_096)]


def cases():
    """The name of each case, and its text."""
    designs = os.path.join(TOP, 'examples', 'designs')
    for name in sorted(os.listdir(designs)):
        if name.endswith('.il'):
            with open(os.path.join(designs, name)) as text:
                yield name[:-3], text.read()
    for family, size in MEMBERS:
        yield f'{family} {size:,}', ''.join(FAMILIES[family][0](size))


def used(words, text, most):
    """The user time and the greatest memory in KB of a program over a text, and whether it ended with status 0 in time."""
    with open(text, 'rb') as source, tempfile.NamedTemporaryFile('r') as told:
        words = ['/usr/bin/time', '-o', told.name, '-f', '%U %M', 'timeout', str(most), *words]
        status = subprocess.run(words, stdin=source, stdout=subprocess.DEVNULL, stderr=subprocess.DEVNULL).returncode
        time, memory = told.read().split()[-2:]
    return float(time), int(memory), status == 0


def measured(words, text, most):
    """The least user time of some runs, their greatest memory in KB, and whether each ended with status 0 in time."""
    runs = [used(words, text, most)]
    while len(runs) < 5 and sum(time for time, *_ in runs) < 2.0:
        runs.append(used(words, text, most))
    times, memories, ends = zip(*runs)
    return min(times), max(memories), all(ends)


def main():
    program, most, names = options(os.path.join(TOP, 'crates', 'rtlsyn', 'out', 'rtlsyn'), 300.0)
    print("| Case | Bytes of the text | User time | Greatest memory | Yosys: user time | Yosys: greatest memory | Share of time | Share of memory |")
    print('|---|---|---|---|---|---|---|---|')
    own, other = 0.0, 0.0
    for name, text in cases():
        if names and not any(name.startswith(it) for it in names):
            continue
        with tempfile.NamedTemporaryFile('w', suffix='.il') as file:
            file.write(text)
            file.flush()
            time, memory, ended = measured([program], file.name, most)
            script = f'read_rtlil {file.name}; {PASSES}; write_rtlil {os.devnull}'
            yosys_time, yosys_memory, yosys_ended = measured(['yosys', '-q', '-p', script], file.name, most)
        own, other = own + time, other + yosys_time
        under = '' if yosys_ended else 'under '
        note = '' if ended else ' (stopped)'
        print('| %s | %s | %.2f s%s | %.1f MB | %s%.2f s | %.1f MB | %s%.1f %% | %.0f %% |' % (
            name, f'{len(text):,}', time, note, memory / 1000, '' if yosys_ended else 'over ', yosys_time, yosys_memory / 1000,
            under, 100 * time / max(yosys_time, 0.001), 100 * memory / yosys_memory), flush=True)
    print('| in all | | %.2f s | | %.2f s | | %.1f %% | |' % (own, other, 100 * own / max(other, 0.001)))


if __name__ == '__main__':
    main()
