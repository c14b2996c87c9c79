#!/usr/bin/env python3
"""Where the time goes: the five functions that take most of the time of each case of beside.py, as `perf` samples them.

usage: bench/profile.py [--program PATH] [NAME..]      all members of families there, by ./rtlsyn, without words
"""
import os
import re
import subprocess
import tempfile

from beside import MEMBERS, cases
from growth import TOP, options

LINES = 5


def profile(program, text):
    """The functions that take most of the time over the text, as pairs of a share and a name."""
    with tempfile.TemporaryDirectory(prefix='profile-') as room:
        with open(f'{room}/text', 'w') as file:
            file.write(text)
        with open(f'{room}/text') as source:
            record = ['perf', 'record', '-q', '-F', '2000', '-o', f'{room}/data', program]
            subprocess.run(record, stdin=source, stdout=subprocess.DEVNULL, stderr=subprocess.DEVNULL)
        report = ['perf', 'report', '-i', f'{room}/data', '--stdio', '-F', 'overhead,symbol']
        told = subprocess.run(report, stdout=subprocess.PIPE, stderr=subprocess.DEVNULL, text=True).stdout
    found = re.findall(r'^ *([\d.]+)%  \[.\] (.*\S)', told, re.MULTILINE)[:LINES]
    return [(share, re.sub('::<#.*>|@.*', '', name)) for share, name in found]


def main():
    program, _, names = options(os.path.join(TOP, 'crates', 'rtlsyn', 'out', 'rtlsyn'), 0.0)
    names = names or [family for family, _ in MEMBERS]
    print('| Case | What takes most of its time |')
    print('|---|---|')
    for name, text in cases():
        if any(name.startswith(it) for it in names):
            shares = [f'`{function}` {float(share):.0f} %' for share, function in profile(program, text)]
            print(f"| {name} | {', '.join(shares)} |", flush=True)


if __name__ == '__main__':
    main()
