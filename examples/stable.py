#!/usr/bin/env python3
"""Which modules of two RTLIL texts differ, whatever lines of their sources moved.

    examples/stable.py BEFORE.il AFTER.il
"""
import os
import sys

sys.path.insert(0, os.path.join(os.path.dirname(os.path.dirname(os.path.abspath(__file__))), 'python'))
from rtlsyn import Failed
from rtlsyn.files import read
from rtlsyn.stable import modules_of


def main(before: str, after: str) -> None:
    """Prints a line for each module that is new, gone or otherwise."""
    old, new = modules_of(read(before)), modules_of(read(after))
    for name in [*new, *(name for name in old if name not in new)]:
        if name not in old:
            print(f'new {name}')
        elif name not in new:
            print(f'gone {name}')
        elif old[name].text != new[name].text:
            print(f'otherwise {name}')


if len(sys.argv) != 3:
    sys.exit('usage: examples/stable.py BEFORE.il AFTER.il')
try:
    main(*sys.argv[1:])
except Failed as fault:
    sys.exit(f'stable.py: {fault}')
