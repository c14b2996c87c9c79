#!/usr/bin/env python3
"""A front end in a few lines: a design goes into a session, one module is edited, and only that one is built.

    examples/session.py                      with the program of this clone, or the one that RTLSYN_PROGRAM names
"""
import os
import sys

sys.path.insert(0, os.path.join(os.path.dirname(os.path.dirname(os.path.abspath(__file__))), 'python'))
from rtlsyn import Failed, Refused, Session

GATE = 'module \\{name}\n  wire width 3 input 1 \\a\n  wire output 2 \\y\n  connect \\y \\a [{bit}]\nend\n'


def main() -> int:
    """Holds the session, and says what each command gave."""
    with Session(timeout=60) as session:
        print('modules:', session.load(GATE.format(name='low', bit=0) + GATE.format(name='high', bit=2)))
        print('at first:', session.run())
        session.edit(GATE.format(name='high', bit=1))
        print('after an edit:', session.run())
        print('outputs of high:', session.sim('netlist', '\\high', ['010', '101']))
        try:
            session.edit(GATE.format(name='high', bit=3))
        except Refused as refused:
            print(f'refused: {refused.line}, at {refused.place}: {refused.cause}')
        print('still there:', session.print().counts)
    return 0


try:
    sys.exit(main())
except Failed as fault:
    sys.exit(f'session.py: {fault}')
