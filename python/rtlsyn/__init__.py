"""rtlsyn for Python: sessions with the synthesiser, and what stands around it.

    import rtlsyn
    print(rtlsyn.synth('design.il').netlist)             # one text, its netlist
    with rtlsyn.Session() as session:                    # many edits, each built alone
        session.load(text)
        print(session.run())

`rtlsyn.stable` makes texts of modules that change only where their module does, `rtlsyn.traces` sets traces side by
side. The errors are `Failed`, and under it `Refused` (with number, module, name, place and cause), `Ended` and
`TimedOut`. None of this is part of what is proved: it starts the proved program, and reads what that prints.
"""
from __future__ import annotations

import importlib
from typing import TYPE_CHECKING, Any

if TYPE_CHECKING:
    from . import stable, traces
    from .errors import Ended, Failed, Refused, TimedOut
    from .session import Reply, Session
    from .synthesis import Synthesis, synth

__version__ = '2026.12'
__all__ = ['Ended', 'Failed', 'Refused', 'Reply', 'Session', 'Synthesis', 'TimedOut', 'stable', 'synth', 'traces']

# Where each name comes from. They are looked up when they are first used, so that a command starts quickly.
HOME = {'Ended': 'errors', 'Failed': 'errors', 'Refused': 'errors', 'TimedOut': 'errors', 'Reply': 'session',
        'Session': 'session', 'Synthesis': 'synthesis', 'synth': 'synthesis'}


def __getattr__(name: str) -> Any:
    if name in ('stable', 'traces'):
        return importlib.import_module(f'.{name}', __name__)
    if name in HOME:
        return getattr(importlib.import_module(f'.{HOME[name]}', __name__), name)
    raise AttributeError(f'module {__name__} has no {name}')
