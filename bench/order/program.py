"""The program, in a session: netlists and traces of a design."""
import os
import sys
from typing import List, Sequence

from order.release import Order

TOP = os.path.dirname(os.path.dirname(os.path.dirname(os.path.abspath(__file__))))
BUILT = os.environ.get('RTLSYN_PROGRAM') or os.path.join(TOP, 'crates', 'rtlsyn', 'out', 'rtlsyn')

sys.path.insert(1, os.path.join(TOP, 'python'))

from rtlsyn.errors import Refused  # noqa: E402  (the package stands beside bench)
from rtlsyn.session import Session  # noqa: E402


# The scripts whose netlists are compared with their sources.
SCRIPTS = (
    'proc',
    'proc opt fsm opt memory opt techmap opt',
    'proc opt opt_muxtree opt_reduce opt_dff opt fsm opt memory opt opt_dff techmap opt',
)


class Program:
    """A session with the program."""

    def __init__(self, path: str = BUILT):
        self.session = Session([path])

    def __enter__(self) -> 'Program':
        return self

    def __exit__(self, *_) -> None:
        self.session.close()

    def load(self, text: str) -> None:
        """The design becomes the present one."""
        self.session.ask('load', text)

    def netlist(self, script: str) -> str:
        """The netlist of the present design by a script."""
        self.session.ask(f'script {script}')
        return self.session.ask('print').body

    def trace(self, what: str, module: str, steps: Sequence[str], order: Order = Order.TOGETHER) -> List[str]:
        """The lines that `sim` answers: of the source or of the netlist, in an order."""
        word = f' {order.value}' if order is Order.RELEASED else ''
        return self.session.ask(f'sim {what} {module}{word}', '\n'.join([*steps, ''])).body.splitlines()
