"""Source and netlist of a module, run over one stimulus."""
from __future__ import annotations

from dataclasses import dataclass
from typing import Iterator, Optional, Sequence

from . import vcd
from .netlist import Body, Port, plain
from .session import Session
from .traces import Row, lost_bits


@dataclass
class Simulation:
    """A module, its stimulus, and the outputs of source and netlist at each step."""
    module: str
    inputs: list[Port]
    outputs: list[Port]
    rows: list[Row]

    @property
    def lost(self) -> int:
        """How many bits the source knows and the netlist does not have: with the proved program, none."""
        return lost_bits(self.rows)

    @property
    def only_netlist(self) -> int:
        """How many bits only the netlist knows."""
        return sum(value.count('1') for _, values in self.differences() for value in values)

    def values(self, port: Port) -> dict[str, list[str]]:
        """The values of a port at each step: of an input under `input`, of an output under `source` and `netlist`."""
        if port.direction == 'input':
            return {'input': column(self.inputs.index(port), (row.inputs for row in self.rows))}
        at = self.outputs.index(port)
        return {'source': column(at, (row.source for row in self.rows)),
                'netlist': column(at, (row.netlist for row in self.rows))}

    def differences(self) -> Iterator[tuple[Port, list[str]]]:
        """For each output the bits that only the netlist knows, as 1."""
        for port in self.outputs:
            both = self.values(port)
            yield port, [''.join('1' if one in 'xz' and one != other else '0' for one, other in zip(*pair))
                         for pair in zip(both['source'], both['netlist'])]


def column(at: int, lines: Iterator[str]) -> list[str]:
    """The words at one place of all lines."""
    return [line.split(' ')[at] for line in lines]


def simulate(session: Session, body: Body, steps: Sequence[str], order: str = 'together') -> Simulation:
    """Runs the steps through the source and the netlist of a module of the session's design."""
    source, netlist = (session.sim(design, body.name, steps, order) for design in ('source', 'netlist'))
    rows = [Row(*row) for row in zip(steps, source, netlist)]
    return Simulation(body.name, body.ports('input'), body.ports('output'), rows)


def vcd_of(run: Simulation, comment: str = '') -> str:
    """The VCD: a scope `source` and a scope `netlist` with all ports, and a scope `differences`, where the line
    `only_netlist` is 1 at each step at which the netlist knows a bit that the source does not; below it the bits. The
    times are the numbers of the steps, from 1."""
    signals: list[vcd.Signal] = []
    for side in ('source', 'netlist'):
        for port in [*run.inputs, *run.outputs]:
            values = run.values(port)
            signals.append(vcd.Signal((side,), plain(port.name), port.width, values.get('input') or values[side]))
    differences = [(port, values) for port, values in run.differences()]
    whole = ['1' if any('1' in values[at] for _, values in differences) else '0' for at in range(len(run.rows))]
    signals.append(vcd.Signal(('differences',), 'only_netlist', 1, whole))
    signals += [vcd.Signal(('differences',), plain(port.name), port.width, values) for port, values in differences]
    return vcd.written(signals, range(1, len(run.rows) + 1), comment)


def first_difference(run: Simulation) -> Optional[int]:
    """The first step, from 0, at which only the netlist knows a bit."""
    return next((at for at, row in enumerate(run.rows) if row.source != row.netlist), None)
