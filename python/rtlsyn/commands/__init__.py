"""The commands of the package: a module each, which is loaded when its command is used."""
from __future__ import annotations

import os
from typing import Optional

# Each command: its module, and what it does in a line, so that the list of commands loads none of them.
COMMANDS = {
    'watch': ('rtlsyn.commands.watch', 'Makes the netlist anew after every edit.'),
    'synth': ('rtlsyn.commands.synth', 'Verilog or RTLIL in; the netlist out, as RTLIL, Verilog, JSON or BLIF.'),
    'verilog': ('rtlsyn.commands.verilog', 'Verilog to gates, with Yosys before it and a check after it.'),
    'stat': ('rtlsyn.commands.stat', 'Cells, registers, depth and area of a netlist.'),
    'sim': ('rtlsyn.commands.sim', 'Runs a stimulus through source and netlist.'),
    'check': ('rtlsyn.commands.check', 'Has Yosys prove that the netlist does what the source does.'),
    'explain': ('rtlsyn.commands.explain', 'Says what an error line means, and what mends it.'),
    'report': ('rtlsyn.commands.report', 'One page of HTML about a design and its netlist.'),
    'cluster': ('rtlsyn.cluster', 'Builds a large design on many machines.'),
}


def path_of(name: str) -> Optional[str]:
    """The module of a command; None where there is no such command, or its module is not there."""
    if name not in COMMANDS:
        return None
    module = COMMANDS[name][0]
    package = os.path.dirname(os.path.dirname(os.path.abspath(__file__)))
    path = os.path.join(os.path.dirname(package), *module.split('.'))
    return module if os.path.exists(f'{path}.py') or os.path.isdir(path) else None
