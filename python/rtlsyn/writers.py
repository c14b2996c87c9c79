"""Netlists in the formats of Yosys' writers, by the ending of the file's name."""
from __future__ import annotations

import os
import tempfile

from . import files
from .errors import Failed
from .yosys import Say, is_rtlil, quiet, run

#: The command that writes each format.
WRITERS = {'.v': 'write_verilog -noattr', '.json': 'write_json', '.blif': 'write_blif', '.edif': 'write_edif'}
FORMATS = ('.il', *WRITERS)


def write_netlist(path: str, text: str, say: Say = quiet) -> None:
    """Writes a netlist as RTLIL, or in the format that the name ends with."""
    ending = os.path.splitext(path)[1]
    if is_rtlil(path) or ending in ('', '.out'):
        files.write(path, text)
        return
    if ending not in FORMATS:
        raise Failed(f'{path}: a netlist is written as one of {" ".join(FORMATS)}')
    with tempfile.TemporaryDirectory() as room:
        before, after = os.path.join(room, 'gates.il'), os.path.join(room, f'gates{ending}')
        files.write(before, text)
        run([f'read_rtlil "{before}"', f'{WRITERS[ending]} "{after}"'], say)
        files.write(path, files.read(after))
