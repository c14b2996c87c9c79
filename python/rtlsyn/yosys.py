"""Yosys as the front end, as the writer of other formats, and as a second opinion."""
from __future__ import annotations

import os
import subprocess
import tempfile
from typing import Callable, NamedTuple, Optional, Sequence

from .errors import Failed
from .files import BYTES, read

#: What is done with a line that Yosys says.
Say = Callable[[str], None]


class Reading(NamedTuple):
    """How Verilog is read: the top module, the command that reads a file, commands before `write_rtlil`."""
    top: Optional[str] = None
    read: Optional[str] = None
    then: Optional[str] = None


def quiet(_: str) -> None:
    """Says nothing."""


def run(commands: Sequence[str], say: Say = quiet, folder: Optional[str] = None) -> str:
    """Runs commands of Yosys, hands each line that it says to `say`, and gives all that it said."""
    try:
        done = subprocess.run(['yosys', '-q', '-p', ' ; '.join(commands)], cwd=folder, stdin=subprocess.DEVNULL,
                              stdout=subprocess.PIPE, stderr=subprocess.STDOUT, check=False)
    except OSError as error:
        raise Failed(f'yosys does not start: {error.strerror}') from error
    told = done.stdout.decode(**BYTES)
    for line in told.split('\n'):
        if line.strip():
            say(line)
    if done.returncode:
        errors = [line for line in told.split('\n') if 'ERROR' in line]
        beside = f': {errors[-1]}' if errors and say is quiet else ''
        raise YosysFailed(f'yosys ended with status {done.returncode}{beside}', told)
    return told


class YosysFailed(Failed):
    """Yosys did not do what it was asked to; `told` is what it said."""

    def __init__(self, words: str, told: str) -> None:
        super().__init__(words)
        self.told = told


def is_rtlil(path: str) -> bool:
    """Whether the file is RTLIL by its name."""
    return path.endswith(('.il', '.rtlil')) or path == '-'


def read_command(source: str, reading: Reading) -> str:
    """The Yosys command that reads a source."""
    return reading.read or ('read_verilog -sv' if source.endswith('.sv') else 'read_verilog')


def text_by_yosys(sources: Sequence[str], reading: Reading = Reading(), say: Say = quiet) -> str:
    """What Yosys writes of the Verilog files."""
    with tempfile.TemporaryDirectory() as room:
        path = os.path.join(room, 'design.il')
        commands = [f'{read_command(source, reading)} "{source}"' for source in sources]
        commands.append(f'hierarchy -top {reading.top}' if reading.top else 'hierarchy -auto-top')
        commands += [reading.then] if reading.then else []
        run([*commands, f'write_rtlil "{path}"'], say)
        return read(path)


def rtlil_of(sources: Sequence[str], reading: Reading = Reading(), say: Say = quiet) -> str:
    """The RTLIL text of the sources: RTLIL files one after the other, or what Yosys writes of Verilog files."""
    plain = [path for path in sources if is_rtlil(path)]
    if plain and len(plain) < len(sources):
        raise Failed('RTLIL files and Verilog files cannot be given together')
    return ''.join(map(read, plain)) if plain else text_by_yosys(sources, reading, say)
