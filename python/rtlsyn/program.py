"""Where the proved program is."""
from __future__ import annotations

import os
import shutil
from typing import Iterator

from .errors import Failed

HERE = os.path.dirname(os.path.abspath(__file__))
#: The top of the clone that this package stands in, if it stands in one.
CLONE = os.path.dirname(os.path.dirname(HERE))


def find() -> list[str]:
    """The command to run: the program that RTLSYN_PROGRAM names, else the script of the clone, else `rtlsyn` on the
    PATH, where that is not the command of this package."""
    named = os.environ.get('RTLSYN_PROGRAM')
    if named:
        return [named]
    script = os.path.join(CLONE, 'rtlsyn')
    if os.path.isdir(os.path.join(CLONE, 'crates')) and os.access(script, os.X_OK):
        return [script]
    for path in on_path('rtlsyn'):
        if not is_this_command(path):
            return [path]
    raise Failed('the program rtlsyn was not found: set RTLSYN_PROGRAM to its path, or put it on the PATH')


def on_path(name: str) -> Iterator[str]:
    """Each program of the name on the PATH, in order."""
    for folder in os.environ.get('PATH', os.defpath).split(os.pathsep):
        path = shutil.which(name, path=folder or '.')
        if path:
            yield path


def is_this_command(path: str) -> bool:
    """Whether the file is the script by which pip installs the command of this package."""
    try:
        with open(path, 'rb') as file:
            head = file.read(2048)
    except OSError:
        return True
    return head.startswith(b'#!') and b'rtlsyn.__main__' in head
