"""Files as texts in which any bytes come back as they were."""
from __future__ import annotations

import os
import sys
from typing import TypedDict

from .errors import Failed

class Coding(TypedDict):
    """The words of Python's calls for an encoding."""
    encoding: str
    errors: str


# How texts and bytes stand for each other.
BYTES: Coding = {'encoding': 'utf-8', 'errors': 'surrogateescape'}


def read(path: str) -> str:
    """The text of a file; that of standard input for `-`."""
    try:
        if path == '-':
            return sys.stdin.buffer.read().decode(**BYTES)
        with open(path, newline='', **BYTES) as file:
            return file.read()
    except OSError as error:
        raise Failed(f'{path}: {error.strerror}') from error


def write(path: str, text: str) -> None:
    """Writes a file, so that who reads it meanwhile sees the old text or the new one, and nothing between them. To `-`
    and to what is no plain file it is written as it comes."""
    try:
        if path == '-':
            sys.stdout.buffer.write(text.encode(**BYTES))
            sys.stdout.buffer.flush()
            return
        beside = path if os.path.exists(path) and not os.path.isfile(path) else f'{path}.new'
        with open(beside, 'w', newline='', **BYTES) as file:
            file.write(text)
        if beside != path:
            os.replace(beside, path)
    except OSError as error:
        raise Failed(f'{path}: {error.strerror}') from error
